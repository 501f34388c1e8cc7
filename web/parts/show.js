// Puts a state on the page: all that depends on the position.
let pointer = null, isMoving = false, listed = 0, rest = 0, following = 0, whyOf = [], helps = [];
// What is told again unchanged would be announced again.
const FOLLOWS = 250, FEW = 8;
const tell = (id, text) => { if ($(id).textContent !== text) $(id).textContent = text; };
function draw() {
  const t0 = performance.now(), { run, p } = S, r = p ? run.row(p - 1) : null, op = p ? run.call(p - 1) : [-1, 0, 0];
  const size = run.sizeAt(p), [from, to] = shownUnits();
  // in a large space, what needs all its blocks follows once the slider rests, or a few times a second while the run plays
  const isQuick = rest > FEW && (isMoving || (playing && t0 - listed < FOLLOWS)), v = isQuick ? null : run.view(p);
  clearTimeout(following);
  if (isQuick) { following = setTimeout(() => { isMoving = false; draw(); }, FOLLOWS); $('why').hidden = true; }
  let taken = null, searched = 256, bin = 256;
  if (r && (op[0] === 0 || op[0] === 1)) searched = Math.min(256, roundedUp(Math.min(LARGEST, op[0] ? op[1] + op[2] - 1 : op[1])));
  if (v && r && r[0] === ANSWER.grant) {
    // no two free blocks are neighbours: the free units directly round the range were in the block that was taken
    const i = r[3] ? v.upTo(r[2]) - 1 : v.of(r[1]).i, before = v.before(i);
    taken = { o: r[2] - before, n: before + r[3] + v.before(i + 1) };
    bin = classOf(taken.n);
  }
  showSpace();
  drawLives('life', run, () => S.run === run ? S.p : null);
  drawAxis(run);
  drawCurves(run, p);
  drawMaps(run, p, isQuick);
  drawMarks(run);
  showMarks();
  if (!isQuick) { showHeaps(); drawHeapsNow(); }
  const free = size - run.usedAt(p), share = (100 * run.usedAt(p) / Math.max(1, size)).toFixed(1);
  let reports = `${run.file && isSeveral(run.file) ? `In ${nameOfPart(run.file, S.part)}, of ` : ''}${units(size)}: ${sized(run.usedAt(p))} used (${share}%), ${sized(free)} free. ` +
    (r && !run.file?.isDump ? `Largest request that is granted without alignment: ${sized(r[5])}. ` : '');
  if (v) {
    drawBins(v.free.bins, searched, bin);
    const kept = free ? 1 - valueOf(classOf(v.free.largest)) / valueOf(classOf(free)) : 0, blocks = v.count + v.free.count;
    if (run.file?.isDump) reports += `Largest free block: ${sized(v.free.largest)}. `;
    reports += `${counted(blocks, 'block')}${blocks >= run.head[1] - 1 ? ', as many as the node limit admits' : ''}. ` +
      (run.file?.isDump ? `Free units outside the largest free block: ${(free ? 100 * (1 - v.free.largest / free) : 0).toFixed(1)}%.` : `Fragmentation ${(kept * 100).toFixed(1)}% (of the largest request, were all free units one block).`);
  }
  $('reports').textContent = reports;
  $('shown').textContent = `Shown: units ${place(Math.floor(from))} to ${place(Math.floor(to))}` +
    (S.zoom ? `, ${((to - from) / Math.max(1, size) * 100).toPrecision(2)}% of the space` : ', all of the space') +
    `; a line is ${units(Math.ceil((to - from) / ROWS))}.`;
  $('lives').textContent = `Up to ${sized(run.top)}, the highest end of a range, of ${units(run.sizes.at(-1)[1])}. ` +
    `The line is the position; ticks are refusals${flagsOf(run).length ? ', those at the lower edge marks' : ''}. ` + (run.file?.isDump ? 'Below: the units in use (lighter), and the largest request that offset_allocator would grant in these blocks (darker): the allocator of the dump may grant others.' :
    'Below: the units in use (lighter), and the largest request that is granted without alignment (darker).');
  for (const id of ['lzall', 'lleft', 'lright', 'lup', 'ldown']) $(id).disabled = !S.life;
  $('zleft').disabled = $('zright').disabled = !S.zoom;
  tellUnder();
  $('at').value = p; $('row').value = p; $('now').ariaLive = playing ? 'off' : 'polite';
  $('at').setAttribute('aria-valuetext', p ? `row ${p}: ${said(...op)}, ${answered(run, p - 1)}` : 'before the first row');
  $('place').textContent = `of ${whole(run.count)}`;
  showRefusals();
  tell('now', S.ungranted !== null ? nowUngranted() : p ? `Row ${whole(p)}: ${said(...op)}${KINDS[op[0]] === 'na' ? meaning(op[1], op[2]) : ''}: ${answeredInBytes(run, p - 1)}` +
    (taken ? `, from the free block at ${place(taken.o)} of ${units(taken.n)}` : '') +
    ofName(run.callName(p - 1)) : 'Before the first row.');
  const t1 = performance.now();
  // while the run plays, the lists follow a few times a second
  if (v && (!playing || t0 - listed > FOLLOWS)) { listed = t0; lists(v, searched, bin); rest = performance.now() - t1; }
  window.frameTime = performance.now() - t0;
}
const shownUnits = () => S.zoom || [0, Math.max(1, S.run.sizeAt(S.p))];
// The space, with what is marked in it, and the chosen block in words: all that the pointer changes.
function showSpace() {
  const { run, p } = S, r = p ? run.row(p - 1) : null, chosen = chosenBlock(), marked = [];
  if (r && S.ungranted === null && (r[0] === ANSWER.grant || r[0] === ANSWER.resized)) marked.push([r[2], r[3], [], colors().mark]);
  if ((isRefusal(run, p) || S.ungranted !== null) && whyOf[0] === run && whyOf[1] === p)
    for (const { outline: [o, n, isDashed] } of helps.filter(h => h.outline)) marked.push([o, n, isDashed ? [6, 4] : [], colors().mark]);
  if (chosen) marked.push([chosen.o, chosen.n, [4, 3], colors().fg]);
  drawSpace('space', run, p, ...shownUnits(), marked);
  describe(chosen);
}
function lists(v, searched, bin) {
  const { run, p } = S;
  why(run, p);
  const rows = listedRows(run);
  L.calls.count = rows ? rows.length : run.count;
  L.calls.chosen = rows ? rows.indexOf(p) : p - 1;
  L.calls.set(L.calls.count);
  if (L.calls.chosen >= 0 || !p) L.calls.show(Math.max(0, L.calls.chosen));
  showRanges(v);
  showBins(v, searched, bin);
  showOther();
}
// How many refusals there are, and whether there are some on either side.
function showRefusals() {
  const { run, p } = S, { own, none, others, all } = refusalCounts(), isMany = all > own || (run.file && isSeveral(run.file) && run === S.base);
  $('onlyhere').parentElement.hidden = !isMany;
  const at = isMany && (isMoving || playing) ? 0 : refusalNumber(), count = at ? `refusal ${whole(at)} of ${whole(all)}` : counted(all, 'refusal');
  const where = [[own, 'in this heap'], [others, 'in others'], [none, 'that no heap granted']].filter(([n]) => n).map(([n, where]) => `${whole(n)} ${where}`);
  tell('refusals', !all ? 'no refusals' : isMany ? `${count}: ${where.join(', ')}` : count);
  // while the position moves on, no other heap is asked
  if (isMany && (isMoving || playing)) return;
  $('rback').disabled = isMany ? !refusalBeside(lineNow(), -1) : !(run.refusals[0] < p);
  $('rnext').disabled = isMany ? !refusalBeside(lineNow(), 1) : !(run.refusals.at(-1) > p);
}
// The request that no heap granted, as the row in words.
function nowUngranted() {
  const other = S.run.file.others[S.ungranted], [what, why, means] = saidOf(other);
  return `Line ${whole(other.line)} of the file, after row ${whole(S.p)} of ${nameOfPart(S.run.file, S.part)}: ${what}${means}${ofName(other.name)}: ${why}`;
}
// Why no heap granted a request.
async function whyUngranted(i) {
  const { file } = S.run, of = whyOf = [S.run, S.p, i], turns = new Turns(() => whyOf === of);
  const other = file.others[i], [, reason] = saidOf(other);
  $('helped').hidden = false;
  told({ title: titleOfUngranted(other), facts: [reason], helps: [{ text: 'being tried' }] });
  try { told(await explainUngranted(file, i, turns)); } catch (fault) { if (!(fault instanceof Stopped)) throw fault; }
}
// At a refusal: why, and what would have helped.
function why(run, p) {
  if (S.ungranted !== null) {
    $('why').hidden = playing;
    return playing || (whyOf[0] === run && whyOf[1] === p && whyOf[2] === S.ungranted) ? null : whyUngranted(S.ungranted);
  }
  const isGone = p > 0 && run.row(p - 1)[0] === ANSWER.gone;
  $('why').hidden = playing || !(isRefusal(run, p) || isGone);
  if ($('why').hidden || (whyOf[0] === run && whyOf[1] === p && whyOf[2] === undefined)) return;
  const of = whyOf = [run, p];
  $('helped').hidden = isGone;
  if (isGone) return told({ title: `Row ${whole(p)}: ${said(...run.call(p - 1))}: gone`, facts: [whyGone(run, p)], helps: [] });
  // in a small space all is tried at once, in a large one in turns
  const steps = explain(run, p), isSmall = run.m.size() < 1 << 23;
  const next = () => {
    let found;
    do { if (whyOf !== of) return; found = steps.next(); } while (isSmall && !found.done);
    if (found.done) { run.copy = null; told(found.value); } else setTimeout(next);
  };
  if (!isSmall) told({ title: titleOfRefusal(run, p), facts: [REASONS[run.row(p - 1)[7]] || ''], helps: [{ text: 'being tried' }] });
  next();
}
function told(e) {
  $('whytitle').textContent = e.title;
  const fill = (id, parts) => $(id).replaceChildren(...parts.map(part => { const li = document.createElement('li'); li.append(part); return li; }));
  fill('facts', e.facts);
  // what would have helped is a button that shows it
  fill('helps', e.helps.map(help => {
    if (!(help.calls && help.calls.every(([op]) => ADDED.includes(op))) && !help.nodes) return help.text;
    const button = document.createElement('button');
    button.textContent = help.text; button.title = help.nodes ? 'Compares with a run of so many nodes' : 'Shows the space after it';
    button.onclick = () => showHelp(help);
    return button;
  }));
  $('clicks').hidden = !$('helps').querySelector('button');
  helps = e.helps; showSpace();
}
// The space as it would be with what helps: its calls in place of the refused one, or the run with more nodes beside this one.
async function showHelp({ calls, nodes, part, line }) {
  stop(); say('');
  // of a request that no heap granted: in the heap that it names
  if (part !== undefined) {
    if (part !== S.part) await openPart(part, line);
    return S.part === part ? edit(...added(rowAtLine(S.run, line), calls)) : null;
  }
  if (!nodes) return edit(...added(S.p - 1, calls));
  await compare([S.run.head[0], nodes, 1, COMPACT.asIs]);
  $('compared').scrollIntoView({ block: 'nearest' });
}
// The block that is chosen: by the pointer, by keys or by a click.
function chosenBlock() {
  const { run, p } = S;
  if (pointer) return run.view(p).with(unitAt(pointer, ...shownUnits()));
  if (S.grant) return run.rangeOf(S.grant, p);
  const b = S.free === undefined ? null : run.view(p).with(S.free);
  return b && !b.k ? b : null;
}
function describe(b) {
  const run = S.run;
  $('goto').hidden = !(b && b.k);
  if (b) $('goto').textContent = `Go to row ${whole(run.born.list[b.k] || 0)}`;
  if (b && b.k) $('goto').onclick = () => { pointer = null; S.grant = b.k; jump(run.born.list[b.k]); };
  tell('block', !b ? (S.grant ? `${named(run, S.grant)} is not live here.` : 'Point at a block, or choose one by the keys b and B.') :
    (b.k ? named(run, b.k).replace('g', 'G') : 'Free') + ` at ${place(b.o)}: ${units(b.n)}, class ${classOf(b.n)} (${sizesOf(classOf(b.n))}${S.unit ? ` units, ${bytesOf(classOf(b.n))}` : ''})` +
    (b.k ? `, live since row ${whole(run.born.list[b.k])}.` : '.'));
}
// The range under the pointer in the lives, or where it was tapped: once the pointer rests, as in a large space it takes its time.
const RESTS = 60;
let over = null, resting = 0;
function tellUnder() {
  clearTimeout(resting);
  if (over) resting = setTimeout(() => tell('under', underLife(S.run, over)), RESTS);
  else tell('under', 'Point at a range here to see which it is.');
}
function underLife(run, [x, y]) {
  const [p0, p1, o0, o1] = shownLives('life', run);
  const p = Math.min(run.count, Math.floor(p0 + x * (p1 - p0))), o = Math.min(Math.floor(o1 - y * (o1 - o0)), o1 - 1);
  const view = p === S.p ? run.view(p) : run.viewAt(p), b = view.with(o), to = b && b.k ? run.died.list[b.k] : 0;
  return `Row ${whole(p)}, offset ${place(o)}: ` + (!b ? 'not in the space.' : !b.k ? `free, ${units(b.n)} at ${place(b.o)}.` :
    `${named(run, b.k)}, ${units(b.n)} at ${place(b.o)}, live since row ${whole(run.born.list[b.k])}${to === ALIVE ? ', and never freed' : `, up to row ${whole(to)}`}.`);
}
function chooseBlock(step) {
  const b = S.run.view(S.p).beside(chosenBlock(), step);
  if (!b) return;
  pointer = null; chosenIs(b);
}
function chosenIs(b) {
  S.grant = b.k; S.free = b.k ? undefined : b.o;
  if (b.k) $('k').value = b.k;
  if (S.zoom && (b.o < S.zoom[0] || b.o >= S.zoom[1])) zoomAt(b.o, S.zoom[1] - S.zoom[0]);
  draw();
}
// The part of the space that is shown.
function zoomAt(center, width) {
  const size = Math.max(1, S.run.sizeAt(S.p)), w = Math.max(ROWS, Math.min(size, width));
  const from = Math.round(Math.max(0, Math.min(size - w, center - w / 2)));
  S.zoom = w >= size ? null : [from, from + w];
}
function zoom(by) {
  const [from, to] = S.zoom || [0, S.run.sizeAt(S.p)], b = chosenBlock(), r = S.p ? S.run.row(S.p - 1) : null;
  const center = b ? b.o + b.n / 2 : S.zoom || !r || r[0] !== ANSWER.grant ? (from + to) / 2 : r[2] + r[3] / 2;
  zoomAt(center, (to - from) * by); draw();
}
function pan(by) { if (S.zoom) { const w = S.zoom[1] - S.zoom[0]; zoomAt((S.zoom[0] + S.zoom[1]) / 2 + by * w, w); draw(); } }
function usedPart() {
  const { last } = S.run.view(S.p), end = last ? last.o + last.n : S.run.sizeAt(S.p);
  zoomAt(end / 2, end); draw();
}
