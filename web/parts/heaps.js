// Many heaps of one file: rows, of which each is opened as a space. Their time is that of the file, in its lines.
const STEPS = 120, WHY_NOT = ['the request is for no unit', 'no heap grants it, and the limits admit none that is large enough', 'no heap grants it, and the limits admit no other heap', 'memory for another heap, or for more nodes, was refused'];
const nameOfPart = (file, i) => {
  const { heap, title, head, same } = file.parts[i];
  return (heap === null ? (same ? `limit ${whole(head[1])}` : 'as it began') : `heap ${whole(heap)}` + (same ? ` (${whole(same + 1)})` : '')) + (title ? ` “${title}”` : ''); };
// How many bytes a unit of a part has. Where no heap has its own, all have the one that is shown.
const unitOf = (file, i) => i === S.part || !file.units.size ? S.unit : unitIn(file, file.parts[i]);
// Units of several parts, each with its part: added up where all have one unit, else in bytes where each is known, else not.
function addedUp(file, list) {
  const each = list.map(([i, n]) => [n, unitOf(file, i)]), [, unit] = each[0] || [0, S.unit], sum = f => each.reduce((all, [n, of]) => all + f(n, of), 0);
  if (each.every(([, of]) => of === unit)) return units(sum(n => n), unit);
  return each.every(([, of]) => of) ? inBytes(sum((n, of) => n * of), 1) : '';
}
// Units of a part in what those of all are compared in: bytes, where units differ.
const inAll = (file, i, n) => n * (file.units.size ? unitOf(file, i) || 1 : 1);
const isSeveral = file => file.parts.length > 1 || file.isMany;
// The ranges of a part that takes the place of another have the names that they had there: its first lines say where they are.
function carryNames(of) {
  const { named } = of.before;
  for (let i = 0; i < of.lines.length && of.calls[WIDE * i] === OP.at; i++) {
    const name = named.get(of.calls[WIDE * i + 1]);
    if (name && !of.names.has(i)) of.names.set(i, name); }
}
// Plays each part for what its row shows. A call on a heap that was dropped is a fault.
async function surveyed(file, bytes, work) {
  let done = 0;
  const m = new Module();
  const all = file.parts.reduce((sum, of) => sum + of.lines.length, 0), last = file.lines + 1;
  for (const of of file.parts) {
    if (of.before) { carryNames(of); of.firstStep = of.before.step; }
    const run = of.run(m), curve = new Float32Array(STEPS).fill(-1), step = line => Math.min(STEPS - 1, Math.floor(line / last * STEPS));
    run.start(of.lines.length); run.left = 0;
    let before = 0, to = of.to ?? last;
    while (run.count < of.lines.length) {
      // it stops behind a call that may slide ranges
      done -= run.count; run.step(Math.min(512, of.lines.length - run.count)); done += run.count;
      await work.turn(done, all);
    }
    for (const { p, line, next } of of.drops) if (next !== null && run.begunAt(p) === run.endedAt(p)) throw new Fault(`line ${next}: bad command`, next, ...spanOf(bytes, next));
    // a drop is refused where something is live
    if (of.end === 'dropped' && run.begunAt(of.drops.at(-1).p) !== run.endedAt(of.drops.at(-1).p)) { of.end = ''; of.to = null; to = last; }
    run.takeNames();
    if (of.end === 'replaced') {
      // a range is the last life of its grant
      of.named = new Map();
      for (let k = 1; k < run.born.length; k++) if (run.died.list[k] === ALIVE && run.nameOf(k)) of.named.set(run.life(run.last.list[k]).o, run.nameOf(k));
    }
    keepLives(of, run, file, last);
    of.refused = Uint32Array.from(run.refusals); of.step = stepAt(run, run.count);
    const size = run.sizes.reduce((m, s) => Math.max(m, s[1]), 1);
    for (let s = step(of.from), i = 0; s <= step(to) && s < STEPS; s++) {
      let highest = before;
      for (; i < of.lines.length && step(of.lines[i]) <= s; i++) { before = run.used.list[i]; highest = Math.max(highest, before); }
      curve[s] = highest / size;
    }
    of.used = run.used.copy(run.count).whole(); [of.largest, of.blocks] = [5, 6].map(word => Uint32Array.from(of.lines, (_, i) => run.rows.list[8 * i + word])); of.sizes = run.sizes;
    of.seen = { size: run.sizeAt(run.count), most: most(run.used.list, run.count, 1, 0), live: of.end ? 0 : run.lifeCount - run.ends.length, units: of.end ? 0 : run.usedAt(run.count), refused: run.refusals.length, curve };
  }
}
function drawHeap(row, i) {
  const { file } = S.run, of = file.parts[i], { seen } = of, unit = unitOf(file, i);
  cell(row, nameOfPart(file, i), 'h', nameOfPart(file, i)); cell(row, sized(seen.size, unit), 'u'); cell(row, whole(seen.live), 'u live');
  cell(row.lastChild, seen.live === 1 ? ' range' : ' ranges', 'wide'); row.lastChild.append(`, ${sized(seen.units, unit)}`); cell(row, sized(seen.most, unit), 'u');
  cell(row, whole(of.lines.length), 'n'); cell(row, seen.refused ? whole(seen.refused) : '', seen.refused ? 'n bad first' : 'n bad', seen.refused ? 'Opens it at its first refusal' : ''); cell(row, of.end || '', 'e');
  const c = document.createElement('canvas'); c.className = 'strip'; row.append(c);
  if (i === S.part) row.classList.add('now');
  requestAnimationFrame(() => {
    if (!c.isConnected) return;
    const [g, w, h] = canvas(c), ink = colors();
    g.fillStyle = ink.free; const first = seen.curve.findIndex(v => v >= 0), end = seen.curve.findLastIndex(v => v >= 0) + 1;
    g.fillRect(first / STEPS * w, 2, (end - first) / STEPS * w, h - 4);
    g.fillStyle = ink.ages[3];
    for (let s = first; s < end; s++) g.fillRect(s / STEPS * w, h - 2 - seen.curve[s] * (h - 4), w / STEPS + 0.5, seen.curve[s] * (h - 4));
  });
}
// What lives in each heap, for all heaps at once: offsets, units, the lines of the file from and up to which, and how names begin.
const MOST_BARS = 48, BAR = 18;
function keepLives(of, run, file, last) {
  const count = run.lifeCount, [o, n, from, to, type] = [0, 1, 2, 3, 4].map(() => new Uint32Array(count)), all = run.lives.list;
  file.types ??= new Map();
  for (let l = 0; l < count; l++) {
    const at = LIFE * l, prefix = prefixOf(run.nameOf(all[at + K]));
    let kind = file.types.get(prefix);
    if (!kind) file.types.set(prefix, kind = { i: file.types.size, name: prefix, units: 0 });
    o[l] = all[at + O]; n[l] = all[at + N]; type[l] = kind.i; kind.units += n[l];
    from[l] = of.lines[all[at + FROM] - 1]; to[l] = all[at + TO] === ALIVE ? last : of.lines[all[at + TO] - 1];
  }
  of.lives = { o, n, from, to, type };
}
// The inks of how names begin, in the whole file: by their units, those without a name last.
function typeInks(file) {
  if (file.inks) return file.inks;
  const order = [...(file.types || new Map()).values()].sort((x, y) => (x.name === '') - (y.name === '') || y.units - x.units), inks = new Uint8Array(order.length);
  order.forEach((kind, at) => { inks[kind.i] = kind.name === '' ? NAMED_INKS : Math.min(NAMED_INKS, at); });
  return file.inks = { inks, names: order.filter(kind => kind.name !== '').slice(0, NAMED_INKS).map(kind => kind.name) };
}
// All heaps at the time that is shown, each a bar as long as its size.
function drawHeapsNow() {
  const { file } = S.run;
  if (!file || !isSeveral(file) || !$('allnow').open) return;
  const line = lineNow(), there = [], c = colors(), { inks, names } = typeInks(file);
  for (const [j, of] of file.parts.entries()) if (of.from <= Math.max(line, 1) && (of.to === null || of.to > line)) there.push(j);
  const shown = there.slice(0, MOST_BARS), sizeOf = j => inAll(file, j, file.parts[j].sizes.findLast(([p]) => p <= rowAtLine(file.parts[j], line))[1]);
  const most = shown.reduce((m, j) => Math.max(m, sizeOf(j)), 1), box = $('heapsnow');
  box.style.height = `${BAR * Math.max(1, shown.length)}px`;
  const [g, w0, , d] = canvas(box), left = Math.min(220, w0 / 3), w = w0 - left, drawn = new Coverage(Math.round(w * d), Math.max(1, shown.length), c.inks);
  file.now = shown;
  for (const [y, j] of shown.entries()) {
    const of = file.parts[j], { o, n, from, to, type } = of.lives, scale = inAll(file, j, 1) / most * drawn.wide;
    g.fillStyle = c.free; g.fillRect(left, y * BAR + 2, Math.max(1, sizeOf(j) / most * w), BAR - 4);
    for (let l = 0; l < o.length && from[l] <= line; l++) if (to[l] > line) drawn.add(inks[type[l]], o[l] * scale, y, Math.min(drawn.wide, (o[l] + n[l]) * scale), y + 1);
    g.fillStyle = j === S.part ? c.fg : c.dim; g.fillText(nameOfPart(file, j), 2, y * BAR + BAR / 2, left - 8);
  }
  drawn.paint(); g.imageSmoothingEnabled = false;
  for (let y = 0; y < shown.length; y++) g.drawImage(drawn.sheet, 0, y, drawn.wide, 1, left, y * BAR + 2, w, BAR - 4);
  showInks('typelegend', 'Names that begin with', [...names, 'others'], i => i === names.length ? 8 : i + 1);
  tell('heapsnowis', `${counted(there.length, 'heap')} at line ${whole(line)} of the file${there.length > shown.length ? `, of which the first ${whole(shown.length)} are shown` : ''}. A bar is as long as its heap is large.`);
}
// The line at the position, over the time of all rows.
function showTime() {
  const strip = document.querySelector('#heaprows .strip'), { file } = S.run;
  if (!strip) return;
  const { left, width } = strip.getBoundingClientRect();
  $('heapat').style.left = `${left - $('heaprows').getBoundingClientRect().left + Math.min(width - 1, lineAt(S.run, S.p) / (file.lines + 1) * width)}px`;
}
// The line of the file that a position is at.
const lineAt = (run, p) => p ? run.lines[Math.min(p, run.lines.length) - 1] || run.part.from : run.part ? run.part.from : 0;
function showHeaps() {
  const { file } = S.run, isShown = Boolean(file && isSeveral(file));
  $('heaps').hidden = !isShown; $('exportall').hidden = !isShown;
  for (const of of document.querySelectorAll('.ofheap')) of.textContent = isShown ? `: ${nameOfPart(file, S.part)}` : '';
  if (!isShown) return;
  const { parts, others } = file;
  file.refused ??= others.filter(isUngranted).length; file.left ??= parts.reduce((sum, of) => sum + of.seen.live, 0);
  const keyOfSum = [S.part, S.unit].join();
  if (file.sum?.key !== keyOfSum) file.sum = { key: keyOfSum, text: addedUp(file, parts.map((of, i) => [i, of.seen.units]).filter(([, n]) => n)) || 'of units that differ, and are not added up' };
  const left = file.sum.text;
  tell('heapshead', file.isMany ? `${counted(parts.length, 'heap')} in this file` : `${counted(parts.length, 'space')} in this file, one after the other`);
  tell('heapsum', `Shown below: ${nameOfPart(file, S.part)}. Live at the end in all: ${counted(file.left, 'range')}, ${left}.` +
    (file.refused ? ` ${counted(file.refused, 'request')} that no heap granted.` : '') + (S.run !== S.base ? ' The rows are of the original, without your calls.' : ''));
  // rows are made again only where what they show is another
  const key = [S.part, S.unit, colors().bg, $('heaps').clientWidth].join();
  L.heaps.chosen = S.part;
  if (L.heaps.of !== file) { L.heaps.of = file; L.heaps.set(parts.length); L.heaps.show(S.part); } else if (L.heaps.key !== key) L.heaps.paint();
  L.heaps.key = key; showTime();
  $('nogrant').hidden = !others.length;
  if (L.others.of !== file) { L.others.of = file; L.others.set(others.length); }
  $('nogranthead').textContent = `${counted(others.length, 'call')} that changed no heap`;
}
// In words: the request, why it was refused, and what its numbers are.
const saidOf = other => inUnitOf(unitOfRequest(S.run.file), () => requestInWords(other));
function requestInWords({ kind, n, a, why, isTight }) {
  if (kind === OTHER.gone) return ['a place that is not live', 'gone', ''];
  if (kind === OTHER.kept) return [`relocate ${units(n)}${atMultiple(a)}`, 'no other heap takes it', ''];
  return [said(...isTight ? tightOf(n, a) : a > 1 ? [1, n, a] : [0, n]) + (S.unit && n && a === 1 ? ` (${inBytes(n)})` : ''), WHY_NOT[why], meaning(n, a)];
}
function drawOther(row, i) {
  const other = S.run.file.others[i], [what, why, means] = saidOf(other);
  cell(row, whole(other.line), 'n', 'The line of the file'); cell(row, what, 'c', means.slice(2, -1)); cell(row, why, other.kind === OTHER.refused ? 'bad' : '', why);
  if (other.name) cell(row, other.name, 'dim', other.name);
}
// A call that changed no heap, where it is chosen.
function showUngranted(i) {
  const { file } = S.run, other = file.others[i];
  if (isUngranted(other)) return toUngranted(i);
  jump(rowAtLine(S.run, other.line));
  return say(`Line ${whole(other.line)}: ${saidOf(other).slice(0, 2).join(': ')}.`);
}
// Opens another part, at the time of the file that is shown, at a line, or at its first refusal.
async function openPart(i, line = lineAt(S.run, S.p), isAtRefusal = false, row = null, ungranted = null) {
  stop();
  if (i === S.part) return jump(isAtRefusal && S.run.refusals.length ? S.run.refusals[0] : row ?? rowAtLine(S.run, line), ungranted);
  const { file } = S.run, of = file.parts[i];
  const run = await during('Playing', work => of.run().survey(work));
  if (!run) return null;
  leave();
  Object.assign(run, { file, part: of });
  Object.assign(S, { run, base: run, part: i, past: [], ahead: [], grant: 0, free: undefined, zoom: null, life: null, find: null, ungranted: null, unit: file.units.size ? unitIn(file, of) : S.unit });
  dropOther(); showNames(); await look(); go(isAtRefusal ? run.refusals[0] : row ?? rowAtLine(run, line), ungranted); enter();
  say(`${nameOfPart(file, i)}, at ${isAtRefusal ? 'its first refusal' : row !== null ? 'its next refusal in the file' : ungranted !== null ? `line ${whole(line)} of the file` : `line ${whole(line)} of the file, the time that was shown${run.refusals.length ? '. The number of its refusals opens it at the first' : ''}`}.`);
  return null;
}
const rowAtLine = (run, line) => firstOf(run.lines.length, i => run.lines[i] > line);
