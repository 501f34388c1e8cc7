// Another run of the same calls: in another space, with other nodes or a larger unit, compacted where a request is refused,
// or never.
const COMPACT = { asIs: 0, whereRefused: 1, never: 2 };
// The calls of a run, played in another space, of `size` units of this one: `of` is what B's grants are by A's numbers, `at`
// B's position by A's.
async function another(run, [size, nodes, unit, compact], work) {
  const b = new Run([Math.floor(size / unit), nodes, nodes > 65533 ? 32 : run.head[2]], new Uint32Array(0), new Map(), run.lines);
  b.start(run.count); b.scale = unit;
  const at = new Uint32Array(run.count + 1), of = new Map();
  // sizes are rounded up; what is at a multiple of the unit is at one of an alignment that divides it
  const scaled = { n: v => Math.ceil(v / unit), a: v => Math.max(1, v / unit), k: v => of.get(v) || 0, d: v => Math.floor(v / unit), c: v => v };
  scaled.s = scaled.a;
  const one = (...call) => { b.calls.append(filled(call)); b.step(1); return b.row(b.count - 1); };
  let extra = 0;
  for (let i = 0; i < run.count; i++) {
    const [op, ...numbers] = run.call(i), r = run.row(i), name = run.callName(i);
    const isServed = op <= 1 || isTight(op) || op === OP.at, isRequest = isServed || isRelocation(op);
    // a report changes nothing
    const call = isSlide(op) && compact === COMPACT.never ? [4] : [op, ...[...KINDS[op]].map((kind, j) => scaled[kind](numbers[j]))];
    // a range at a place has each unit in which it has a part
    if (op === OP.at) call[2] = Math.min(LARGEST, Math.ceil((numbers[0] + numbers[1]) / unit) - call[1]);
    if (name) b.names.set(b.count, name);
    let found = one(...call);
    if (compact === COMPACT.whereRefused && isServed && found[0] === ANSWER.refused) { one(OP.compact); found = one(...call); }
    if (isRequest && r[0] === ANSWER.grant) of.set(r[1], found[0] === ANSWER.grant ? found[1] : 0);
    else if (isRequest && found[0] === ANSWER.grant) extra++;
    at[i + 1] = b.count;
    if (i % 64 === 0) await work.turn(i, run.count);
  }
  return { run: await b.remember(work), at, unit, extra };
}
// The first call with an alignment or a step that neither is a multiple of a unit nor divides it, in words; or ''. In such units
// the call could not be made.
function unlikeUnit(run, unit) {
  for (let i = 0; unit > 1 && i < run.count; i++) {
    const [op, ...numbers] = run.call(i), kinds = KINDS[op];
    for (let j = 0; j < kinds.length; j++) if ((kinds[j] === 'a' || kinds[j] === 's') && numbers[j] % unit && unit % numbers[j])
      return `${kinds[j] === 'a' ? 'alignment' : 'step'} of ${said(op, ...numbers)} (row ${whole(i + 1)})`;
  }
  return '';
}
// The recording of another file, beside this run. Where both have frames, their frames are side by side, else their rows.
async function besideFile(bytes, name) {
  const found = await during('Reading', async work => {
    const file = await readText(bytes, work), i = Math.max(0, file.parts.findIndex(of => of.heap === S.run.part.heap)), of = file.parts[i];
    return Object.assign(await of.run().survey(work), { file, part: of });
  }, bytes, name);
  if (!found) return;
  const a = S.run, b = found, at = new Uint32Array(a.count + 1), ends = run => {
    const flags = flagsOf(run), all = [0];
    for (let i = 0; i < flags.length; i++) if (run.file.marks[i].text === 'frame') all.push(flags[i]);
    return all; };
  const [x, y] = [ends(a), ends(b)], isByFrame = x.length > 1 && y.length > 1;
  for (let p = 0, f = 0; p <= a.count; p++) {
    while (isByFrame && f + 1 < x.length && x[f + 1] <= p) f++;
    if (!isByFrame) at[p] = Math.min(p, b.count);
    else if (f >= y.length - 1) at[p] = Math.min(b.count, y[y.length - 1] + p - x[Math.min(f, y.length - 1)]);
    else at[p] = f + 1 < x.length ? Math.round(y[f] + (p - x[f]) / Math.max(1, x[f + 1] - x[f]) * (y[f + 1] - y[f])) : Math.min(b.count, y[f] + p - x[f]);
  }
  compared({ run: b, at, unit: 1, extra: 0, as: null, name, isByFrame });
}
function compared(found) {
  const a = S.run, b = found.run, { unit } = found;
  S.other = { ...found, ...differing(a, found) };
  S.other.whole = [
    ['Refused calls', a.refusals.length, found.as ? S.other.refused.length : b.refusals.length],
    ['First refusal, row', a.refusals[0] || 'none', (found.as ? S.other.refused[0] : b.refusals[0]) || 'none'],
    ['Most units in use', most(a.used.list, a.count, 1, 0), most(b.used.list, b.count, 1, 0) * unit],
    ['Highest end of a range', a.top, b.top * unit],
    ['Most blocks', most(a.rows.list, a.count, 8, 6), most(b.rows.list, b.count, 8, 6)],
    ['Units in use at the end', a.usedAt(a.count), b.usedAt(b.count) * unit]];
  $('otherhead').textContent = found.name ? `The other: ${found.name}` : 'The other';
  $('compared').hidden = false;
  showOther();
}
// The rows where the two answer otherwise: a request is granted in one only, or another call succeeds in one only. And the
// rows that the other refuses.
const outcome = kind => kind === ANSWER.refused || kind === ANSWER.gone ? kind : 0;
function differing(a, { run: b, at }) {
  const rows = [], refused = [], x = a.rows.list, y = b.rows.list;
  for (let i = 0; i < a.count; i++) {
    const other = at[i + 1] ? outcome(y[8 * (at[i + 1] - 1)]) : 0;
    if (outcome(x[8 * i]) !== other) rows.push(i + 1);
    if (other === ANSWER.refused) refused.push(i + 1);
  }
  return { rows, refused };
}
const most = (list, count, step, at) => { let m = 0; for (let i = 0; i < count; i++) m = Math.max(m, list[step * i + at]); return m; };
async function compare(as) {
  const [size, nodes, unit, compact] = as;
  if (as.length !== 4 || size < 0 || nodes < 2 || nodes > LARGEST - 2 || unit < 1 || compact > 2) {
    say(`Compare: the node limit is 2 to ${whole(LARGEST - 2)}, the unit at least 1, the space a number`, true);
    return;
  }
  const unlike = unlikeUnit(S.run, unit);
  if (unlike) return say(`Compare: a unit of ${whole(unit)} and the ${unlike} do not divide each other: choose a unit that does`, true);
  const found = await during('Comparing', work => another(S.run, as, work));
  if (!found) return;
  for (const [i, id] of ['xsize', 'xnodes', 'xunit', 'xcompact'].entries()) $(id).value = as[i];
  compared({ ...found, as });
}
function dropOther() {
  S.other = null; $('compared').hidden = true;
  $('xsize').value = S.run.head[0]; $('xnodes').value = S.run.head[1]; $('xunit').value = 1; $('xcompact').value = 0;
}
function showOther() {
  if (!S.other) return;
  const { run: b, at, unit, rows, extra } = S.other, a = S.run, p = S.p, q = at[p];
  const va = a.view(p), vb = b.view(q), size = a.sizeAt(p), [from, to] = S.zoom || [0, size];
  const free = (run, n) => run.sizeAt(n) - run.usedAt(n), largest = (run, n) => n ? run.row(n - 1)[5] : 0;
  const table = [['At this row', '', ''], ['Answer', p ? answeredInBytes(a, p - 1) : '', q ? (unit === 1 ? answeredInBytes : answered)(b, q - 1) : ''],
    ['Units in use', a.usedAt(p), b.usedAt(q) * unit],
    ['Units free', free(a, p), free(b, q) * unit], ['Largest request granted', largest(a, p), largest(b, q) * unit],
    ['Blocks', va.count + va.free.count, vb.count + vb.free.count], ['Over all', '', ''], ...S.other.whole];
  $('differences').replaceChildren(...table.map(([name, x, y]) => {
    const row = document.createElement('tr'), th = document.createElement('th');
    const isNumber = typeof x === 'number' && typeof y === 'number', isSize = /[Uu]nits|Largest|Highest/.test(name), shown = isSize ? sized : whole;
    th.textContent = name; th.scope = 'row'; row.append(th);
    row.className = x === '' && y === '' ? 'part' : name === 'Answer' ? 'said' : '';
    for (const v of [x, y, isNumber && x !== y ? y - x : '']) row.insertCell().textContent = typeof v === 'number' ? shown(v) : v;
    if (isNumber && x !== y) row.cells[3].textContent = (y > x ? '+' : '−') + shown(Math.abs(y - x));
    return row;
  }));
  $('differ').textContent = S.other.isByFrame ? 'Both have frames: at each frame of this run that frame of the other is shown.' : (rows.length ? `${counted(rows.length, 'row')} with another outcome, the first is row ${whole(rows[0])}.` :
    'Each call has the same outcome in both.') +
    (extra ? ` ${counted(extra, 'request')} that this run refuses ${extra === 1 ? 'is' : 'are'} granted in the other, and never freed there: ` +
      'the recording has no call for that.' : '');
  $('xnext').disabled = !rows.some(r => r > p); $('xback').disabled = !rows.some(r => r < p);
  drawSpace('spaceA', a, p, from, to, []);
  drawSpace('spaceB', b, q, from / unit, to / unit, []);
  const now = S.other, shown = f => () => S.other === now && S.run === a ? f() : null;
  drawLives('lifeA', a, shown(() => S.p)); drawLives('lifeB', b, shown(() => at[S.p]));
}
