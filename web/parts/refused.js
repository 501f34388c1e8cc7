// The refusals of a file: those of each heap, and those of requests that no heap granted. All are stepped through in the order of
// the file, and explained: of a request that no heap granted, each heap is asked what would have helped there.
const isUngranted = other => other.kind === OTHER.refused || other.kind === OTHER.kept;
// The line of the file at which the page is.
const lineNow = () => S.ungranted !== null ? S.run.file.others[S.ungranted].line : S.p || S.part ? lineAt(S.run, S.p) : 0;
// Which refusal of the file is shown, from 1 on; 0 where none is.
function refusalNumber() {
  const { run, p, ungranted } = S, { file } = run;
  if (ungranted === null && !isRefusal(run, p)) return 0;
  if (!file || !isSeveral(file) || run !== S.base) return firstOf(run.refusals.length, i => run.refusals[i] >= p) + 1;
  const line = lineNow(), before = (count, lineOf) => firstOf(count, i => lineOf(i) >= line);
  return file.parts.reduce((sum, of) => sum + before(of.refused.length, i => of.lines[of.refused[i] - 1]), 1) + before(file.ungranted.length, i => file.others[file.ungranted[i]].line);
}
// How many refusals the file has: in the open run, that no heap granted, and in other heaps.
function refusalCounts() {
  const { run } = S, { file } = run, own = run.refusals.length;
  if (!file || !isSeveral(file) || run !== S.base) return { own, none: 0, others: 0, all: own };
  file.ungranted ??= file.others.flatMap((other, i) => isUngranted(other) ? [i] : []);
  file.refusedInAll ??= file.parts.reduce((sum, of) => sum + of.refused.length, 0);
  const none = file.ungranted.length, others = file.refusedInAll - own;
  return { own, none, others, all: own + none + others };
}
// The refusal after a line of the file, or the one before it: a part and its row, or a request that no heap granted. Null where
// there is none.
function refusalBeside(line, step) {
  const { file } = S.run, isHere = $('onlyhere').checked;
  let best = null;
  const take = (at, found) => { if (step > 0 ? at > line && (!best || at < best.line) : at < line && (!best || at > best.line)) best = { line: at, ...found }; };
  refusalCounts();
  const beside = (count, lineOf) => step > 0 ? firstOf(count, i => lineOf(i) > line) : firstOf(count, i => lineOf(i) >= line) - 1;
  for (const [part, of] of file.parts.entries()) {
    if (isHere && part !== S.part) continue;
    const lineOf = i => of.lines[of.refused[i] - 1], i = beside(of.refused.length, lineOf);
    if (i >= 0 && i < of.refused.length) take(lineOf(i), { part, p: of.refused[i] });
  }
  const lineOf = i => file.others[file.ungranted[i]].line, i = beside(file.ungranted.length, lineOf);
  if (i >= 0 && i < file.ungranted.length) take(lineOf(i), { other: file.ungranted[i] });
  return best;
}
// Goes to the next refusal, or to the one before: in a file of many heaps to that of any heap.
function refusal(step) {
  const { run } = S, { file } = run, { all } = refusalCounts(), way = step > 0 ? 'after' : 'before';
  if (!file || !isSeveral(file) || run !== S.base) {
    const p = step > 0 ? run.refusals.find(r => r > S.p) : run.refusals.findLast(r => r < S.p);
    if (p) return jump(p);
    return say(all ? `No refusal ${way} row ${whole(S.p)}.` : 'No call is refused.');
  }
  const found = refusalBeside(lineNow(), step);
  if (!found) return say(!all ? 'No call is refused.' : `No refusal ${way} line ${whole(lineNow())} of the file${$('onlyhere').checked ? ' in this heap' : ''}.`);
  if (found.other !== undefined) return toUngranted(found.other);
  return found.part === S.part ? jump(found.p) : openPart(found.part, found.line, false, found.p);
}
// Shows a request that no heap granted: at its line, in a heap that was there.
function toUngranted(i) {
  const { file } = S.run, { line } = file.others[i], there = heapsAt(file, line);
  if (!there.length || there.some(h => h.j === S.part)) return jump(rowAtLine(S.run, line), i);
  return openPart(largestOf(file, there).j, line, false, null, i);
}
// The heaps that there were at a line, with their free units and the largest request, at a multiple of `align`, that each granted then.
function heapsAt(file, line, align = 1) {
  const there = [];
  for (const [j, of] of file.parts.entries()) {
    if (of.from > line || (of.to !== null && of.to <= line)) continue;
    const p = rowAtLine(of, line), size = of.sizes.findLast(([row]) => row <= p)[1];
    there.push({ j, p, free: size - (p ? of.used[p - 1] : 0), largest: largestAt(align, p ? of.largest[p - 1] : valueOf(classOf(size)), p ? of.blocks[p - 1] : 1, of.head[1]) });
  }
  return there;
}
// The one that granted the largest request: where units differ, in bytes.
function largestOf(file, there) {
  return there.reduce((b, h) => !b || inAll(file, h.j, h.largest) > inAll(file, b.j, b.largest) ? h : b, null);
}
// The rows of a run that have ticks: its refusals, and where requests that no heap granted come.
function tickedRows(run) {
  const { file, part } = run;
  if (run.ticked) return run.ticked;
  const rows = [...run.refusals];
  if (file && part && isSeveral(file)) for (const other of file.others) {
    if (!isUngranted(other) || other.line < part.from || (part.to !== null && part.to <= other.line)) continue;
    const p = rowAtLine(run, other.line);
    if (!run.base || p <= run.kept) rows.push(p);
  }
  return run.ticked = Uint32Array.from(rows).sort();
}
// How many heaps are asked, those with the most free units first, and of how many calls.
const MOST_ASKED = 24;
class Turns {
  constructor(isWanted) { Object.assign(this, { isWanted, since: performance.now() }); }
  turn() { return performance.now() - this.since < SLICE ? null : this.pause(); }
  async pause() {
    await new Promise(next => setTimeout(next));
    this.since = performance.now();
    if (!this.isWanted()) throw new Stopped();
  }
}
// A heap as it was, with the request made of it: what explains it, or null where it would be granted.
async function askedOf(file, { j, p }, request, turns) {
  const of = file.parts[j], calls = new Uint32Array(WIDE * (p + 1));
  calls.set(of.calls.subarray(0, WIDE * p)); calls.set(filled(request), WIDE * p);
  const run = new Run(of.head, calls, of.names, of.lines);
  Object.assign(run, { file, part: of, named: p, given: of.given, firstStep: of.firstStep || 1 });
  await run.survey(turns);
  return run;
}
async function explainedBy(run, turns, unit) {
  const steps = explain(run, run.count);
  let found;
  do { await turns.turn(); found = inUnitOf(unit, () => steps.next()); } while (!found.done);
  return found.value;
}
// Does it as if a unit had so many bytes. Where units of heaps differ, a request that none granted has no bytes.
function inUnitOf(unit, f) { const kept = S.unit; S.unit = unit; try { return f(); } finally { S.unit = kept; } }
const unitOfRequest = file => file.units.size ? 0 : S.unit;
// What helps where the limits on heaps are reached: a usual heap has room for a request rounded up, a larger one is as large as its
// request, and the first range of each begins at 0.
const NO_HEAP = [
  () => ['a request for at least 1 unit'],
  ({ n }) => [`a larger limit on heaps: “size” of at least ${units(valueOf(roundedUp(n)))}, so that a usual heap has room for it; or “most_larger” of at least 1, so that a heap is made for it`],
  ({ n, a }) => [`a larger limit on heaps, “most” (“most_larger”, where it is too large for a usual heap): then one more heap is made, and grants it${a > 1 ? ' at offset 0' : ''}`],
  () => ['more memory for the program']];
const titleOfUngranted = other => `Line ${whole(other.line)}: ${saidOf(other)[0]}${ofName(other.name)} is refused${other.kind === OTHER.kept ? '' : ' by all heaps'}`;
// Why no heap granted a request, and what would have helped, and in which heap.
async function explainUngranted(file, i, turns) {
  const other = file.others[i], { line, n, a, why, isTight: tight } = other, isKept = other.kind === OTHER.kept;
  const [, reason] = saidOf(other), there = heapsAt(file, line, a), free = addedUp(file, there.map(h => [h.j, h.free]));
  const out = { title: titleOfUngranted(other), facts: [reason], helps: [] };
  const best = largestOf(file, there), heap = j => nameOfPart(file, j), need = n + a - 1, value = valueOf(roundedUp(Math.min(LARGEST, need)));
  const multiple = inUnitOf(unitOfRequest(file), () => atMultiple(a));
  if (n) inUnitOf(unitOfRequest(file), () => out.facts.push(`asked: ${units(n)}${multiple}${tight ? ', not rounded up' : `${a > 1 ? `, so a block for ${amount(need)}` : ''}${value > need ? `, rounded up to ${amount(value)}` : ''}`}`));
  out.facts.push(`there ${there.length === 1 ? 'was' : 'were'} ${counted(there.length, 'heap')}${free ? `, with ${free} free in all` : ''}` +
    (!best || tight ? '' : best.largest ? `; the largest request${multiple || ' without alignment'} that one granted was ${units(best.largest, unitOf(file, best.j))}, of ${heap(best.j)}` : `; none granted a request${multiple}`));
  if (!isKept) out.helps.push(...inUnitOf(unitOfRequest(file), () => NO_HEAP[why](other)).map(text => ({ text })));
  if (n === 0 || (why === 0 && !isKept)) return out;
  const request = tight ? tightOf(n, a) : a > 1 ? [1, n, a] : [0, n], found = [], runs = [];
  const asked = [...there].sort((x, y) => y.free - x.free).slice(0, MOST_ASKED);
  const refusing = REASONS.map(() => 0);
  let block = null;
  for (const h of asked) {
    const run = await askedOf(file, h, request, turns), row = run.row(run.count - 1), room = run.view(run.count - 1).free.largest;
    runs.push([h, run]);
    if (!block || inAll(file, h.j, room) > inAll(file, block.j, block.n)) block = { j: h.j, n: room };
    if (row[0] === ANSWER.grant) { out.facts.push(isKept ? `${heap(h.j)} has room for it, but a range is relocated neither within its heap nor to one with fewer live units` : `${heap(h.j)} would have granted it, though the file says that none did`); continue; }
    refusing[row[7]]++;
    for (const help of (await explainedBy(run, turns, unitOf(file, h.j))).helps) if (help.kind) found.push({ ...help, h });
  }
  const inEach = refusing.flatMap((count, i) => count ? [`in ${counted(count, 'heap')} ${i === 4 ? 'no free block is large enough' : REASONS[i]}`] : []);
  if (inEach.length) out.facts.splice(1, 0, inEach.join(', '));
  if (tight && block) out.facts.push(`largest free block: ${units(block.n, unitOf(file, block.j))}, of ${heap(block.j)}`);
  if (asked.length < there.length) out.facts.push(`asked were the ${asked.length} heaps with the most free units`);
  // of each kind the one that costs least, of those that keep all alignments where there is one
  for (const kind of ['tight', 'compact', 'move', 'relocate', 'release', 'extend', 'smaller']) {
    const list = kind === 'relocate' ? await relocations(found, runs, turns) : found.filter(help => help.kind === kind);
    const isLess = (x, y) => x.breaks === y.breaks ? (x.cost ?? 0) < (y.cost ?? 0) : !x.breaks;
    const help = list.reduce((b, x) => !b || isLess({ breaks: false, ...x }, { breaks: false, ...b }) ? x : b, null);
    if (help && kind === 'tight') out.facts.splice(1, 0, `a tight request (${tightName(a)}) would be granted, in ${heap(help.h.j)}`);
    if (help) out.helps.push({ text: `in ${heap(help.h.j)}: ${help.h.j === S.part ? help.text : help.text.replace(/ \((dashed|outlined)\)/, '')}`, calls: help.calls, part: help.h.j, line, outline: help.h.j === S.part ? help.outline : undefined });
  }
  return out;
}
// One range that another heap has room for, where its release is enough.
async function relocations(found, runs, turns) {
  const all = [];
  for (const { h, ranges, cost, calls } of found.filter(help => help.kind === 'release' && help.ranges.length === 1)) {
    const [b] = ranges, home = runs.find(([x]) => x === h)[1], a = alignmentOf(home, b.k);
    for (const [to, run] of runs) {
      if (to === h) continue;
      const steps = granted(run, run.count, [a > 1 ? [1, b.n, a] : [0, b.n]]);
      let step;
      do { await turns.turn(); step = steps.next(); } while (!step.done);
      if (!step.value) continue;
      all.push({ kind: 'relocate', h, cost, calls, text: `move ${named(home, b.k)} of ${units(b.n, unitOf(run.file, h.j))} to ${nameOfPart(run.file, to.j)}, which has room for it (relocate, then free); then it is granted` });
      break;
    }
  }
  return all;
}
