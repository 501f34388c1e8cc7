// Why a call was refused, and what would have helped: each help is tried on a copy of the space as it was before the call.
const LARGEST = 4294967295;
const inEnglish = new Intl.NumberFormat('en'), whole = n => inEnglish.format(n);
const counted = (n, one, more = one + 's') => `${whole(n)} ${n === 1 ? one : more}`;
// A size in bytes, where it is known how many a unit has.
const BYTES = ['B', 'KiB', 'MiB', 'GiB', 'TiB', 'PiB'];
const inBytes = (n, unit = S.unit) => {
  let v = n * unit, i = 0;
  // what is rounded to 1,024 is one of the next
  while (i < 5 && Math.round(v) >= 1024) { v /= 1024; i++; }
  return `${i && v < 100 ? v.toFixed(v < 10 ? 2 : 1) : whole(Math.round(v))} ${BYTES[i]}`; };
const sized = (n, unit = S.unit) => unit ? inBytes(n, unit) : whole(n);
const units = (n, unit = S.unit) => counted(n, 'unit') + (unit ? ` (${inBytes(n, unit)})` : '');
// An offset in bytes, exactly: in the largest unit of which it has whole sixteenths.
const atBytes = n => {
  let v = n * S.unit, i = 0;
  while (i < 5 && v >= 1024 && v % 64 === 0) { v /= 1024; i++; }
  return `${whole(v)} ${BYTES[i]}`; };
const place = o => whole(o) + (S.unit && o ? ` (${atBytes(o)})` : '');
// Numbers of units, as they are and in bytes.
const amount = n => whole(n) + (S.unit ? ` (${inBytes(n)})` : '');
// What an alignment adds to a request in words; and what the numbers of an aligned request are, within parentheses.
const atMultiple = a => a > 1 ? ` at a multiple of ${units(a)}` : '';
const meaning = (n, a) => a > 1 ? ` (${[n, a].map(v => counted(v, 'unit') + (S.unit ? `, ${inBytes(v)}` : '')).join(`${S.unit ? ',' : ''} at a multiple of `)})` : '';
// The largest request at a multiple of `align` where `largest` is that without alignment: it may need one block more.
const largestAt = (align, largest, blocks, limit) => align === 1 ? largest : blocks + 3 > limit ? 0 : Math.max(0, largest - align + 1);
// The call that asks for as many units from any free block that holds them, and the name that it has in a program.
const tightOf = (n, align) => align > 1 ? [OP.tightAligned, n, align] : [OP.tight, n];
const tightName = align => align > 1 ? 'allocate_tight_aligned' : 'allocate_tight';
const boundsOf = c => [valueOf(c), Math.min(LARGEST, valueOf(c + 1) - 1)], between = ([least, most], shown) => most > least ? `${shown(least)} to ${shown(most)}` : shown(least);
const sizesOf = c => between(boundsOf(c), whole), bytesOf = c => S.unit ? between(boundsOf(c), inBytes) : '';
const isRefusal = (run, p) => p > 0 && run.row(p - 1)[0] === ANSWER.refused;
// The alignment that a grant was requested with: 1 where it was granted without.
const WITH_ALIGNMENT = [1, OP.tightAligned, OP.relocateAligned];
const alignmentOf = (run, k) => { const [op, , a] = run.call(run.born.list[k] - 1); return WITH_ALIGNMENT.includes(op) ? a : 1; };
// The step of a space after so many calls: the least common multiple of the alignments that were granted since it was made or
// reset. Ranges that slide by multiples of it keep them. `null` where it has more than 32 bits.
const gcd = (a, b) => { while (b) [a, b] = [b, a % b]; return a; };
function stepAt(run, p) {
  let step = run.firstStep;
  if (!run.stepped || run.stepped.count > run.count) {
    run.stepped = { count: run.count, list: [] };
    for (let i = 0; i < run.count; i++) {
      const op = run.calls.list[WIDE * i], kind = run.rows.list[8 * i];
      if (kind === ANSWER.reset) run.stepped.list.push([i + 1, step = 1]);
      else if (kind === ANSWER.grant && WITH_ALIGNMENT.includes(op) && step) {
        const a = run.calls.list[WIDE * i + 2], next = step / gcd(step, a) * a;
        if (next !== step) run.stepped.list.push([i + 1, step = next > LARGEST ? null : next]);
      }
    }
  }
  const found = run.stepped.list.findLast(([from]) => from <= p);
  return found ? found[1] : run.firstStep;
}
// What moves would break: ranges at offsets that are no multiples of the alignments that they were granted with, and ranges that
// were requested at a place. `moved` are numbers of grants, and where each begins then.
function brokenBy(run, moved) {
  const off = [], placed = [], begun = run.file ? begunAt(run) : 0;
  for (let j = 0; j < moved.length; j += 2) {
    const k = moved[j], a = alignmentOf(run, k), row = run.born.list[k];
    if (moved[j + 1] % a) off.push([k, a]);
    if (row > begun && run.call(row - 1)[0] === OP.at) placed.push(k);
  }
  const few = (list, said) => list.slice(0, MOST_NAMED).map(said).join(', ') + (list.length > MOST_NAMED ? `, and ${whole(list.length - MOST_NAMED)} more` : '');
  return [off.length ? `breaks the alignment of ${few(off, ([k, a]) => `${named(run, k)} (${whole(a)})`)}` : '',
    placed.length ? `moves ${few(placed, k => named(run, k))}, requested at a place` : ''].filter(text => text).join(', and ');
}
// A compaction after which calls succeed: by the step, which keeps the alignments; or, where that is not enough, a plain one, with
// what it would break.
function* compacted(out, run, p, then, calls = [out.call]) {
  const step = stepAt(run, p - 1);
  if (step > 1 && (yield* granted(run, p, [[OP.compactBy, step], ...calls])))
    return out.help(`compact ${step}: after it ${then}; ranges slide by multiples of ${units(step)}, so each keeps its alignment`, [[OP.compactBy, step], ...calls], { kind: 'compact' });
  const moved = yield* granted(run, p, [[OP.compact], ...calls]), broken = moved && brokenBy(run, moved);
  if (moved) out.help(`compact: after it ${then}${broken ? `; but it ${broken}` : step === 1 ? '' : '; here each range keeps its alignment'}`, [[OP.compact], ...calls], { kind: 'compact', breaks: Boolean(broken) });
}
// How a space is compacted: by its step, where it has one.
const slideOf = step => step > 1 ? [OP.compactBy, step] : [OP.compact];
// The free units at the end after a compaction by the step.
function* tailAfter(run, p) {
  if (!(yield* granted(run, p, [slideOf(stepAt(run, p - 1))]))) return null;
  const last = run.copy.play(Uint32Array.from(filled([OP.last])));
  if (last[0] !== ANSWER.beside) return run.sizeAt(p - 1);
  return run.sizeAt(p - 1) - last[2] - run.copy.play(Uint32Array.from(filled([OP.size, last[1]])))[3];
}
// What a compaction by the step does, where alignments were granted: a reason to read before the advice.
function* stepFact(out, run, p) {
  const step = stepAt(run, p - 1);
  if (step === 1) return;
  if (step === null) { out.facts.push(`no step of 32 bits keeps all alignments that were granted: no compaction keeps them`); return; }
  const moved = yield* granted(run, p, [slideOf(step)]);
  if (!moved) return;
  const largest = run.copy.play(Uint32Array.from(filled([OP.report])))[5];
  out.facts.push(`alignments are kept where ranges slide by multiples of ${units(step)} (the step): ` + (moved.length ?
    `compact ${step} moves ${counted(moved.length / 2, 'range')}, and the largest request granted without alignment is ${units(largest)} then` : `compact ${step} moves no range: each free block before one is smaller than that`));
}
const ofName = name => name ? ` “${name}”` : '';
const titleOfRefusal = (run, p) => `Row ${whole(p)}: ${said(...run.call(p - 1))}${ofName(run.callName(p - 1))} is refused`;
// A refused call, p the row after it: what it asked for, why it was refused, and what would have helped: a text, the calls in its
// place that show it, or the nodes that do, and the units that are outlined. A step at a time, as in a large space each takes
// its time.
function* explain(run, p) {
  const [op, a, b, ...more] = run.call(p - 1), before = run.view(p - 1), size = run.sizeAt(p - 1), name = NAMES[op];
  const out = { title: titleOfRefusal(run, p), facts: [], helps: [], call: [op, ...[a, b, ...more].slice(0, Math.max(2, KINDS[op].length))] };
  out.help = (text, calls = null, more = {}) => out.helps.push({ text, calls, ...more });
  if (op <= 1) yield* asked(out, run, p, a, op ? b : 1, before, size);
  else if (op === OP.at) yield* placed(out, run, p, a, b, before, size);
  else if (isTight(op)) yield* tight(out, run, p, a, b || 1, before, size);
  else if (name === 'extend') yield* extended(out, run, p, a, before, size);
  else if (name === 'retract') yield* retracted(out, run, p, before);
  else if (name === 'room') yield* unroomed(out, run, p, op, a, before, size);
  else if (name === 'compact') yield* unslid(out, run, p);
  else if (name === 'relocate') yield* unmoved(out, run, p, a, before);
  else yield* resized(out, run, p, op, a, b, before, size);
  if (!out.helps.length) out.help('nothing that was tried would have helped');
  return out;
}
const MOST_NAMED = 4, UNDONE = [ANSWER.refused, ANSWER.gone];
// Whether the last of these calls succeeds there: then what the first of them moves. A module of much memory is not copied.
function* granted(run, p, calls) {
  if (run.m.size() > 1 << 28) return null;
  while (run.nearer(p - 1)) yield;
  const m = run.copied();
  let kind = 0, moved = null;
  for (const c of calls) { yield; kind = m.play(Uint32Array.from(filled(c)))[0]; moved = moved || m.moved(); }
  yield;
  return UNDONE.includes(kind) ? null : moved;
}
// The answer to a question there, or null where the space is too large to be copied.
function* questioned(run, p, call) {
  if (run.m.size() > 1 << 28) return null;
  while (run.nearer(p - 1)) yield;
  return run.copied().play(Uint32Array.from(filled(call)));
}
// The neighbouring ranges of the fewest units, and of those the fewest, whose release leaves a free block that fits, from a unit to
// another: the first of them and the one after the last.
function cheapest(view, fits) {
  const { count, o, n, size } = view;
  let best = null, units = 0;
  for (let i = 0, j = 0; i < count; units -= n[i++]) {
    while (j < count && (j <= i || !fits(view.endOf(i - 1), o[j]))) units += n[j++];
    if (!fits(view.endOf(i - 1), j < count ? o[j] : size)) break;
    if (!best || units < best.units || (units === best.units && j - i < best.to - best.from)) best = { from: i, to: j, units };
  }
  return best;
}
// What would have to go for a request: ranges that are moved together, or released. `need` are the units of the block that it asks
// for, and `fits` says where it is served. The range of the grant `kept` stays where it is, and for it none is moved.
function* evicted(out, run, p, before, need, fits, request, isOut = run.row(p - 1)[7] === 1, kept = 0) {
  const list = ranges => ranges.slice(0, MOST_NAMED).map(b => `${named(run, b.k)} of ${units(b.n)}`).join(', ') +
    (ranges.length > MOST_NAMED ? `, and ${whole(ranges.length - MOST_NAMED)} more` : '');
  const one = (what, ranges, calls, style, more, kind, broken = '') => {
    const first = ranges[0], last = ranges.at(-1), end = last.o + last.n;
    out.help(`${what} ${counted(ranges.length, 'range')} of ${units(ranges.reduce((s, b) => s + b.n, 0))}, from ${place(first.o)} to ${place(end)} (${style}): ` +
      `${list(ranges)}; then it is granted${more}`, calls, { kind, breaks: Boolean(broken), cost: ranges.reduce((s, b) => s + b.n, 0), ranges, outline: [first.o, end - first.o, style === 'dashed'] });
  };
  const step = stepAt(run, p - 1), [n, align] = request, byStep = step && (step > 1 || align > 1) ? [OP.roomBy, n, align, step] : null;
  for (const room of byStep ? [byStep, [OP.room, need]] : [[OP.room, need]]) {
    const moved = need <= LARGEST && !kept ? yield* granted(run, p, [room, out.call]) : null;
    if (!moved) continue;
    const broken = room === byStep ? '' : brokenBy(run, moved), said = room !== byStep ? (broken ? `; but it ${broken}` : '') : step > 1 ? `; by multiples of ${units(step)}, so each keeps its alignment` : '';
    if (moved.length) one('move', [...moved].filter((_, i) => i % 2 === 0).map(k => run.rangeOf(k, p - 1)), [room, out.call], 'outlined', said, 'move', broken);
    break;
  }
  // at the node limit a release between free blocks gives up nodes
  const isShort = isOut && before.anyFree((o, n) => fits(o, o + n)), free = i => (before.before(i) > 0) + (before.before(i + 1) > 0);
  const places = isShort ? [1, 2].map(least => [...before.n.keys()].filter(i => free(i) >= least && before.at(i).k !== kept).sort((i, j) => before.n[i] - before.n[j])[0]).filter(i => i !== undefined)
    .map(i => ({ from: i, to: i + 1 })) : [cheapest(before, fits)].filter(run => run);
  for (const { from, to } of places) {
    const ranges = Array.from({ length: to - from }, (_, i) => before.at(from + i)), calls = [...ranges.map(b => [OP.free, b.k]), out.call];
    if (yield* granted(run, p, calls)) { one('release', ranges, calls, 'dashed', '', 'release'); break; }
  }
}
function* asked(out, run, p, n, align, before, size) {
  const need = n + align - 1, call = run.call(p - 1), limit = run.head[1], [, , , , free, largest, count, why] = run.row(p - 1);
  const { largest: big, units: all } = before.free;
  if (need > LARGEST) {
    out.facts.push(`${units(n)}${atMultiple(align)} need a block of ${amount(need)}: more than any space has`);
    return;
  }
  const c = roundedUp(need), value = valueOf(c);
  const step = stepAt(run, p - 1), reason = why === 4 && step !== 1 ? 'no free block is large enough' : REASONS[why];
  const tightCall = tightOf(n, align), isTightGranted = why !== 1 && n > 0 && (align > 1 || big >= n) && (yield* granted(run, p, [tightCall]));
  out.facts.push(isTightGranted ? `${reason}: for the request rounded up${align > 1 ? ' with its alignment' : ''}. A tight request (${tightName(align)}) would be granted` : reason);
  const aligned = align > 1 ? `${atMultiple(align)}, so a block for ${amount(need)}` : '', most = largestAt(align, largest, count, limit);
  out.facts.push(`asked: ${units(n)}${aligned}; rounded up to class ${c}: ` +
    (c < BINS ? units(value) : 'more than any block has'));
  out.facts.push(`largest free block: ${units(big)}; free in all: ${units(all)}; largest request granted now${align > 1 ? `${atMultiple(align)}: ${units(most)}; without alignment` : ' without alignment'}: ${units(largest)}${largest > 0 && largest < big ? ', since requests are rounded up' : ''}`);
  out.facts.push(`blocks: ${whole(count)} of at most ${whole(limit - 1)}`);
  if (why === 4) yield* stepFact(out, run, p);
  yield* compacted(out, run, p, 'the request is granted');
  const more = value - before.tail;
  if (c < BINS && more > 0 && size + more <= LARGEST && (yield* granted(run, p, [[7, more], call])))
    out.help(`${units(more)} more space (extend ${more}): then it is granted`, [[7, more], out.call], { kind: 'extend', cost: more });
  else if (c < BINS && value > all) yield* compactedAndExtended(out, run, p, tail => value - tail);
  if (why === 1 && big >= value)
    out.help(`more nodes: a limit of ${whole(count + (align > 1 ? 3 : 2))} (it is ${whole(limit)}), where the calls before stay the same`, null, { nodes: count + (align > 1 ? 3 : 2) });
  if (why === 1 && big < value) out.help('more nodes alone would not do: no free block is large enough');
  if (isTightGranted) out.help(`${said(...tightCall)} in its place (${tightName(align)}): a free block ${align > 1 ? `holds the ${units(n)} from a multiple of ${units(align)} on` : `has the ${units(n)}, but not the rounded ones`}`, [tightCall], { kind: 'tight' });
  if (align > 1 && why !== 1 && (yield* granted(run, p, [[0, n]])))
    out.help('no alignment: alloc of the same units is granted. A unit as large as the alignment needs none', [[0, n]]);
  if (most > 0 && most < n) out.help(`a smaller request: at most ${units(most)}${atMultiple(align)}`, [align > 1 ? [1, most, align] : [0, most]], { kind: 'smaller', cost: -most });
  if (c < BINS) yield* evicted(out, run, p, before, need, (from, to) => to - from >= value, [n, align]);
}
// A compaction by the step, and as many units more as the end lacks after it, which a function of its free units says.
function* compactedAndExtended(out, run, p, lack) {
  const tail = yield* tailAfter(run, p), more = tail === null ? 0 : lack(tail), slide = slideOf(stepAt(run, p - 1)), calls = [slide, [7, more], out.call];
  if (more > 0 && run.sizeAt(p - 1) + more <= LARGEST && (yield* granted(run, p, calls)))
    out.help(`${said(...slide)}, and ${units(more)} more space (extend ${more}): then it is granted`, calls, { kind: 'extend', cost: more });
}
const blocksOf = (run, p) => `${whole(run.row(p - 1)[6])} of at most ${whole(run.head[1] - 1)}`;
// A request that takes any block that holds it: what is free at the end has to hold it from a multiple of `align` on.
function* tight(out, run, p, n, align, before, size) {
  const call = run.call(p - 1), [, , , , , , count, why] = run.row(p - 1), { free, tail } = before, from = o => Math.ceil(o / align) * align, step = stepAt(run, p - 1);
  const lacks = from(size - tail) + n - size, later = from(size - free.units) + n - size;
  const isHeld = before.anyFree((o, room) => from(o) + n <= o + room);
  out.facts.push(why === 4 && step !== 1 ? 'no free block holds it' : REASONS[why], `asked: ${units(n)}${atMultiple(align)}, not rounded up`);
  out.facts.push(`largest free block: ${units(free.largest)}; free in all: ${units(free.units)}`);
  out.facts.push(`blocks: ${blocksOf(run, p)}`);
  if (why === 4) yield* stepFact(out, run, p);
  yield* compacted(out, run, p, 'the request is granted');
  if (lacks > 0 && size + lacks <= LARGEST && (yield* granted(run, p, [[7, lacks], call])))
    out.help(`${units(lacks)} more space (extend ${lacks}): then it is granted`, [[7, lacks], out.call], { kind: 'extend', cost: lacks });
  else if (later > 0) yield* compactedAndExtended(out, run, p, tail => from(size - tail) + n - size);
  if (why === 1 && isHeld)
    out.help(`more nodes: a limit of ${whole(count + (align > 1 ? 3 : 2))} (it is ${whole(run.head[1])}), where the calls before stay the same`, null, { nodes: count + (align > 1 ? 3 : 2) });
  else if (why === 1) out.help('more nodes alone would not do: no free block is large enough');
  yield* evicted(out, run, p, before, n + align - 1, (o, to) => from(o) + n <= to, [n, align]);
}
// A request at a place: what is in its way.
function* placed(out, run, p, o, n, before, size) {
  const end = o + n, call = run.call(p - 1), first = Math.max(0, before.upTo(o) - 1), inTheWay = [];
  for (let i = first; i < before.count && before.o[i] < Math.max(end, o + 1); i++) if (before.endOf(i) > o && before.o[i] < end) inTheWay.push(before.at(i));
  out.facts.push(`asked: ${units(n)} from ${place(o)} on; the space has ${units(size)}`);
  if (end > size) {
    out.facts.push(`it ends at ${place(end)}, behind the space`);
    if (end <= LARGEST && (yield* granted(run, p, [[7, end - size], call]))) out.help(`${units(end - size)} more space (extend ${end - size}): then it is granted`, [[7, end - size], out.call]);
  }
  if (inTheWay.length) {
    out.facts.push(`in its way: ${inTheWay.slice(0, MOST_NAMED).map(b => `${named(run, b.k)} at ${place(b.o)}, ${units(b.n)}`).join('; ')}` +
      (inTheWay.length > MOST_NAMED ? `; and ${whole(inTheWay.length - MOST_NAMED)} more` : ''));
    const calls = [...inTheWay.map(b => [OP.free, b.k]), out.call], [a, z] = [inTheWay[0], inTheWay.at(-1)];
    if (yield* granted(run, p, calls)) out.help(`release ${counted(inTheWay.length, 'range')} (dashed): then it is granted`, calls, { outline: [a.o, z.o + z.n - a.o, true] });
  } else if (end <= size) {
    out.facts.push(`one free block has these units, but a node is lacking; blocks: ${blocksOf(run, p)}`);
    const limit = run.row(p - 1)[6] + 3;
    out.help(`more nodes: a limit of ${whole(limit)} (it is ${whole(run.head[1])}), where the calls before stay the same`, null, { nodes: limit });
  }
  if (n > 0 && (yield* granted(run, p, [[0, n]]))) out.help(`alloc ${n} in its place: elsewhere as many units are granted`, [[0, n]]);
  else if (n > 0 && (yield* granted(run, p, [[OP.tight, n]]))) out.help(`tight ${n} in its place: elsewhere as many units are granted`, [[OP.tight, n]]);
}
function* retracted(out, run, p, before) {
  const { last, tail: free } = before;
  out.facts.push(free ? `at its end ${units(free)} ${free === 1 ? 'is' : 'are'} free` :
    `its last block is used${last ? ` (${named(run, last.k)})` : ''}`);
  if (free) out.help(`at most ${units(free)} fewer (retract ${free})`, [[OP.retract, free]]);
  yield* compacted(out, run, p, 'the space can be retracted');
}
// Room that no moves make.
function* unroomed(out, run, p, op, n, before, size) {
  const call = run.call(p - 1), all = before.free.units, value = valueOf(roundedUp(n)), more = value - all;
  const request = op === OP.room ? `alloc ${n}` : `align ${n} ${call[2]}`;
  out.facts.push(`free in all: ${units(all)}; no moves make a block of them that serves ${request}`);
  out.facts.push(`blocks: ${blocksOf(run, p)}`);
  if (op === OP.room && roundedUp(n) < BINS && more > 0 && size + more <= LARGEST && (yield* granted(run, p, [[7, more], call])))
    out.help(`${units(more)} more space (extend ${more}): then room is made`, [[7, more], out.call]);
  yield* compacted(out, run, p, 'there is room');
}
// A compaction by steps that lacks a node.
function* unslid(out, run, p) {
  out.facts.push(`no further block may exist for the units that the ranges leave: ${blocksOf(run, p)}`);
  out.help(`more nodes: a limit of ${whole(run.head[1] + 1)}`, null, { nodes: run.head[1] + 1 });
  const moved = yield* granted(run, p, [[OP.compact], run.call(p - 1)]), broken = moved && brokenBy(run, moved);
  if (moved) out.help(`compact: after it nothing is left to slide${broken ? `; but it ${broken}` : ''}`, [[OP.compact]]);
}
// A second range takes the block that a request of as many units takes, where that is before the first one.
function* unmoved(out, run, p, k, before) {
  const block = before.of(k), [op, , a] = run.call(p - 1), align = op === OP.relocateAligned ? a : 1;
  if (!block) return;
  const { n, o } = block, need = n + align - 1, count = run.row(p - 1)[6], limit = run.head[1], c = roundedUp(Math.min(LARGEST, need)), value = valueOf(c);
  const answer = need > LARGEST ? null : yield* questioned(run, p, align > 1 ? [OP.whyAlign, n, align] : [OP.whyAlloc, n]);
  const isOut = answer ? answer[3] === 1 : count >= limit - 1, fits = (from, to) => to - from >= value && to <= o;
  // the block that is taken is of the least class that serves, and of these the newest
  let least = BINS, largest = 0;
  before.anyFree((at, room) => { if (room >= value) least = Math.min(least, classOf(room)); if (at < o) largest = Math.max(largest, room); return false; });
  const [isBefore, isAfter] = [true, false].map(side => before.anyFree((at, room) => room >= value && classOf(room) === least && at < o === side));
  const lacks = 'no free block before it is large enough', hasRoom = largest >= value && need <= LARGEST;
  if (isOut && o > 0) out.facts.push(REASONS[1]);
  out.facts.push(`${named(run, k)} has ${units(n)}, at ${place(o)}`);
  if (o === 0) out.facts.push('it begins where the space begins: no place is before it');
  else if (!hasRoom) out.facts.push(`${lacks}: this is how emptying the end stops`);
  else if (!isOut) out.facts.push('a free block before it is large enough, but a request of as many units takes another, after it: of the least size class that serves, the newest');
  if (o > 0) out.facts.push(`asked: ${units(n)}${align > 1 ? `${atMultiple(align)}, so a block for ${amount(need)}` : ''}; ` +
    `rounded up to class ${c}: ${c < BINS && need <= LARGEST ? units(value) : 'more than any block has'}; largest free block before it: ${units(largest)}`);
  out.facts.push(`blocks: ${blocksOf(run, p)}`);
  const nodes = count + (align > 1 ? 3 : 2);
  if (isOut && hasRoom && isBefore && !isAfter) out.help(`more nodes: a limit of ${whole(nodes)} (it is ${whole(limit)}), where the calls before stay the same`, null, { nodes });
  else if (isOut && hasRoom && isBefore) out.help(`a limit of ${whole(nodes)} nodes (it is ${whole(limit)}) may do: of two free blocks that serve it, one after it, the newest is taken`, null, { nodes });
  else if (isOut && o > 0) out.help(`more nodes alone would not do: ${hasRoom ? 'the free block that is taken is after it' : lacks}`);
  if (o > 0 && need <= LARGEST && c < BINS) yield* evicted(out, run, p, before, need, fits, [n, align], isOut, k);
  yield* elsewhere(out, run, p, k, n, align);
}
// A second range for that of a grant, at the alignment that the grant was requested with.
function* elsewhere(out, run, p, k, n, align = 1) {
  const a = align > 1 ? align : alignmentOf(run, k), call = a > 1 ? [1, n, a] : [0, n];
  if (yield* granted(run, p, [call])) out.help(`another range: ${said(...call)} is granted; copy, then free ${k}`, [call, [OP.free, k]]);
}
function* extended(out, run, p, more, before, size) {
  if (size + more > LARGEST) {
    out.facts.push(`the space would have ${units(size + more)}, more than ${whole(LARGEST)}`);
    if (size < LARGEST) out.help(`at most ${units(LARGEST - size)} more`, [[7, LARGEST - size]]);
    return;
  }
  const count = run.row(p - 1)[6], limit = run.head[1], { last } = before;
  out.facts.push(`its last block is used${last ? ` (${named(run, last.k)})` : ''}, and no further block may exist: ` +
    `${whole(count)} of at most ${whole(limit - 1)}`);
  out.help(`more nodes: a limit of ${whole(limit + 1)}`, null, { nodes: limit + 1 });
  yield* compacted(out, run, p, 'the space can be extended');
}
function* resized(out, run, p, op, k, n, before, size) {
  const block = before.of(k);
  if (!block) return;
  const room = before.before(block.i + 1), next = room ? null : before.at(block.i + 1);
  const lack = n - block.n;
  out.facts.push(`${named(run, k)} has ${units(block.n)}, at ${place(block.o)}`);
  if (op === 8) {
    if (n > block.n) { out.facts.push(`${amount(n)} is more: shrink makes no range larger`);
      if (yield* granted(run, p, [[9, k, n]])) out.help(`grow ${k} ${n} in its place`, [[9, k, n]]);
      return; }
    out.facts.push(`no further block may exist for the units after it, and no free block is directly after it`);
    out.help(`more nodes: a limit of ${whole(run.head[1] + 1)}`, null, { nodes: run.head[1] + 1 });
    yield* compacted(out, run, p, 'the range can shrink');
    return;
  }
  if (lack < 0) { out.facts.push(`${amount(n)} is fewer: grow makes no range smaller`);
    if (yield* granted(run, p, [[8, k, n]])) out.help(`shrink ${k} ${n} in its place`, [[8, k, n]]);
    return; }
  if (room) out.facts.push(`directly after it ${units(room)} ${room === 1 ? 'is' : 'are'} free, and it lacks ${amount(lack)}`);
  else out.facts.push(next ? `directly after it is ${named(run, next.k)}, with ${units(next.n)}` : 'it ends where the space ends');
  const isLast = block.i === before.last.i;
  if (isLast && (yield* granted(run, p, [[7, lack - room], run.call(p - 1)])))
    out.help(`${units(lack - room)} more space (extend ${lack - room}): then it grows`, [[7, lack - room], out.call]);
  yield* compacted(out, run, p, 'the range can grow');
  yield* elsewhere(out, run, p, k, n);
}
// A grant as the page names it.
const named = (run, k) => `grant ${k}${ofName(run.nameOf(k))}`;
// A call whose grant is not live: since when.
function whyGone(run, p) {
  const k = run.call(p - 1)[1];
  if (k === 0 || k >= run.born.length || run.born.list[k] > p) return `no grant has the number ${whole(k)} there`;
  const to = run.died.list[k];
  return to < p ? `${named(run, k)} ended in row ${whole(to)}: ${answered(run, to - 1)}` : '';
}
