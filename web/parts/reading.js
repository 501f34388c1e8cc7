// Texts to calls. A text is a script, or a recording: a script of any length with a line for each other call too.
const PIECE = 1 << 16, WIDE = 5, READ = 8;
// What a row has in place of a call: see lib.rs.
const OTHER = { header: 255, heap: 254, drop: 253, giveUp: 252, refused: 251, kept: 250, gone: 249, mark: 248 };
// Each call by its kind: its word, and a letter for each of its numbers: units `n`, alignment `a`, grant `k`, step `s`, units
// or an offset that a larger unit rounds down `d`, and a count `c`.
const CALLS = [['alloc', 'n'], ['align', 'na'], ['free', 'k'], ['size', 'k'], ['report', ''], ['full', ''], ['reset', ''],
  ['extend', 'd'], ['shrink', 'kn'], ['grow', 'kn'], ['compact', ''], ['compact', 's'], ['compact', 'sddc'], ['tight', 'n'],
  ['tight', 'na'], ['room', 'n'], ['room', 'nas'], ['relocate', 'k'], ['relocate', 'ka'], ['retract', 'd'], ['offset', 'k'],
  ['where', 'n'], ['where', 'na'], ['first', ''], ['last', ''], ['before', 'k'], ['after', 'k'], ['cost', 'n'], ['cost', 'nas'],
  ['why alloc', 'n'], ['why align', 'na'], ['why tight', 'n'], ['why tight', 'na'], ['at', 'dn']];
const NAMES = CALLS.map(c => c[0]), KINDS = CALLS.map(c => c[1]), OP = { free: 2, compact: 10, compactBy: 11, within: 12, tight: 13, tightAligned: 14, room: 15, roomBy: 16, relocate: 17, relocateAligned: 18, retract: 19, whyAlloc: 29, whyAlign: 30, at: 33, size: 3, report: 4, last: 24 };
const isOnGrant = op => KINDS[op][0] === 'k', isTight = op => op === OP.tight || op === OP.tightAligned;
const isRelocation = op => NAMES[op] === 'relocate', isSlide = op => ['compact', 'room'].includes(NAMES[op]);
const said = (op, ...of) => [NAMES[op], ...of.slice(0, KINDS[op].length)].join(' ');
// The calls that make a space what it was when its recording began.
const BEGINS = ['at', 'shrink', 'free', 'retract'];
// The units that a request asks for, or null for another call.
const unitsAsked = (op, a, b) => op === OP.at ? b : KINDS[op][0] === 'n' ? a : null;
const filled = call => [...call, 0, 0, 0, 0].slice(0, WIDE);
class Growing {
  constructor(type, size) { this.list = new type(size); this.length = 0; }
  // Makes room for so many more.
  reserve(more) {
    if (this.length + more <= this.list.length) return;
    const list = new this.list.constructor(2 * this.list.length + more);
    list.set(this.list); this.list = list;
  }
  push(v) { if (this.length === this.list.length) this.reserve(1); this.list[this.length++] = v; }
  append(values) { this.reserve(values.length); this.list.set(values, this.length); this.length += values.length; }
  whole() { return this.list.subarray(0, this.length); }
  copy(length) {
    const c = new Growing(this.list.constructor, 0);
    c.list = this.list.slice(0, length + 256); c.length = length;
    return c;
  }
}
// The numbers below `count` in the order of their keys, which are below 2 to the 32nd; those of one key in their own order.
const MOST_KEYED = 2 ** 21;
function inOrder(count, key) {
  const order = new Uint32Array(count);
  if (count > MOST_KEYED) { for (let i = 0; i < count; i++) order[i] = i; return order.sort((i, j) => key(i) - key(j) || i - j); }
  const keyed = new Float64Array(count);
  for (let i = 0; i < count; i++) keyed[i] = key(i) * MOST_KEYED + i;
  keyed.sort();
  for (let i = 0; i < count; i++) order[i] = keyed[i] - Math.floor(keyed[i] / MOST_KEYED) * MOST_KEYED;
  return order;
}
// A text: its parts, each a space with its calls, their lines and names; its marks; and the calls that changed no heap of many.
// A part is the recording of one space: of one heap of many, or of what takes the place of the one before.
class Part {
  constructor(heap, head, from, title) {
    Object.assign(this, { heap, head, from, title, calls: new Growing(Uint32Array, 8 * WIDE), lines: new Growing(Uint32Array, 8), names: new Map(), given: [], drops: [], begun: 0, isFresh: true, to: null, end: '', before: null, refused: new Uint32Array(0) });
  }
  run(m) { return Object.assign(new Run(this.head, this.calls, this.names, this.lines, m), { given: this.given, firstStep: this.firstStep || 1 }); }
}
async function readText(bytes, work) {
  const m = new Module(), decoder = new TextDecoder(), one = new Map(), file = { parts: [], marks: [], others: [], isMany: false, isDump: false, lines: 0, unit: 0, units: new Map() }, open = new Map(), seen = new Map();
  // the part of the last call, and whether all calls so far are of beginnings
  let last = null, isFirst = true;
  const bad = line => new Fault(`line ${line}: bad command`, line, ...spanOf(bytes, line));
  let at = 0, part = 0;
  do {
    let end = Math.min(bytes.length, at + PIECE);
    if (end < bytes.length) {
      const lf = bytes.lastIndexOf(10, end - 1);
      if (lf >= at) end = lf + 1; else { const on = bytes.indexOf(10, end); end = on < 0 ? bytes.length : on + 1; }
    }
    let found;
    try { found = m.read(bytes.subarray(at, end), part, end === bytes.length); } catch (fault) {
      if (fault instanceof Fault) { fault.from += at; fault.to += at; }
      throw fault;
    }
    const [rows, text] = found, ascii = decoder.decode(text), isAscii = ascii.length === text.length;
    for (let i = 0, t = 0; i < rows.length; i += READ) {
      const kind = rows[i], line = rows[i + WIDE], name = rows[i + WIDE + 1], heap = rows[i + WIDE + 2];
      let word = '';
      if (name) {
        word = isAscii ? ascii.slice(t, t + name) : decoder.decode(text.subarray(t, t + name)); t += name;
        // a name that many ranges have is kept once
        if (one.has(word)) word = one.get(word); else one.set(word, word);
      }
      file.lines = line;
      if (kind < OTHER.mark) {
        const of = open.get(heap);
        if (!of) throw bad(line);
        if (of.drops.length && of.drops.at(-1).next === null) of.drops.at(-1).next = line;
        if (name) of.names.set(of.lines.length, word);
        of.calls.reserve(WIDE);
        for (let j = 0; j < WIDE; j++) of.calls.list[of.calls.length++] = rows[i + j];
        of.lines.push(line);
        last = of; of.isFresh &&= BEGINS.includes(NAMES[kind]); isFirst &&= of.isFresh;
      } else if (kind === OTHER.header || kind === OTHER.heap) {
        const before = open.get(heap), isMore = before && !before.drops.length;
        const next = new Part(kind === OTHER.heap ? heap : null, [rows[i + 1], rows[i + 2], rows[i + 3]], line, word || (isMore ? before.title : ''));
        if (isMore) next.before = before;
        if (before) Object.assign(before, { to: before.drops.length ? before.drops.at(-1).line : line, end: before.drops.length ? 'dropped' : 'replaced' });
        file.isMany ||= kind === OTHER.heap;
        // how many before it have its number
        next.same = seen.get(next.heap) || 0; seen.set(next.heap, next.same + 1);
        open.set(heap, next); file.parts.push(next);
      } else if (kind === OTHER.drop) { const of = open.get(heap); if (of) of.drops.push({ line, p: of.lines.length, next: null });
      } else if (kind === OTHER.giveUp) {
        const of = open.get(heap);
        if (of) { of.to = line; of.end = 'given up'; open.delete(heap); }
      } else if (kind === OTHER.mark && /^unit \d{1,10}( heap \d{1,10})?$/.test(word)) {
        const [, bytes, , of] = word.split(' '), unit = Math.min(LARGEST, Number(bytes));
        // without a heap it is of all
        if (of) file.units.set(Number(of), unit); else { file.unit = unit; file.units.clear(); }
      }
      else if (kind === OTHER.mark && word === 'dump') file.isDump = true;
      else if (kind === OTHER.mark && /^(heap \d{1,10} )?name \d{1,10} ./.test(word)) {
        // the name of a grant, after it; of many heaps it says of which
        const [, heap, k, name] = /^(?:heap (\d+) )?name (\d+) +(.*)$/s.exec(word), of = file.isMany === (heap !== undefined) ? open.get(Number(heap || 0)) : null;
        if (!one.has(name)) one.set(name, name);
        if (of) of.given.push([Number(k), one.get(name), of.lines.length]);
      } else if (kind === OTHER.mark) {
        file.marks.push(marked(file.marks.at(-1), line, word));
        // what is before it is no call of the program's: of all heaps where the file begins, and later of the one that begins anew
        if (word === 'begun') for (const of of isFirst ? file.parts : [last]) if (of?.isFresh) Object.assign(of, { begun: of.lines.length, isFresh: false });
      }
      else { file.isMany = true; file.others.push({ line, kind, n: rows[i + 1], a: rows[i + 2], why: rows[i + 3], isTight: rows[i + 4] === 1, name: word }); }
    }
    at = end; part = 1;
    await work.turn(at, bytes.length);
  } while (at < bytes.length);
  if (!file.parts.length) throw new Fault(`no heap begins: each of ${counted(file.others.length, 'call')} changed none`);
  for (const of of file.parts) {
    of.calls = of.calls.whole(); of.lines = of.lines.whole();
    if (of.to === null && of.drops.length && of.drops.at(-1).next === null) { of.to = of.drops.at(-1).line; of.end = 'dropped'; }
  }
  return file;
}
// Where a line begins and ends in a text.
function spanOf(bytes, line) {
  let at = 0;
  for (let i = 1; i < line; i++) at = bytes.indexOf(10, at) + 1;
  const end = bytes.indexOf(10, at);
  return [at, end < 0 ? bytes.length : end];
}
const quoted = line => '“' + new TextDecoder('utf-8', { ignoreBOM: true }).decode(line.subarray(0, 80)).replace(/^\ufeff|\r.*/gs, '') +
  (line.length > 80 ? '…”' : '”');
const begins = (bytes, ...first) => first.every((b, i) => bytes[i] === b);
const isWide = bytes => begins(bytes, 0xff, 0xfe) || begins(bytes, 0xfe, 0xff);
// What a fault of a text says: the words of the program, the line itself, what else the file is, what is wrong with line
// ends, and numbers that no call has.
function explained(fault, bytes) {
  const line = bytes.subarray(fault.from, fault.to), bom = begins(bytes, 0xef, 0xbb, 0xbf);
  const kind = begins(bytes, 0x89, 0x50, 0x4e, 0x47) ? 'a picture (PNG)' : begins(bytes, 0x1f, 0x8b) ? 'compressed (gzip)' :
    begins(bytes, 0x50, 0x4b, 3, 4) ? 'an archive (ZIP)' : isWide(bytes) ? 'in UTF-16' : '';
  const quote = kind ? '' : line.length ? `: ${quoted(line)}` : fault.line ? ': the text ends there' : '';
  const why = [bom && fault.from === 0 ? 'The text begins with a byte order mark (BOM)' : '',
    bytes.includes(10) ? (line.at(-1) === 13 ? 'Its lines end with CR LF' : '') : line.includes(13) ? 'Its lines end with CR' : ''].filter(s => s).join('; ');
  const isLarge = quote && quote.match(/\d+/g)?.some(n => Number(n) > LARGEST);
  return { text: fault.message + quote + (kind ? `. It is ${kind}; a script is a text in UTF-8.` : why ? `. ${why}; a script has neither.` : '') +
    (isLarge ? `${why ? '' : '.'} A number is above ${whole(LARGEST)}.` : ''), canMend: why !== '' && !kind || isWide(bytes), isText: !kind };
}
// A text in UTF-8, without BOM and CR before line ends; where CR alone ends lines, LF in its place.
function mended(given) {
  const bytes = isWide(given) ? new TextEncoder().encode(new TextDecoder(given[0] === 0xff ? 'utf-16le' : 'utf-16be').decode(given)) : given;
  const from = begins(bytes, 0xef, 0xbb, 0xbf) ? 3 : 0;
  if (!bytes.includes(10)) return bytes.subarray(from).map(b => b === 13 ? 10 : b);
  return bytes.subarray(from).filter((b, i, all) => b !== 13 || (all[i + 1] !== 10 && i + 1 < all.length));
}
// How many bytes a unit of a heap has, as the file says; or 0.
const unitIn = (file, { heap }) => file.units.get(heap) ?? file.unit;
// The text of calls as a file: what reads as them again.
async function writeText(run, work) {
  const unit = run.file ? unitIn(run.file, run.part) : 0, flags = flagsOf(run);
  let piece = ''; const parts = [], put = text => { piece += text; if (piece.length > PIECE) { parts.push(piece); piece = ''; } };
  put(`space ${run.head[0]} nodes ${run.head[1]} index ${run.head[2]}\n${unit ? `#! unit ${unit}\n` : ''}${run.file?.isDump ? '#! dump\n' : ''}`);
  for (let i = 0, mark = 0; i <= run.count; i++) {
    for (; mark < flags.length && flags[mark] <= i; mark++) if (run.file.marks[mark].line > run.part.from) put(`#! ${run.file.marks[mark].text}\n`);
    if (i === run.count) break;
    const name = run.callName(i);
    put((name ? `# ${name}\n` : '') + said(...run.call(i)) + '\n');
    if (i % 1024 === 0) await work.turn(i, run.count);
  }
  return new Blob([...parts, piece]);
}
