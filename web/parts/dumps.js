// Dumps of the Vulkan Memory Allocator, of ours in its form, and JSON of ours, of many heaps too: as recordings with a heap for each block of memory,
// whose ranges are requested at their places.
const isDump = bytes => { let i = begins(bytes, 0xef, 0xbb, 0xbf) ? 3 : 0; while ([9, 10, 13, 32].includes(bytes[i])) i++; return bytes[i] === 0x7b; };
const MOST_DUMPED = 1e6, MOST_DEEP = 12;
// The text of a dump. It says how many bytes a unit has, where the dump is in bytes.
function dumpText(bytes) {
  let dump;
  try { dump = JSON.parse(new TextDecoder().decode(bytes)); } catch (fault) { throw new Fault(`a text that begins with { is read as a dump, and is no JSON: ${fault.message}`); }
  const blocks = [], isObject = v => v !== null && typeof v === 'object';
  let all = 0;
  const number = (v, what, where) => {
    if (!Number.isSafeInteger(v) || v < 0) throw new Fault(`${where}: ${what} is no number of bytes`);
    return v; };
  const add = (title, size, ranges, limit = 0) => { if ((all += ranges.length + 1) > MOST_DUMPED) throw new Fault('the dump has more than a million ranges'); blocks.push({ title, size, ranges, limit }); };
  const word = v => typeof v === 'string' ? v : '';
  const rangeOf = (r, where) => {
    if (!isObject(r)) throw new Fault(`${where}: a range is no object`);
    const type = word(r.Type) || 'range', name = word(r.Name) || word(r.CustomData) || (typeof r.name === 'number' ? `range ${r.name}` : word(r.name));
    return { o: number(r.Offset ?? r.offset ?? 0, 'Offset', where), n: number(r.Size ?? r.size, 'Size', where), name: r.name !== undefined ? name : name ? `${type}: ${name}` : type }; };
  const walk = (v, path, isBlocks = false) => {
    const where = path.join(', ') || 'the dump';
    if (path.length > MOST_DEEP) throw new Fault(`${where}: too deep`);
    if (Array.isArray(v.Suballocations)) {
      const ranges = v.Suballocations.filter(r => isObject(r) ? r.Type !== 'FREE' : true).map(r => rangeOf(r, where));
      return add(where, number(v.TotalBytes ?? v.Suballocations.reduce((m, r) => Math.max(m, r.Offset + r.Size), 0), 'TotalBytes', where), ranges);
    }
    if (Array.isArray(v.blocks) && v.size !== undefined)
      // more nodes than blocks are needed to request them again
      return add(path.length ? where : 'the space', number(v.size, 'size', where), v.blocks.filter(r => isObject(r) ? r.name !== undefined : true).map(r => rangeOf(r, where)),
        Number.isInteger(v.max_allocs) && v.max_allocs > v.blocks.length + 2 && v.max_allocs < LARGEST - 1 ? v.max_allocs : 0);
    for (const [key, inner] of Object.entries(v)) {
      if (key === 'DedicatedAllocations' && Array.isArray(inner))
        for (const [i, r] of inner.entries()) { const range = rangeOf(r, where); add([...path, `dedicated ${i}`].join(', '), range.n, [{ ...range, o: 0 }]); }
      else if (isObject(inner) && key === 'space' && Number.isInteger(v.number)) walk(inner, [`number ${v.number}`]);
      else if (isObject(inner)) walk(inner, key === 'Blocks' ? path : [...path, word(inner.Name) || (isBlocks ? `block ${key}` : key)], key === 'Blocks');
    }
  };
  walk(dump, []);
  if (!blocks.length) throw new Fault('the JSON has no block with Suballocations, or with blocks: it is no dump');
  const isVma = isObject(dump.General) && Object.keys(dump.General).some(key => key !== 'API') || blocks.some(b => b.title.includes('dedicated'));
  // what is larger than a space may be is counted in larger units
  let unit = 1;
  if (blocks.some(b => b.size > LARGEST)) {
    unit = 0;
    for (const b of blocks) { unit = gcd(unit, b.size); for (const r of b.ranges) unit = gcd(gcd(unit, r.o), r.n); }
    if (blocks.some(b => b.size / unit > LARGEST)) throw new Fault(`a block has more than ${whole(LARGEST)} units of ${whole(unit)}, which divide all its numbers`);
  }
  const lines = [], isOne = blocks.length === 1, clean = text => text.replace(/[\r\n]/g, ' ').slice(0, 200);
  for (const [i, { title, size, ranges, limit }] of blocks.entries()) {
    const before = isOne ? '' : `heap ${i} `;
    ranges.sort((a, b) => a.o - b.o || a.n - b.n);
    lines.push(`# ${clean(title)}`, `${before}space ${size / unit} nodes ${limit || 2 * ranges.length + 4} index 32`);
    let end = 0;
    for (const r of ranges) {
      if (r.o < end || r.o + r.n > size) throw new Fault(`${title}: the range at ${whole(r.o)}, of ${whole(r.n)}, ${r.o < end ? 'overlaps the one before' : 'ends behind the block'}`);
      end = r.o + r.n;
      lines.push(`# ${clean(r.name)}`, `${before}at ${r.o / unit} ${r.n / unit}`);
    }
  }
  if (isVma || unit > 1) lines.unshift(`#! unit ${unit}`);
  if (isVma) lines.unshift('#! dump');
  return lines.join('\n') + '\n';
}
