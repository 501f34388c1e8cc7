// The lists: calls and answers, live ranges, sizes, size classes. Only the rows that are visible are made.
const LINE = 22, MOST_HEIGHT = 8e6;
class List {
  // draw(element, row) fills a row; pick(row, className) is called where one is chosen, by a click on what has the classes.
  constructor(id, draw, pick) {
    Object.assign(this, { box: $(id), draw, pick, count: 0, chosen: -1, first: 0 });
    this.sheet = document.createElement('div'); this.sheet.className = 'sheet';
    this.box.append(this.sheet);
    this.box.tabIndex = 0; this.box.setAttribute('role', 'listbox');
    this.box.onscroll = () => this.paint();
    this.box.onclick = event => { const row = event.target.closest('[data-row]'); if (row) this.choose(Number(row.dataset.row), true, event.target); };
    this.box.onkeydown = event => {
      const step = { ArrowDown: 1, ArrowUp: -1 }[event.key];
      if (step) { event.preventDefault(); this.choose(Math.max(0, Math.min(this.count - 1, this.chosen + step)), false); this.show(this.chosen); }
      else if (event.key === 'Enter' && this.chosen >= 0) { event.preventDefault(); this.pick(this.chosen); }
    };
  }
  get height() { return Math.min(MOST_HEIGHT, this.count * LINE); }
  get visible() { return Math.ceil(this.box.clientHeight / LINE) + 1; }
  // How many rows a pixel of scrolling is, where there are too many for one height.
  get rate() { return (this.count * LINE - this.box.clientHeight) / Math.max(1, this.height - this.box.clientHeight); }
  set(count) { this.count = count; this.sheet.style.height = this.height + 'px'; this.paint(); }
  show(row) {
    const h = this.box.clientHeight, at = row * LINE, top = this.box.scrollTop * this.rate;
    if (at < top || at + LINE > top + h) this.box.scrollTop = Math.max(0, (at - h / 2) / Math.max(1, this.rate));
    this.paint();
  }
  choose(row, go, at = this.box) { this.chosen = row; const { className } = at; this.paint(); if (go && row >= 0) this.pick(row, className); }
  paint() {
    const first = Math.max(0, Math.min(this.count - 1, Math.floor(this.box.scrollTop * this.rate / LINE)));
    const rows = [];
    for (let i = first; i < Math.min(this.count, first + this.visible); i++) {
      const row = document.createElement('div');
      row.dataset.row = i; row.id = `${this.box.id}-${i}`; row.setAttribute('role', 'option');
      row.setAttribute('aria-posinset', i + 1); row.setAttribute('aria-setsize', this.count);
      row.setAttribute('aria-selected', i === this.chosen); row.className = i === this.chosen ? 'row now' : 'row';
      this.draw(row, i); rows.push(row);
    }
    this.sheet.replaceChildren(...rows);
    const base = this.box.scrollTop - (this.rate > 1 ? 0 : this.box.scrollTop - first * LINE);
    for (const [i, row] of rows.entries()) row.style.top = base + i * LINE + 'px';
    const chosen = `${this.box.id}-${this.chosen}`;
    if (rows.some(row => row.id === chosen)) this.box.setAttribute('aria-activedescendant', chosen); else this.box.removeAttribute('aria-activedescendant');
  }
}
const cell = (row, text, name, title = '') => {
  const s = document.createElement('span'); s.textContent = text; if (title) s.title = title; if (name) s.className = name; row.append(s); };
// What the numbers of a call are, where one is an alignment, or it is known how many bytes a unit has.
const AMOUNTS = { n: units, s: v => `multiples of ${units(v)}`, a: v => `at a multiple of ${units(v)}` };
const inWords = (op, of) => S.unit || KINDS[op].includes('a') ? [...KINDS[op]].flatMap((kind, j) => kind === 'd' ? [(op === OP.at && j === 0) || (op === OP.within && j === 1) ? `at ${place(of[j])}` : units(of[j])] : AMOUNTS[kind] ? [AMOUNTS[kind](of[j])] : []).join(', ') : '';
// A row of the calls: its number, the call, its answer, and its name.
function drawCall(row, i) {
  const run = S.run, p = callAt(i) - 1, [op, ...of] = run.call(p), r = run.row(p);
  cell(row, whole(p + 1), 'n'); cell(row, said(op, ...of), 'c', inWords(op, of));
  cell(row, answered(run, p), r[0] === ANSWER.refused ? 'bad' : '', S.unit ? whereOf(run, p) : '');
  const name = run.callName(p) || (isOnGrant(op) ? run.nameOf(of[0]) : '');
  if (name) cell(row, name, 'dim', name);
  if (r[7]) cell(row, REASONS[r[7]], 'bad', REASONS[r[7]]);
  if (p >= S.p) row.classList.add('later');
}
// The rows of the calls that are listed, or null for all: those that are refused, or fit what is looked for.
function listedRows(run) {
  const key = `${$('only').checked} ${run.found?.key}`;
  if (run.listed?.key === key) return run.listed.rows;
  const found = run.found && run.found.rows, refused = new Set(found && $('only').checked ? run.refusals : []);
  const rows = !$('only').checked ? found : found ? found.filter(p => refused.has(p)) : run.refusals;
  run.listed = { key, rows };
  return rows;
}
const callAt = i => { const rows = listedRows(S.run); return rows ? rows[i] : i + 1; };
// The live ranges: those of a view, by their places there, sorted.
const SORTS = { grant: v => i => v.k[i], offset: null, units: v => i => LARGEST - v.n[i], since: v => i => v.born[i], name: v => i => S.run.ranks[v.k[i]] };
let sorted = 'offset', ranges = new Uint32Array(0), rangesOf = null;
const rangeAt = i => rangesOf.at(ranges[i]);
function drawRange(row, i) {
  const b = rangeAt(i);
  // in bytes a size is rounded, so its tooltip has the units
  const [at, size] = S.unit ? [atBytes(b.o), inBytes(b.n)] : [whole(b.o), whole(b.n)], [o, n] = S.unit ? [`offset ${whole(b.o)}`, counted(b.n, 'unit')] : ['', ''];
  cell(row, b.k, 'n'); cell(row, at, 'u', o); cell(row, size, 'u', n); cell(row, whole(S.run.born.list[b.k]), 'n');
  cell(row, S.run.nameOf(b.k), 'dim', S.run.nameOf(b.k));
}
function showRanges(v) {
  const run = S.run;
  rangesOf = $('atend').checked ? run.end : v;
  ranges = SORTS[sorted] ? inOrder(rangesOf.count, SORTS[sorted](rangesOf)) : rangesOf.o.map((_, i) => i);
  if (run.found) { const { k } = rangesOf, { flags } = run.found; ranges = ranges.filter(i => flags[k[i]]); }
  for (const b of document.querySelectorAll('#sorts button')) b.setAttribute('aria-pressed', b.dataset.by === sorted);
  L.ranges.chosen = S.grant ? ranges.indexOf(rangesOf.k.indexOf(S.grant)) : -1;
  L.ranges.set(ranges.length);
  $('rangesum').textContent = `Live now: ${counted(v.count, 'range')}, ${units(run.usedAt(S.p))}. ` +
    `Still live at the end: ${counted(run.lifeCount - run.ends.length, 'range')}, ${units(run.usedAt(run.count))}.`;
  showSizes();
  showGroups(v);
}
// Sorts by another column. For names each grant gets a rank, once.
async function sortBy(by) {
  if (by === 'name' && !S.run.ranks) {
    const run = S.run, ranks = await during('Sorting', work => rankedNames(run, work));
    if (!ranks) return;
    run.ranks = ranks;
  }
  sorted = by; showRanges(S.run.view(S.p));
}
// For each grant its place in the order of names, and of numbers where names are the same.
async function rankedNames(run, work) {
  let runs = [];
  const words = [...new Set(run.names.values())], order = new Intl.Collator().compare, place = new Map([['', 0]]);
  for (let i = 0; i < words.length; i += 1024) { runs.push(words.slice(i, i + 1024).sort(order)); await work.turn(i, 2 * words.length); }
  while (runs.length > 1) {
    const longer = [];
    for (let i = 0; i < runs.length; i += 2) {
      const [a, b = []] = runs.slice(i, i + 2), both = [];
      for (let x = 0, y = 0; x < a.length || y < b.length;) {
        both.push(y >= b.length || (x < a.length && order(a[x], b[y]) <= 0) ? a[x++] : b[y++]);
        if (both.length % 1024 === 0) await work.turn(1, 2);
      }
      longer.push(both);
    }
    runs = longer;
  }
  for (const word of runs[0] || []) place.set(word, place.size);
  const places = new Uint32Array(run.born.length), ranks = new Uint32Array(run.born.length);
  for (let k = 1; k < places.length; k++) { places[k] = place.get(run.nameOf(k)); if (k % 4096 === 0) await work.turn(1, 2); }
  inOrder(places.length, k => places[k]).forEach((k, rank) => { ranks[k] = rank; });
  return ranks;
}
// How many live ranges are of which sizes: a bar for each power of two.
function showSizes() {
  const count = new Map(), each = new Float64Array(33), sums = new Float64Array(33), { n } = rangesOf;
  for (let i = 0; i < ranges.length; i++) { const u = n[ranges[i]], e = 32 - Math.clz32(u); each[e]++; sums[e] += u; }
  for (let e = 0; e < 33; e++) if (each[e]) count.set(e - 1, [each[e], sums[e]]);
  const most = Math.max(1, ...each);
  $('sizes').replaceChildren(...[...count].map(([e, [n, sum]]) => {
    const row = document.createElement('div'); row.className = 'size';
    cell(row, e < 0 ? '0' : e ? `${short(2 ** e)} to ${short(2 ** (e + 1) - 1)}` : '1', 'u');
    const bar = document.createElement('span'); bar.className = 'bar2'; bar.style.setProperty('--part', n / most); row.append(bar);
    cell(row, `${counted(n, 'range')}, ${short(sum)}${S.unit ? '' : sum === 1 ? ' unit' : ' units'}`);
    return row;
  }));
}
// The size classes that have free blocks.
function showBins(v, searched, taken) {
  const list = [], { bins, sums, count } = v.free;
  bins.forEach((n, c) => { if (n) list.push([c, n]); });
  $('binrows').replaceChildren(...list.map(([c, n]) => {
    const row = document.createElement('tr');
    row.id = `bin-${c}`; if (c === taken) row.className = 'now';
    for (const text of [c, bytesOf(c) || sizesOf(c), whole(n), sized(sums[c])]) row.insertCell().textContent = text;
    if (S.unit) { row.cells[1].title = `${sizesOf(c)} units`; row.cells[3].title = counted(sums[c], 'unit'); }
    return row;
  }));
  $('binsum').textContent = `${counted(count, 'free block')} of ${counted(list.length, 'class', 'classes')}.` +
    (searched < 256 ? ` Searched from class ${searched}, ${sizesOf(searched)} units${S.unit ? ` (${bytesOf(searched)})` : ''}` + (taken < 256 ? `; took a block of class ${taken}.` : '.') : '');
}
