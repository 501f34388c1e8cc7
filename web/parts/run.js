// A run: the calls of a text, played. It keeps eight numbers for each call, the life of each range, which of them are live at
// some positions, and copies of the module's memory, from which its space is reached again.
// A life is these numbers: its grant, offset and units, its first row and the one after its last, the row of the grant, and the
// life before of the grant. Eight words are half a cache line.
const LIFE = 8, K = 0, O = 1, N = 2, FROM = 3, TO = 4, BORN = 5, PAST = 6;
const EVERY = 2048, MARKED = 1 << 27, ALIVE = 0xffffffff, MOST_INDEXED = 1 << 24;
const ANSWER = { grant: 1, refused: 2, freed: 3, resized: 4, compacted: 5, gone: 6, reset: 7, extended: 8, full: 9, size: 10, none: 12,
  roomMade: 13, cost: 14, within: 15, toTheEnd: 16, retracted: 17, offset: 18, beside: 19, why: 20 };
const REASONS = ['', 'too few nodes are left', 'the request is too large for the space', 'too few units are free',
  'no free block is large enough until the space is compacted'];
// The ranges of a space after so many calls, in the order of their offsets: where each begins, its units, its life, the row of its
// grant, and the one that ends the life. What is between two of them is one free block; where ranges may have no units,
// blocks are given. `next` lives have begun, and `all` are the lives.
class View {
  constructor(p, size, next, all, [o, n, l, born, to], given = null) {
    Object.assign(this, { p, size, next, all, count: o.length, o, n, l, born, to, given, counted: null, grants: null });
  }
  get k() { return this.grants = this.grants || this.l.map(l => this.all[LIFE * l + K]); }
  at(i) { return i >= 0 && i < this.count ? { i, o: this.o[i], n: this.n[i], k: this.all[LIFE * this.l[i] + K] } : null; }
  endOf(i) { return i < 0 ? 0 : this.o[i] + this.n[i]; }
  // The free units before a range; those at the end of the space are before the one after the last.
  before(i) { return (i < this.count ? this.o[i] : this.size) - this.endOf(i - 1); }
  get last() { return this.at(this.count - 1); }
  get tail() { return this.before(this.count); }
  // The range of a grant, and the block that has a unit.
  of(k) { return k ? this.at(this.k.indexOf(k)) : null; }
  with(unit) {
    const i = this.upTo(unit);
    if (unit < this.endOf(i - 1)) return this.at(i - 1);
    return unit < this.size ? { i, o: this.endOf(i - 1), n: this.before(i), k: 0 } : null;
  }
  // The block after another, or before it; without one the first, or the last.
  beside(b, step) {
    const all = this.given, i = all && (b ? all.findIndex(a => a.o === b.o && a.k === b.k) + step : step > 0 ? 0 : all.length - 1);
    if (all) return all[Math.max(0, Math.min(all.length - 1, i))];
    return this.with(step > 0 ? (b ? b.o + b.n : 0) : (b ? b.o : this.size) - 1) || b;
  }
  // How many ranges begin at a unit or before it.
  upTo(unit) { return firstOf(this.count, i => this.o[i] > unit); }
  // Whether it holds of the offset and units of a free block.
  anyFree(holds) {
    if (this.given) return this.given.some(b => !b.k && holds(b.o, b.n));
    for (let i = 0; i <= this.count; i++) if (this.before(i) && holds(this.endOf(i - 1), this.before(i))) return true;
    return false;
  }
  // All blocks.
  get blocks() {
    const all = [...Array(this.count).keys()].map(i => this.at(i)), gap = i => ({ o: this.endOf(i - 1), n: this.before(i), k: 0 });
    if (this.given) return this.given;
    return all.flatMap(({ i, ...b }) => this.before(i) ? [gap(i), b] : [b]).concat(this.tail ? [gap(this.count)] : []);
  }
  // The free blocks of each size class, their units, how many blocks are free, with how many units, and the largest of them.
  get free() {
    if (this.counted) return this.counted;
    const free = this.given ? this.given.filter(b => !b.k).map(b => b.n) : gaps(this), bins = new Uint32Array(256), sums = new Float64Array(256);
    let units = 0, largest = 0;
    for (let i = 0; i < free.length; i++) { const n = free[i], c = classOf(n); bins[c]++; sums[c] += n; units += n; if (n > largest) largest = n; }
    return this.counted = { bins, sums, count: free.length, units, largest };
  }
}
// The units between ranges, where there are any.
function gaps({ o, n, count, size }) {
  const found = new Uint32Array(count + 1);
  let all = 0, end = 0;
  for (let i = 0; i < count; i++) { if (o[i] > end) found[all++] = o[i] - end; end = o[i] + n[i]; }
  if (size > end) found[all++] = size - end;
  return found.subarray(0, all);
}
// The first of so many numbers of which it holds, where it holds of all after it.
function firstOf(count, holds) {
  let at = 0, end = count;
  while (at < end) { const m = (at + end) >>> 1; if (holds(m)) end = m; else at = m + 1; }
  return at;
}
// Where each range after `p` calls, before which `next` lives began, is among those of a view, or, below 0, among others that
// begin at `offsets`. Each list is taken in a loop of its own: all at once are too many for a processor's cache.
function sources({ count, o, l, to }, p, next, offsets) {
  const found = new Int32Array(count + offsets.length);
  let all = 0, j = 0, first = offsets.length ? offsets[0] : Infinity;
  for (let i = 0; i < count; i++) {
    if (to[i] <= p || l[i] >= next) continue;
    while (first < o[i]) { found[all++] = ~j++; first = j < offsets.length ? offsets[j] : Infinity; }
    found[all++] = i;
  }
  while (j < offsets.length) found[all++] = ~j++;
  return found.subarray(0, all);
}
function gathered(list, all) {
  const [o, n, born, to] = [0, 1, 2, 3].map(() => new Uint32Array(list.length));
  for (let i = 0; i < list.length; i++) { const l = LIFE * list[i]; o[i] = all[l + O]; n[i] = all[l + N]; born[i] = all[l + BORN]; to[i] = all[l + TO]; }
  return [o, n, list, born, to];
}
function picked(source, old, others) {
  const list = new Uint32Array(source.length);
  for (let i = 0; i < source.length; i++) { const s = source[i]; list[i] = s < 0 ? others[~s] : old[s]; }
  return list;
}
// `scale`: how many units of the run beside it one of its units is.
class Run {
  constructor(head, calls, names, lines, m = new Module()) {
    Object.assign(this, { head, names, lines, count: 0, at: 0, held: null, m, marks: [], kept: 0, edits: [], named: Infinity, given: [], scale: 1, firstStep: 1, pictures: {}, spaces: {} });
    this.calls = new Growing(Uint32Array, 0);
    this.calls.list = calls; this.calls.length = calls.length;
    this.rows = new Growing(Uint32Array, 8 * this.all + 8);
    this.used = new Growing(Uint32Array, this.all + 1);
    // lives, in the order in which they begin, and their numbers in the order in which they end
    this.lives = new Growing(Uint32Array, 1024 * LIFE); this.ends = new Growing(Uint32Array, 1024);
    // by grant: the row that granted it, the one that ended it, and its last life
    for (const c of ['born', 'died', 'last']) { this[c] = new Growing(Uint32Array, 1024); this[c].push(0); }
    this.refusals = []; this.sizes = [[0, head[0]]]; this.top = 1; this.inUse = 0; this.dead = 1;
    // positions with the lives that are live there, in the order of their offsets; and how many ever were at once
    this.index = [{ p: 0, list: new Uint32Array(0) }]; this.peak = 0;
    // a range of no units, or a space of none, has blocks that offsets alone do not tell
    this.isPlain = head[0] > 0;
  }
  get all() { return this.calls.length / WIDE; }
  // The lives as they are drawn large.
  get picture() { return this.pictures.life; }
  // Plays all calls from the start.
  async survey(work) {
    this.start(this.all);
    while (this.count < this.all) {
      this.step(Math.min(512, this.all - this.count));
      await work.turn(this.count, this.all);
    }
    this.takeNames();
    return this.remember(work);
  }
  // What a mark names, after its grant, is named from its request on.
  takeNames() { for (const [k, name, p] of this.given) if (k && k < this.born.length && this.born.list[k] <= p) this.names.set(this.born.list[k] - 1, name); }
  // Keeps for some positions what is live there, at most so many lives in all.
  async remember(work) {
    const step = Math.ceil(Math.max(4096, this.peak / 4, this.lifeCount / MOST_INDEXED * this.peak));
    for (let l = step, view = this.viewAt(0); l < this.lifeCount && this.isPlain; l += step) {
      view = this.from(view, this.lives.list[LIFE * l + FROM]);
      if (view.p > this.index.at(-1).p) this.index.push({ p: view.p, list: view.l.slice() });
      await work.turn(this.count, this.count);
    }
    return this;
  }
  // Makes the space, for so many calls: all copies of its memory are to fit into `MARKED` bytes.
  start(count) {
    this.m.start(this.head);
    this.every = Math.ceil(Math.max(EVERY, 2 * count * this.m.size() / MARKED) / 512) * 512;
    this.left = this.m.size() > MARKED / 4 ? 0 : MARKED;
  }
  // Plays the next calls.
  step(n) {
    const m = this.m, i = this.count, mark = i / this.every;
    if (i % this.every === 0 && !this.marks[mark] && this.left >= m.size()) { this.marks[mark] = m.saved(); this.left -= m.size(); }
    const rows = m.play(this.calls.list.subarray(WIDE * i, WIDE * Math.min(i + n, Math.ceil((i + 1) / this.every) * this.every)));
    this.rows.append(rows);
    for (let r = 0; r < rows.length; r += 8) this.track();
    this.at = this.count; this.held = this.ending = null;
  }
  // Takes the answer to the next call.
  track() {
    const i = this.count++, now = this.count, a = this.calls.list[WIDE * i + 1], rows = this.rows.list, at = 8 * i, kind = rows[at], k = rows[at + 1];
    if (kind === ANSWER.grant) {
      while (this.born.length <= k) { this.born.push(now); this.died.push(ALIVE); this.last.push(0); }
      this.open(k, rows[at + 2], rows[at + 3], now, now);
    } else if (kind === ANSWER.refused) this.refusals.push(now);
    else if (kind === ANSWER.freed) this.die(k, now);
    else if (kind === ANSWER.resized) { this.close(k, now); this.open(k, rows[at + 2], rows[at + 3], now, this.born.list[k]); }
    else if ([ANSWER.compacted, ANSWER.roomMade, ANSWER.within, ANSWER.toTheEnd].includes(kind)) {
      const moved = k ? this.m.moved() : [];
      for (let j = 0; j < moved.length; j += 2) {
        const k = moved[j], n = this.lives.list[LIFE * this.last.list[k] + N];
        this.close(k, now); this.open(k, moved[j + 1], n, now, this.born.list[k]); }
    } else if (kind === ANSWER.reset) for (; this.dead < this.born.length; this.dead++) this.die(this.dead, now);
    else if (kind === ANSWER.extended) this.sizes.push([now, this.sizes.at(-1)[1] + a]);
    else if (kind === ANSWER.retracted) { this.sizes.push([now, this.sizes.at(-1)[1] - a]); this.isPlain = this.isPlain && this.sizes.at(-1)[1] > 0; }
    this.used.push(this.inUse);
  }
  open(k, o, n, from, born) {
    this.lives.reserve(LIFE);
    const { list, length: l } = this.lives;
    list[l + K] = k; list[l + O] = o; list[l + N] = n; list[l + FROM] = from; list[l + TO] = ALIVE; list[l + BORN] = born; list[l + PAST] = this.last.list[k];
    this.last.list[k] = l / LIFE;
    this.lives.length += LIFE; this.peak = Math.max(this.peak, this.lifeCount - this.ends.length);
    this.inUse += n; this.top = Math.max(this.top, o + n);
    if (!n) this.isPlain = false;
  }
  close(k, now) {
    const l = LIFE * this.last.list[k], { list } = this.lives;
    if (list[l + K] === k && list[l + TO] === ALIVE) { list[l + TO] = now; this.ends.push(l / LIFE); this.inUse -= list[l + N]; }
  }
  die(k, now) { if (this.died.list[k] === ALIVE) { this.close(k, now); this.died.list[k] = now; } }
  // How many of so many calls the grant of a life is live: a range that is moved or resized keeps its age.
  lived(l, n) { const { list } = this.lives; return Math.min(this.died.list[list[LIFE * l + K]], n) - list[LIFE * l + BORN]; }
  get lifeCount() { return this.lives.length / LIFE; }
  life(l) { const [k, o, n, from, to, born] = this.lives.list.subarray(LIFE * l); return { k, o, n, from, to, born }; }
  call(i) { return this.calls.list.subarray(WIDE * i, WIDE * i + WIDE); }
  row(i) { return this.rows.list.subarray(8 * i, 8 * i + 8); }
  // The units of the space after so many calls.
  sizeAt(p) {
    let at = 0, end = this.sizes.length;
    while (end - at > 1) { const m = (at + end) >> 1; if (this.sizes[m][0] <= p) at = m; else end = m; }
    return this.sizes[at][1];
  }
  usedAt(p) { return p ? this.used.list[p - 1] : 0; }
  // The name of a call, and of a grant.
  callName(i) { return i < this.named ? this.names.get(i) : undefined; }
  nameOf(k) { return this.callName(this.born.list[k] - 1) || ''; }
  // The ranges at the end.
  get end() { return this.ending = this.ending || this.viewAt(this.count); }
  // Makes the module's space the one after so many calls.
  seek(p) { while (this.nearer(p)); }
  // The same, a few calls at a time: whether more are left.
  nearer(p) {
    let mark = Math.floor(p / this.every);
    while (mark > 0 && !this.marks[mark]) mark--;
    if (p < this.at || (this.marks[mark] && mark * this.every > this.at)) {
      if (this.marks[mark]) { this.m.restore(this.marks[mark]); this.at = mark * this.every; }
      else { this.m.start(this.head); this.at = 0; }
    }
    if (this.at < p) this.at += this.m.play(this.calls.list.subarray(WIDE * this.at, WIDE * Math.min(p, this.at + 4096))).length / 8;
    return this.at < p;
  }
  // The ranges after so many calls: from those at the position before, where few have come or gone since, or from kept ones.
  view(p) {
    if (this.held?.p === p) return this.held;
    const isNear = this.isPlain && this.held && Math.abs(this.held.p - p) <= this.held.count;
    return this.held = isNear ? this.from(this.held, p) : this.viewAt(p);
  }
  viewAt(p) {
    const all = this.lives.list;
    if (this.isPlain) {
      const { p: at, list } = this.index.findLast(c => c.p <= p);
      return this.from(new View(at, this.sizeAt(at), this.begunAt(at), all, gathered(list, all)), p);
    }
    this.seek(p);
    const blocks = this.m.blocks(), used = blocks.filter(b => b.k), of = f => Uint32Array.from(used, f), l = of(b => this.lifeOf(b.k, p));
    return new View(p, this.sizeAt(p), this.begunAt(p), all, [of(b => b.o), of(b => b.n), l, l.map(l => all[LIFE * l + BORN]), l.map(l => all[LIFE * l + TO])], blocks);
  }
  // The lives at a position that are not live at another.
  came(view, p) {
    const all = this.lives.list, next = this.begunAt(p), came = [];
    for (let l = view.next; l < next; l++) if (all[LIFE * l + TO] > p) came.push(l);
    if (p < view.p) for (let e = this.endedAt(p), end = this.endedAt(view.p); e < end; e++) {
      const l = this.ends.list[e]; if (l < next) came.push(l); }
    return came;
  }
  // The ranges at a position, from those at another: what ended or had not begun goes, and what began or had not ended comes.
  from(view, p) {
    const all = this.lives.list, next = this.begunAt(p), came = this.came(view, p);
    const others = gathered(inOrder(came.length, i => all[LIFE * came[i] + O]).map(i => came[i]), all), source = sources(view, p, next, others[0]);
    return new View(p, this.sizeAt(p), next, all, [view.o, view.n, view.l, view.born, view.to].map((list, i) => picked(source, list, others[i])));
  }
  // The ranges at a position in two lists in no order, of which some are not live there: quicker, where few have come.
  near(p) {
    const all = this.lives.list, came = this.isPlain && this.held ? this.came(this.held, p) : null, isNear = came && came.length <= 1000 + this.held.count / 8;
    const [o, n, l, born, to] = gathered(isNear ? came : [], all);
    return [isNear ? this.held : this.view(p), { count: l.length, o, n, l, born, to }];
  }
  // How many lives have begun after so many calls, and how many have ended.
  begunAt(p) { const { list } = this.lives; return firstOf(this.lifeCount, l => list[LIFE * l + FROM] > p); }
  endedAt(p) { const { list } = this.lives, ends = this.ends.list; return firstOf(this.ends.length, e => list[LIFE * ends[e] + TO] > p); }
  // The range of a grant at a position, or null; and its life, or the one it had.
  rangeOf(k, p) {
    if (!k || k >= this.born.length || this.born.list[k] > p || this.died.list[k] <= p) return null;
    const { o, n } = this.life(this.lifeOf(k, p));
    return { o, n, k };
  }
  lifeOf(k, p) { const { list } = this.lives; let l = this.last.list[k]; while (list[LIFE * l + FROM] > p) l = list[LIFE * l + PAST]; return l; }
  // A copy of the module where it is, to try calls there: one at a time.
  copied() {
    this.copy = this.copy || new Module();
    this.copy.restore(this.m.memory());
    return this.copy;
  }
  // This run, left after so many calls, and others from there on.
  async branch(kept, edits, work) {
    const b = new Run(this.head, this.calls.list.slice(0, WIDE * kept), this.names, this.lines);
    Object.assign(b, { file: this.file, part: this.part, firstStep: this.firstStep });
    Object.assign(b, { kept, edits, named: Math.min(kept, this.named), count: kept, every: this.every, base: this.base || this });
    b.rows = this.rows.copy(8 * kept); b.used = this.used.copy(kept); b.inUse = this.usedAt(kept);
    b.refusals = this.refusals.filter(p => p <= kept); b.sizes = this.sizes.filter(([p]) => p <= kept);
    b.marks = this.marks.filter((_, i) => i * this.every <= kept);
    // lives and grants begin in the order of their rows
    let lives = 0, grants = 0;
    while (lives < this.lives.length && this.lives.list[lives + FROM] <= kept) lives += LIFE;
    while (grants < this.born.length && this.born.list[grants] <= kept) grants++;
    b.lives = this.lives.copy(lives);
    for (const c of ['born', 'died', 'last']) b[c] = this[c].copy(grants);
    for (let k = 0; k < grants; k++) if (b.died.list[k] > kept) b.died.list[k] = ALIVE;
    for (let l = 0, { list } = b.lives; l < lives; l += LIFE) {
      if (list[l + TO] > kept) list[l + TO] = ALIVE;
      b.last.list[list[l + K]] = l / LIFE; b.top = Math.max(b.top, list[l + O] + list[l + N]);
    }
    b.ends = this.ends.copy(this.endedAt(kept)); b.peak = this.peak; b.isPlain = this.isPlain; b.index = this.index.filter(c => c.p <= kept);
    b.m.start(b.head); b.at = 0; b.left = MARKED;
    while (b.nearer(kept)) await work.turn(b.at, kept);
    for (const e of edits) { b.calls.append(filled(e)); b.step(1); }
    return b;
  }
  // The answers of all calls, as the program writes them.
  async answers(work) {
    const m = new Module(), parts = [];
    m.start(this.head);
    for (let i = 0; i < this.count;) {
      const [n, text] = m.play(this.calls.list.subarray(WIDE * i, WIDE * Math.min(this.count, i + 256)), true);
      parts.push(text); i += n;
      await work.turn(i, this.count);
    }
    return new Blob(parts);
  }
}
// The answer to a call, in one line.
function answered(run, i) {
  const r = run.row(i), op = run.call(i)[0];
  return ['', `grant ${r[1]} at ${r[2]}`, 'none', 'freed', op === 9 ? 'grown' : 'shrunk', 'compacted', 'gone', 'reset', 'extended',
    `full ${r[3]}`, `size ${r[3]}`, `free ${r[4]} largest ${r[5]}`, 'none', `ranges ${r[1]} units ${r[3]}`, `ranges ${r[1]} units ${r[3]}`,
    `ranges ${r[1]} units ${r[3]} next ${r[2]}`, `ranges ${r[1]} units ${r[3]} end`, 'retracted', `offset ${r[2]}`,
    `range ${r[1]} at ${r[2]}`, REASONS[r[3]] || 'granted'][r[0]];
}
// Where the range is that an answer names, or ''.
const PLACED = [ANSWER.grant, ANSWER.offset, ANSWER.beside, ANSWER.within];
const whereOf = (run, i) => { const r = run.row(i); return PLACED.includes(r[0]) ? `at ${place(r[2])}` : ''; };
// The answer, and where that is in bytes.
const answeredInBytes = (run, i) => { const at = S.unit && whereOf(run, i); return answered(run, i) + (at ? at.slice(at.indexOf(' (')) : ''); };
