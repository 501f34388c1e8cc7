// The canvases: the space, the lives, the size classes, and the marks above the slider.
// The seven bounds of the ages of a run: 10 to 10,000 calls, and in a longer run larger ones, the last at most half of its calls.
const AGES = [10, 30, 100, 300, 1000, 3000, 10000];
function agesOf(run) {
  if (run.ages?.count === run.count) return run.ages.list;
  let list = AGES;
  // 1, 3, 10, 30 and so on
  for (let next; (next = list[6] % 3 ? 3 * list[6] : list[6] / 3 * 10) <= run.count / 2;) list = [...list.slice(1), next];
  run.ages = { count: run.count, list };
  return list;
}
const ageOf = (calls, ages) => { let a = 7; while (a && calls <= ages[a - 1]) a--; return a; };
// How long the tick of so many refusals is, where the most of a point are `most`.
const TICK = 10, tickOf = (count, most, length = TICK) => length * Math.max(0.4, count / most);
const ROWS = 6, GUTTER = 54;
const color = name => getComputedStyle(document.documentElement).getPropertyValue(name).trim();
let C = null;
const colors = () => C || (C = { ages: [1, 2, 3, 4, 5, 6, 7, 8].map(i => color('--age' + i)), get inks() { return [...this.ages, this.line]; },
  ...Object.fromEntries(['free', 'mark', 'fg', 'dim', 'line', 'bg', 'later'].map(n => [n, color('--' + n)])) });
const rgb = hex => [1, 3, 5].map(i => parseInt(hex.slice(i, i + 2), 16));
const short = n => S.unit ? inBytes(n) : n < 1e4 ? String(n) : n < 1e6 ? (n / 1e3).toFixed(n < 1e5 ? 1 : 0) + ' k' :
  n < 1e9 ? (n / 1e6).toFixed(n < 1e8 ? 1 : 0) + ' M' : (n / 1e9).toFixed(2) + ' G';
function canvas(c) {
  const d = devicePixelRatio || 1, w = c.clientWidth, h = c.clientHeight;
  if (c.width !== Math.round(w * d)) c.width = Math.round(w * d);
  if (c.height !== Math.round(h * d)) c.height = Math.round(h * d);
  return [prepared(c, d), w, h, d];
}
function prepared(c, d) {
  const g = c.getContext('2d');
  g.setTransform(d, 0, 0, d, 0, 0);
  g.clearRect(0, 0, c.width, c.height);
  g.font = '11px system-ui, sans-serif'; g.textBaseline = 'middle'; g.fillStyle = colors().dim;
  return g;
}
// A picture of rectangles: a pixel is as dense as it is covered, and where it is covered at all at least by `LEAST`. For each
// colour there are sums, whose rows hold steps from the pixel before: a long rectangle costs no more than a short one.
const LEAST = 1 / 8;
class Coverage {
  constructor(wide, high, inks) {
    // a canvas that is not shown has no width
    wide = Math.max(1, wide);
    Object.assign(this, { wide, high, inks: inks.map(rgb), sums: inks.map(() => null), sheet: document.createElement('canvas') });
    this.sheet.width = wide; this.sheet.height = high;
  }
  add(ink, x0, y0, x1, y1) {
    // a range of no units is seen too
    y0 = Math.min(y0, this.high - 1e-6); y1 = Math.max(y1, y0 + 1e-6); x1 = Math.max(x1, x0 + 1e-6);
    const s = this.sumsOf(ink), i = Math.floor(x0), j = Math.floor(x1), end = Math.min(y1, this.high);
    for (let y = Math.floor(y0); y < end; y++) {
      const part = Math.min(y1, y + 1) - Math.max(y0, y), row = y * (this.wide + 2);
      s[row + i] += part * (i + 1 - x0); s[row + i + 1] += part * (x0 - i);
      s[row + j] += part * (x1 - j - 1); s[row + j + 1] += part * (j - x1);
    }
  }
  sumsOf(ink) { return this.sums[ink] = this.sums[ink] || new Float64Array((this.wide + 2) * this.high); }
  // Paints some lines, from the one of a number on.
  paint(from = 0, count = this.high) {
    const high = Math.min(count, this.high - from), image = new ImageData(this.wide, high), { data } = image, line = new Float64Array(4 * this.wide);
    for (let y = from; y < from + high; y++) {
      line.fill(0);
      for (const [i, s] of this.sums.entries()) if (s) {
        const [r, g, b] = this.inks[i];
        for (let at = y * (this.wide + 2), to = 0, v = 0; to < line.length; to += 4) {
          v += s[at++];
          if (v > 1e-9) { line[to] += v * r; line[to + 1] += v * g; line[to + 2] += v * b; line[to + 3] += v; }
        }
      }
      for (let to = 0, at = (y - from) * line.length; to < line.length; to += 4, at += 4) {
        const a = line[to + 3];
        if (a) { data[at] = line[to] / a; data[at + 1] = line[to + 1] / a; data[at + 2] = line[to + 2] / a; data[at + 3] = 255 * Math.max(LEAST, a); }
      }
    }
    this.sheet.getContext('2d').putImageData(image, 0, from);
    return this.sheet;
  }
}
// The blocks of a space, as lines of one text: `from` to `to` are the units that are shown. The picture is kept, as what is
// marked changes more often.
function drawSpace(id, run, p, from, to, marked, lines = ROWS) {
  const [g, w0, h, d] = canvas($(id)), w = w0 - GUTTER, rh = h / lines, span = (to - from) / lines, c = colors();
  const strip = (o, n, f) => {
    const end = Math.min(to, o + n), begin = Math.max(from, o);
    for (let y = Math.floor((begin - from) / span); y < lines && from + y * span < end; y++) {
      const x = Math.max(0, begin - from - y * span) / span * w, z = Math.min(span, end - from - y * span) / span * w;
      f(x, y, z - x); } };
  const key = [id, p, from, to, w0, h, d, c.bg, lookOf(run)].join();
  const sheets = run.spaces;
  if (sheets[id]?.key !== key) sheets[id] = { key, sheet: spaceSheet(run, p, from, to, strip, w0, h, d, sheets[id]?.sheet, lines) };
  g.resetTransform(); g.drawImage(sheets[id].sheet, 0, 0); g.scale(d, d);
  for (const [o, n, dash, stroke] of marked) {
    // between two lines of the background, as an age may have the same lightness
    for (const [wide, style, dashes] of [[4, c.bg, []], [2, stroke, dash]]) {
      g.setLineDash(dashes); g.strokeStyle = style; g.lineWidth = wide;
      strip(o, Math.max(n, 1e-9), (x, y, z) => g.strokeRect(GUTTER + x, y * rh + 1, Math.max(3, z), rh - 2)); }
  }
  g.setLineDash([]);
}
function spaceSheet(run, p, from, to, strip, w0, h, d, old, lines) {
  const [wide, high] = [w0, h].map(v => Math.max(1, Math.round(v * d))), sheet = old?.width === wide && old.height === high ? old : new OffscreenCanvas(wide, high), g = prepared(sheet, d);
  const w = w0 - GUTTER, rh = h / lines, span = (to - from) / lines, c = colors();
  g.textAlign = 'right';
  for (let y = 0; y < lines && lines === ROWS; y++) g.fillText(short(Math.round(run.scale * (from + y * span))), GUTTER - 4, y * rh + rh / 2, GUTTER - 6);
  const bar = (x, y, z) => g.fillRect(GUTTER + x, y * rh + 1, z, rh - 2);
  // what is not in the space is not free
  g.fillStyle = c.free; strip(0, run.sizeAt(p), bar);
  // a range of less than three pixels covers a part of them
  const thin = new Coverage(Math.round(w * d), lines, c.inks), [ranges, others] = run.near(p), next = run.begunAt(p), ink = inking(run);
  let last = -1;
  const whole = (o, n, age) => strip(o, n, (x, y, z) => {
    if (z <= 3) return thin.add(age, x / w * thin.wide, y, (x + z) / w * thin.wide, y + 1);
    // to set a colour takes longer than to draw
    if (age !== last) g.fillStyle = c.inks[last = age];
    bar(x, y, z - 1); });
  coverLine(run, thin, ranges, Math.max(0, ranges.upTo(from) - 1), ranges.upTo(to), p, next, from, to, span, ink, whole);
  coverLine(run, thin, others, 0, others.count, p, next, from, to, span, ink, whole);
  thin.paint(); g.imageSmoothingEnabled = false;
  for (let y = 0; y < lines; y++) g.drawImage(thin.sheet, 0, y, thin.wide, 1, GUTTER, y * rh + 1, w, rh - 2);
  return sheet;
}
// Draws those of some ranges that are live: what is less than a pixel in one line here, the others by a function.
function coverLine(run, thin, { o, n, born, to: ends, l }, i, count, p, next, from, to, span, ink, other) {
  const ages = agesOf(run), scale = thin.wide / span, all = thin.sums.map((_, ink) => thin.sumsOf(ink)), step = thin.wide + 2;
  for (; i < count; i++) {
    const at = o[i], units = n[i];
    if (ends[i] <= p || l[i] >= next || at >= to || at + units <= from) continue;
    const lived = ageOf(p - born[i], ages), age = ink ? ink(l[i], lived) : lived, y = Math.floor((at - from) / span), x = (at - from - y * span) * scale, end = x + units * scale, j = Math.floor(x);
    if (units && at >= from && end < j + 1) { const s = all[age], k = y * step + j; s[k] += end - x; s[k + 1] -= end - x; } else other(at, units, age);
  }
}
// The unit at a point of the space's canvas.
function unitAt(event, from, to) {
  const b = $('space').getBoundingClientRect(), part = (at, all, most) => Math.max(0, Math.min(most, at / all));
  const y = Math.floor(part(ROWS * (event.clientY - b.top), b.height, ROWS - 1)), x = part(event.clientX - b.left - GUTTER, b.width - GUTTER, 1);
  return from + (y + x) * (to - from) / ROWS;
}
// Where refusals are marked on a width of so many calls, and how many are there; kept, as there may be very many.
function ticks(run, from, to, w) {
  run.ticks = run.ticks || new Map();
  const key = `${from} ${to} ${w}`;
  if (run.ticks.size > 9) run.ticks.clear();
  if (!run.ticks.has(key)) {
    const rows = tickedRows(run), found = new Map(), first = firstOf(rows.length, i => rows[i] >= from);
    let most = 1;
    for (let i = first; i < rows.length && rows[i] <= to; i++) {
      const x = Math.round((rows[i] - from) / (to - from) * w), count = (found.get(x) || 0) + 1;
      found.set(x, count); if (count > most) most = count;
    }
    run.ticks.set(key, { found, most });
  }
  return run.ticks.get(key);
}
// The lives of all ranges, drawn once for each size of the window and scheme of colours, in turns: what is missing comes
// with the next frames, as long as `at` returns a position.
const TURN = 12;
// Between neighbours, which may have one colour, a line is left where there is room for it: what is larger than this has a pixel less.
const ROOM = 4, lineLeft = (from, to) => to - from > ROOM ? 1 : 0;
function drawLives(id, run, at, isTurn = false) {
  const p = at();
  if (p === null) return;
  const isMap = id === 'lifemap', [g, w0, h0, d] = canvas($(id)), w = w0 - GUTTER, h = h0 - (isMap ? 0 : 16), c = colors(), n = run.count + 1, [p0, p1, o0, o1] = shownLives(id, run);
  const key = [w, h, d, c.bg, run.count, p0, p1, o0, o1, lookOf(run)].join();
  if (run.pictures[id]?.key !== key) {
    const drawn = new Coverage(Math.round(w * d), Math.round(h * d), c.inks);
    run.pictures[id] = { key, next: 0, line: 0, isDone: false, drawn, sheet: drawn.sheet, later: null, due: 0 };
  }
  const s = run.pictures[id], { wide, high } = s.drawn, ages = agesOf(run);
  if (!s.isDone && (isTurn || !s.due)) {
    const y = o => (1 - (o - o0) / (o1 - o0)) * high, x = p => (p - p0) / (p1 - p0) * wide, t = performance.now(), all = run.lives.list, ink = inking(run);
    while (s.line < high && performance.now() - t <= TURN) {
      if (s.next === run.lifeCount) { s.drawn.paint(s.line, 16); s.line += 16; }
      for (const end = Math.min(run.lifeCount, s.next + 1000); s.next < end; s.next++) {
        const l = LIFE * s.next, o = all[l + O], end = o + all[l + N], from = all[l + FROM], to = Math.min(all[l + TO], n), age = ageOf(run.lived(s.next, n), ages);
        if (from < p1 && to > p0 && o <= o1 && end >= o0)
          s.drawn.add(ink ? ink(s.next, age) : age, Math.max(0, x(from)), Math.max(0, y(end) + lineLeft(y(end), y(o))), Math.min(wide, x(to) - lineLeft(x(from), x(to))), Math.min(high, y(o)));
      }
    }
    s.isDone = s.line >= high;
    if (s.isDone) { s.drawn.sums = null; s.later = paled(s.sheet); } else s.due = requestAnimationFrame(() => {
      s.due = 0; if (run.pictures[id] === s) drawLives(id, run, at, true); });
  }
  const cx = Math.max(0, Math.min(w, (p + 1 - p0) / (p1 - p0) * w)), part = (sheet, from, to) => to > from &&
    g.drawImage(sheet, from * d, 0, (to - from) * d, h * d, GUTTER + from, 0, to - from, h);
  part(s.sheet, 0, cx); part(s.later || s.sheet, cx, w);
  g.beginPath();
  const { found, most } = ticks(run, p0, p1, w);
  for (const [x, count] of isMap ? [] : found) { g.moveTo(GUTTER + x + 0.5, 0); g.lineTo(GUTTER + x + 0.5, tickOf(count, most)); }
  const line = GUTTER + Math.round(Math.min(cx, w - 2));
  for (const [edge, style] of [[1, c.bg], [0, c.mark]]) {
    g.lineWidth = 1 + 2 * edge; g.strokeStyle = g.fillStyle = style; g.stroke();
    g.fillRect(line - edge, 0, 2 + 2 * edge, h); }
  if (isMap) return frameOnMap(g, w, h, run);
  g.fillStyle = c.dim;
  for (const x of flagTicks(run, p0, p1, w)) g.fillRect(GUTTER + Math.round(x), h - 6, 1, 6);
  g.textAlign = 'right';
  for (const [part0, y] of [[1, 7], [0.5, h / 2], [0, h - 6]]) g.fillText(short(Math.round(run.scale * (o0 + (o1 - o0) * part0))), GUTTER - 4, y, GUTTER - 6);
  g.textAlign = 'left'; g.fillText(`row ${whole(Math.round(p0))}`, GUTTER, h + 9); g.textAlign = 'right'; g.fillText(whole(Math.round(p1 - 1)), w0, h + 9);
}
// What comes after the position, in paler colours that still have 3:1 to the background.
const PALE = 0.6;
function paled(sheet) {
  const later = new OffscreenCanvas(sheet.width, sheet.height), g = later.getContext('2d');
  g.drawImage(sheet, 0, 0);
  g.globalCompositeOperation = 'source-atop'; g.globalAlpha = PALE; g.fillStyle = colors().later; g.fillRect(0, 0, sheet.width, sheet.height);
  return later;
}
// On the small map of all lives: the part that is shown large.
function frameOnMap(g, w, h, run) {
  const [p0, p1, o0, o1] = shownLives('life', run), [all, top] = [run.count + 1, run.top];
  // within the map, and large enough to be seen
  const wide = Math.max(6, (p1 - p0) / all * w), high = Math.max(6, (o1 - o0) / top * (h - 2));
  const box = [GUTTER + Math.min(p0 / all * w, w - wide - 1), Math.max(1, Math.min((1 - o1 / top) * h, h - high - 1)), wide, high];
  for (const [wide, style] of [[4, colors().bg], [2, colors().fg]]) { g.strokeStyle = style; g.lineWidth = wide; g.strokeRect(...box); }
}
// The rows and offsets that are shown of the lives.
const shownLives = (id, run) => id === 'life' && S.life || [0, run.count + 1, 0, run.top];
// The units in use, and the largest request that is granted, over the rows of the lives: of many calls in a pixel the most in
// use, and the least request.
const BUCKET = 64;
function summed(run) {
  const count = Math.ceil(run.count / BUCKET), used = new Uint32Array(count), largest = new Uint32Array(count).fill(LARGEST), rows = run.rows.list;
  for (let i = 0; i < run.count; i++) {
    const b = i >> 6;
    if (run.used.list[i] > used[b]) used[b] = run.used.list[i];
    if (rows[8 * i + 5] < largest[b]) largest[b] = rows[8 * i + 5];
  }
  return { used, largest };
}
function drawCurves(run, p) {
  const [g, w0, h, d] = canvas($('curves')), w = w0 - GUTTER, c = colors(), [p0, p1] = shownLives('life', run), key = [w, h, d, p0, p1, c.bg, S.unit].join();
  if (run.curves?.key !== key) {
    run.sums = run.sums || summed(run);
    const wide = Math.max(1, Math.floor(w)), used = new Float64Array(wide), largest = new Float64Array(wide).fill(Infinity);
    const from = Math.max(0, Math.floor(p0) - 1), to = Math.min(run.count, Math.ceil(p1)), isFew = to - from < BUCKET * wide, step = isFew ? 1 : BUCKET;
    for (let i = isFew ? from : from - from % BUCKET; i < to; i += step) {
      // a call is shown from its row on, to the next
      const first = Math.max(0, Math.floor((i + 1 - p0) / (p1 - p0) * wide)), last = Math.min(wide, Math.max(first + 1, Math.floor((i + 1 + step - p0) / (p1 - p0) * wide)));
      const u = isFew ? run.used.list[i] : run.sums.used[i / BUCKET], most = isFew ? run.rows.list[8 * i + 5] : run.sums.largest[i / BUCKET];
      for (let x = first; x < last; x++) { if (u > used[x]) used[x] = u; if (most < largest[x]) largest[x] = most; }
    }
    const sheet = new OffscreenCanvas(Math.max(1, Math.round(w0 * d)), Math.max(1, Math.round(h * d))), s = prepared(sheet, d);
    const most = run.sizes.reduce((m, s) => Math.max(m, s[1]), 1), y = v => (h - 2) - v / most * (h - 4);
    for (const [list, style] of [[used, c.ages[1]], [largest, c.ages[5]]]) {
      s.strokeStyle = style; s.lineWidth = 1.5; s.beginPath();
      for (let x = 0; x < list.length; x++) if (list[x] !== Infinity) s.lineTo(GUTTER + x + 0.5, y(list[x]));
      s.stroke();
    }
    s.fillStyle = c.dim; s.textAlign = 'right'; s.fillText(short(most), GUTTER - 4, 7, GUTTER - 6); s.fillText('0', GUTTER - 4, h - 6);
    run.curves = { key, used, largest, sheet };
  }
  g.resetTransform(); g.drawImage(run.curves.sheet, 0, 0); g.scale(d, d);
  g.fillStyle = c.mark; g.fillRect(GUTTER + Math.round(Math.max(0, Math.min(w - 2, (p + 1 - p0) / (p1 - p0) * w))), 0, 1, h);
}
// The rows at which frames end, and those of times in nanoseconds, in the order of the rows.
function axisOf(run) {
  if (run.axis?.count === run.count) return run.axis;
  const flags = flagsOf(run), list = run.file?.marks || [], frames = [], rows = [], times = [];
  for (let i = 0; i < flags.length; i++) {
    const { text, time } = list[i];
    if (text === 'frame') frames.push(flags[i]);
    else if (text.startsWith('time ') && time !== null && (!times.length || Number(time) >= times.at(-1))) { rows.push(flags[i]); times.push(Number(time)); }
  }
  return run.axis = { count: run.count, frames, rows, times };
}
// The least of 1, 2, 5, 10, .. that divides a span into at most so many parts.
function niceStep(span, parts) {
  let step = 1;
  for (let i = 0; span / step > parts; i++) step *= [2, 2.5, 2][i % 3];
  return step;
}
// Where an axis has labels, each with room for its words: rows and texts.
function labelsOf(from, to, parts, rowOf, said) {
  const step = niceStep(Math.max(1, to - from), parts), found = [];
  for (let v = Math.ceil(from / step) * step; v <= to; v += step) found.push([rowOf(v), said(v)]);
  return found;
}
// Frames and time, over the rows that are shown of the lives.
function drawAxis(run) {
  const { frames, rows, times } = axisOf(run);
  $('axis').hidden = !frames.length && !times.length;
  if ($('axis').hidden) return;
  $('axis').style.height = `${15 * ((frames.length > 0) + (times.length > 0))}px`;
  const [g, w0] = canvas($('axis')), w = w0 - GUTTER, [p0, p1] = shownLives('life', run), parts = Math.max(2, Math.floor(w / 90)), lines = [];
  const upTo = (list, p) => firstOf(list.length, i => list[i] > p);
  if (frames.length) lines.push(['frame', labelsOf(upTo(frames, p0) + 1, upTo(frames, p1 - 1) + 1, parts, k => k > 1 ? frames[k - 2] : 0, k => whole(k))]);
  if (times.length) {
    const at = p => times[Math.max(0, Math.min(times.length, upTo(rows, p)) - 1)];
    // a label is at a mark, and says its time
    const markOf = t => Math.min(times.length - 1, firstOf(times.length, i => times[i] >= t));
    lines.push(['time', labelsOf(at(p0), at(p1 - 1), parts, t => rows[markOf(t)], t => inTime(String(times[markOf(t)]))).filter(([row], i, all) => !i || row !== all[i - 1][0])]);
  }
  run.axis.shown = lines;
  for (const [i, [name, labels]] of lines.entries()) {
    g.textAlign = 'right'; g.fillText(name, GUTTER - 4, 15 * i + 8); g.textAlign = 'left';
    let free = -1, covered = 0;
    for (const [p, text] of labels) {
      const x = (p + 1 - p0) / (p1 - p0) * w, wide = g.measureText(text).width;
      // no tick within the words of the one before
      if (x < covered || x > w) continue;
      g.fillRect(GUTTER + x, 15 * i, 1, 5);
      if (x > free && x + wide + 4 < w) { g.fillText(text, GUTTER + x + 3, 15 * i + 8); covered = x + wide + 5; free = x + wide + 12; }
    }
  }
}
// The small maps of the whole space and of the whole run, where a part is shown.
function drawMaps(run, p, isQuick) {
  $('spacemap').hidden = !S.zoom; $('lifemap').hidden = !S.life;
  if (S.life) drawLives('lifemap', run, () => S.run === run ? S.p : null);
  if (!S.zoom || isQuick) return;
  const size = Math.max(1, run.sizeAt(p));
  drawSpace('spacemap', run, p, 0, size, [[S.zoom[0], S.zoom[1] - S.zoom[0], [], colors().fg]], 1);
}
// Moves what is shown of the lives by a part of it.
function panLives(rows, offsets) {
  if (!S.life) return;
  const [p0, p1, o0, o1] = S.life, p = rows * (p1 - p0), o = offsets * (o1 - o0);
  zoomLives(p0 + p, p1 + p, o0 + o, o1 + o);
}
// Shows a part of the lives: at least eight rows, and eight units.
function zoomLives(p0, p1, o0, o1) {
  const { run } = S, within = (from, to, all) => {
    const size = Math.max(Math.min(8, all), Math.min(all, to - from)), at = Math.max(0, Math.min(all - size, (from + to - size) / 2));
    return [Math.round(at), Math.round(at + size)]; };
  const next = [...within(p0, p1, run.count + 1), ...within(o0, o1, run.top)];
  S.life = next[0] > 0 || next[1] < run.count + 1 || next[2] > 0 || next[3] < run.top ? next : null;
  draw();
}
// By how much the rows and the offsets become fewer, about a point that has parts of both, from 0 to 1.
function zoomLivesBy(rows, offsets, x = 0.5, y = 0.5) {
  const [p0, p1, o0, o1] = shownLives('life', S.run), at = p0 + x * (p1 - p0), o = o1 - y * (o1 - o0);
  zoomLives(at - (at - p0) * rows, at + (p1 - at) * rows, o - (o - o0) * offsets, o + (o1 - o) * offsets);
}
// The part of a canvas of lives where an event is.
const partOf = (event, id) => {
  const b = $(id).getBoundingClientRect(), part = v => Math.max(0, Math.min(1, v));
  return [part((event.clientX - b.left - GUTTER) / (b.width - GUTTER)), part((event.clientY - b.top) / (b.height - 16))];
};
const rowAt = (event, id, run) => {
  const [p0, p1] = shownLives(id, run);
  return Math.round(p0 + partOf(event, id)[0] * (p1 - p0)) - 1;
};
// The marks of refusals above the slider, whose thumb is 16 pixels wide.
function drawMarks(run) {
  const [g, w, h] = canvas($('marks'));
  g.fillStyle = colors().mark;
  const { found, most } = ticks(run, 0, Math.max(1, run.count), w - 16);
  for (const [x, count] of found) g.fillRect(8 + x - 0.5, 0, 1.5, tickOf(count, most, h));
}
// The bins, one for each size class: left the top mask, a bit for each word; right a bit for each that has a free block.
function drawBins(bins, searched, taken) {
  const [g, w, h] = canvas($('bins')), cw = w / 67, ch = h / 4, c = colors();
  for (let y = 0; y < 4; y++) {
    g.fillStyle = bins.subarray(64 * y, 64 * y + 64).some(n => n) ? c.fg : c.free; g.fillRect(1, y * ch + 2, cw * 2 - 2, ch - 4);
    for (let x = 0; x < 64; x++) { g.fillStyle = bins[64 * y + x] ? c.fg : c.free; g.fillRect((x + 3) * cw + 0.5, y * ch + 2, cw - 1, ch - 4); }
  }
  for (const [bin, dash] of [[searched, [3, 2]], [taken, []]]) if (bin < 256) {
    g.setLineDash(dash); g.strokeStyle = c.mark; g.lineWidth = 2;
    g.strokeRect((bin % 64 + 3) * cw, (bin >> 6) * ch + 1, cw, ch - 2); }
  g.setLineDash([]);
}
const binAt = event => {
  const b = $('bins').getBoundingClientRect(), x = Math.floor((event.clientX - b.left) / b.width * 67) - 3;
  return x < 0 || x > 63 ? -1 : Math.min(3, Math.max(0, Math.floor((event.clientY - b.top) / b.height * 4))) * 64 + x;
};
