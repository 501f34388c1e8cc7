// A canvas as the address of a picture, which is made beside the page.
async function imageOf(sheet) {
  const blob = await new Promise(next => sheet.toBlob(next)), bytes = new Uint8Array(await blob.arrayBuffer());
  let text = '';
  for (let i = 0; i < bytes.length; i += 32766) text += btoa(String.fromCharCode(...bytes.subarray(i, i + 32766)));
  return 'data:image/png;base64,' + text;
}
// A run as a picture of its own, SVG: the lives, with a title on each refusal; below them the free units, and the largest
// request that is granted.
async function pictured(run, w, h, work) {
  const n = run.count + 1, c = colors(), left = 52, top = 44, right = w - 8, middle = Math.round(h * 0.72), low = h - 22, high = middle + 34;
  const safe = t => t.replace(/[\u0000-\u001f\u007f-\u009f\ufffe\uffff]/g, '').replace(/[&<>]/g, s => ({ '&': '&amp;', '<': '&lt;', '>': '&gt;' })[s]), fixed = v => String(Math.round(v * 10) / 10);
  const x = p => fixed(left + p / n * (right - left)), height = o => top + (1 - o / run.top) * (middle - top), y = o => fixed(height(o));
  const text = (at, px, anchor, words, more = '') => `<text x='${px}' y='${at}' text-anchor='${anchor}'${more}>${safe(words)}</text>`;
  // a range thinner than a pixel is no path, which might not be painted, but counts in a picture by what it covers
  const lives = c.ages.map(() => []), thin = new Coverage(2 * (right - left), 2 * (middle - top), c.ages);
  for (let l = 0; l < run.lifeCount; l++) {
    const { o, n: u, from, to: end } = run.life(l), age = ageOf(run.lived(l, n), agesOf(run)), to = Math.min(end, n);
    if (u / run.top * (middle - top) >= 1 && (to - from) / n * (right - left) >= 1) lives[age].push(`M${x(from)} ${fixed(height(o + u) + lineLeft(height(o + u), height(o)))}H${x(to)}V${y(o)}H${x(from)}z`);
    else thin.add(age, from / n * thin.wide, (1 - (o + u) / run.top) * thin.high, to / n * thin.wide, (1 - o / run.top) * thin.high);
    if (l % 512 === 0) await work.turn(l, run.lifeCount);
  }
  for (let y = 0; y < thin.high; y += 32) { thin.paint(y, 32); await work.turn(y, thin.high); }
  const image = await imageOf(thin.sheet), paths = [];
  for (const [i, d] of lives.entries()) {
    for (let from = 0; from < d.length; from += 8192) { paths.push((from ? '' : `<path fill='${c.ages[i]}' d='`) + d.slice(from, from + 8192).join('')); await work.turn(i, 8); }
    if (d.length) paths.push(`'/>`);
  }
  // for each point of the width the least of the calls there
  const most = run.sizes.reduce((m, s) => Math.max(m, s[1]), 1), wide = Math.round(right - left), free = [], largest = [];
  for (let i = 0; i < run.count; i++) {
    const px = Math.floor((i + 1) / n * wide);
    free[px] = Math.min(free[px] ?? most, run.sizeAt(i + 1) - run.used.list[i]);
    largest[px] = Math.min(largest[px] ?? most, run.row(i)[5]);
    if (i % 4096 === 0) await work.turn(i, run.count);
  }
  const area = list => `M${left} ${low}` +
    list.map((v, i) => v === undefined ? '' : `L${left + i} ${fixed(low - v / most * (low - high))}`).join('') + `L${right} ${low}z`;
  // of the refusals of a point the first is named, and how many more there are; the more, the longer the tick
  const points = new Map(), rows = tickedRows(run);
  for (let i = 0; i < rows.length; i++) { const px = Math.round(x(rows[i])), of = points.get(px); if (of) of.more++; else points.set(px, { p: rows[i], more: 0 }); if (i % 4096 === 0) await work.turn(i, rows.length); }
  const dense = [...points.values()].reduce((m, of) => Math.max(m, of.more + 1), 1);
  const nameOf = p => run.row(p - 1)?.[0] === ANSWER.refused ? `row ${p}: ${said(...run.call(p - 1))}: ${REASONS[run.row(p - 1)[7]] || 'refused'}` : `after row ${p}: a request that no heap granted`;
  const ticks = [...points.values()].map(({ p, more }) => `<path stroke='${c.mark}' stroke-width='2' d='M${x(p)} ${top}v${fixed(tickOf(more + 1, dense))}'><title>` +
    safe(`${nameOf(p)}${more ? `; and ${whole(more)} more here` : ''}`) + '</title></path>');
  const heap = run.file && isSeveral(run.file) ? `, ${nameOfPart(run.file, S.part)}` : '', title = `${S.title}${heap}: ${counted(run.count, 'call')}, ${counted(run.refusals.length, 'refusal')}`;
  const words = [...agesOf(run).map((n, i) => (i ? '' : 'to ') + whole(n)), 'more'], narrow = w < 600, places = [left];
  for (const t of words) places.push(places.at(-1) + (narrow ? 17 : 40) + 5.8 * t.length);
  return `<svg xmlns='http://www.w3.org/2000/svg' width='${w}' height='${h}' viewBox='0 0 ${w} ${h}' ` +
    `font-family='system-ui, sans-serif' font-size='11' fill='${c.fg}'>` +
    `<rect width='${w}' height='${h}' fill='${c.bg}'/>` +
    text(14, left, 'start', title, ` font-size='${fixed(Math.min(13, (right - left) / (0.62 * title.length)))}'`) +
    text(34, left - 6, 'end', 'live for') +
    words.map((t, i) => `<rect x='${fixed(places[i])}' y='25' width='${narrow ? 8 : 14}' height='10' fill='${c.ages[i]}'/>` +
      text(34, fixed(places[i] + (narrow ? 10 : 18)), 'start', t, narrow ? " font-size='10'" : '')).join('') +
    `<image x='${left}' y='${top}' width='${right - left}' height='${middle - top}' href='${image}'/>` +
    paths.join('') + ticks.join('') +
    [1, 0.5, 0].map(f => text(Number(y(run.top * f)) + 4, left - 6, 'end', short(Math.round(run.top * f)))).join('') +
    text(high - 8, left, 'start', 'free units, and in them the largest request that is granted') +
    `<path fill='${c.ages[0]}' d='${area(free)}'/><path fill='${c.ages[6]}' d='${area(largest)}'/>` +
    text(high + 8, left - 6, 'end', short(most)) + text(low, left - 6, 'end', '0') +
    text(h - 8, left, 'start', 'call 1') + text(h - 8, right, 'end', whole(run.count)) + '</svg>\n';
}
