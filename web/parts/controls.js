// What the user does: buttons, keys, files, the pointer.
let playing = false, due = 0, before = 0;
function stop() { if (!playing) return; playing = false; $('play').textContent = 'Play'; draw(); }
function frame(t) {
  if (!playing) return;
  due += (t - before) / 1000 * Number($('speed').value); before = t;
  const n = Math.floor(due), end = S.run.count; due -= n;
  if (S.p + n >= end) { playing = false; $('play').textContent = 'Play'; go(end); return; }
  if (n) go(S.p + n);
  requestAnimationFrame(frame);
}
function toggle() {
  if (playing) return stop();
  if (S.p >= S.run.count) go(0);
  playing = true; $('play').textContent = 'Pause'; due = 0; before = performance.now(); requestAnimationFrame(frame);
}
const to = p => { stop(); go(p); };
L.calls = new List('calls', drawCall, i => jump(callAt(i)));
L.ranges = new List('ranges', drawRange, i => { const b = rangeAt(i); pointer = null; chosenIs(b); jump(S.run.born.list[b.k]); });
L.heaps = new List('heaprows', drawHeap, (i, name) => openPart(i, undefined, name?.includes('first')));
L.others = new List('others', drawOther, showUngranted);
for (const by of Object.keys(SORTS)) {
  const b = document.createElement('button'); b.textContent = by; b.dataset.by = by;
  b.onclick = () => sortBy(by); $('sorts').append(b); }
for (const name of Object.keys(TAKES)) {
  const b = document.createElement('button'); b.id = 'act-' + name; b.textContent = name; b.onclick = () => act(name); $('acts').append(b); }
for (const name of Object.keys(TRACES)) $('trace').add(new Option(titleOf(name), name), $('trace').length - 1);
$('first').onclick = () => jump(0); $('last').onclick = () => jump(S.run.count);
$('back').onclick = () => to(S.p - 1); $('next').onclick = () => to(S.p + 1);
$('rback').onclick = () => refusal(-1); $('rnext').onclick = () => refusal(1);
$('play').onclick = toggle; $('at').oninput = () => { isMoving = true; to($('at').valueAsNumber); };
$('at').onchange = () => { isMoving = false; to($('at').valueAsNumber); };
$('row').onchange = () => {
  const p = $('row').valueAsNumber;
  if (Number.isInteger(p) && p >= 0 && p <= S.run.count) return jump(p);
  say(`Row: a number from 0 to ${whole(S.run.count)}`, true); $('row').value = S.p; };
$('mback').onclick = () => toMark(-1); $('mnext').onclick = () => toMark(1); $('mleft').onclick = betweenMarks;
$('mfrom').onchange = $('mto').onchange = showMarks;
$('link').onclick = link; const help = () => { $('help').showModal(); $('closehelp').focus(); };
$('keys').onclick = help; $('closehelp').onclick = () => $('help').close();
$('undo').onclick = () => undo(S.past, S.ahead); $('redo').onclick = () => undo(S.ahead, S.past); $('original').onclick = original;
const fileName = end => {
  const { file } = S.run, heap = file && isSeveral(file) ? ` ${nameOfPart(file, S.part)}` : '';
  return (S.title.replace(/\.[a-z]+$/, '') + heap).replace(/[^\w.-]+/g, '-').replace(/-+$/, '') + end; };
$('exportall').onclick = () => save(new Blob([S.bytes]), fileNameOfAll());
const fileNameOfAll = () => S.title.replace(/\.[a-z]+$/, '').replace(/[^\w.-]+/g, '-') + '.script';
$('export').onclick = async () => {
  const text = await during('Writing', w => writeText(S.run, w));
  if (text !== null) save(text, fileName('.script')); };
$('answers').onclick = async () => { const b = await during('Writing', w => S.run.answers(w)); if (b) save(b, fileName('.answers')); };
$('picture').onclick = async () => {
  const drawn = await during('Drawing', w => pictured(S.run, 1000, 560, w));
  if (drawn !== null) save(new Blob([drawn], { type: 'image/svg+xml' }), fileName('.svg')); };
$('load').onclick = () => take(new TextEncoder().encode($('text').value), OWN, true);
$('show').onclick = showText;
$('text').oninput = () => { S.shown = false; $('textname').textContent = 'not played yet'; };
$('trace').onchange = async () => { const n = $('trace').value; stop();
  if (n === 'own' || n === S.name) { $('trace').value = S.name; return; }
  if (await load(await inflated(TRACES[n]), n, titleOf(n))) { go(n === 'every' ? 0 : S.run.count >> 2); enter(); } };
const takeFile = async f => {
  let bytes;
  try { bytes = new Uint8Array(await f.arrayBuffer()); } catch (fault) { return say(`${f.name}, ${counted(f.size, 'byte')}, cannot be read: ${fault.message}`, true); }
  return take(bytes, f.name); };
// A file, or else a text, that was dropped or pasted.
function takeFrom(event, given) {
  const file = given.files[0], text = given.getData('text/plain');
  if (file || text) event.preventDefault();
  // the control says which file it is
  if (file && event.type === 'drop') $('file').files = given.files;
  if (file) takeFile(file); else if (text) take(new TextEncoder().encode(text), OWN);
}
$('file').onchange = async () => { const f = $('file').files[0]; if (f) await takeFile(f); };
// so the same file may be chosen again
$('file').onclick = () => { $('file').value = ''; };
$('xfile').onchange = async () => {
  const f = $('xfile').files[0];
  if (!f) return;
  try { await besideFile(new Uint8Array(await f.arrayBuffer()), f.name); } catch (fault) { say(`${f.name} cannot be read: ${fault.message}`, true); }
  $('xfile').value = ''; };
addEventListener('dragover', event => event.preventDefault());
addEventListener('drop', event => { if (event.dataTransfer.files.length || !isField(event.target)) takeFrom(event, event.dataTransfer); });
addEventListener('paste', event => { if (!isField(event.target)) takeFrom(event, event.clipboardData); });
// a text that no link has, and calls of the user's, are lost with the page
addEventListener('beforeunload', event => { if ((S.name === 'own' || S.run !== S.base) && S.linked !== S.run) event.preventDefault(); });
$('stop').onclick = stopWork; $('unsay').onclick = () => say('');
$('only').onchange = $('atend').onchange = draw;
for (const id of [...FIELDS_FOUND, 'fnever']) $(id).onchange = find;
$('ffromhere').onclick = () => { $('ffrom').value = S.p + 1; find(); }; $('ftohere').onclick = () => { $('fto').value = S.p; find(); };
$('fclear').onclick = () => lookFor({ find: null });
$('byname').onchange = () => lookFor({ byName: $('byname').value === '1' });
$('unit').onchange = () => isCount($('unit').value) ? lookFor({ unit: Number($('unit').value) }) : say('A unit: a number of bytes', true);
$('zin').onclick = () => zoom(1 / 4); $('zout').onclick = () => zoom(4); $('zall').onclick = () => { S.zoom = null; draw(); };
$('lleft').onclick = () => panLives(-0.5, 0); $('lright').onclick = () => panLives(0.5, 0); $('lup').onclick = () => panLives(0, 0.5); $('ldown').onclick = () => panLives(0, -0.5);
$('onlyhere').onchange = draw; $('allnow').ontoggle = drawHeapsNow;
$('heapsnow').onclick = event => { const j = S.run.file.now?.[Math.floor((event.clientY - $('heapsnow').getBoundingClientRect().top) / BAR)]; if (j !== undefined) openPart(j, lineNow()); };
// The small maps: a press or a drag shows the part about it.
$('lifemap').onpointerdown = $('lifemap').onpointermove = event => {
  if (!event.buttons || !S.life) return;
  const b = $('lifemap').getBoundingClientRect(), { run } = S, [p0, p1, o0, o1] = S.life, p = (event.clientX - b.left - GUTTER) / (b.width - GUTTER) * (run.count + 1), o = (1 - (event.clientY - b.top) / b.height) * run.top;
  zoomLives(p - (p1 - p0) / 2, p + (p1 - p0) / 2, o - (o1 - o0) / 2, o + (o1 - o0) / 2); };
$('spacemap').onpointerdown = $('spacemap').onpointermove = event => {
  if (!event.buttons || !S.zoom) return;
  const b = $('spacemap').getBoundingClientRect(), size = S.run.sizeAt(S.p);
  zoomAt(Math.max(0, (event.clientX - b.left - GUTTER) / (b.width - GUTTER)) * size, S.zoom[1] - S.zoom[0]); draw(); };
// who asks for less motion gets a slow pace to begin with
const isCalm = matchMedia('(prefers-reduced-motion: reduce)'), calm = () => { if (isCalm.matches) $('speed').value = '2'; };
isCalm.addEventListener('change', calm); calm();
$('zused').onclick = usedPart; $('zleft').onclick = () => pan(-0.5); $('zright').onclick = () => pan(0.5);
$('compare').onclick = () => compare(['xsize', 'xnodes', 'xunit', 'xcompact'].map(id => {
  const v = $(id).value.trim(); return /^\d{1,10}$/.test(v) && v <= LARGEST ? Number(v) : -1; }));
$('xback').onclick = () => jump(S.other.rows.findLast(r => r < S.p)); $('xnext').onclick = () => jump(S.other.rows.find(r => r > S.p));
// The pointer.
$('space').onpointermove = event => { pointer = event; showSpace(); };
$('space').onpointerleave = () => { pointer = null; showSpace(); };
$('space').onclick = event => { pointer = event; const b = chosenBlock(); if (b) chosenIs(b); };
// The lives: Shift and a drag take the part in a box, Alt and a drag move, the wheel zooms.
let box = null, held = null;
$('life').onwheel = event => {
  event.preventDefault();
  const by = Math.min(4, Math.max(0.25, 1.002 ** (event.deltaY || event.deltaX)));
  zoomLivesBy(event.shiftKey ? 1 : by, event.shiftKey || event.ctrlKey ? by : 1, ...partOf(event, 'life')); };
const lifeBegins = event => {
  const [p0, p1, o0, o1] = shownLives('life', S.run), [x, y] = partOf(event, 'life');
  $('life').setPointerCapture(event.pointerId);
  if (event.shiftKey) box = [x, y]; else held = [x, y, p0, p1, o0, o1]; };
const lifeMoves = event => {
  const [x, y] = partOf(event, 'life');
  if (held) { const [x0, y0, p0, p1, o0, o1] = held, p = (x0 - x) * (p1 - p0), o = (y - y0) * (o1 - o0); return zoomLives(p0 + p, p1 + p, o0 + o, o1 + o); }
  draw();
  const c = $('life'), g = c.getContext('2d'), w = c.clientWidth - GUTTER, h = c.clientHeight - 16;
  g.strokeStyle = colors().fg; g.lineWidth = 1; g.setLineDash([4, 3]); g.strokeRect(GUTTER + box[0] * w, box[1] * h, (x - box[0]) * w, (y - box[1]) * h); g.setLineDash([]); };
const lifeEnds = event => {
  if (box && event.type === 'pointerup') {
    const [x, y] = partOf(event, 'life'), [p0, p1, o0, o1] = shownLives('life', S.run), [xs, ys] = [[x, box[0]], [y, box[1]]].map(l => l.sort((a, b) => a - b));
    box = null;
    if (xs[1] - xs[0] > 0.01) zoomLives(p0 + xs[0] * (p1 - p0), p0 + xs[1] * (p1 - p0), ys[1] - ys[0] > 0.02 ? o1 - ys[1] * (o1 - o0) : o0, ys[1] - ys[0] > 0.02 ? o1 - ys[0] * (o1 - o0) : o1); else draw();
  }
  box = held = null; };
$('life').onpointerup = $('life').onpointercancel = lifeEnds;
$('lzin').onclick = () => zoomLivesAt(1 / 4); $('lzout').onclick = () => zoomLivesAt(4); $('lzall').onclick = () => { S.life = null; draw(); };
// about the position
function zoomLivesAt(by) {
  const [p0, p1] = shownLives('life', S.run), x = (S.p + 1 - p0) / (p1 - p0);
  zoomLivesBy(by, by, x >= 0 && x <= 1 ? x : 0.5);
}
const isTouch = event => event.pointerType === 'touch';
for (const id of ['life', 'lifeA']) {
  let begun = null;
  const there = (event, f) => f(Math.max(0, rowAt(event, id, S.run)));
  const isZoom = event => id === 'life' && (event.shiftKey || event.altKey);
  $(id).onpointerdown = event => { if (isZoom(event)) return lifeBegins(event); begun = event; if (!isTouch(event)) { $(id).setPointerCapture(event.pointerId); there(event, jump); } };
  // a swipe up or down scrolls, and is no choice of a row
  $(id).onpointermove = event => {
    if (id === 'life') { over = partOf(event, 'life'); tellUnder(); }
    if (box || held) return lifeMoves(event);
    const [x, y] = begun ? [event.clientX - begun.clientX, event.clientY - begun.clientY].map(Math.abs) : [0, 0];
    if (event.buttons && (!isTouch(event) || x > y + 8)) there(event, to); };
  $(id).onclick = event => { if (id === 'life') { over = partOf(event, 'life'); tellUnder(); } if (!isZoom(event)) there(event, jump); };
}
$('life').onpointerleave = event => { if (!isTouch(event)) { over = null; tellUnder(); } };
$('bins').onpointermove = $('bins').onclick = event => {
  const c = binAt(event), n = c < 0 ? 0 : S.run.view(S.p).free.bins[c];
  $('bin').textContent = c < 0 ? '' : c >= BINS ? `Class ${c}: larger than any space.` :
    `Class ${c}: blocks of ${sizesOf(c)} units${S.unit ? ` (${bytesOf(c)})` : ''}; ${counted(n, 'free block')}.`; };
// The keys, wherever the focus is, but in text: what each does.
const KEYS = new Map([
  ['ArrowLeft', 'one row back', () => to(S.p - 1)], ['ArrowRight', 'one row on', () => to(S.p + 1)],
  ['PageUp', '100 rows back', () => to(S.p - 100)], ['PageDown', '100 rows on', () => to(S.p + 100)],
  ['Home', 'before the first row', () => jump(0)], ['End', 'after the last row', () => jump(S.run.count)],
  [' ', 'play or pause, where no button has the focus', toggle], ['p', 'play or pause', toggle],
  ['r', 'next refusal, in all heaps of the file', () => refusal(1)], ['R', 'refusal before', () => refusal(-1)],
  ['m', 'next mark', () => toMark(1)], ['M', 'mark before', () => toMark(-1)],
  ['b', 'next block', () => chooseBlock(1)], ['B', 'block before', () => chooseBlock(-1)],
  ['Enter', 'the row of the chosen block', () => { if (!$('goto').hidden) $('goto').click(); }],
  ['+', 'zoom in', () => zoom(1 / 4)], ['-', 'zoom out', () => zoom(4)], ['0', 'the whole space', () => $('zall').click()],
  [',', 'left, in the zoom', () => pan(-0.5)], ['.', 'right, in the zoom', () => pan(0.5)],
  ['Shift+ArrowLeft', 'lives: earlier, in the zoom', () => panLives(-0.5, 0)], ['Shift+ArrowRight', 'lives: later, in the zoom', () => panLives(0.5, 0)],
  ['Shift+ArrowUp', 'lives: up, in the zoom', () => panLives(0, 0.5)], ['Shift+ArrowDown', 'lives: down, in the zoom', () => panLives(0, -0.5)],
  ['g', 'to the number of a row', () => { $('row').focus(); $('row').select(); }],
  ['u', 'undo', () => $('undo').click()], ['U', 'redo', () => $('redo').click()], ['o', 'back to the original', original],
  ['l', 'link to this state', link], ['Escape', 'stop work, close a message', () => { stopWork(); say(''); }],
  ['?', 'this list', help],
].map(([key, what, f]) => [key, { what, f }]));
const KEY_NAMES = { ' ': 'Space', ArrowLeft: '←', ArrowRight: '→', PageUp: 'Page Up', PageDown: 'Page Down', 'Shift+ArrowLeft': 'Shift ←', 'Shift+ArrowRight': 'Shift →', 'Shift+ArrowUp': 'Shift ↑', 'Shift+ArrowDown': 'Shift ↓' };
for (const [key, { what }] of KEYS) {
  const dt = document.createElement('dt'), dd = document.createElement('dd');
  dt.textContent = KEY_NAMES[key] || key; dd.textContent = what; $('keylist').append(dt, dd); }
const isField = at => at.tagName === 'TEXTAREA' || (at.tagName === 'INPUT' && !['range', 'checkbox', 'file'].includes(at.type));
addEventListener('keydown', event => {
  const at = event.target, key = event.shiftKey && event.key.startsWith('Arrow') ? `Shift+${event.key}` : event.key;
  if (event.ctrlKey || event.metaKey || event.altKey || !S.run || !KEYS.has(key) || $('help').open) return;
  if (isField(at) && key !== 'Escape') return;
  if ([' ', 'Enter'].includes(key) && (/BUTTON|SELECT|SUMMARY|INPUT/.test(at.tagName) || at.getAttribute('role') === 'listbox')) return;
  if (key.length === 1 && /[a-z]/i.test(key) && !$('letters').checked) return;
  if (event.defaultPrevented) return;
  event.preventDefault(); KEYS.get(key).f();
});
let resizing = 0;
addEventListener('resize', () => { cancelAnimationFrame(resizing); resizing = requestAnimationFrame(() => S.run && draw()); });
matchMedia('(prefers-color-scheme: dark)').addEventListener('change', () => { C = null; if (S.run) draw(); });
// paper is light
for (const [name, isPaper] of [['beforeprint', true], ['afterprint', false]]) addEventListener(name, () => {
  document.documentElement.classList.toggle('printed', isPaper); C = null; if (S.run) draw(); });
addEventListener('hashchange', () => { if (!history.state) restore(); });
addEventListener('popstate', event => { if (event.state) come(event.state); });
restore();
