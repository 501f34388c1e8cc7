// What the page shows: a run, a position in it, and what was added to it. The original is kept until another is read.
const S = { run: null, base: null, name: '', title: '', bytes: null, p: 0, past: [], ahead: [], grant: 0, zoom: null, find: null, byName: false, unit: 0, life: null, part: 0, ungranted: null };
const L = {}, OWN = 'Your script';
// The message at the lower edge, always in sight: of a fault, or of what was done.
function say(text, isFault = false, actions = []) {
  $('say').hidden = !text; $('say').className = isFault ? 'bad' : '';
  $(isFault ? 'fault' : 'told').textContent = text; $(isFault ? 'told' : 'fault').textContent = '';
  $('sayacts').replaceChildren(...actions.map(([name, f]) => {
    const b = document.createElement('button'); b.textContent = name; b.onclick = f; return b; }));
}
// Does long work, and says how it failed. Returns what it made, or null: then nothing has changed.
async function during(what, f, bytes = null, file = '') {
  const work = new Work(what);
  try { return await f(work); } catch (fault) {
    if (fault instanceof Stopped) say(`${what}: stopped. Nothing has changed.`);
    else if (fault instanceof Fault && fault.line && bytes) showFault(fault, bytes, file);
    else say(fault instanceof WebAssembly.RuntimeError || fault instanceof RangeError ? 'out of memory' : fault.message, true);
    return null;
  } finally { work.end(); }
}
function showFault(fault, bytes, file) {
  const { text, canMend, isText } = explained(fault, bytes), actions = [];
  if (canMend) actions.push([isText ? 'Read it without them' : 'Read it as UTF-8', () => take(mended(bytes), file)]);
  if (/bad command/.test(fault.message)) actions.push(['Play the lines before', () => take(bytes.subarray(0, fault.from), file)]);
  say((file ? file + ', ' : '') + text, true, actions);
  if (bytes.length > 1 << 21 || !isText) return;
  const box = $('text'), value = new TextDecoder().decode(bytes);
  if (!canMend || !box.value) box.value = value;
  S.shown = false; $('textname').textContent = `${file || 'a text'}, with a fault in line ${whole(fault.line)}`;
  let at = 0;
  for (let line = 1; line < fault.line && at >= 0; line++) at = box.value.indexOf('\n', at) + 1;
  const end = box.value.indexOf('\n', at);
  box.focus(); box.setSelectionRange(at, end < 0 ? box.value.length : end);
  box.scrollTop = (fault.line - 4) * 19;
}
// Reads a text and plays it.
async function load(bytes, name, title, part = 0) {
  const run = await during('Reading', async work => {
    const file = await readText(bytes, work), of = file.parts[part];
    if (!of) throw new Fault(`the file has ${counted(file.parts.length, 'space')}, and none of the number ${whole(part)}`);
    work.what = 'Playing';
    if (isSeveral(file)) await surveyed(file, bytes, work);
    return Object.assign(await of.run().survey(work), { file, part: of });
  }, bytes, name === 'own' && title !== OWN ? title : '');
  if (!run) { if (S.run) $('trace').value = S.name; return false; }
  leave();
  const before = { ...S };
  // a dump has no time: what is in it has the colours of its types
  S.byName = run.file.isDump || (S.byName && !S.run?.file?.isDump);
  Object.assign(S, { run, base: run, name, title, bytes, part, past: [], ahead: [], grant: 0, zoom: null, find: null, life: null, ungranted: null, unit: unitIn(run.file, run.part) || (S.run?.file && S.unit === unitIn(S.run.file, S.run.part) ? 0 : S.unit) });
  say('');
  // another run takes nothing away: calls that were added come back by a click
  if (before.run !== before.base) say(`Your calls in ${before.title} are left.`, false, [['Back to them', () => {
    Object.assign(S, before, { other: null }); say(''); showNames(); dropOther(); look().then(() => go(before.p)); }]]);
  dropOther();
  showNames();
  await look();
  return true;
}
// Names of the run, where they are shown.
function showNames() {
  const own = [...$('trace').options].find(o => o.value === 'own');
  own.textContent = S.name === 'own' ? S.title : OWN;
  for (const o of $('trace').options) o.textContent = o.textContent.replace(/ \(yours, from row .*\)$/, '');
  $('trace').value = S.name;
  if (S.name !== 'own' || S.title !== $('file').files[0]?.name) $('file').value = '';
  document.title = `${S.title}${S.run.file && isSeveral(S.run.file) ? `, ${nameOfPart(S.run.file, S.part)}` : ''} – offset_allocator`;
  const b = S.run !== S.base;
  $('branch').hidden = !b && !S.past.length && !S.ahead.length;
  $('original').disabled = !b;
  if (!b) $('branched').textContent = `The original of ${S.title}. Your calls come back by ${S.past.length ? 'Undo' : 'Redo'}.`;
  else {
    const left = S.base.count - S.run.kept, o = $('trace').selectedOptions[0];
    o.textContent += ` (yours, from row ${whole(S.run.kept)})`;
    $('branched').textContent = `Yours, from row ${whole(S.run.kept)}: ${counted(S.run.edits.length, 'call')} of yours` +
      (left ? `, in place of ${counted(left, 'later row')} of ${S.title}` : '') + '.';
  }
  $('undo').disabled = !S.past.length; $('redo').disabled = !S.ahead.length;
  if (S.shown) showText();
  $('row').max = $('at').max = S.run.count;
  $('callhead').textContent = `${whole(S.run.count)} calls and their answers`;
  L.calls.chosen = -1;
}
const MOST_SHOWN = 200000;
async function showText() {
  const run = S.run;
  if (run.count > MOST_SHOWN) { say(`The text is too long to be shown: ${counted(run.count, 'call')}. It can be saved.`); return; }
  let text = run === S.base && S.bytes.length < 1 << 22 ? new TextDecoder().decode(S.bytes) : null;
  if (text === null) text = await during('Writing', async work => (await writeText(run, work)).text());
  if (text === null) return;
  $('text').value = text; S.shown = true;
  $('textname').textContent = S.run === S.base ? S.title : `${S.title}, yours from row ${whole(S.run.kept)}`;
}
// Plays a text of the user's. A recording has a line feed after each line: a last line without one was cut, and left out,
// but where the user typed it.
async function take(bytes, title, isTyped = false) {
  stop();
  if (isDump(bytes)) {
    let made;
    try { made = dumpText(bytes); } catch (fault) { say(`${title ? title + ', ' : ''}${fault.message}`, true); return false; }
    if (!await load(new TextEncoder().encode(made), 'own', title || OWN)) return false;
    go(S.run.count); enter();
    return true;
  }
  const end = isTyped || isWide(bytes) ? bytes.length : bytes.lastIndexOf(10) + 1 || bytes.length;
  if (!await load(bytes.subarray(0, end), 'own', title || OWN)) return false;
  go(begunAt(S.run)); enter();
  if (end < bytes.length) {
    const told = $('told').textContent, acts = [...$('sayacts').children];
    say(`${told} The last line of ${S.title}, ${quoted(bytes.subarray(end))}, has no line feed: it may be cut, and is not played.`.trim(),
      false, [['Play it too', () => take(bytes, title, true)]]);
    $('sayacts').prepend(...acts);
  }
  return true;
}
// Where a recording of a space that there was begins.
const begunAt = run => run.part.begun;
// Back and Forward: each run and each row that the user jumps to is a place, with all that is shown there; steps from row to row
// stay at one. The places of the run and of the last ones before are kept, of so many calls in all.
const places = new Map(), MOST_RUNS = 2, MOST_KEPT = 1e6;
let here = null;
function leave() { if (here) places.set(here, { ...S, past: [...S.past], ahead: [...S.ahead] }); }
function enter(isNew = true) {
  here = `${performance.timeOrigin} ${performance.now()}`;
  leave();
  history[isNew ? 'pushState' : 'replaceState']({ id: here, name: S.name, title: S.title, p: S.p }, '');
  const before = [...new Set([...places.values()].map(place => place.base))].reverse().filter(base => base !== S.base);
  let calls = 0;
  const kept = [S.base, ...before.slice(0, MOST_RUNS).filter(base => (calls += base.count) <= MOST_KEPT)];
  for (const [id, place] of places) if (!kept.includes(place.base)) places.delete(id);
}
function jump(p, ungranted = null) { stop(); if (p === S.p && ungranted === S.ungranted) return draw(); leave(); go(p, ungranted); enter(); }
async function come({ id, name, title, p }) {
  const place = places.get(id);
  stop(); leave(); here = id;
  if (place) {
    Object.assign(S, place); say(''); showNames();
    if (S.other) $('compared').hidden = false; else dropOther();
    await look(); go(S.p, S.ungranted);
  } else if (name === S.name && title === S.title) go(p);
  else if (!Object.hasOwn(TRACES, name)) say(`${title} is not kept: give its file again.`);
  else { here = null; if (await load(await inflated(TRACES[name]), name, title)) go(p); here = id; leave(); }
}
function go(p, ungranted = null) { S.p = Math.max(0, Math.min(S.run.count, Math.trunc(p) || 0)); S.ungranted = ungranted; draw(); }
// A call of the user's: the run is left at the position, and the call is added. The original stays.
const TAKES = { alloc: 'n', align: 'na', at: 'on', free: 'k', shrink: 'kn', grow: 'kn', compact: '', extend: 'n', reset: '' };
const FIELDS = { n: 'Units', a: 'Alignment', k: 'Grant', o: 'Offset' };
function act(name) {
  const values = [];
  for (const id of TAKES[name]) {
    const v = $(id).value.trim() === '' ? NaN : Number($(id).value), isWrong = !Number.isInteger(v) || v < 0 || v > LARGEST;
    if (isWrong || (id === 'a' && v < 1)) {
      say(`${name}: ${FIELDS[id]} ${isWrong ? `has to be a number from 0 to ${whole(LARGEST)}` : 'has to be at least 1'}`, true);
      $(id).focus(); return; }
    values.push(v);
  }
  stop(); say('');
  return edit(...added(S.p, [[NAMES.indexOf(name), ...values]]));
}
// How many calls of the original stay where calls are added at a position, and the user's after these.
function added(p, calls) {
  const { run, base } = S, kept = run === base ? p : Math.min(p, run.kept);
  return [kept, [...run.edits.slice(0, p - kept), ...calls.map(([op, ...of]) => [op, ...[...of, 0, 0].slice(0, Math.max(2, KINDS[op].length))])]];
}
const edit = (kept, edits) => set({ kept, edits, p: kept + edits.length }, () => [S.past, S.ahead = []]);
// Puts another course in place of the run; what was before goes to the list that `left` returns.
async function set({ kept, edits, p, isBase }, left) {
  const { base } = S, was = { kept: S.run.kept, edits: S.run.edits, p: S.p, isBase: S.run === base };
  const run = isBase ? base : await during('Playing', work => base.branch(kept, edits, work));
  if (!run || S.base !== base) return;
  left()[0].push(was); S.run = run; S.life = null;
  showNames(); dropOther(); await look(); go(p);
}
function undo(from, to) { if (from.length) return set(from.at(-1), () => { from.pop(); return [to]; }); }
function original() { if (S.run !== S.base) return set({ isBase: true, p: Math.min(S.p, S.run.kept) }, () => [S.past]); }
// Files for the user.
function save(blob, name) {
  const a = document.createElement('a');
  a.href = URL.createObjectURL(blob); a.download = name; a.click();
  setTimeout(() => URL.revokeObjectURL(a.href), 1000);
  S.saved = blob;
  say(`Saved: ${name}, ${counted(blob.size, 'byte')}.`);
}
// The state in the fragment: the text (deflated, or its name), the calls that were added and from where, the position, the
// part of the space that is shown, and what is left out of the lists.
const MOST_LINK = 2e6, FILTERS = { r: 'only', e: 'atend' };
const b64 = a => { let s = ''; for (let i = 0; i < a.length; i += 32768) s += String.fromCharCode(...a.subarray(i, i + 32768));
  return btoa(s).replace(/\+/g, '-').replace(/\//g, '_').replace(/=/g, ''); };
const un64 = s => Uint8Array.from(atob(s.replace(/-/g, '+').replace(/_/g, '/')), c => c.charCodeAt(0));
const through = async (bytes, stream) => new Uint8Array(await new Response(new Blob([bytes]).stream().pipeThrough(stream)).arrayBuffer());
const MOST_TEXT = 64 << 20;
async function inflated(s) {
  const from = new Blob([un64(s)]).stream().pipeThrough(new DecompressionStream('deflate-raw')).getReader(), parts = [];
  for (let size = 0, part; !(part = await from.read()).done; parts.push(part.value)) if ((size += part.value.length) > MOST_TEXT) {
    from.cancel(); throw new Fault('its text has more than 64 MiB'); }
  return new Uint8Array(await new Blob(parts).arrayBuffer());
}
async function link() {
  const q = new URLSearchParams({ p: S.p });
  if (S.name === 'own') q.set('s', b64(await through(S.bytes, new CompressionStream('deflate-raw')))); else q.set('t', S.name);
  if (S.title !== OWN && S.name === 'own') q.set('n', S.title);
  if (S.run !== S.base) { q.set('kept', S.run.kept); q.set('c', S.run.edits.flat().join('.')); }
  if (S.part) q.set('m', S.part);
  if (S.ungranted !== null) q.set('o', S.ungranted);
  if (S.other?.as) q.set('x', S.other.as.join('.'));
  if (S.zoom) q.set('z', S.zoom.join('.'));
  const filters = Object.keys(FILTERS).filter(f => $(FILTERS[f]).checked).join('');
  if (filters) q.set('f', filters);
  if (S.find) q.set('q', S.find.slice(0, 4).concat(S.find[5], S.find[4]).join('.'));
  if (S.byName) q.set('h', 1);
  if (S.unit) q.set('u', S.unit);
  if (S.life) q.set('w', S.life.join('.'));
  if (String(q).length > MOST_LINK) {
    say(`This run is too large for a link (${counted(String(q).length, 'character')}): send its file, and the number of the row.`, true);
    return;
  }
  history.replaceState(history.state, '', '#' + q); S.linked = S.run;
  const size = counted(location.href.length, 'character');
  const long = location.href.length > 30000 ? ' Some programs cut such a link: then send the file.' : '';
  try { await navigator.clipboard.writeText(location.href); say(`The link to this state is copied: ${size}.${long}`); }
  catch { say(`The link to this state is in the address bar: ${size}.${long}`); }
}
const ADDED = [...Array(11).keys(), OP.compactBy, OP.within, OP.tight, OP.tightAligned, OP.room, OP.roomBy, OP.relocate, OP.relocateAligned, OP.retract, OP.at];
// The calls of a link: each its kind and two numbers at least. One that would not do as a line is faulty.
function editsOf(numbers) {
  const edits = [];
  for (let i = 0; i < numbers.length;) {
    const kinds = KINDS[numbers[i]] || '', edit = numbers.slice(i, i += 1 + Math.max(2, kinds.length));
    if (!ADDED.includes(edit[0]) || edit.length < 3 || edit.length <= kinds.length) throw Error();
    if (edit.some((n, j) => j > 0 && (j > kinds.length ? n > 0 : 'as'.includes(kinds[j - 1]) && n < 1))) throw Error();
    edits.push(edit);
  }
  return edits;
}
const numbersOf = text => text.split('.').map(x => { if (!/^\d{1,10}$/.test(x) || Number(x) > LARGEST) throw Error(); return Number(x); });
const oneOf = text => { const n = numbersOf(text); if (n.length !== 1) throw Error(); return n[0]; };
async function restore() {
  stop(); leave();
  const q = new URLSearchParams(location.hash.slice(1)), t = q.get('t');
  let isFaulty = t !== null && !Object.hasOwn(TRACES, t), why = 'what it names is not there', p = null, ungranted = null;
  try {
    const part = q.has('m') ? oneOf(q.get('m')) : 0;
    if (q.has('s')) { if (!await load(await inflated(q.get('s')), 'own', q.get('n') || OWN, part)) throw null; }
    else if (t !== null && !isFaulty) await load(await inflated(TRACES[t]), t, titleOf(t), part);
    else await load(await inflated(TRACES[FIRST]), FIRST, titleOf(FIRST));
    if (q.has('p')) p = oneOf(q.get('p'));
    if (q.has('o')) {
      ungranted = oneOf(q.get('o'));
      if (!S.run.file.others[ungranted]) { ungranted = null; throw Error(); }
    }
    if (q.get('c')) {
      const kept = oneOf(q.get('kept') || ''), edits = editsOf(numbersOf(q.get('c')));
      if (kept > S.base.count) throw Error();
      S.run = await during('Playing', work => S.base.branch(kept, edits, work)) || S.run; showNames();
    }
    if (q.has('x')) await compare(numbersOf(q.get('x')));
    const filters = q.get('f') || '';
    for (const f of Object.keys(FILTERS)) $(FILTERS[f]).checked = filters.includes(f);
    if (!/^r?e?$/.test(filters)) throw Error();
    if (q.has('u')) S.unit = oneOf(q.get('u'));
    if (q.has('w')) {
      const [p0, p1, o0, o1, more] = numbersOf(q.get('w'));
      if (o1 === undefined || more !== undefined || p0 >= p1 || o0 >= o1 || p1 > S.run.count + 1 || o1 > S.run.top) throw Error();
      S.life = [p0, p1, o0, o1];
    }
    if (q.has('h')) S.byName = true;
    if (q.has('q')) {
      const [min, max, from, to, isNever, ...name] = q.get('q').split('.');
      if (!name.length || ![min, max, from, to].every(isCount) || !/^1?$/.test(isNever)) throw Error();
      S.find = [min, max, from, to, name.join('.'), isNever];
    }
    await look();
    if (q.has('z')) {
      const [from, to, more] = numbersOf(q.get('z')), size = S.run.sizeAt(p === null ? 0 : Math.min(p, S.run.count));
      if (to === undefined || more !== undefined || to - from < ROWS || to > size) throw Error();
      S.zoom = [from, to];
    }
  } catch (fault) {
    if (fault) isFaulty = true;
    if (fault instanceof Fault) why = fault.message;
    if (!S.run) {
      const told = $('fault').textContent;
      await load(await inflated(TRACES[FIRST]), FIRST, titleOf(FIRST)); say(told, true);
    }
  }
  S.linked = S.run;
  if (isFaulty) say(`The link is faulty: ${why}. This is the nearest state.`, true);
  // the first run is shown before its first refusal
  go(p === null ? (S.name === FIRST ? S.run.count >> 2 : Math.min(4000, S.run.count)) : p, ungranted);
  enter(false);
}
const titleOf = name => name === 'every' ? 'every command' : name.replace('-', ' ');
