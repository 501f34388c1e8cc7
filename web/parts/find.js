// What is looked for: ranges by name, units as granted, rows, and whether they are ever freed; and names by how they begin.
// What does not fit is drawn in the last ink.
const FIELDS_FOUND = ['fmin', 'fmax', 'ffrom', 'fto', 'fname'], FAINT = 8, NAMED_INKS = 7, MOST_GROUPS = 200;
const prefixOf = name => name.match(/^[^/:.\s]*/)[0] || name;
async function sought(run, find, work) {
  const [min, max, from, to] = find.map((text, i) => text === '' ? [0, LARGEST][i % 2] : Number(text)), [, , , , name, isNever] = find;
  const isPrefix = name.endsWith('*'), part = isPrefix ? name.slice(0, -1) : name, known = new Map();
  const isNamed = word => {
    if (!known.has(word)) known.set(word, isPrefix ? word.startsWith(part) : word.includes(part));
    return known.get(word); };
  const fits = (row, n, word) => row >= from && row <= to && n >= min && n <= max && (part === '' || isNamed(word));
  const flags = new Uint8Array(run.born.length), rows = new Growing(Uint32Array, 1024), sum = { count: 0, units: 0, left: 0, leftUnits: 0 };
  for (let k = 1; k < flags.length; k++) {
    const row = run.born.list[k], n = run.rows.list[8 * row - 5], isLeft = run.died.list[k] === ALIVE;
    if ((isLeft || !isNever) && fits(row, n, run.nameOf(k))) {
      flags[k] = 1; sum.count++; sum.units += n;
      if (isLeft) { sum.left++; sum.leftUnits += run.lives.list[LIFE * run.last.list[k] + N]; }
    }
    if (k % 4096 === 0) await work.turn(k, flags.length + run.count);
  }
  for (let i = 0; i < run.count; i++) {
    const op = run.calls.list[WIDE * i], a = run.calls.list[WIDE * i + 1], n = unitsAsked(op, a, run.calls.list[WIDE * i + 2]), kind = run.rows.list[8 * i], k = kind === ANSWER.grant ? run.rows.list[8 * i + 1] : isOnGrant(op) ? a : 0;
    if (k ? flags[k] : kind === ANSWER.refused && !isNever && n !== null && fits(i + 1, n, run.callName(i) || '')) rows.push(i + 1);
    if (i % 4096 === 0) await work.turn(flags.length + i, flags.length + run.count);
  }
  return { key: find.join('\n'), flags, rows: rows.whole(), ...sum };
}
// For each grant the ink and the place of how its name begins; the places by the units of all grants.
async function grouped(run, work) {
  const places = new Map(), prefixes = new Map(), of = new Uint32Array(run.born.length), all = [];
  for (let k = 1; k < of.length; k++) {
    const name = run.nameOf(k);
    let i = places.get(name);
    if (i === undefined) {
      const prefix = prefixOf(name);
      i = prefixes.get(prefix);
      if (i === undefined) { i = all.push({ name: prefix, granted: 0, left: 0, leftUnits: 0 }) - 1; prefixes.set(prefix, i); }
      places.set(name, i);
    }
    of[k] = i;
    all[i].granted += run.rows.list[8 * run.born.list[k] - 5];
    if (run.died.list[k] === ALIVE) { all[i].left++; all[i].leftUnits += run.lives.list[LIFE * run.last.list[k] + N]; }
    if (k % 4096 === 0) await work.turn(k, of.length);
  }
  // those without a name come last
  const order = [...all.keys()].sort((i, j) => (all[i].name === '') - (all[j].name === '') || all[j].granted - all[i].granted), place = [];
  order.forEach((i, at) => { place[i] = at; });
  return { all: order.map(i => all[i]), of: of.map(i => place[i]) };
}
// The ink of a life, from its age; null where ages alone tell.
function inking(run) {
  const { found } = run, groups = S.byName ? run.groups : null, all = run.lives.list;
  if (!found && !groups) return null;
  const inks = groups && Uint8Array.from(groups.all, (g, i) => g.name === '' ? NAMED_INKS : Math.min(NAMED_INKS, i));
  return (l, age) => { const k = all[LIFE * l + K]; return found && !found.flags[k] ? FAINT : groups ? inks[groups.of[k]] : age; };
}
const lookOf = run => `${S.unit} ${S.byName && run.groups ? 'names' : ''} ${run.found ? run.found.key : ''}`;
// Makes what is looked for known of the run, and puts it on the page.
async function look() {
  const { run } = S, key = S.find && S.find.join('\n');
  if (S.byName && !run.groups) run.groups = await during('Reading names', work => grouped(run, work));
  if (key !== (run.found ? run.found.key : null)) run.found = key === null ? null : await during('Looking', work => sought(run, S.find, work));
  if (S.run !== run) return;
  FIELDS_FOUND.forEach((id, i) => { $(id).value = S.find ? S.find[i] : ''; });
  $('fnever').checked = Boolean(S.find && S.find[5]); $('byname').options[0].disabled = run.file.isDump; $('byname').value = S.byName ? 1 : 0; $('unit').value = S.unit || '';
  const f = run.found;
  $('found').textContent = f ? `${counted(f.count, 'range')} granted, ${units(f.units)}; never freed: ${counted(f.left, 'range')}, ${units(f.leftUnits)}.` : '';
  showLegend();
}
async function lookFor(change) { Object.assign(S, change); await look(); whyOf = []; draw(); }
function find() {
  const values = [...FIELDS_FOUND.map(id => $(id).value.trim()), $('fnever').checked ? '1' : ''];
  if (!values.slice(0, 4).every(isCount)) return say(`Look for: numbers from 0 to ${whole(LARGEST)}`, true);
  return lookFor({ find: values.some(v => v) ? values : null });
}
const isCount = text => text === '' || (/^\d{1,10}$/.test(text) && Number(text) <= LARGEST);
// A legend: words, each with an ink of the ages.
function showInks(id, title, words, inkOf, more = []) {
  const item = (style, word) => {
    const s = document.createElement('span'), i = document.createElement('i');
    i.style.background = `var(--${style})`; s.append(i, word); return s; };
  $(id).replaceChildren(title, ...words.map((word, i) => item(`age${inkOf(i)}`, word)), item('free', 'free'), ...more.map(([style, word]) => item(style, word)));
}
function showLegend() {
  const groups = S.byName && S.run.groups, words = groups ? [...groups.all.filter(g => g.name !== '').slice(0, NAMED_INKS).map(g => g.name), 'others'] :
    [...agesOf(S.run).map((n, i) => `to ${whole(n)}${i ? '' : ' rows'}`), 'longer'];
  showInks('legend', groups ? 'Names that begin with' : 'Live for', words, i => groups && words[i] === 'others' && i === words.length - 1 ? 8 : i + 1, S.run.found ? [['line', 'not looked for']] : []);
}
// The numbers below `count` with the largest values, so many of them, the largest first; of equal ones the smaller first. Lists that
// are much longer are not sorted.
function largest(count, most, value) {
  let list = [];
  const order = (i, j) => value(j) - value(i) || i - j;
  for (let i = 0; i < count; i++) {
    list.push(i);
    if (list.length > 8 * most) list = list.sort(order).slice(0, most);
  }
  return list.sort(order).slice(0, most);
}
// The totals of how names begin: live now, and never freed.
function showGroups(v) {
  const { run } = S, groups = S.byName ? run.groups : null;
  $('groups').hidden = !groups;
  if (!groups) return;
  const counts = new Uint32Array(groups.all.length), sums = new Float64Array(groups.all.length), { k, n } = v;
  for (let i = 0; i < v.count; i++) { const g = groups.of[k[i]]; counts[g]++; sums[g] += n[i]; }
  const order = largest(counts.length, MOST_GROUPS, i => sums[i]);
  $('grouprows').replaceChildren(...order.map(i => {
    const g = groups.all[i], row = document.createElement('tr'), th = document.createElement('th'), b = document.createElement('button');
    b.textContent = g.name || 'no name'; b.title = 'Looks for these'; b.disabled = !g.name;
    b.onclick = () => { $('fname').value = g.name + '*'; find(); };
    th.scope = 'row'; th.append(b); row.append(th);
    for (const text of [whole(counts[i]), sized(sums[i]), whole(g.left), sized(g.leftUnits)]) row.insertCell().textContent = text;
    return row;
  }));
}
