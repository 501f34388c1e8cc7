// Marks of a recording: frames' ends, times, threads, and texts. Each has what is known from it on.
function marked(before, line, text) {
  const [word, ...rest] = text.split(' '), value = rest.join(' ');
  const m = { line, text, frames: 0, time: null, thread: null, said: '', ...before && { frames: before.frames, time: before.time, thread: before.thread, said: before.said } };
  if (word === 'frame') m.frames++;
  else if (word === 'time' && /^\d{1,20}$/.test(value)) m.time = value;
  else if (word === 'thread' && /^\d{1,20}$/.test(value)) m.thread = value;
  else m.said = word === 'mark' ? value : text;
  return m;
}
// The rows of a run after which its marks come; those after calls of the user's are left out.
function flagsOf(run) {
  const list = run.file ? run.file.marks : [];
  if (!run.flags) {
    run.flags = new Uint32Array(list.length);
    // both are in the order of the file
    for (let i = 0, row = 0; i < list.length; i++) { while (row < run.lines.length && run.lines[row] < list[i].line) row++; run.flags[i] = row; }
  }
  return run.base ? run.flags.filter(p => p <= run.kept) : run.flags;
}
const inTime = text => { const ns = Number(text); return ns < 1e3 ? `${ns} ns` : ns < 1e6 ? `${(ns / 1e3).toFixed(2)} µs` : ns < 1e9 ? `${(ns / 1e6).toFixed(2)} ms` : `${(ns / 1e9).toFixed(3)} s`; };
const titleOfMark = m => m.text.startsWith('frame') ? `frame ${whole(m.frames)} ends` : m.text.startsWith('time ') && m.time ? `at ${inTime(m.time)}` : m.text.startsWith('thread ') ? `thread ${m.thread}` : m.said;
function showMarks() {
  const { run, p } = S, flags = flagsOf(run), list = run.file?.marks || [];
  for (const id of ['marked', 'between']) $(id).hidden = !flags.length;
  if (!flags.length) return;
  const at = firstOf(flags.length, i => flags[i] > p), m = at ? list[at - 1] : null;
  tell('moment', (m ? [list.at(-1).frames && `in frame ${whole(m.frames + 1)}`, m.time && inTime(m.time), m.thread && `thread ${m.thread}`, m.said && `“${m.said}”`].filter(w => w).join(', ') || 'after a mark' : 'before the first mark') +
    (m && flags[at - 1] === p ? `; here: ${titleOfMark(m)}` : '') + `. ${counted(flags.length, 'mark')}.`);
  $('mback').disabled = !(flags[0] < p); $('mnext').disabled = !(flags[flags.length - 1] > p);
  $('mfrom').max = $('mto').max = flags.length;
  for (const id of ['mfrom', 'mto']) {
    const n = $(id).valueAsNumber;
    $(id + 'is').textContent = n >= 1 && n <= flags.length ? `(${titleOfMark(list[n - 1])}, row ${whole(flags[n - 1])})` : ''; }
}
function toMark(step) {
  const flags = flagsOf(S.run), p = step > 0 ? flags.find(f => f > S.p) : flags.findLast(f => f < S.p);
  if (p !== undefined) jump(p);
}
// What is granted between two marks and never freed.
async function betweenMarks() {
  const flags = flagsOf(S.run), [from, to] = ['mfrom', 'mto'].map(id => $(id).valueAsNumber);
  if (!(from >= 1 && to <= flags.length && from < to)) return say(`Marks: two numbers from 1 to ${whole(flags.length)}, the smaller first`, true);
  $('ffrom').value = flags[from - 1] + 1; $('fto').value = flags[to - 1]; $('fnever').checked = true;
  await find(); jump(flags[to - 1]);
}
// Where marks are drawn over so many pixels; nothing where there are too many to tell apart.
function flagTicks(run, p0, p1, w) {
  const flags = flagsOf(run), from = firstOf(flags.length, i => flags[i] >= p0), to = firstOf(flags.length, i => flags[i] > p1);
  if (to - from > w / 4) return [];
  return Array.from(flags.subarray(from, to), p => (p + 1 - p0) / (p1 - p0) * w);
}
