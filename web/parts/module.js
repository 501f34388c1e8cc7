// The module: texts and lists in, numbers and lists out. One instance holds one space.
const compiled = new WebAssembly.Module(Uint8Array.from(atob('@MODULE@'), c => c.charCodeAt(0)));
// What a faulty text is: its line, where it begins and ends in the text, and the words of the fault.
class Fault extends Error {
  constructor(message, line = 0, from = 0, to = 0) { super(message); Object.assign(this, { line, from, to }); }
}
class Module {
  constructor() { this.e = new WebAssembly.Instance(compiled, {}).exports; }
  words() { const e = this.e; return new Uint32Array(e.memory.buffer, e.words() >>> 0, e.words_len()).slice(); }
  bytes() { const e = this.e; return new Uint8Array(e.memory.buffer, e.bytes() >>> 0, e.bytes_len()).slice(); }
  text() { return new TextDecoder().decode(this.bytes()); }
  put(bytes) {
    const at = this.e.room(bytes.length) >>> 0;
    new Uint8Array(this.e.memory.buffer, at, bytes.length).set(bytes);
  }
  // A piece of a text as rows of eight numbers, and the bytes of their names.
  read(bytes, part, last) {
    this.put(bytes);
    if (!this.e.read(part, last ? 1 : 0)) return [this.words(), this.bytes()];
    const [line, from, to] = this.words();
    throw new Fault(this.text(), line, from, to);
  }
  start(head) { if (this.e.start(...head)) throw new Fault(this.text()); }
  // Plays calls, five numbers each, up to the first that may slide ranges; eight numbers for each that was played, or the answers.
  play(calls, asText = false) {
    this.put(new Uint8Array(calls.buffer, calls.byteOffset, calls.byteLength));
    const count = this.e.play(asText ? 1 : 0);
    if (!count && calls.length) throw new Fault('out of memory');
    return asText ? [count, this.bytes()] : this.words();
  }
  // The blocks from the start of the space: offset, units, and the grant's number or 0. They come from its end, after the counts
  // of 256 bins.
  blocks() {
    this.e.view();
    const w = this.words(), blocks = [];
    for (let i = w.length - 3; i >= 256; i -= 3) blocks.push({ o: w[i], n: w[i + 1], k: w[i + 2] });
    return blocks;
  }
  // The ranges that the call played last has moved: the number of each grant, and its offset.
  moved() { this.e.moved(); return this.words(); }
  size() { return this.e.memory.buffer.byteLength; }
  memory() { return new Uint8Array(this.e.memory.buffer); }
  saved() { return this.memory().slice(); }
  // The memory never becomes smaller, and what was taken since is not known there: from time to time it begins anew.
  restore(saved) {
    if (this.size() > 2 * saved.length + (1 << 24)) this.e = new WebAssembly.Instance(compiled, {}).exports;
    if (this.size() < saved.length) this.e.memory.grow((saved.length - this.size()) / 65536);
    this.memory().set(saved);
  }
}
// Size classes: 8 for each power of two, from 8 on. The class of the largest value that is at most n; the value of a
// class; the class that a request of n units is rounded up to.
const BINS = 240;
const classOf = n => { if (n < 8) return n; const e = 31 - Math.clz32(n); return (e - 2) * 8 + (n >>> (e - 3)) - 8; };
const valueOf = c => c < 8 ? c : (c % 8 + 8) * 2 ** (Math.floor(c / 8) - 1);
const roundedUp = n => { const c = classOf(n); return valueOf(c) < n ? c + 1 : c; };
