// Long work in slices: a turn of the page between them, how much is done, and a way to stop it. One work at a time: a new
// one ends the one before.
const SLICE = 12, SHOWN_AFTER = 200;
class Stopped extends Error {}
class Work {
  constructor(what) {
    if (Work.now) Work.now.stopped = true;
    Object.assign(this, { what, begun: performance.now(), since: performance.now(), stopped: false });
    Work.now = this;
  }
  // Ends the slice where it is old enough. Throws where the work was stopped.
  turn(done, all) {
    if (performance.now() - this.since < SLICE) return null;
    return this.pause(done, all);
  }
  async pause(done, all) {
    if (performance.now() - this.begun > SHOWN_AFTER) {
      $('work').hidden = false;
      $('done').max = all; $('done').value = done;
      $('doing').textContent = `${this.what}: ${Math.floor(100 * done / Math.max(1, all))}%`;
    }
    await new Promise(next => { const c = new MessageChannel(); c.port1.onmessage = next; c.port2.postMessage(0); });
    this.since = performance.now();
    if (this.stopped) throw new Stopped();
  }
  end() { if (Work.now === this) { Work.now = null; $('work').hidden = true; } }
}
function stopWork() { if (Work.now) Work.now.stopped = true; }
