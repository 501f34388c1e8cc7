"""That pictures do not mislead: how dense the lives are drawn is how much is live, and every life is painted."""

from .base import give, holds, same, to, until
from .faults import PART, RGB
from .speed import LOOP, within

FULL = "space 2000000 nodes 40000 index 32\n" + "alloc 100\n" * 20000 + "report\n" * 12000
# ranges of no units: below, within and above the others
NONE = "space 1000 nodes 16 index 32\nalloc 0\nalloc 10\nalloc 0\nalloc 90\nfree 2\nfree 4\nalloc 0\n" + "report\n" * 50
HALF = "space 2000000 nodes 40000 index 32\n" + "alloc 100\n" * 20000 + "".join(f"free {k}\n" for k in range(1, 20001, 2)) + "report\n" * 60000
DRAWN = "return new Promise(r => { const f = () => !S.run.picture?.isDone ? setTimeout(f, 20) : r(draw()); f(); })"
# how much of the background a part of a picture, right of its middle, is covered
COVERED = """const a = g.getImageData(0.6 * g.canvas.width, 0.2 * g.canvas.height, 0.2 * g.canvas.width, 0.2 * g.canvas.height).data;
  const most = 255 - parseInt(color('--age8').slice(1, 3), 16);
  let sum = 0; for (let i = 0; i < a.length; i += 4) sum += (255 - a[i]) / most * a[i + 3] / 255; return 4 * sum / a.length"""
# the saved picture as a canvas
SAVED = """const g = Object.assign(document.createElement('canvas'), { width: 1000, height: 560 }).getContext('2d', { willReadFrequently: true });
  const url = 'data:image/svg+xml;base64,' + btoa(unescape(encodeURIComponent(await S.saved.text()))), i = new Image();
  await new Promise((r, no) => { i.onload = r; i.onerror = no; i.src = url; }); g.drawImage(i, 0, 0);"""


def saved(b, script):
    b.run("S.saved = null")
    b.click("#picture")
    until(b, "S.saved", "the picture", 60)
    return b.run("return (async () => { " + SAVED + script + " })()")


def half_is_half(b):
    """A heap that is full of small ranges, and one of which each second range is free."""
    for text, part in ((FULL, 1), (HALF, 0.5)):
        b.open()
        give(b, text, "heap.script")
        to(b, text.count("\n") - 1)
        found = b.run(PART, b.run(RGB, "--free"), b.run(RGB, "--age8"))
        holds(abs(found - part) < 0.03, f"{part} of the space is drawn as such", found)
    b.open()
    give(b, HALF, "half.script")
    b.run(DRAWN)
    to(b, 90000)
    holds("(50.0%)" in b.run("return $('reports').textContent"), "half of the units are used")
    found = b.run("const g = $('life').getContext('2d'); " + COVERED)
    holds(abs(found - 0.5) < 0.05, "half is drawn as half", found)
    found = saved(b, COVERED)
    holds(abs(found - 0.5) < 0.05, "in the saved picture too", found)


def every_life_is_painted(b):
    for name in ("voxel-game", "arena-game", "malloc-cc1", "none.script"):
        b.open("" if "." in name else f"#t={name}")
        if "." in name:
            give(b, NONE, name)
        flat, bare, lives = saved(b, """const t = await S.saved.text(), r = S.run, n = r.count + 1;
          const paths = [...t.matchAll(/M([\\d.]+) ([\\d.]+)H([\\d.]+)V([\\d.]+)/g)], a = g.getImageData(0, 0, 1000, 560).data; let bare = 0;
          for (let l = 0; l < r.lifeCount; l++) {
            const f = r.life(l), x = Math.floor(52 + (f.from + Math.min(f.to, n)) / 2 / n * 940), y = Math.min(402, Math.floor(44 + (1 - (f.o + f.n / 2) / r.top) * 359));
            if (a.slice(4 * (1000 * y + x), 4 * (1000 * y + x) + 3).every(v => v === 255)) bare++;
          }
          return [paths.filter(([, x, y, z, u]) => x === z || y === u).length, bare, r.lifeCount]""")
        same([flat, bare], [0, 0], f"{name}: of {lives} lives no path is without width or height, and none has nothing in its place")


def pictures_of_many_sizes(b):
    """A space that is extended very often."""
    for count in (30000, 200000):
        b.open()
        give(b, "space 1000000 nodes 16 index 32\nalloc 100\n" + "extend 1\n" * count, "extended.script")
        b.run(LOOP)
        within(b, f"a picture of {count:,} extensions", 1000, "S.saved = null; return $('picture').onclick()")
        holds(b.run("return S.saved !== null"), "is saved")


# four ranges of one age
ROWS_OF_ONE = "space 400 nodes 16 index 32\n" + "alloc 96\n" * 4 + "report\n" * 40
EDGES = """const found = []; let was = false;
  for (let y = 0; y < h; y++) { const a = g.getImageData(x, y, 1, 1).data, is = a[3] > 100 && a[0] < 200; if (is !== was) found.push(is); was = is; }
  return found.filter(is => is).length"""


def neighbours_have_a_line(b):
    """Ranges of one colour are told apart, in the lives and in the saved picture."""
    b.open()
    give(b, ROWS_OF_ONE, "rows.script")
    b.run(DRAWN)
    to(b, 44)
    same(b.run("const c = $('life'), g = c.getContext('2d'), x = Math.round(0.6 * c.width), h = c.height - 16 * devicePixelRatio; " + EDGES), 4, "four ranges in the lives")
    same(saved(b, "const x = 600, h = 400; for (let y = 0; y < 44; y++) g.clearRect(0, y, 1000, 1); " + EDGES), 4, "and in the saved picture")


ALL = [half_is_half, neighbours_have_a_line, every_life_is_painted, pictures_of_many_sizes]
