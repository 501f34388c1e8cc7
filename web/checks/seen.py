"""That all see and hear the page: how marks stand out from what is beside them, what is announced, and landmarks."""

from colours import contrast

from .base import give, holds, row, same, to, until
from .refusals import FRAGMENTED

NAMED = "const c = getComputedStyle(document.documentElement); return Object.fromEntries(arguments[0].map(n => [n, c.getPropertyValue('--' + n).trim()]))"
# the colours of a row of points of a canvas over the background, from left to right around one
AROUND = """const c = $(arguments[0]), x = Math.round(arguments[1]), a = c.getContext('2d').getImageData(x - 4, arguments[2], 9, 1).data;
  const back = getComputedStyle(document.body).backgroundColor.match(/\d+/g).map(Number), hex = v => Math.round(v).toString(16).padStart(2, '0');
  return [...Array(9).keys()].map(i => '#' + back.map((v, k) => hex(v + (a[4 * i + k] - v) * a[4 * i + 3] / 255)).join(''))"""
AGES = [f"age{i}" for i in range(1, 9)]


def marks_stand_out(b):
    for scheme in ("light", "dark"):
        b.size(1100, 900, 1, scheme)
        b.open("#t=voxel-game&p=9000")
        c = b.run(NAMED, [*AGES, "free", "bg", "mark", "dim", "fg"])
        weak = {(one, other): contrast(c[one], c[other]) for one in (*AGES, "mark", "fg") for other in ("free", "bg")}
        weak = {pair: round(found, 2) for pair, found in weak.items() if found < 3}
        same(weak, {}, f"{scheme}: ages and marks have 3:1 to free units and to the background")
        b.run("return new Promise(r => { const f = () => !S.run.picture?.isDone ? setTimeout(f, 20) : r(draw()); f(); })")
        line = b.run("return GUTTER + (S.p + 1) / (S.run.count + 1) * ($('life').clientWidth - GUTTER)")
        for y in range(10, 180, 5):
            found = b.run(AROUND, "life", line, y)
            at = max(range(9), key=lambda i: found[i] == c["mark"])
            beside = [found[at - 1], found[at + found[at:].count(c["mark"])]]
            assert found[at] == c["mark"] and all(contrast(c["mark"], other) >= 3 for other in beside), (scheme, y, found)
        print(f"passed: {scheme}: the line of the position has 3:1 to what is beside it", flush=True)
        b.run("go(100); $('calls').scrollTop += 22")
        style = b.run("const s = getComputedStyle(document.querySelector('#calls .later .n')), t = getComputedStyle(document.querySelector('#calls .later')); "
                      "return [s.color.match(/\\d+/g).map(Number), Number(t.opacity)]")
        back = [int(c["bg"].ljust(7, "f")[i:i + 2], 16) for i in (1, 3, 5)]
        shown = "#" + "".join(f"{round(p + (v - p) * style[1]):02x}" for v, p in zip(style[0], back))
        holds(contrast(shown, c["bg"]) >= 4.5, f"{scheme}: rows after the position have 4.5:1", (shown, contrast(shown, c["bg"])))


def is_announced(b):
    b.open()
    give(b, FRAGMENTED, "fragmented.script")
    b.run("document.activeElement.blur()")
    b.keys("r")
    live = "return [...document.querySelectorAll('#now, #why')].map(e => e.closest('[aria-live], [role=status]')?.getAttribute('aria-live') || null)"
    same([row(b) > 0, b.run("return $('why').hidden"), *b.run(live)], [True, False, "polite", "polite"], "a refusal and why are announced")
    again = "let n = 0; const o = new MutationObserver(all => n += all.length); for (const id of ['now', 'why', 'block']) o.observe($(id), { childList: true, subtree: true, characterData: true }); " \
        "draw(); draw(); return new Promise(r => setTimeout(() => r(n), 50))"
    same(b.run(again), 0, "what is drawn again is not announced again")
    outside = b.run("return [...document.body.children].filter(e => !['HEADER', 'MAIN', 'ASIDE', 'FOOTER', 'DIALOG', 'SCRIPT'].includes(e.tagName)).map(e => e.id || e.tagName)")
    same(outside, [], "all is in a landmark")
    b.open("#t=voxel-game&p=9000")
    dangles = "return [...document.querySelectorAll('[aria-activedescendant]')].filter(e => !$(e.getAttribute('aria-activedescendant'))).map(e => e.id)"
    b.run("$('calls').scrollTop = 0; return new Promise(r => requestAnimationFrame(() => requestAnimationFrame(r)))")
    same(b.run(dangles), [], "no list names a row that is not there")
    b.run("go(9000)")
    b.keys("Home")
    same(b.run("return [S.p, document.querySelector('#calls .row').dataset.row]"), [0, "0"], "Home takes the calls along")
    b.run("$('speed').value = '2'")
    b.keys("p")
    until(b, "S.p > 0", "it plays")
    same(b.run(live)[0], "off", "while it plays, rows are not announced")
    b.keys("p")


def on_paper_and_by_touch(b):
    b.size(1100, 900, 1, "dark")
    b.open("#t=voxel-game&p=9000")
    bg = "return colors().bg"
    dark = b.run(bg)
    b.run("dispatchEvent(new Event('beforeprint'))")
    same([b.run(bg), b.run("return getComputedStyle(document.body).backgroundColor")], ["#fff", "rgb(255, 255, 255)"], "a page that is printed is light")
    b.run("dispatchEvent(new Event('afterprint'))")
    same(b.run(bg), dark, "and dark again after that")
    touch = "const r = $('life').getBoundingClientRect(), at = (x, y) => ({ clientX: r.left + 54 + x * (r.width - 54), clientY: r.top + y, pointerType: 'touch', buttons: 1, bubbles: true }); "
    b.run(touch + "$('life').dispatchEvent(new PointerEvent('pointerdown', at(0.2, 20))); $('life').dispatchEvent(new PointerEvent('pointermove', at(0.201, 60)))")
    same(row(b), 9000, "a swipe over the lives that scrolls leaves the row")
    b.run(touch + "$('life').dispatchEvent(new PointerEvent('pointermove', at(0.5, 20)))")
    holds(abs(row(b) - 7386) < 20, "one along them goes to its row", row(b))
    b.run(touch + "$('life').dispatchEvent(new PointerEvent('click', at(0.25, 20)))")
    holds(abs(row(b) - 3692) < 20, "so does a tap", row(b))
    b.open()
    give(b, "space 1000 nodes 32 index 32\nalloc 100\n# a name that is long\nalloc 2000\n", "names.script")
    to(b, 2)
    same(b.run("return [...document.querySelectorAll('#calls .row')][1].children[3].title"), "a name that is long", "a name stands before the reason, and is its own tooltip")
    b.size(3840, 2000)
    holds(b.run("return document.body.clientWidth") > 3000, "a wide screen is used")


ALL = [marks_stand_out, is_announced, on_paper_and_by_touch]
