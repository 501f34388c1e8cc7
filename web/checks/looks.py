"""The first screen, what is beside what, and what the lives show: that a reader who is new to the page sees what to do, and that pictures
of long runs still tell apart."""

from colours import contrast

from .base import give, holds, row, same, to, until
from .pictures import DRAWN
from .refusals import FRAGMENTED
from .refused import HEAPS, tried

BOX = "const r = $(arguments[0]).getBoundingClientRect(); return [r.left, r.top, r.right, r.bottom].map(v => v + 0)"


def the_first_screen_says_what_to_do(b):
    for scheme in ("light", "dark"):
        for width in (360, 768, 1280, 3840):
            b.size(width, 900, 1, scheme)
            b.open("")
            text = b.run("return $('intro').textContent")
            holds("why a request was refused" in text and "r goes to the next refused request" in text and "Drop a recording here" in b.run("return $('give').textContent"), "what it is, where to drop a file, and what r does", text)
            seen = b.run("return ['intro', 'give', 'rnext'].map(id => { const r = $(id).getBoundingClientRect(); return r.top >= 0 && r.bottom <= innerHeight && r.left >= 0 && r.right <= innerWidth; })")
            same(seen, [True, True, True], f"all on the first screen, {width} pixels, {scheme}")
            same(b.run("return [...document.querySelectorAll('button.primary')].map(e => e.id)"), ["rnext"], "one button is primary")
            style = b.run("const s = getComputedStyle($('rnext')); return [s.color, s.backgroundColor].map(c => '#' + c.match(/\\d+/g).slice(0, 3).map(v => Number(v).toString(16).padStart(2, '0')).join(''))")
            holds(contrast(*style) >= 4.5, "its words have 4.5:1", style)
            same(b.run("return document.documentElement.scrollWidth - document.documentElement.clientWidth"), 0, "nothing is wider than the window")


def the_reason_is_beside_the_space(b):
    for width in (360, 768, 1280, 3840):
        for text, name in ((FRAGMENTED, "fragmented.script"), (HEAPS, "heaps.script")):
            b.size(width, 900)
            b.open()
            give(b, text, name)
            b.run("refusal(1)")
            tried(b)
            space, why = b.run(BOX, "space"), b.run(BOX, "why")
            holds(0 <= why[1] - space[3] <= 30 if width < 960 else why[0] >= space[2] and abs(why[1] - space[1]) < 30, f"the reason is beside the space, or just below it, at {width} pixels: {name}", (space, why))


def lives_after_the_position_are_seen(b):
    # four ranges that live for 250, 900, 2,900 and 8,000 calls
    text = "space 8000 nodes 32 index 32\n" + "alloc 1000\n" * 5 + "report\n" * 246 + "free 1\n" + "report\n" * 650 + "free 2\n" + "report\n" * 2000 + "free 3\n" + "report\n" * 5100 + "free 4\n" + "report\n" * 999
    for scheme in ("light", "dark"):
        b.size(1100, 1250, 1, scheme)
        b.open()
        give(b, text, "ages.script")
        b.run(DRAWN)
        to(b, 1)
        found = b.run("""const c = $('life'), g = c.getContext('2d'), back = getComputedStyle(document.body).backgroundColor.match(/\\d+/g).map(Number), h = v => Math.round(v).toString(16).padStart(2, '0');
          const a = g.getImageData(GUTTER + 6, 0, c.width - GUTTER - 8, c.height - 16).data, seen = new Map();
          for (let i = 0; i < a.length; i += 4) if (a[i + 3] === 255) { const k = '#' + [0, 1, 2].map(j => h(a[i + j])).join(''); seen.set(k, (seen.get(k) || 0) + 1); }
          return [...seen].filter(([, n]) => n > 400).map(([k]) => k)""")
        bg = "#ffffff" if scheme == "light" else "#16181b"
        weak = {c: round(contrast(c, bg), 2) for c in found if contrast(c, bg) < 3}
        holds(len(found) >= 3 and not weak, f"{scheme}: lives after the position have 3:1 to the background", (found, weak))
        before = b.run("go(S.run.count - 10); const c = $('life'); return [...c.getContext('2d').getImageData(Math.round(c.width * 0.6), 20, 1, 1).data]")
        after = b.run("go(1); const c = $('life'); return [...c.getContext('2d').getImageData(Math.round(c.width * 0.6), 20, 1, 1).data]")
        holds(before != after, "and are not those before it", (before, after))


def bars_share_one_scale(b):
    text = "space 100000000 nodes 999 index 32\n" + "".join(f"alloc {3 ** i}\n" * (1 + 7 * (i % 3)) for i in range(14))
    for width in (360, 1280):
        b.size(width, 900)
        b.open()
        give(b, text, "sizes.script")
        b.run("go(S.run.count)")
        boxes = b.run("return [...document.querySelectorAll('.bar2')].map(e => { const r = e.getBoundingClientRect(); return [Math.round(r.left), Math.round(r.right)]; })")
        holds(len(boxes) > 5 and len({tuple(box) for box in boxes}) == 1, f"bars of sizes have one scale at {width} pixels", boxes)


def ages_are_of_the_length(b):
    """Of a long run the bounds of ages are larger; its refusals are as long as they are many."""
    # 300,000 calls: of the first half each tenth is refused, of the second each
    text = "space 1000 nodes 16 index 32\nalloc 500\n" + ("report\n" * 9 + "alloc 600\n") * 15000 + "alloc 600\n" * 150000
    b.size(1100, 1250)
    b.open()
    give(b, text, "long.script")
    same(b.run("return agesOf(S.run)"), [100, 300, 1000, 3000, 10000, 30000, 100000], "the bounds of ages")
    same(b.run("return $('legend').textContent"), "Live forto 100 rowsto 300to 1,000to 3,000to 10,000to 30,000to 100,000longerfree", "which the legend has")
    b.run(DRAWN)
    b.run("go(S.run.count)")
    long = """const c = $(arguments[0]), g = c.getContext('2d'), mark = rgb(colors().mark), at = (x, y) => mark.every((v, i) => Math.abs(g.getImageData(Math.round(x * c.width), y, 1, 1).data[i] - v) < 40);
      return [0.3, 0.8].map(x => [...Array(12).keys()].filter(y => at(x, y)).length)"""
    found = b.run(long, "life")
    holds(found[0] <= 5 < 8 <= found[1], "refusals in the lives are as long as they are many", found)
    found = b.run(long, "marks")
    holds(found[0] <= 3 < 5 <= found[1], "above the slider too", found)
    b.open("#t=voxel-game")
    same(b.run("return agesOf(S.run)"), [10, 30, 100, 300, 1000, 3000, 10000], "of a shorter run they are as before")


FRAMES = "space 1000 nodes 99 index 32\n" + "".join(f"alloc 1\n#! frame\n#! time {1000000 * (i + 1)}\n" + "report\n" * (i % 3) for i in range(50))


def frames_and_time_have_an_axis(b):
    b.size(1100, 1250)
    b.open()
    give(b, FRAMES, "frames.script")
    same(b.run("return $('axis').hidden"), False, "there is an axis")
    # the row at which each frame begins, and of each time
    rows, p = [0], 0
    for i in range(50):
        rows.append(p := p + 1)
        p += i % 3
    shown = b.run("return S.run.axis.shown")
    same([name for name, _ in shown], ["frame", "time"], "of frames and of time")
    holds(len(shown[0][1]) > 4 and all(rows[int(text) - 1] == at for at, text in shown[0][1]), "frames are where they begin", shown[0][1])
    holds(len(shown[1][1]) > 4 and all(text == f"{rows.index(at):.2f} ms" for at, text in shown[1][1]), "times are at their marks", shown[1][1])
    b.run("zoomLives(10, 30, 0, S.run.top)")
    shown = b.run("return S.run.axis.shown")
    holds(all(8 <= at <= 31 for at, _ in shown[0][1]) and len(shown[0][1]) > 3, "in a part too", shown[0][1])
    give(b, FRAGMENTED, "none.script")
    same(b.run("return $('axis').hidden"), True, "without marks there is none")


def the_zoom_can_be_moved(b):
    b.size(1100, 1250)
    b.open("#t=voxel-game&p=9000")
    same(b.run("return ['lleft', 'lright', 'lup', 'ldown', 'zleft', 'zright'].map(id => $(id).disabled)"), [True] * 6, "the whole cannot be moved")
    same(b.run("return [$('lifemap').hidden, $('spacemap').hidden]"), [True, True], "and has no small map")
    b.run("document.activeElement.blur(); zoomLives(4000, 6000, 100000, 200000)")
    for keys, button, expected in ((("Shift+Right",), "lright", [5000, 7000, 100000, 200000]), (("Shift+Left",), "lleft", [4000, 6000, 100000, 200000]),
                                   (("Shift+Up",), "lup", [4000, 6000, 150000, 250000]), (("Shift+Down",), "ldown", [4000, 6000, 100000, 200000])):
        before = b.run("return S.life")
        b.keys(*keys)
        same(b.run("return S.life"), expected, f"{keys[0]} moves the lives")
        b.run("S.life = arguments[0]; draw(); $(arguments[1]).click()", before, button)
        same(b.run("return S.life"), expected, "and a button")
    same(row(b), 9000, "the row stays")
    same(b.run("return [$('lifemap').hidden, $('lifemap').clientHeight > 20]"), [False, True], "a small map shows the whole run")
    until(b, "S.run.pictures.lifemap?.isDone", "the map")
    b.run("draw()")
    # the frame is at rows 4,000 to 6,000, at the lower edge, as the offsets are few
    frame = b.run("const c = $('lifemap'), g = c.getContext('2d'), fg = rgb(colors().fg === '#1c1c1c' ? '#1c1c1c' : '#e6e6e6'), found = []; for (let y = 0; y < c.height; y++) { const a = g.getImageData(0, y, c.width, 1).data; "
                  "const xs = []; for (let x = 0; x < c.width; x++) if (fg.every((v, k) => Math.abs(a[4 * x + k] - v) < 6) && a[4 * x + 3] > 250) xs.push(x); if (xs.length > 60) found.push([y, xs[0], xs.at(-1)]); } "
                  "return found.map(([y, x, z]) => [y, ...[x, z].map(v => (v - GUTTER) / (c.width - GUTTER) * (S.run.count + 1))])")
    holds(len(frame) >= 4 and frame[-1][0] <= 39 and all(abs(x - 4000) < 60 and abs(z - 6000) < 60 for _, x, z in frame), "with a frame about the part that is shown", frame)
    b.run("const r = $('lifemap').getBoundingClientRect(); $('lifemap').dispatchEvent(new PointerEvent('pointerdown', { buttons: 1, clientX: r.left + GUTTER + 0.5 * (r.width - GUTTER), clientY: r.top + 20 }))")
    life = b.run("return S.life")
    holds(abs((life[0] + life[1]) / 2 - 7387) < 60 and life[1] - life[0] == 2000, "a press on it moves there", life)
    b.run("zoomAt(100000, 50000); draw()")
    same(b.run("return [$('spacemap').hidden, $('zleft').disabled]"), [False, False], "the space has a map too")
    b.run("const r = $('spacemap').getBoundingClientRect(); $('spacemap').dispatchEvent(new PointerEvent('pointerdown', { buttons: 1, clientX: r.left + GUTTER + 0.5 * (r.width - GUTTER), clientY: r.top + 5 }))")
    zoom, size = b.run("return [S.zoom, S.run.sizeAt(S.p)]")
    holds(abs((zoom[0] + zoom[1]) / 2 - size / 2) < size / 100, "a press on it moves there", (zoom, size))


def all_heaps_are_seen_at_once(b):
    text = "heap 0 space 1000 nodes 64 index 32\nheap 1 space 500 nodes 64 index 32\n# mesh: a\nheap 0 at 0 500\n# texture: b\nheap 1 at 250 250\n# texture: c\nheap 0 at 500 250\nheap 1 give up\nheap 0 free 1\n"
    b.size(1100, 1250)
    b.open()
    give(b, text, "heaps.script")
    b.run("$('allnow').open = true")
    ink = """const c = $('heapsnow'), g = c.getContext('2d'), left = Math.min(220, c.clientWidth / 3), of = ['free', ...[1, 2, 3, 4, 5, 6, 7, 8].map(i => 'age' + i)], rgbs = of.map(n => rgb(color('--' + n)));
      return arguments[0].map(([y, units]) => { const a = g.getImageData(Math.round(left + units / 1000 * (c.width - left)), y * BAR + 9, 1, 1).data; const i = rgbs.findIndex(v => v.every((x, k) => Math.abs(x - a[k]) < 4) && a[3] > 250); return i < 0 ? '' : of[i]; })"""
    points = [[0, 250], [0, 600], [0, 900], [1, 100], [1, 400], [1, 700]]
    b.run("return openPart(0, 5)")
    b.run("go(1)")
    until(b, "$('heapsnowis').textContent.startsWith('2 heaps')", "two heaps")
    b.run("return openPart(0, 8)")
    b.run("go(2); drawHeapsNow()")
    # 750 units of meshes and textures: mesh 500, texture 500 in all; of as many units the first comes first
    same(b.run(ink, points), ["age1", "age2", "free", "free", "age2", ""], "each heap is a bar, in the colours of types")
    same(b.run("return $('typelegend').textContent"), "Names that begin withmeshtextureothersfree", "with a legend")
    b.run("go(3); drawHeapsNow()")
    same(b.run("return $('heapsnowis').textContent").split(" at")[0], "1 heap", "a heap that has ended is not there")
    same(b.run(ink, points[:3]), ["free", "age2", "free"], "nor a range that was freed")
    b.run("go(2); drawHeapsNow(); const r = $('heapsnow').getBoundingClientRect(); $('heapsnow').dispatchEvent(new MouseEvent('click', { clientY: r.top + BAR * 1.5, clientX: r.left + 300 }))")
    until(b, "S.part === 1", "a click opens a heap")


def less_motion_is_slow(b):
    b.command("Emulation.setEmulatedMedia", features=[{"name": "prefers-reduced-motion", "value": "reduce"}])
    b.open("#t=voxel-game&p=9000")
    same(b.run("return $('speed').value"), "2", "who asks for less motion gets two rows a second")
    b.command("Emulation.setEmulatedMedia", features=[{"name": "prefers-reduced-motion", "value": "no-preference"}])
    b.open("#t=voxel-game&p=9000")
    same(b.run("return $('speed').value"), "600", "others 600")


ALL = [the_first_screen_says_what_to_do, the_reason_is_beside_the_space, lives_after_the_position_are_seen, bars_share_one_scale, ages_are_of_the_length, frames_and_time_have_an_axis,
       the_zoom_can_be_moved, all_heaps_are_seen_at_once, less_motion_is_slow]
