"""What is looked for by name, units and rows; names by how they begin; what is never freed; curves and zoom of the lives; and sizes
in bytes."""

import re

from .base import give, holds, recorded, row, same, to, until
from .lists import ROWS
from .pictures import DRAWN
from .refusals import FRAGMENTED

# grants 1 to 5 in rows 1 to 4 and 6, of which 2 and 4 are freed in rows 5 and 8; row 7 is refused
NAMED = """space 10000 nodes 64 index 32
# mesh/a
alloc 100
# mesh/b
alloc 200
# texture: rock
alloc 300
alloc 400
free 2
# mesh/c
alloc 150
# texture: big
alloc 20000
free 4
"""


def look(b, **fields):
    """Fills in what is looked for, as the user does, and returns the rows of calls, the grants that are listed, and the totals."""
    b.run("for (const [id, v] of Object.entries(arguments[0])) if (typeof v === 'boolean') $(id).checked = v; else $(id).value = v; return $(Object.keys(arguments[0])[0]).onchange()", fields)
    return listed(b)


def listed(b):
    return [[int(r[0]) for r in b.run(ROWS, "#calls")], sorted(int(r[0]) for r in b.run(ROWS, "#ranges")), b.run("return $('found').textContent")]


def ranges_are_looked_for(b):
    b.size(1100, 1250)
    b.open()
    give(b, NAMED, "named.script")
    b.run("go(8)")
    all_calls = [list(range(1, 9)), [1, 3, 5], ""]
    same(listed(b), all_calls, "all calls, and what is live")
    mesh = "3 ranges granted, 450 units; never freed: 2 ranges, 250 units."
    same(look(b, fname="mesh"), [[1, 2, 5, 6], [1, 5], mesh], "a part of the name: the grants, and the release of one")
    same(look(b, fname="/a"), [[1], [1], "1 range granted, 100 units; never freed: 1 range, 100 units."], "any part")
    same(look(b, fname="/a*"), [[], [], "0 ranges granted, 0 units; never freed: 0 ranges, 0 units."], "none begins so")
    same(look(b, fname="texture*"), [[3, 7], [3], "1 range granted, 300 units; never freed: 1 range, 300 units."], "how names begin: the refused call has a name too")
    b.click("#only")
    same(listed(b)[0], [7], "refusals only")
    b.click("#only")
    same(look(b, fname="", fmin="150", fmax="300"), [[2, 3, 5, 6], [3, 5], "3 ranges granted, 650 units; never freed: 2 ranges, 450 units."], "by units")
    same(look(b, fmin="", fmax="", ffrom="3", fto="6", fnever=True), [[3, 6], [3, 5], "2 ranges granted, 450 units; never freed: 2 ranges, 450 units."],
         "what is granted between two rows and never freed")
    b.run("go(2)")
    b.click("#ffromhere")
    b.run("go(4)")
    b.click("#ftohere")
    until(b, "$('fto').value === '4' && $('ffrom').value === '3'", "rows are taken from the position")
    b.run("go(8)")
    found = listed(b)
    same(found, [[3], [3], "1 range granted, 300 units; never freed: 1 range, 300 units."], "after one position and up to another")
    b.run("return link()")
    b.open(b.run("return location.hash"))
    same(listed(b), found, "a link keeps what is looked for")
    b.click("#fclear")
    until(b, "!S.find", "nothing is looked for")
    same(listed(b), all_calls, "all again")
    b.run("$('fmin').value = '-1'; return $('fmin').onchange()")
    same(b.run("return $('fault').textContent"), "Look for: numbers from 0 to 4,294,967,295", "no such number of units")


INK = """const c = $('space'), g = c.getContext('2d'), at = unit => { const y = Math.floor(unit / (10000 / 6)), x = GUTTER + (unit / (10000 / 6) - y) * (c.width - GUTTER);
  return '#' + [...g.getImageData(Math.round(x), Math.round((y + 0.5) * c.height / 6), 1, 1).data.slice(0, 3)].map(v => v.toString(16).padStart(2, '0')).join(''); };
  const named = Object.fromEntries([...colors().ages.map((v, i) => [v, `age${i + 1}`]), [colors().line, 'line']]);
  return S.run.view(S.p).blocks.filter(b => b.k).sort((a, b) => a.k - b.k).map(b => [b.k, named[at(b.o + b.n / 2)] || at(b.o + b.n / 2)])"""


def names_have_colours(b):
    b.size(1100, 1250)
    b.open()
    give(b, NAMED, "named.script")
    b.run("go(8)")
    same([b.run(INK), b.run("return $('groups').hidden")], [[[1, "age1"], [3, "age1"], [5, "age1"]], True], "by age first: all are young")
    b.run("$('byname').value = '1'; return $('byname').onchange()")
    # mesh has 450 units over the run, texture 300; those without a name come last
    same(b.run(INK), [[1, "age1"], [3, "age2"], [5, "age1"]], "ranges in the colour of how their names begin")
    same(b.run("return $('legend').textContent"), "Names that begin withmeshtextureothersfree", "the legend has the names")
    same(b.run("return [...$('grouprows').rows].map(r => [...r.cells].map(c => c.textContent))"),
         [["texture", "1", "300", "1", "300"], ["mesh", "2", "250", "2", "250"], ["no name", "0", "0", "0", "0"]], "totals of how names begin, what is live and what is never freed")
    b.run("go(4)")
    same(b.run("return [...$('grouprows').rows].map(r => [...r.cells].slice(0, 3).map(c => c.textContent))"), [["no name", "1", "400"], ["mesh", "2", "300"], ["texture", "1", "300"]], "at each row")
    b.run("go(8); [...$('grouprows').querySelectorAll('button')].find(e => e.textContent === 'mesh').click()")
    until(b, "S.run.found", "its ranges are looked for")
    same([listed(b)[1], b.run(INK)], [[1, 5], [[1, "age1"], [3, "line"], [5, "age1"]]], "a click looks for these, and the others are faint")
    b.run(DRAWN)
    b.run("return link()")
    b.open(b.run("return location.hash"))
    same(b.run(INK), [[1, "age1"], [3, "line"], [5, "age1"]], "a link keeps the colours")


def curves_are_right(b):
    b.size(1100, 1250)
    b.open()
    play_text = FRAGMENTED
    give(b, play_text, "fragmented.script")
    lines = play_text.splitlines()
    reports = [recorded("\n".join([*lines[:i + 1], "report"]) + "\n")[0].splitlines()[-1].split() for i in range(1, len(lines))]
    expected = [[1000 - int(r[1]), int(r[3])] for r in reports]
    n = len(expected)
    found = "const { used, largest } = S.run.curves, [p0, p1] = S.life || [0, S.run.count + 1]; return arguments[0].map(i => { const x = Math.round((i + 1.5 - p0) / (p1 - p0) * used.length); return [used[x], largest[x]]; })"
    same(b.run(found, list(range(n))), expected, "the units in use and the largest request that is granted, at each row")
    b.run("zoomLives(4, 13, 0, S.run.top)")
    same(b.run(found, list(range(4, 11))), expected[4:11], "in a part of the rows too")
    drawn = b.run("const c = $('curves'), a = c.getContext('2d').getImageData(GUTTER, 0, c.width - GUTTER, c.height).data, seen = new Set(); for (let i = 0; i < a.length; i += 4) if (a[i + 3] > 200) seen.add([a[i], a[i + 1], a[i + 2]].join()); "
                  "return [1, 5].map(i => seen.has(rgb(colors().ages[i]).join()))")
    same(drawn, [True, True], "both are drawn")
    b.open("#t=voxel-game&p=9000")
    most = "const { used, largest } = S.run.curves, rows = S.run.rows.list; let a = 0, b = Infinity; for (let i = 0; i < S.run.count; i++) { a = Math.max(a, S.run.used.list[i]); b = Math.min(b, rows[8 * i + 5]); } " \
        "return [Math.max(...used) === a, Math.min(...largest) === b]"
    same(b.run(most), [True, True], "of many calls in a pixel the most in use and the least request")


EVENT = """const r = $('life').getBoundingClientRect(), at = ([x, y]) => ({ clientX: r.left + GUTTER + x * (r.width - GUTTER), clientY: r.top + y * (r.height - 16), bubbles: true, cancelable: true, pointerId: 1, buttons: 1 });
  $('life').setPointerCapture = () => {}; const [kind, from, to, more] = arguments;
  if (kind === 'wheel') $('life').dispatchEvent(new WheelEvent('wheel', { ...at(from), ...more }));
  else { $('life').dispatchEvent(new PointerEvent('pointerdown', { ...at(from), ...more })); $('life').dispatchEvent(new PointerEvent('pointermove', { ...at(to), ...more }));
    $('life').dispatchEvent(new PointerEvent('pointerup', { ...at(to), ...more, buttons: 0 })); }
  return S.life"""


def near(found, expected, what):
    holds(found is not None and all(abs(f - e) <= 1.5 + abs(e) / 200 for f, e in zip(found, expected)), what, (found, expected))


def lives_can_be_zoomed(b):
    b.size(1100, 1250)
    b.open()
    # 199 calls: one range is live in rows 50 to 150 at 0 to 50, another all the time at 500 to 510
    text = "space 2000 nodes 16 index 32\nalloc 500\nalloc 10\nfree 1\n" + "report\n" * 47 + "alloc 50\n" + "report\n" * 98 + "free 3\n" + "report\n" * 49
    give(b, text, "zoom.script")
    to(b, 60)
    count, top = b.run("return [S.run.count, S.run.top]")
    same([count, top], [199, 510], "the rows and offsets of the run")
    near(b.run(EVENT, "wheel", [0.5, 0.5], None, {"deltaY": -500}), [100 - 36.8, 100 + 36.8, 0, 510], "the wheel zooms the rows about the pointer")
    same(row(b), 60, "and leaves the row")
    near(b.run(EVENT, "drag", [0.5, 0.5], [0.25, 0.5], {"altKey": True}), [63.2 + 18.4, 136.8 + 18.4, 0, 510], "Alt and a drag move")
    b.click("#lzall")
    same(b.run("return S.life"), None, "a button shows the whole run")
    near(b.run(EVENT, "drag", [0.4, 0.95], [0.5, 0.99], {"shiftKey": True}), [80, 100, 5.1, 25.5], "Shift and a drag take the part in a box")
    b.run(DRAWN)
    colours = b.run("const s = S.run.picture.sheet, a = s.getContext('2d').getImageData(0, 0, s.width, s.height).data; const seen = new Set(); for (let i = 0; i < a.length; i += 4) seen.add(a[i + 3]); return [...seen]")
    same(colours, [255], "which is all of the range that is live there")
    b.run("const r = $('life').getBoundingClientRect(); $('life').dispatchEvent(new PointerEvent('click', { clientX: r.left + GUTTER + 0.5 * (r.width - GUTTER), clientY: r.top + 20 }))")
    holds(abs(row(b) - 89) <= 1, "a click goes to the row under it", row(b))
    life = b.run("return S.life")
    b.run("return link()")
    b.open(b.run("return location.hash"))
    same(b.run("return S.life"), life, "a link keeps the part")
    near(b.run(EVENT, "wheel", [0.5, 0.5], None, {"deltaY": 900, "shiftKey": True})[2:], [0, 4 * (life[3] - life[2])], "with Shift the wheel zooms the offsets, by four at most")


def lives_tell_what_is_under_the_pointer(b):
    b.size(1100, 1250)
    b.open()
    # 199 calls: grant 1 has 0 to 500 in rows 1 and 2, grant 2 500 to 510, grant 3 0 to 50 from row 51 to 150
    give(b, "space 2000 nodes 16 index 32\nalloc 500\n# thin\nalloc 10\nfree 1\n" + "report\n" * 47 + "# low\nalloc 50\n" + "report\n" * 98 + "free 3\n" + "report\n" * 49, "under.script")
    to(b, 60)
    move = """const [kind, p, o] = arguments, r = $('life').getBoundingClientRect(), [p0, p1, o0, o1] = shownLives('life', S.run), text = $('under').textContent;
      $('life').dispatchEvent(new PointerEvent(kind, { clientX: r.left + GUTTER + (p + 0.5 - p0) / (p1 - p0) * (r.width - GUTTER), clientY: r.top + (1 - (o + 0.5 - o0) / (o1 - o0)) * (r.height - 16), bubbles: true, pointerType: kind === 'click' ? 'touch' : 'mouse' }));
      return new Promise(done => setTimeout(() => done($('under').textContent), 150))"""
    same(b.run("return $('under').textContent"), "Point at a range here to see which it is.", "what to do is said")
    low = "grant 3 “low”, 50 units at 0, live since row 51, up to row 150."
    for p, o, said in ((2, 30, "grant 1, 500 units at 0, live since row 1, up to row 3."), (20, 30, "free, 500 units at 0."), (51, 3, low), (149, 49, low), (150, 3, "free, 500 units at 0."),
                       (90, 200, "free, 450 units at 50."), (190, 505, "grant 2 “thin”, 10 units at 500, live since row 2, and never freed.")):
        found = b.run(move, "pointermove", p, o)
        parts = re.match(r"Row (\d+), offset (\d+): (.*)", found)
        holds(parts and int(parts[1]) == p and abs(int(parts[2]) - o) <= 3, f"the place under the pointer: row {p}, offset {o}", found)
        same(parts[3], said, "and the range there")
    same(row(b), 60, "the row stays")
    b.run("zoomLives(40, 60, 0, 60)")
    same(b.run(move, "pointermove", 52, 10).split(": ", 1)[1], low, "in a part of the lives too")
    b.run("$('unit').value = 1024; return $('unit').onchange()")
    same(b.run("return new Promise(done => setTimeout(() => done($('under').textContent), 150))"), "Row 52, offset 10 (10 KiB): grant 3 “low”, 50 units (50.0 KiB) at 0, live since row 51, up to row 150.", "in bytes too")
    b.run("$('life').dispatchEvent(new PointerEvent('pointerleave', { pointerType: 'mouse' }))")
    same(b.run("return $('under').textContent"), "Point at a range here to see which it is.", "nothing is under it once it has left")
    holds(b.run(move, "click", 52, 10).endswith("up to row 150."), "a tap tells it too")
    # a range of no units, for which the space is played again
    b.run("$('unit').value = ''; return $('unit').onchange()")
    give(b, "space 100 nodes 16 index 32\nalloc 0\nalloc 40\nalloc 20\nfree 2\nreport\nreport\n", "none.script")
    b.run("go(6)")
    same(b.run(move, "pointermove", 3, 50).split(": ", 1)[1], "grant 3, 20 units at 40, live since row 3, and never freed.", "beside a range of no units")
    same(b.run("return [S.p, S.run.view(6).blocks.length]"), [6, 4], "and the space is as before")


def sizes_in_bytes(b):
    b.open()
    give(b, NAMED, "named.script")
    b.run("go(8)")
    b.run("$('unit').value = '16'; return $('unit').onchange()")
    # 550 units are 8,800 bytes
    same(b.run("return $('rangesum').textContent"), "Live now: 3 ranges, 550 units (8.59 KiB). Still live at the end: 3 ranges, 550 units (8.59 KiB).", "a sum in KiB")
    b.click("#sorts [data-by=grant]")
    same([r[2] for r in b.run(ROWS, "#ranges")], ["1.56 KiB", "4.69 KiB", "2.34 KiB"], "the sizes of ranges")
    same(b.run("S.unit = 65536; return [0, 1, 10, 16, 1000, 65536, 16777216].map(n => inBytes(n))"), ["0 B", "64.0 KiB", "640 KiB", "1.00 MiB", "62.5 MiB", "4.00 GiB", "1.00 TiB"], "B to TiB")
    same(b.run("S.unit = 1; return [1023, 1048575, 1023 * 1024 + 511, 1023 * 1024 + 512].map(n => inBytes(n))"), ["1,023 B", "1.00 MiB", "1,023 KiB", "1.00 MiB"], "what is rounded to 1,024 is one of the next")
    b.run("S.unit = 16; return link()")
    b.open(b.run("return location.hash"))
    holds("(8.59 KiB)" in b.run("return $('rangesum').textContent"), "a link keeps the size of a unit")
    b.run("$('unit').value = ''; return $('unit').onchange()")
    holds("550 units. Still" in b.run("return $('rangesum').textContent"), "without it all is in units")


def exactly(v):
    """A number of bytes in the largest unit of which it has whole sixteenths."""
    names = ["B", "KiB", "MiB", "GiB", "TiB", "PiB"]
    while v >= 1024 and v % 64 == 0 and len(names) > 1:
        v, names = v / 1024, names[1:]
    return f"{v:,.4f}".rstrip("0").rstrip(".") + " " + names[0]


def places_and_classes_in_bytes(b):
    """Offsets, size classes, hover texts and reasons, where a unit has 1,600 bytes: 100 units are 156.25 KiB."""
    b.size(1100, 1250)
    b.open()
    give(b, FRAGMENTED, "fragmented.script")
    b.run("$('unit').value = '1600'; return $('unit').onchange()")
    texts = "return arguments[0].map(id => $(id).textContent)"
    b.run("go(9)")
    same(b.run(texts, ["now", "shown"]), ["Row 9: alloc 100: grant 9 at 800 (1,250 KiB), from the free block at 800 (1,250 KiB) of 200 units (313 KiB)",
                                          "Shown: units 0 to 1,000 (1,562.5 KiB), all of the space; a line is 167 units (261 KiB)."], "the row, and the part of the space")
    same([r[1] for r in b.run(ROWS, "#ranges")], [exactly(1600 * o) for o in range(0, 900, 100)], "the offsets of ranges, each exactly")
    titles = "return [...document.querySelectorAll(arguments[0])].map(r => [...r.children].map(c => c.title))"
    same(b.run(titles, "#ranges .row")[3][:3], ["", "offset 300", "100 units"], "with units as tooltips")
    same(b.run("go(17); return [...document.querySelectorAll('#calls .row')].find(r => r.textContent.includes('align 100 256')).children[1].title"), "100 units (156 KiB), at a multiple of 256 units (400 KiB)", "calls in bytes as tooltips")
    b.run("go(9); document.activeElement.blur()")
    b.keys("b", "b")
    same(b.run("return $('block').textContent"), "Grant 2 at 100 (156.25 KiB): 100 units (156 KiB), class 36 (96 to 103 units, 150 KiB to 161 KiB), live since row 2.", "the chosen block")
    b.run("go(14)")
    same(b.run("return [...$('binrows').rows].map(r => [...r.cells].map(c => [c.textContent, c.title]))"),
         [[["36", ""], ["150 KiB to 161 KiB", "96 to 103 units"], ["5", ""], ["781 KiB", "500 units"]]], "the size classes")
    same(b.run("return $('binsum').textContent"), "5 free blocks of 1 class. Searched from class 50, 320 to 351 units (500 KiB to 548 KiB).", "where the search begins")
    b.run("const r = $('bins').getBoundingClientRect(); $('bins').onpointermove({ clientX: r.left + 42.5 / 67 * r.width, clientY: r.top + 5 })")
    same(b.run("return $('bin').textContent"), "Class 39: blocks of 120 to 127 units (188 KiB to 198 KiB); 0 free blocks.", "the class under the pointer")
    helps = b.run("return [...$('helps').children].map(e => e.textContent)")
    holds("move 3 ranges of 300 units (469 KiB), from 100 (156.25 KiB) to 600 (937.5 KiB) (outlined): grant 2 of 100 units (156 KiB)" in helps[3], "what is to move", helps)
    give(b, "space 1000 nodes 16 index 32\nalloc 100\nalloc 100\ngrow 1 150\nat 150 100\nalign 900 64\n", "reasons.script")
    b.run("$('unit').value = '1600'; return $('unit').onchange()")
    facts = b.run("return [3, 4, 5].map(p => { go(p); return [...$('facts').children].map(e => e.textContent); })")
    same([facts[0][0], facts[1], facts[2][1]],
         ["grant 1 has 100 units (156 KiB), at 0", ["asked: 100 units (156 KiB) from 150 (234.375 KiB) on; the space has 1,000 units (1.53 MiB)", "in its way: grant 2 at 100 (156.25 KiB), 100 units (156 KiB)"],
          "asked: 900 units (1.37 MiB) at a multiple of 64 units (100 KiB), so a block for 963 (1.47 MiB); rounded up to class 64: 1,024 units (1.56 MiB)"], "reasons")
    same(b.run("S.unit = 48; return [0, 1, 4, 1000, 4194304, 4294967295].map(place)"),
         ["0", "1 (48 B)", "4 (192 B)", f"1,000 ({exactly(48000)})", f"4,194,304 ({exactly(48 << 22)})", f"4,294,967,295 ({exactly(48 * 4294967295)})"], "from bytes on")
    b.run("$('unit').value = ''; return $('unit').onchange()")
    said = b.run("const all = []; for (let p = 0; p <= S.run.count; p++) { go(p); all.push($('now').textContent, $('why').textContent, $('shown').textContent, $('binrows').textContent, $('block').textContent); } "
                 "return all.concat([...document.querySelectorAll('#calls .row, #ranges .row')].map(r => r.textContent + [...r.children].map(c => c.title))).filter(t => /\\d [KMGT]?i?B\\b/.test(t))")
    same(said, [], "without a size of a unit nothing is in bytes")


ALL = [ranges_are_looked_for, names_have_colours, curves_are_right, lives_can_be_zoomed, lives_tell_what_is_under_the_pointer, sizes_in_bytes, places_and_classes_in_bytes]
