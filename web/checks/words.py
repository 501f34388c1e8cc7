"""What the page says of a refusal, read by one who has the page alone: each text says which request, which unit, which heap and
which limit it is of."""

from .base import give, holds, recorded, same, until
from .refused import STATE, granted_there, tried

# heap 0 has 300 units free at 0, and 88 at the end; heap 1 has 60
TIGHT = """#! unit 256
# meshes
heap 0 space 1000 nodes 64 index 32
# textures
heap 1 space 500 nodes 64 index 32
heap 0 alloc 300
heap 0 tight 612
heap 0 free 1
heap 1 tight 440
# sky
none alloc 300 full
none align 290 4 full
none tight 310 full
none alloc 3000 larger
heap 0 alloc 500
heap 1 align 70 16
"""
NOW = "return [$('refusals').textContent, $('now').textContent, $('reports').textContent]"


def at(b, i):
    """Goes to a request that no heap granted: its facts and what would have helped."""
    b.run("return toUngranted(arguments[0])", i)
    tried(b)
    return b.run(STATE)[3:]


def a_tight_request_is_named(b):
    """Where a tight request would be granted, the reason says so, beside that no heap grants the one that was made."""
    b.open()
    give(b, TIGHT, "tight.script")
    for i, line, call, name in ((0, 11, "tight 300", "allocate_tight"), (1, 12, "tight 290 4", "allocate_tight_aligned")):
        _, facts, helps = at(b, i)
        same(facts[:2], ["no heap grants it, and the limits admit no other heap", f"a tight request ({name}) would be granted, in heap 0 “meshes”"], f"{call} is named")
        holds(any(help.startswith(f"in heap 0 “meshes”: {call} in its place ({name}): ") for help in helps), "and is among what would have helped", helps)
        holds(granted_there(TIGHT.removeprefix("#! unit 256\n"), 0, line - 1, [call]).startswith("grant "), "and it is granted there")
    for i in (2, 3):
        holds(not any("would be granted" in fact for fact in at(b, i)[1]), "where none would be, none is named", i)
    # of one space too, at an alignment as well: 300 units are free at 0, and 88 at the end
    for call, other, name in (("alloc 300", "tight 300", "allocate_tight"), ("align 290 4", "tight 290 4", "allocate_tight_aligned")):
        text = f"space 1000 nodes 64 index 32\nalloc 300\ntight 612\nfree 1\n{call}\n"
        give(b, text, "one.script")
        b.run("go(4)")
        fact, said = b.run("return [$('facts').firstChild.textContent, $('helps').textContent]")
        holds(fact.endswith(f". A tight request ({name}) would be granted") and f"{other} in its place ({name}): " in said, f"of one space {other} is named", (fact, said))
        holds(recorded(text.replace(call, other))[0].splitlines()[-1].startswith("grant "), "and it is granted")


def the_largest_request_has_its_alignment(b):
    """The largest request is said for the alignment that was asked for, or to be without one; of a tight one the largest block."""
    b.open()
    give(b, TIGHT.removeprefix("#! unit 256\n"), "tight.script")
    found = [next(fact for fact in at(b, i)[1] if fact.startswith("there were"))for i in (0, 1, 2)]
    there = "there were 2 heaps, with 448 units free in all"
    same(found, [f"{there}; the largest request without alignment that one granted was 288 units, of heap 0 “meshes”",
                 f"{there}; the largest request at a multiple of 4 units that one granted was 285 units, of heap 0 “meshes”", there], "of what the largest request is")
    same(at(b, 2)[1][-1], "largest free block: 300 units, of heap 0 “meshes”", "of a tight one the largest block")
    for call, is_granted in (("alloc 288", True), ("alloc 289", False), ("align 285 4", True), ("align 286 4", False)):
        same(granted_there(TIGHT.removeprefix("#! unit 256\n"), 0, 10, [call]).startswith("grant "), is_granted, call)
    holds("Largest request that is granted without alignment: 288. " in b.run(NOW)[2], "the line of figures says so", b.run(NOW))
    holds("the largest request that is granted without alignment (darker)" in b.run("return $('lives').textContent"), "so does what is below the lives")
    give(b, "space 1000 nodes 32 index 32\nalloc 100\nalign 900 16\n", "one.script")
    b.run("go(2)")
    fact = b.run("return [...$('facts').children].map(e => e.textContent).find(text => text.startsWith('largest'))")
    same(fact, "largest free block: 900 units; free in all: 900 units; largest request granted now at a multiple of 16 units: 881 units; without alignment: 896 units, since requests are rounded up", "of one space too")
    before = "space 1000 nodes 32 index 32\nalloc 100\n"
    same([recorded(f"{before}align {n} 16\n")[0].splitlines()[-1] == "none" for n in (881, 882)], [False, True], "which is so")
    # an aligned request may need one block more: of a limit of 4, with two blocks, none is granted
    small = "space 1000 nodes 4 index 32\nalloc 100\n"
    same([recorded(f"{small}{call}\n")[0].splitlines()[-1] == "none" for call in ("align 1 16", "alloc 896")], [True, False], "at the node limit")
    give(b, f"{small}align 950 16\n", "small.script")
    b.run("go(2)")
    holds("granted now at a multiple of 16 units: 0 units; without alignment: 896 units" in b.run("return $('facts').textContent") and "a smaller request" not in b.run("return $('helps').textContent"), "none is said to be", b.run(STATE))
    give(b, "heap 0 " + small.replace("alloc", "heap 0 alloc") + "none align 950 16 full\n", "small.script")
    holds("there was 1 heap, with 900 units free in all; none granted a request at a multiple of 16 units" in at(b, 0)[1], "of heaps too", b.run(STATE))


def advice_says_which_limit(b):
    """What no heap granted says that limits are reached, and the advice which of them would have to be larger."""
    b.open()
    give(b, TIGHT, "tight.script")
    for i in (0, 1, 2):
        title, facts, helps = at(b, i)
        same([facts[0], helps[0]], ["no heap grants it, and the limits admit no other heap", "a larger limit on heaps, “most” (“most_larger”, where it is too large for a usual heap): then one more heap is made, and grants it" +
              (" at offset 0" if i == 1 else "")], title)
    title, facts, helps = at(b, 3)
    # 3,000 are rounded up to 3,072
    same([facts[0], helps[0]], ["no heap grants it, and the limits admit none that is large enough",
         "a larger limit on heaps: “size” of at least 3,072 units (768 KiB), so that a usual heap has room for it; or “most_larger” of at least 1, so that a heap is made for it"], title)
    holds(not any("no heap has room" in text for text in b.run("return [document.body.textContent]")), "nowhere it is said that no heap has room")


def why_in_each_heap(b):
    """How many heaps refuse it for which reason."""
    b.open()
    give(b, TIGHT, "tight.script")
    same(at(b, 0)[1][2], "in 1 heap too few units are free, in 1 heap no free block is large enough", "too few units in heap 1, and no such block in heap 0")
    give(b, TIGHT.replace("nodes 64", "nodes 4"), "nodes.script")
    same(at(b, 0)[1][1], "in 1 heap too few nodes are left, in 1 heap too few units are free", "where three blocks are as many as there may be")


def figures_name_their_heap(b):
    """The line of figures is of the heap that is shown."""
    b.open()
    give(b, TIGHT, "tight.script")
    at(b, 0)
    for j, name, size in ((0, "meshes", "1,000 units (250 KiB)"), (1, "textures", "500 units (125 KiB)")):
        b.run("return openPart(arguments[0], 12)", j)
        holds(b.run(NOW)[2].startswith(f"In heap {j} “{name}”, of {size}: "), f"of heap {j}", b.run(NOW)[2])
        same(b.run("return [...document.querySelectorAll('h2:has(.ofheap)')].map(e => e.textContent)"), [f"The space now: heap {j} “{name}”", f"Lives: heap {j} “{name}”"], "so do the heads")
    give(b, "space 1000 nodes 64 index 32\nalloc 300\n", "one.script")
    holds(b.run(NOW)[2].startswith("1,000 units: "), "of one space as before", b.run(NOW)[2])
    same(b.run("return [...document.querySelectorAll('h2:has(.ofheap)')].map(e => e.textContent)"), ["The space now", "Lives"], "without a heap")


def alignments_are_in_units(b):
    """An alignment is in units, beside how many bytes one has: in the line of the row, the reason and the tooltip of the list."""
    b.open()
    give(b, TIGHT, "tight.script")
    _, facts, _ = at(b, 1)
    same(b.run(NOW)[1], "Line 12 of the file, after row 3 of heap 0 “meshes”: align 290 4 (290 units, 72.5 KiB, at a multiple of 4 units, 1.00 KiB): no heap grants it, and the limits admit no other heap", "the line")
    holds("asked: 290 units (72.5 KiB) at a multiple of 4 units (1.00 KiB), so a block for 293 (73.3 KiB), rounded up to 320 (80.0 KiB)" in facts, "the reason", facts)
    b.run("$('nogrant').open = true; L.others.paint()")
    same(b.run("return [...document.querySelectorAll('#others .row .c')].map(e => [e.textContent, e.title])")[:2], [["alloc 300 (75.0 KiB)", ""], ["align 290 4", "290 units, 72.5 KiB, at a multiple of 4 units, 1.00 KiB"]], "the list of what no heap granted")
    b.run("return openPart(1, 99)")
    same(b.run(NOW)[1], "Row 2: align 70 16 (70 units, 17.5 KiB, at a multiple of 16 units, 4.00 KiB): none", "a row of a heap")
    same(b.run("return [...document.querySelectorAll('#calls .row .c')].map(e => e.title)")[1], "70 units (17.5 KiB), at a multiple of 16 units (4.00 KiB)", "a row of the list")
    b.run("$('unit').value = '0'; return $('unit').onchange()")
    same(b.run(NOW)[1], "Row 2: align 70 16 (70 units at a multiple of 16 units): none", "where a unit has no known bytes too")
    same(b.run("return [...document.querySelectorAll('#calls .row .c')].map(e => e.title)"), ["", "70 units, at a multiple of 16 units"], "only where there is an alignment")


def ranges_are_called_ranges(b):
    """How many ranges of a heap are live at the end, and of how many units: in words, or below a head that says so."""
    b.open()
    give(b, TIGHT, "tight.script")
    for width in (360, 768, 901, 1280, 3840):
        b.size(width, 900)
        b.run("draw()")
        head, rows = b.run("return [document.querySelector('.heads .live').innerText, [...document.querySelectorAll('#heaprows .live')].map(e => e.innerText)]")
        expected = ("Live at end", ["1 range, 153 KiB", "1 range, 110 KiB"]) if width > 900 else ("Ranges, size", ["1, 153 KiB", "1, 110 KiB"])
        same((head, rows), expected, f"{width} pixels")
    same(b.run("return [...document.querySelectorAll('#heaprows .live')].map(e => e.textContent)"), ["1 range, 153 KiB", "1 range, 110 KiB"], "and to who hears the page at each width")


def the_refusal_has_its_number(b):
    """Which of the refusals is shown: of a file of many heaps by the order of its lines."""
    b.open()
    give(b, TIGHT, "tight.script")
    same(b.run(NOW)[0], "6 refusals: 1 in this heap, 1 in others, 4 that no heap granted", "before the first there is no number")
    b.run("document.activeElement.blur()")
    found = []
    for _ in range(6):
        b.keys("r")
        until(b, "!Work.now", "another heap")
        found.append(b.run(NOW)[0].split(":")[0])
    same(found, [f"refusal {i} of 6" for i in range(1, 7)], "their numbers")
    give(b, "space 9 nodes 9 index 32\nalloc 10\nalloc 1\nalloc 11\n", "one.script")
    same(b.run("return [0, 1, 2, 3].map(p => { go(p); return $('refusals').textContent; })"), ["2 refusals", "refusal 1 of 2", "2 refusals", "refusal 2 of 2"], "of one space too")


def names_are_beside_their_request(b):
    """A name stands beside the request that has it, not behind the reason."""
    b.open()
    give(b, TIGHT, "tight.script")
    title, _, _ = at(b, 0)
    same([title, b.run(NOW)[1]], ["Line 11: alloc 300 (75.0 KiB) “sky” is refused by all heaps",
         "Line 11 of the file, after row 3 of heap 0 “meshes”: alloc 300 (75.0 KiB) “sky”: no heap grants it, and the limits admit no other heap"], "of what no heap granted")
    give(b, "space 9 nodes 9 index 32\n# sky\nalloc 10\n", "one.script")
    b.run("go(1)")
    same(b.run("return $('whytitle').textContent"), "Row 1: alloc 10 “sky” is refused", "of one space too")


def a_click_is_named(b):
    """Beside what would have helped it is said that a click shows it, where one does."""
    b.open()
    give(b, "space 100 nodes 16 index 32\nalloc 60\nalloc 50\nrelocate 1\n", "one.script")
    found = b.run("return [2, 3].map(p => { go(p); return [$('helped').innerText.split('\\n')[0], $('helps').querySelectorAll('button').length > 0]; })")
    same(found, [["What would have helped (a click shows it):", True], ["What would have helped:", False]], "what helps can be shown, or is none")


def lists_and_labels_are_whole(b):
    """Nothing of the list of what no heap granted is over another; labels of offsets, and the words of an axis, are whole."""
    text = TIGHT.replace("none align 290 4 full\n", "# a texture of which the name is long\nnone align 290000000 4096 full\n") + \
        "".join(f"#! time {i * 16600000}\nheap 0 report\n" for i in range(60))
    for scheme in ("light", "dark"):
        for width in (320, 360, 768, 1280, 3840):
            b.size(width, 900, 1, scheme)
            b.open()
            give(b, text.replace("space 1000", "space 4090").replace("tight 612", "tight 3700"), "tight.script")
            b.run("$('nogrant').open = true; L.others.paint(); go(S.run.count)")
            over = b.run("return [...document.querySelectorAll('#others .row')].flatMap(r => [...r.children].filter((e, i, all) => i && e.getBoundingClientRect().left < all[i - 1].getBoundingClientRect().right || "
                         "e.scrollWidth > e.clientWidth + 1 && getComputedStyle(e).textOverflow !== 'ellipsis').map(e => e.textContent))")
            same(over, [], f"the list, {scheme}, {width} pixels")
            b.run("return new Promise(r => { const f = () => !S.run.picture?.isDone ? setTimeout(f, 20) : r(draw()); f(); })")
            edge = b.run("return ['space', 'life', 'curves'].map(id => { const c = $(id), a = c.getContext('2d').getImageData(0, 0, 1, c.height).data; return a.some((v, i) => i % 4 === 3 && v > 100); })")
            same(edge, [False, False, False], "no label begins at the edge")
    # a tick of the axis is at the upper edge; where the words of another are, there is none
    b.size(480, 900)
    b.open()
    give(b, "space 1000 nodes 99 index 32\n" + "".join(f"report\n#! time {t}\n" for t in (0, 200_000_000, 400_000_000)) + "report\n" * 60 + "#! time 600000000\nreport\n", "times.script")
    same(b.run("return S.run.axis.shown[0][1].map(([p]) => p)"), [1, 2, 3, 63], "three labels beside one another, and one far from them")
    found = b.run("""const c = $('axis'), g = c.getContext('2d'), a = g.getImageData(GUTTER, 0, c.width - GUTTER, 3).data, w = c.width - GUTTER, xs = [];
      for (let x = 0; x < w; x++) if ([0, 1, 2].every(y => a[4 * (y * w + x) + 3] > 60)) xs.push(x); const [p0, p1] = shownLives('life', S.run), at = p => (p + 1 - p0) / (p1 - p0) * w;
      const labels = S.run.axis.shown[0][1].map(([p, text]) => [at(p), g.measureText(text).width]); let free = -1; const words = [];
      for (const [x, wide] of labels) if (x > free && x + wide + 4 < w) { words.push([x + 3, x + 3 + wide]); free = x + wide + 12; }
      return xs.filter(x => words.some(([from, to]) => from <= x && x < to))""")
    same(found, [], "no tick of the axis is within words")


ALL = [a_tight_request_is_named, the_largest_request_has_its_alignment, advice_says_which_limit, why_in_each_heap, figures_name_their_heap, alignments_are_in_units,
       ranges_are_called_ranges, the_refusal_has_its_number, names_are_beside_their_request, a_click_is_named, lists_and_labels_are_whole]
