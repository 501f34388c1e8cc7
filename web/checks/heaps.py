"""Recordings of many heaps, of spaces that there were, and with marks: their rows, each opened as a space; what is never freed
between two marks; requests at a place; and dumps."""

import json
import random
import re

from .base import give, holds, program, recorded, row, same, to, until


def many(seed, calls=400):
    """A recording of heaps that come and go, and by a model of its own, from the program's answers: of each heap in turn its
    name, calls, live ranges and units at the end, what ended it, and the calls of its own."""
    r = random.Random(seed)
    lines, heaps, rows, ended, refused, live = [], {}, [], {}, 0, {}

    def begin(h):
        size, nodes = r.choice([1000, 5000, 65536]), r.choice([8, 40, 300])
        again = sum(1 for it in rows if it["heap"] == h)
        heaps[h] = {"heap": h, "name": f"heap {h}" + (f" ({again + 1})" if again else ""), "calls": [], "from": len(lines) + 1, "size": size, "end": "", "lines": []}
        if h in ended:
            del ended[h]
        rows.append(heaps[h])
        lines.append(f"heap {h} space {size} nodes {nodes} index 32")

    begin(0)
    for i in range(calls):
        if r.random() < 0.04 or not heaps:
            free = [h for h in range(6) if h not in heaps]
            if free:
                begin(r.choice(free))
        h = r.choice(list(heaps))
        it, kind = heaps[h], r.random()
        if kind < 0.05:
            lines.append(f"none alloc {r.randrange(100000)} {r.choice(['empty', 'larger', 'full', 'memory'])}")
            refused += 1
            continue
        if kind < 0.07:
            lines.append(f"#! frame")
            continue
        if kind < 0.09 and len(heaps) > 1:
            lines.append(f"heap {h} give up")
            it["end"] = "given up"
            del heaps[h]
            continue
        if kind < 0.6:
            if r.random() < 0.5:
                lines.append(f"# mesh: number {i}")
            call = r.choice([f"alloc {r.randrange(1, 900)}", f"align {r.randrange(1, 300)} {r.choice([4, 12, 64])}", f"tight {r.randrange(1, 90)}", f"at {r.randrange(900)} {r.randrange(1, 60)}"])
        elif kind < 0.9:
            call = f"free {r.randrange(1, len(it['calls']) + 3)}"
        else:
            call = r.choice(["compact", f"room {r.randrange(1, 900)}", "extend 9", "report", f"shrink {r.randrange(1, 9)} 1"])
        lines.append(f"heap {h} {call}")
        it["calls"].append(call)
        it["lines"].append(len(lines))
    return "\n".join(lines) + "\n", rows, refused


def units_of(call):
    return int(call.split()[2 if call.startswith("at ") else 1])


def lived(calls, answers):
    """The live ranges after calls, by their answers: the units of each grant."""
    live = {}
    for call, answer in zip(calls, answers):
        word, *n = call.split()
        if answer.startswith("grant "):
            live[answer.split()[1]] = units_of(call)
        elif answer == "freed":
            del live[n[0]]
        elif answer == "shrunk":
            live[n[0]] = int(n[1])
    return live


def heaps_are_rows(b):
    for seed in (1, 2, 3):
        text, rows, refused = many(seed)
        answers = recorded(text)[0].splitlines()
        of, at = {id(it): [] for it in rows}, {}
        # the answers of each heap, in turn
        answered, held, it = iter(answers), {}, 0
        for line in text.splitlines():
            if line.startswith("#"):
                continue
            if line.startswith("none "):
                same(next(answered), "none", "a refused request") if seed == 1 and it == 0 else next(answered)
                it += 1
                continue
            _, h, rest = line.split(" ", 2)
            if rest.startswith("space "):
                held[h] = next(row for row in rows if row["heap"] == int(h) and not of[id(row)] and id(row) not in at)
                at[id(held[h])] = True
            elif rest == "give up":
                assert next(answered) == f"heap {h} given up"
            else:
                of[id(held[h])].append(next(answered).removeprefix(f"heap {h} "))
        b.open()
        give(b, text, "many.script")
        same(b.run("return $('fault').textContent"), "", "it is read")
        listed = b.run("return S.run.file.parts.map((of, i) => { const d = document.createElement('div'); drawHeap(d, i); return [...d.children].map(e => e.textContent); })")
        expected = []
        for row_ in rows:
            live = {} if row_["end"] else lived(row_["calls"], of[id(row_)])
            size = row_["size"] + 9 * sum(a == "extended" for a in of[id(row_)])
            expected.append([row_["name"], f"{size:,}", f"{len(live):,} range{'s' * (len(live) != 1)}, {sum(live.values()):,}", f"{len(row_['calls']):,}", row_["end"]])
        same([[c[0], c[1], c[2], c[4], c[6]] for c in listed], expected, f"a row for each of {len(rows)} heaps")
        same(b.run("return $('heapsum').textContent").split(". ")[-1], f"{refused} requests that no heap granted.", "and the requests that none granted")
        same(b.run("return L.others.count"), refused, "which are listed")
        for i, row_ in enumerate(rows):
            b.run("return openPart(arguments[0])", i)
            same([b.run("return S.run.count"), b.run("return [...Array(S.run.count).keys()].map(i => answered(S.run, i))")],
                 [len(row_["calls"]), of[id(row_)]], f"{row_['name']} is opened as a space") if i < 4 else None
            line = rows[i]["from"] + 40
            b.run("return openPart(arguments[0], arguments[1])", i, line)
            assert row(b) == sum(n <= line for n in row_["lines"]), (row(b), line, row_)
        print("passed: and at a line of the file", flush=True)
    # what the heaps had when one was refused, of two of 1,000 units: 300 are used in one, and the other is full but for 100
    small = "heap 0 space 1000 nodes 40 index 32\nheap 1 space 1000 nodes 40 index 32\nheap 0 alloc 300\nheap 1 tight 900\nnone alloc 800 full\nheap 0 free 1\nnone free\nheap 1 give up\nnone relocate 7 4\n"
    give(b, small, "small.script")
    b.run("$('nogrant').open = true; showUngranted(0)")
    facts = "return [$('whytitle').textContent, ...[...$('facts').children].map(e => e.textContent)]"
    tried = lambda: until(b, "!Work.now && !/being tried/.test($('helps').textContent)", "what would have helped")
    tried()
    same(b.run(facts), ["Line 5: alloc 800 is refused by all heaps", "no heap grants it, and the limits admit no other heap", "in 2 heaps too few units are free", "asked: 800 units, rounded up to 832",
         "there were 2 heaps, with 800 units free in all; the largest request without alignment that one granted was 640 units, of heap 0"], "what the heaps had when a request was refused")
    b.run("showUngranted(1)")
    same(b.run("return $('told').textContent"), "Line 7: a place that is not live: gone.", "a place that is not live")
    b.run("showUngranted(2)")
    tried()
    same(b.run(facts), ["Line 9: relocate 7 units at a multiple of 4 units is refused", "no other heap takes it", "asked: 7 units at a multiple of 4 units, so a block for 10",
         "there was 1 heap, with 1,000 units free in all; the largest request at a multiple of 4 units that one granted was 957 units, of heap 0",
         "heap 0 has room for it, but a range is relocated neither within its heap nor to one with fewer live units"], "and when a range stayed")
    give(b, text, "many.script")
    b.run("return openPart(2)")
    b.run("go(2)")
    b.run("return link()")
    kept = b.run("return [S.part, S.p, S.run.count, $('now').textContent, document.title]")
    b.open(b.run("return location.hash"))
    same(b.run("return [S.part, S.p, S.run.count, $('now').textContent, document.title]"), kept, "a link has the heap")
    b.run("return openPart(0)")
    b.run("history.back()")
    until(b, f"S.part === {kept[0]}", "Back goes to the heap before")
    b.open("#t=voxel-game&m=1")
    same(b.run("return $('fault').textContent"), "The link is faulty: what it names is not there. This is the nearest state.", "no such heap")


def rows_of_heaps_fit(b):
    text = many(3)[0].replace("heap 0 space", "# device-local memory, of which the buffers of all levels are\nheap 0 space", 1)
    for scheme in ("light", "dark"):
        for width in (320, 360, 768, 1280, 3840):
            b.size(width, 900, 1, scheme)
            b.open()
            give(b, text, "many.script")
            b.run("$('unit').value = 65536; $('unit').onchange(); $('nogrant').open = true; return openPart(2)")
            same(b.run("return document.documentElement.scrollWidth - document.documentElement.clientWidth"), 0, f"no overflow at {width} pixels")
            cut = b.run("return [...document.querySelectorAll('.heads, #heaprows .row')].flatMap(r => { const c = [...r.children].filter(e => e.getClientRects().length); "
                        "return c.filter((e, i) => !e.matches('.h') && e.scrollWidth > e.clientWidth + 1 || i && e.getBoundingClientRect().left < c[i - 1].getBoundingClientRect().right - 1 || "
                        "e.getBoundingClientRect().right > r.getBoundingClientRect().right + 1).map(e => e.className + e.textContent); })")
            same(cut, [], f"nothing of the rows of heaps is cut, or over another, at {width} pixels")
            heads = b.run("const [x, y] = ['.heads', '#heaprows .row'].map(s => [...document.querySelector(s).children].filter(e => e.getClientRects().length).map(e => e.getBoundingClientRect().right)); "
                          "return x.length === y.length && x.every((v, i) => Math.abs(v - y[i]) <= 2) ? '' : [x, y]")
            same(heads, "", "each column's head is over it")
            names = b.run("return [...document.querySelectorAll('#heaprows .h')].filter(e => (innerWidth > 1800 || e.textContent.length < 9) && e.scrollWidth > e.clientWidth).map(e => e.textContent)")
            same(names, [], "nor a short name")
        size = b.run("return [...document.querySelectorAll('.strip')].filter(c => c.tagName === 'CANVAS' && c.clientWidth < 30).length")
        same(size, 0, "each has room for its time")


def sizes_fit(b):
    """The sizes of live ranges, in bytes too, are beside their bars and not under them."""
    text = "space 100000000 nodes 99 index 32\n" + "".join(f"alloc {int(2.9 ** i)}\n" for i in range(17))
    for width in (360, 768, 1280, 3840):
        for unit in (0, 1000):
            b.size(width, 900)
            b.open()
            give(b, text, "sizes.script")
            b.run("go(S.run.count); $('unit').value = arguments[0]; return $('unit').onchange()", unit)
            cut = b.run("return [...document.querySelectorAll('.size')].flatMap(r => [...r.children].filter((e, i) => e.scrollWidth > e.clientWidth + 1 || "
                        "i && e.getBoundingClientRect().left < r.children[i - 1].getBoundingClientRect().right || e.getBoundingClientRect().right > r.getBoundingClientRect().right + 1).map(e => e.textContent))")
            same(cut, [], f"sizes at {width} pixels, a unit of {unit}")


FAULTY = ["heap 0 alloc 1", "heap 3 space 9 nodes 1 index 32", "heap 3 space 9 nodes 9 index 32\nalloc 1", "heap 3 space 9 nodes 9 index 32\nheap 4 alloc 1",
          "heap 3 space 9 nodes 9 index 32\nheap 3 give up\nheap 3 alloc 1", "heap 3 space 9 nodes 9 index 32\nheap 3 drop\nheap 3 alloc 1\nheap 3 alloc 1",
          "heap 3 space 9 nodes 9 index 32\nnone alloc 1 small", "space 9 nodes 9 index 32\nheap 0 alloc 1", "heap 4294967296 space 9 nodes 9 index 32",
          "space 9 nodes 9 index 32\nspace 9 nodes 9", "heap 3 space 9 nodes 9 index 32\nheap 3 heap 3 alloc 1", "none alloc 1", "space 9 nodes 9 index 32\nat 1"]


def faulty_heaps(b):
    b.open("#t=every&p=5")
    before = b.run("return [S.name, S.p, S.run.count]")
    for text in FAULTY:
        fault = recorded(text + "\n")[1]
        holds(fault.startswith("line "), "the program refuses it", fault)
        give(b, text + "\n", "bad.script")
        told = b.run("return $('fault').textContent")
        holds(told.startswith(f"bad.script, {fault}"), f"the page says the same of {text.splitlines()[-1]}", told)
    # a heap that has something live is not dropped, and goes on
    give(b, "heap 3 space 9 nodes 9 index 32\nheap 3 alloc 1\nheap 3 drop\nheap 3 alloc 1\n", "good.script")
    same(b.run("return [S.run.count, $('fault').textContent, S.run.part.end]"), [2, "", ""], "a drop that was refused")
    give(b, "none alloc 7 full\nnone free\n", "none.script")
    holds("no heap begins: each of 2 calls changed none" in b.run("return $('fault').textContent"), "a file without heaps", b.run("return $('fault').textContent"))


def a_space_that_there_was(b):
    """A recording of a space that there was begins at its mark; a raised limit is another space."""
    begun = "space 100 nodes 4 index 32\nat 0 15\nat 15 85\nshrink 2 5\nshrink 1 10\n#! begun\n"
    text = begun + "# big\nalloc 64\nalloc 70\nfree 3\nspace 100 nodes 40 index 32\nat 0 15\nat 15 85\nshrink 2 5\nshrink 1 10\n#! begun\n# big\nalloc 64\nalloc 3\n"
    b.open()
    give(b, text, "raised.script")
    same([row(b), b.run("return [S.run.count, $('heapshead').textContent]")], [4, [7, "2 spaces in this file, one after the other"]], "it begins at its mark")
    same(b.run("return [...document.querySelectorAll('#heaprows .h')].map(e => e.textContent)"), ["as it began", "limit 40"], "each has a row")
    b.run("return openPart(1)")
    same(b.run("return [...Array(S.run.count).keys()].map(i => answered(S.run, i))"), recorded(text)[0].splitlines()[7:], "the second is played with the larger limit")
    same(b.run("return [S.run.nameOf(1), S.run.nameOf(2), S.run.nameOf(3)]"), ["", "", "big"], "the names of its own")
    # a range keeps its name in what takes the place of its space, also where it has moved before; a heap too
    moved = "# meshes\nheap 4 space 100 nodes 8 index 32\n# a\nheap 4 alloc 10\n# b\nheap 4 alloc 10\n# c\nheap 4 alloc 10\nheap 4 free 1\nheap 4 compact\n" \
        "heap 4 space 100 nodes 9 index 32\nheap 4 at 0 10\nheap 4 at 10 90\nheap 4 shrink 2 10\n#! begun\nheap 4 at 30 5\n"
    give(b, moved, "moved.script")
    b.run("return openPart(1, 99)")
    same(b.run("return [S.run.nameOf(1), S.run.nameOf(2), S.run.nameOf(3), nameOfPart(S.run.file, 1)]"), ["b", "c", "", "heap 4 (2) “meshes”"], "names go on")
    give(b, "space 9 nodes 9 index 32\nalloc 1\n", "one.script")
    same(b.run("return $('heaps').hidden"), True, "a recording of one space has no rows of heaps")


# What `RecordedHeaps` writes: heap 1 is changed by `heap_mut` alone, heap 0 begins anew for a request that its own node limit refuses.
ONE_HEAP = """heap 0 space 100 nodes 16 index 32
# mesh
heap 0 alloc 30
heap 0 alloc 30
heap 1 space 100 nodes 16 index 32
heap 1 at 20 30
# capture
heap 1 at 80 10
heap 1 free 1
heap 0 at 90 5
heap 0 space 100 nodes 8 index 32
heap 0 at 0 30
heap 0 at 30 60
heap 0 at 90 10
heap 0 shrink 3 5
heap 0 shrink 2 30
#! begun
# second
heap 0 alloc 20
heap 1 alloc 88
heap 1 room 88
heap 1 compact 1 0 90 4
heap 1 relocate 2 1
heap 1 retract 10
heap 1 tight 80
heap 0 compact 1 0 100 1
heap 0 grow 3 6
"""


def calls_on_one_heap(b):
    """Lines of one heap of many are those of a space: each is answered and stepped through, and the mark of a heap that begins
    anew is that of no other."""
    answers = recorded(ONE_HEAP)[0].splitlines()
    b.open()
    give(b, ONE_HEAP, "one.script")
    same(b.run("return $('fault').textContent"), "", "it is read")
    same(b.run("return S.run.file.parts.map((of, i) => nameOfPart(S.run.file, i))"), ["heap 0", "heap 1", "heap 0 (2)"], "a heap that begins anew has a row")
    # the answers of each, in the order of the file
    parts = [answers[:2] + answers[5:6], answers[2:5] + answers[12:18], answers[6:12] + answers[18:]]
    for i, of in enumerate(parts):
        b.run("return openPart(arguments[0])", i)
        found = b.run("const found = []; for (let p = 1; p <= S.run.count; p++) { go(p); found.push(answered(S.run, S.p - 1)); } return found")
        same([f"heap {i % 2} {answer}" for answer in found], of, f"each row of part {i} is answered as by the program")
    same(b.run("return S.run.file.parts.map((of, i) => { const d = document.createElement('div'); drawHeap(d, i); return [...d.children].slice(1, 7).map(e => e.textContent); })"),
         [["100", "0 ranges, 0", "65", "3", "", "replaced"], ["90", "2 ranges, 90", "90", "9", "2", ""], ["100", "4 ranges, 86", "100", "8", "", ""]], "and what lives in each")
    same(b.run("return [S.run.nameOf(1), S.run.nameOf(4)]"), ["mesh", "second"], "names go on")
    b.run("return openPart(1)")
    b.run("go(4)")
    until(b, "!Work.now && $('helps').children.length", "what would have helped")
    same(b.run("return $('helps').children[0].textContent"), "compact: after it the request is granted; but it moves grant 2 “capture”, requested at a place",
         "a request at a place is one, though another heap began anew since")
    same([b.run("return openPart(arguments[0]).then(() => begunAt(S.run))", i) for i in range(3)], [0, 0, 5], "where each begins")


def between_marks(b):
    """What is granted between two marks and never freed, by a model of its own."""
    r = random.Random(5)
    lines, marks, live, grants, calls, born = ["space 1000000 nodes 4000 index 32"], [], {}, 0, 0, {}
    for i in range(600):
        kind = r.random()
        if kind < 0.1:
            lines.append(r.choice(["#! frame", f"#! time {i * 1000000}", f"#! thread {i % 3}", f"#! mark level {i}"]))
            marks.append(calls)
        elif kind < 0.65:
            lines += ["# mesh", f"alloc {r.randrange(1, 400)}"]
            calls += 1
            grants += 1
            live[grants] = int(lines[-1].split()[1])
            born[grants] = calls
        elif live:
            k = r.choice(list(live))
            del live[k]
            lines.append(f"free {k}")
            calls += 1
    b.open()
    give(b, "\n".join(lines) + "\n", "marks.script")
    same(b.run("return [...flagsOf(S.run)]"), marks, "the rows of the marks")
    for from_, to_ in ((1, len(marks)), (3, 9), (10, 40), (20, 21)):
        b.run("$('mfrom').value = arguments[0]; $('mto').value = arguments[1]; return betweenMarks()", from_, to_)
        left = [k for k in live if marks[from_ - 1] < born[k] <= marks[to_ - 1]]
        same(b.run("return $('found').textContent"), f"{len(left):,} range{'' if len(left) == 1 else 's'} granted, {sum(live[k] for k in left):,} unit{'' if sum(live[k] for k in left) == 1 else 's'}; never freed: "
             f"{len(left):,} range{'' if len(left) == 1 else 's'}, {sum(live[k] for k in left):,} unit{'' if sum(live[k] for k in left) == 1 else 's'}.", f"what is never freed between marks {from_} and {to_}")
        same([row(b), b.run("return ranges.length")], [marks[to_ - 1], len(left)], "the second mark is shown, and these alone are listed")
    b.run("$('mfrom').value = 9; $('mto').value = 3; return betweenMarks()")
    same(b.run("return $('fault').textContent"), f"Marks: two numbers from 1 to {len(marks)}, the smaller first", "marks in another order")
    text = "space 100 nodes 16 index 32\nalloc 1\n#! frame\n#! time 1500000\nalloc 2\n#! thread 4\n#! mark level two\nalloc 3\n#! frame\n# a name\n#! odd\nalloc 4\n"
    give(b, text, "four.script")
    said = ["before the first mark. 5 marks.", "in frame 2, 1.50 ms; here: at 1.50 ms. 5 marks.", "in frame 2, 1.50 ms, thread 4, “level two”; here: level two. 5 marks.",
            "in frame 3, 1.50 ms, thread 4, “odd”; here: odd. 5 marks."]
    same([b.run("go(arguments[0]); return $('moment').textContent", p) for p in range(4)], [s.replace("5", "6", 1) if s.startswith("before") else s.replace("5 marks", "6 marks") for s in said], "what is known at each row")
    b.run("go(0); document.activeElement.blur()")
    b.keys("m", "m")
    same(row(b), 2, "m goes to the next mark")
    b.keys("M")
    same(row(b), 1, "and M back")
    same(b.run("return S.run.callName(3)"), "a name", "a mark between a name and its request takes it not away")
    give(b, "space 100 nodes 16 index 32\nalloc 1\n", "none.script")
    same(b.run("return [$('marked').hidden, $('between').hidden]"), [True, True], "without marks there is nothing of them")


def refused_at_a_place(b):
    """Each help for a refused request at a place is played, and grants it."""
    cases = [("space 100 nodes 16 index 32\nalloc 20\n# rock\nalloc 20\nalloc 20\nat 10 35\n", ["release 3 ranges (dashed): then it is granted", "alloc 35 in its place: elsewhere as many units are granted"]),
             ("space 100 nodes 16 index 32\nat 90 20\n", ["10 more units more space"]),
             ("space 100 nodes 4 index 32\nat 10 10\nat 50 10\n", ["more nodes: a limit of 6 (it is 4), where the calls before stay the same"])]
    for text, helps in cases:
        lines = text.splitlines()
        calls = sum(line[0] != "#" for line in lines) - 1
        b.open()
        give(b, text, "at.script")
        b.run("go(S.run.count)")
        same(b.run("return [$('why').hidden, $('whytitle').textContent]"), [False, f"Row {calls}: {lines[-1]} is refused"], "a refused request at a place")
        found = b.run("return [...$('helps').children].map(e => e.textContent)")
        if "space 100 nodes 16" in text and "90" in text:
            same(found[0], "10 units more space (extend 10): then it is granted", "more space")
        else:
            same(found, helps, "what would have helped")
        for i in range(len(found)):
            calls_ = b.run("return helps[arguments[0]].calls", i)
            if calls_:
                answers = recorded("\n".join(lines[:-1]) + "\n" + "".join(b.run("return arguments[0].map(c => said(...c)).join('\\n')", calls_) + "\n"))[0].splitlines()
                holds(answers[-1].startswith("grant "), "each is granted by the program", answers[-1])
            else:
                nodes = b.run("return helps[arguments[0]].nodes", i)
                for more, granted in ((nodes, True), (nodes - 1, False)):
                    found_ = recorded(text.replace("nodes 4", f"nodes {more}"))[0].splitlines()[-1]
                    same(found_ != "none", granted, f"a limit of {more}")
    b.open("#t=voxel-game&p=9")
    b.run("$('o').value = 900000; $('n').value = 7; return act('at')")
    same(b.run("return [said(...S.run.call(9)), answered(S.run, 9)]")[0], "at 900000 7", "a request at a place is tried from here")


def two_files(b):
    """Another file beside this one: by rows, or by frames."""
    first = "space 100 nodes 16 index 32\n" + "alloc 10\n#! frame\n" * 4 + "alloc 80\n"
    second = "space 200 nodes 16 index 32\n" + "alloc 10\nreport\n#! frame\n" * 4 + "alloc 80\n"
    plain = [text.replace("#! frame\n", "") for text in (first, second)]

    def beside(a, c):
        give(b, a, "first.script")
        b.run("const f = new File([arguments[0]], 'second.script'), t = new DataTransfer(); t.items.add(f); $('xfile').files = t.files; return $('xfile').onchange()", c)

    b.open()
    beside(first, second)
    same(b.run("return [$('compared').hidden, $('otherhead').textContent, $('fault').textContent]"), [False, "The other: second.script", ""], "another file is beside this one")
    same(b.run("return [...S.other.at]"), [0, 2, 4, 6, 8, 9], "its frames are side by side")
    cells = "return [...document.querySelectorAll('#differences tr')].map(r => [...r.cells].map(c => c.textContent))"
    b.run("go(5)")
    found = {row_[0]: row_[1:3] for row_ in b.run(cells)}
    same([found["Answer"], found["Units in use"], found["Refused calls"]], [["none", "grant 5 at 40"], ["40", "120"], ["1", "0"]], "with what differs")
    beside(*plain)
    same(b.run("return [...S.other.at]"), [0, 1, 2, 3, 4, 5], "without frames its rows are")
    same(b.run("return $('differ').textContent"), "1 row with another outcome, the first is row 5.", "with the rows that differ")
    b.run("const f = new File(['space 9'], 'bad.script'), t = new DataTransfer(); t.items.add(f); $('xfile').files = t.files; return $('xfile').onchange()")
    same(b.run("return [$('fault').textContent, S.other.name]"), ["bad.script, line 1: bad header: “space 9”", "second.script"], "a faulty one changes nothing")
    b.run("return compare([90, 16, 1, 0])")
    same(b.run("return [$('otherhead').textContent, S.other.as]"), ["The other", [90, 16, 1, 0]], "and the same calls in another space are as before")


OURS = '{"General":{"API":"Vulkan"},"DefaultPools":{"Type 0":{"PreferredBlockSize":20,"Blocks":{"0":{"TotalBytes":20,"UnusedBytes":17,' \
    '"Allocations":1,"UnusedRanges":1,"Suballocations":[{"Offset":0,"Type":"UNKNOWN","Size":3},{"Offset":3,"Type":"FREE","Size":17}]}},"DedicatedAllocations":[]}}}'
VMA = {"General": {"API": "Vulkan", "GPU": "llvmpipe"}, "Total": {"MemoryBlockCount": 3}, "DefaultPools": {
    "Type 0": {"PreferredBlockSize": 268435456, "Blocks": {
        "0": {"TotalBytes": 268435456, "UnusedBytes": 1, "Suballocations": [
            {"Offset": 0, "Type": "BUFFER", "Size": 65536, "Usage": 131, "Name": "vertices"}, {"Offset": 65536, "Type": "FREE", "Size": 1024},
            {"Offset": 66560, "Type": "IMAGE_OPTIMAL", "Size": 100, "Usage": 6, "CustomData": "0x7f"}, {"Offset": 66660, "Type": "FREE", "Size": 268368796}]},
        "7": {"TotalBytes": 1024, "Suballocations": []}},
        "DedicatedAllocations": [{"Type": "IMAGE_OPTIMAL", "Size": 33554432, "Usage": 22, "Name": "target"}]}},
    "CustomPools": {"Type 1": [{"Name": "staging", "Blocks": {"0": {"TotalBytes": 4096, "Suballocations": [{"Offset": 0, "Type": "BUFFER", "Size": 4096}]}}}]}}
SPACE = '{"size":20,"max_allocs":9,"live_ranges":1,"blocks":[{"offset":0,"size":3,"name":5},{"offset":3,"size":17}]}'


def dumps(b):
    b.open()
    ranges = "const v = S.run.view(S.run.count); return [...Array(v.count).keys()].map(i => { const r = v.at(i); return [r.o, r.n, S.run.nameOf(r.k)]; })"
    give(b, OURS, "dump.json")
    same(b.run("return [S.run.head[0], S.p, S.unit, $('fault').textContent]"), [20, 1, 0, ""], "our dump in the form of VMA")
    same(b.run(ranges), [[0, 3, "UNKNOWN"]], "its ranges")
    give(b, SPACE, "space.json")
    same([b.run("return [S.run.head[0], $('fault').textContent]"), b.run(ranges)], [[20, ""], [[0, 3, "range 5"]]], "a space as JSON")
    heaps = '{"totals":{"heaps":2,"units":70},"heaps":[{"number":0,"space":' + SPACE + '},{"number":3,"space":' + SPACE.replace('"size":20', '"size":50').replace("17", "47") + "}]}"
    give(b, heaps, "heaps.json")
    same(b.run("return S.run.file.parts.map((of, i) => [nameOfPart(S.run.file, i), of.head, of.lines.length])"),
         [["heap 0 “number 0”", [20, 9, 32], 1], ["heap 1 “number 3”", [50, 9, 32], 1]], "many heaps as JSON")
    give(b, json.dumps(VMA, indent=1), "vma.json")
    same(b.run("return S.run.file.parts.map((of, i) => [nameOfPart(S.run.file, i), of.head[0], of.lines.length])"),
         [["heap 0 “DefaultPools, Type 0, block 0”", 268435456, 2], ["heap 1 “DefaultPools, Type 0, block 7”", 1024, 0],
          ["heap 2 “DefaultPools, Type 0, dedicated 0”", 33554432, 1], ["heap 3 “CustomPools, Type 1, staging, block 0”", 4096, 1]], "a dump of VMA has a heap for each block")
    same(b.run(ranges), [[0, 65536, "BUFFER: vertices"], [66560, 100, "IMAGE_OPTIMAL: 0x7f"]], "with its ranges")
    same(b.run("return [S.unit, $('heapsum').textContent]"), [1, "Shown below: heap 0 “DefaultPools, Type 0, block 0”. Live at the end in all: 4 ranges, 33,624,164 units (32.1 MiB)."], "in bytes")
    large = json.dumps({"DefaultPools": {"Type 0": {"Blocks": {"0": {"TotalBytes": 1 << 34, "Suballocations": [{"Offset": 768, "Type": "BUFFER", "Size": 1 << 33}]}}}}})
    give(b, large, "large.json")
    same([b.run("return [S.unit, S.run.head[0]]"), b.run(ranges)], [[256, 1 << 26], [[3, 1 << 25, "BUFFER"]]], "what is larger than a space is counted in larger units")
    give(b, "space 100 nodes 16 index 32\n#! unit 4096\nalloc 10\n", "unit.script")
    same(b.run("return [S.unit, $('unit').value, $('marked').hidden, $('reports').textContent.slice(0, 21)]"), [4096, "4096", True, "100 units (400 KiB): "], "a recording says how large a unit is")
    before = b.run("return [S.name, S.run.count, S.title]")
    for text, why in [("{", "a text that begins with { is read as a dump, and is no JSON"), ("{}", "the JSON has no block with Suballocations"), ('{"a":[1,2,{"b":null}]}', "the JSON has no block"),
                      (OURS.replace('"Offset":0', '"Offset":-1'), "Offset is no number of bytes"), (OURS.replace('"Size":3', '"Size":"x"'), "Size is no number of bytes"),
                      (OURS.replace('"Size":3', '"Size":21'), "ends behind the block"), (OURS.replace("FREE", "BUFFER").replace('"Offset":3', '"Offset":2'), "overlaps the one before"),
                      (OURS.replace('"TotalBytes":20', '"TotalBytes":1e99'), "TotalBytes is no number of bytes"), (OURS.replace("[{", "[7,{"), "a range is no object"),
                      ('{"a":' * 20 + "{}" + "}" * 20, "too deep"), (large.replace("768", "769"), "more than 4,294,967,295 units of 1"), (' {"Suballocations":[null]}', "a range is no object")]:
        give(b, text, "bad.json")
        told = b.run("return $('fault').textContent")
        holds(why in told and told.startswith("bad.json, "), f"a faulty dump: {why}", told)
        same(b.run("return [S.name, S.run.count, S.title]"), before, "changes nothing")


UNITS = """# meshes
heap 0 space 6000 nodes 64 index 32
#! unit 32 heap 0
# textures
heap 1 space 512 nodes 16 index 32
#! unit 65536 heap 1
heap 0 alloc 1024
heap 1 alloc 16
none alloc 9000 full
"""


def each_heap_has_its_unit(b):
    """Two heaps whose units have other sizes."""
    shown = "return [S.unit, $('unit').value, $('reports').textContent.split(':')[0], $('heapsum').textContent.split(': ').at(-1).split(' 1 request')[0]]"
    # the units of rows are in the cells of size, of what is live, and of the most
    cells = "return [...document.querySelectorAll('#heaprows .row')].map(r => [...r.querySelectorAll('.u')].map(c => c.textContent))"
    ours = [["188 KiB", "1 range, 32.0 KiB", "32.0 KiB"], ["32.0 MiB", "1 range, 1.00 MiB", "1.00 MiB"]]
    b.open()
    give(b, UNITS, "units.script")
    same([b.run(shown), b.run(cells)], [[32, "32", "In heap 0 “meshes”, of 6,000 units (188 KiB)", "2 ranges, 1.03 MiB."], ours], "each heap is shown in its own unit, and the sum in bytes")
    b.run("return openPart(1)")
    same([b.run(shown), b.run(cells)], [[65536, "65536", "In heap 1 “textures”, of 512 units (32.0 MiB)", "2 ranges, 1.03 MiB."], ours], "also where the other is open")
    b.run("return writeText(S.run, new Work('Writing')).then(made => made.text()).then(text => window.written = text)")
    same(b.run("return written.split('\\n').slice(0, 2)"), ["space 512 nodes 16 index 32", "#! unit 65536"], "what is saved of it has its unit")
    b.run("showUngranted(0)")
    until(b, "$('why').textContent.includes('a larger limit on heaps')", "what would have helped")
    # 9,000 units are of no heap: 4,240 more of 32 bytes would do in the first, and it granted 4,608
    same(b.run("return [$('whytitle').textContent, ...[...$('helps').children].map(e => e.textContent)]"), ["Line 9: alloc 9000 is refused by all heaps", "a larger limit on heaps, “most” (“most_larger”, where it is too large for a usual heap): then one more heap is made, and grants it",
         "in heap 0 “meshes”: 4,240 units (133 KiB) more space (extend 4240): then it is granted", "in heap 0 “meshes”: a smaller request: at most 4,608 units (144 KiB)"], "each heap's units are its own in bytes")
    same(b.run("return [...$('facts').children].map(e => e.textContent).find(text => text.startsWith('there'))"), "there were 2 heaps, with 31.2 MiB free in all; the largest request without alignment that one granted was 480 units (30.0 MiB), of heap 1 “textures”",
         "of a request that no heap granted the largest is that in bytes")
    # without the unit of the first, and with one of all
    give(b, UNITS.replace("#! unit 32 heap 0\n", ""), "one.script")
    same([b.run(shown)[0], b.run(shown)[3], b.run(cells)[0][0]], [0, "2 ranges, of units that differ, and are not added up.", "6,000"], "where one is not known nothing is added up")
    give(b, UNITS.replace(" heap 0\n", "\n").replace(" heap 1\n", "\n"), "before.script")
    same([b.run(shown), b.run(cells)[0][0]], [[65536, "65536", "In heap 0 “meshes”, of 6,000 units (375 MiB)", "2 ranges, 1,040 units (65.0 MiB)."], "375 MiB"], "a mark without a heap is of all")


REFUSING = """# meshes
heap 0 space 1000 nodes 64 index 32
# textures
heap 1 space 100 nodes 16 index 32
heap 0 alloc 100
heap 1 alloc 16
heap 1 alloc 500
heap 0 alloc 100
heap 0 alloc 2000
heap 1 alloc 16
heap 1 alloc 600
"""


def another_heap_is_opened(b):
    """By the number of its refusals at the first of them, else at the time that is shown."""
    clicked = "document.querySelectorAll('#heaprows .row')[arguments[0]].querySelector(arguments[1]).click(); return new Promise(r => setTimeout(() => r([S.part, S.p, $('told').textContent]), 300))"
    b.open()
    give(b, REFUSING, "refusing.script")
    to(b, 1)
    same(b.run(clicked, 1, ".h"), [1, 0, "heap 1 “textures”, at line 5 of the file, the time that was shown. The number of its refusals opens it at the first."], "at the time that was shown")
    same(b.run(clicked, 1, ".first"), [1, 2, b.run("return $('told').textContent")], "the one that is open, at its first refusal")
    same(b.run(clicked, 0, ".first"), [0, 3, "heap 0 “meshes”, at its first refusal."], "another by its refusals")
    b.run("$('helps').querySelector('button').click()")
    until(b, "S.run !== S.base", "help")
    holds(b.run("return $('heapsum').textContent").endswith(" The rows are of the original, without your calls."), "the rows are of the original")
    b.click("#undo")
    until(b, "S.run === S.base", "undo")
    holds("original" not in b.run("return $('heapsum').textContent"), "as what is shown")


def a_dropped_file_is_named(b):
    """The control for a file has the name of the one that is shown, also where it was dropped."""
    named = "return [...$('file').files].map(f => f.name)"
    b.open()
    b.run("const t = new DataTransfer(); t.items.add(new File([arguments[0]], 'dropped.script')); "
          "document.body.dispatchEvent(new DragEvent('drop', { dataTransfer: t, bubbles: true, cancelable: true }))", REFUSING)
    until(b, "S.title === 'dropped.script'", "the file")
    same(b.run(named), ["dropped.script"], "a file that was dropped")
    give(b, UNITS, "given.script")
    same(b.run(named), ["given.script"], "one that was given")
    b.run("$('trace').value = 'levels'; return $('trace').onchange()")
    same([b.run(named), b.run("return S.name")], [[], "levels"], "of another run it has none")


ALL = [heaps_are_rows, rows_of_heaps_fit, sizes_fit, faulty_heaps, a_space_that_there_was, calls_on_one_heap, between_marks, refused_at_a_place, two_files, dumps, each_heap_has_its_unit,
       another_heap_is_opened, a_dropped_file_is_named]
