"""Refusals of many heaps, and advice that keeps alignments: what is said is played by the program, in the heap that it names."""

import random
import re

from .base import give, holds, play, recorded, same, to, until
from .heaps import VMA
from .refusals import alignments_of, ranges_after

HEAPS = """# meshes
heap 0 space 1000 nodes 64 index 32
# textures
heap 1 space 600 nodes 32 index 32
# rock
heap 0 alloc 300
# tree
heap 0 align 100 256
heap 1 alloc 200
heap 1 alloc 100
heap 1 alloc 250
heap 1 free 1
heap 1 alloc 500
heap 0 alloc 400
# sky
none alloc 700 full
none align 950 64 full
none tight 2000 larger
none alloc 0 empty
none alloc 800 memory
none relocate 900 4
none free
heap 1 alloc 20
heap 1 alloc 900
"""
STATE = "return [S.part, S.p, S.ungranted, $('whytitle').textContent, [...$('facts').children].map(e => e.textContent), [...$('helps').children].map(e => e.textContent)]"


def tried(b):
    until(b, "!Work.now && !/being tried/.test($('helps').textContent)", "what would have helped")


def of_heap(text, heap, line):
    """The calls of a heap up to a line of the file, and its header."""
    own = [words.split(" ", 2)[2] for words in text.splitlines()[:line] if words.startswith(f"heap {heap} ")]
    return own[0], own[1:]


def refused_lines(text):
    """The lines of the file whose answer is `none`, by the program."""
    lines = [(i, line) for i, line in enumerate(text.splitlines(), 1) if line and line[0] != "#" and " space " not in line]
    answers = recorded(text)[0].splitlines()
    assert len(lines) == len(answers), (len(lines), len(answers))
    return [i for (i, _), answer in zip(lines, answers) if answer.split()[-1] == "none"]


def all_are_stepped_through(b):
    """r and R go through all refusals of the file, in the order of its lines; all are ticked."""
    b.open()
    give(b, HEAPS, "heaps.script")
    lines = refused_lines(HEAPS)
    same(b.run("return $('refusals').textContent"), f"{len(lines)} refusals: 1 in this heap, 2 in others, 6 that no heap granted", "how many, and where")
    b.run("document.activeElement.blur()")
    found = []
    for _ in lines:
        b.keys("r")
        until(b, "!Work.now", "another heap")
        found.append(b.run("return [lineNow(), $('why').hidden, $('whytitle').textContent.includes('is refused')]"))
    same(found, [[line, False, True] for line in lines], "r goes through all of them, and says why")
    same(b.run("return [$('rnext').disabled, $('rback').disabled]"), [True, False], "after the last there is none")
    b.keys("r")
    same(b.run("return $('told').textContent"), f"No refusal after line {lines[-1]} of the file.", "which is said")
    back = []
    for _ in lines[1:]:
        b.keys("R")
        until(b, "!Work.now", "another heap")
        back.append(b.run("return lineNow()"))
    same(back, lines[-2::-1], "R goes back through them")
    b.run("return openPart(0, 0)")
    b.click("#onlyhere")
    here = []
    for _ in range(7):
        b.keys("r")
        here.append(b.run("return [S.part, lineNow()]"))
    same(here, [[0, line] for line in lines if not HEAPS.splitlines()[line - 1].startswith("heap 1")], "of this heap alone, and those that no heap granted")
    b.run("$('onlyhere').checked = false")
    # heap 1 has five calls up to the refused requests, of seven
    give(b, HEAPS.replace("heap 1 alloc 20\nheap 1 alloc 900\n", "heap 1 alloc 20\nheap 1 alloc 30\n"), "heaps.script")
    b.run("return openPart(1, 99)")
    ticks = """const c = $(arguments[0]), left = arguments[1], g = c.getContext('2d'), w = c.width - left, a = g.getImageData(left, 2, w, 1).data, found = [];
      const mark = rgb(colors().mark); for (let x = 0; x < w; x++) if (mark.every((v, i) => Math.abs(a[4 * x + i] - v) < 60) && a[4 * x + 3] > 100) found.push(x / w); return found"""
    b.run("go(7); return new Promise(r => { const f = () => !S.run.picture?.isDone ? setTimeout(f, 20) : r(draw()); f(); })")
    for canvas, left, of in (("marks", 0, 7), ("life", 54, 8)):
        found = b.run(ticks, canvas, left)
        near = min((abs(x - 5 / of) for x in found), default=1) < 0.03
        holds(near, f"where no heap granted a request there is a tick on {canvas}", found)
    b.run("return toUngranted(S.run.file.ungranted[1])")
    kept = b.run("return [S.part, S.ungranted, $('now').textContent]")
    b.run("return link()")
    b.open(b.run("return location.hash"))
    same(b.run("return [S.part, S.ungranted, $('now').textContent]"), kept, "a link keeps the refusal")
    b.open("#t=voxel-game&p=9&o=3")
    same(b.run("return $('fault').textContent.startsWith('The link is faulty')"), True, "a link to none is faulty")


def granted_there(text, part, line, calls):
    head, before = of_heap(text, part, line)
    return recorded("\n".join([head, *before, *calls]) + "\n")[0].splitlines()[-1]


def heaps_are_asked(b):
    """What no heap granted: why, and what would have helped, and in which heap."""
    b.open()
    give(b, HEAPS, "heaps.script")
    said = {}
    for i in range(6):
        b.run("return toUngranted(arguments[0])", i)
        tried(b)
        _, _, _, title, facts, helps = b.run(STATE)
        said[i] = helps
        line = b.run("return lineNow()")
        for j in range(len(helps)):
            calls, part = b.run("const h = helps[arguments[0]]; return [h.calls?.map(c => said(...c)) ?? null, h.part ?? null]", j)
            if calls:
                holds(granted_there(HEAPS, part, line, calls).startswith("grant "), f"{helps[j]}: is so in that heap", calls)
    b.run("return toUngranted(0)")
    tried(b)
    same(b.run(STATE)[3:5], ["Line 16: alloc 700 “sky” is refused by all heaps", ["no heap grants it, and the limits admit no other heap", "in 1 heap the request is too large for the space, in 1 heap too few units are free", "asked: 700 units, rounded up to 704",
         "there were 2 heaps, with 850 units free in all; the largest request without alignment that one granted was 384 units, of heap 0 “meshes”"]], "why")
    # heap 0 has 300 units at 0, 100 at 512; the step is 256. Heap 1 has 200 units free at 0, 100 at 200, 250 at 300, and 50 free
    same(said[0], ["a larger limit on heaps, “most” (“most_larger”, where it is too large for a usual heap): then one more heap is made, and grants it",
                   "in heap 0 “meshes”: release 2 ranges of 400 units, from 0 to 612 (dashed): grant 1 “rock” of 300 units, grant 2 “tree” of 100 units; then it is granted",
                   "in heap 0 “meshes”: 316 units more space (extend 316): then it is granted", "in heap 0 “meshes”: a smaller request: at most 384 units"], "what would have helped in which heap")
    same(said[3], ["a request for at least 1 unit"], "for no unit")
    same(said[2][0], "a larger limit on heaps: “size” of at least 2,048 units, so that a usual heap has room for it; or “most_larger” of at least 1, so that a heap is made for it", "for a larger one")
    same(said[4][0], "more memory for the program", "for memory")
    b.run("return toUngranted(0)")
    tried(b)
    b.run("[...document.querySelectorAll('#helps button')].find(e => e.textContent.includes('more space')).click()")
    until(b, "S.run !== S.base", "the help")
    same(b.run("return [S.part, answered(S.run, S.p - 1)]"), [0, granted_there(HEAPS, 0, 16, ["extend 316", "alloc 700"])], "a help is shown in its heap")
    # a range that another heap has room for: heap 0 is full but for 100 units on each side of grant 2, and heap 1 has 300
    text = "heap 0 space 512 nodes 32 index 32\nheap 1 space 320 nodes 32 index 32\nheap 0 alloc 104\nheap 0 align 104 8\nheap 0 tight 304\nheap 0 free 1\nheap 1 tight 150\nnone alloc 208 full\n"
    give(b, text, "move.script")
    b.run("return toUngranted(0)")
    tried(b)
    helps = b.run(STATE)[5]
    holds(any(help.startswith("in heap 0: move grant 2 of 104 units to heap 1, which has room for it (relocate, then free)") for help in helps), "a range that another heap takes", helps)
    # of two heaps the one that keeps alignments is named, though to move costs more there
    text = "heap 0 space 512 nodes 32 index 32\nheap 1 space 608 nodes 32 index 32\nheap 0 at 0 24\nheap 0 align 20 64\nheap 0 at 130 382\n" \
        + "".join(f"heap 1 alloc {n}\n" for n in (104, 64, 208, 40, 192)) + "heap 1 free 2\nheap 1 free 4\nnone alloc 80 full\n"
    give(b, text, "kept.script")
    b.run("return toUngranted(0)")
    tried(b)
    helps = b.run(STATE)[5]
    same([help for help in helps if ": compact" in help or ": move " in help],
         ["in heap 1: compact: after it the request is granted", "in heap 1: move 1 range of 208 units, from 168 to 376: grant 3 of 208 units; then it is granted"], "what keeps alignments comes first")
    # heaps that have ended are not asked: dropped, given up, and in place of which another began
    for end in ("heap 1 drop", "heap 1 give up", "heap 1 space 50 nodes 9 index 32"):
        text = f"heap 0 space 100 nodes 9 index 32\nheap 1 space 900 nodes 9 index 32\n{end}\nnone alloc 800 full\n"
        give(b, text, "ended.script")
        b.run("return toUngranted(0)")
        tried(b)
        count = 2 if "space" in end else 1
        fact = next(fact for fact in b.run(STATE)[4] if fact.startswith("there"))
        holds(fact.startswith(f"there {'were 2 heaps' if count == 2 else 'was 1 heap'}, with {150 if count == 2 else 100} units free") and "96 units" in fact, f"{end}: it is asked no more", fact)
    b.open()
    give(b, "heap 0 space 100 nodes 9 index 32\nheap 0 alloc 10\nheap 0 align 10 4\nnone tight 90 full\nnone tight 80 16 full\n", "tight.script")
    same(b.run("return [0, 1].map(i => saidOf(S.run.file.others[i])[0])"), ["tight 90", "tight 80 16"], "a tight request is said as such")


def random_aligned(seed):
    r = random.Random(seed)
    size, lines, grants = r.choice((1000, 4000)), [], 0
    lines.append(f"space {size} nodes {r.choice((12, 60))} index 32")
    for _ in range(70):
        kind = r.random()
        if kind < 0.35:
            lines.append(f"align {r.randrange(1, size // 6)} {r.choice((4, 16, 24, 64))}")
        elif kind < 0.6:
            lines.append(f"alloc {r.randrange(1, size // 3)}")
        elif kind < 0.66:
            lines.append(f"tight {r.randrange(1, size // 3)} {r.choice((1, 16))}")
        elif kind < 0.9:
            lines.append(f"free {r.randrange(1, 40)}")
        elif kind < 0.98:
            lines.append(f"grow {r.randrange(1, 40)} {r.randrange(1, size // 4)}")
        else:
            lines.append("reset")
    return lines


def advice_keeps_alignments(b):
    """Each help that moves ranges: those that keep say so, and do; of the others what they break is said, and is so."""
    b.open()
    kept = broken = 0
    for seed in range(5):
        lines = random_aligned(seed)
        b.run("return take(new TextEncoder().encode(arguments[0]))", "\n".join(lines) + "\n")
        found = b.run("const out = []; for (const p of S.run.refusals) { go(p); out.push([p, helps.map(h => [h.text, h.calls?.map(c => said(...c)) ?? null])]); } return out")
        for p, helps in found:
            before = lines[:p]
            of, step = alignments_of(before)
            for text, calls in helps:
                if not calls or not calls[0].startswith(("compact", "room")):
                    if calls and calls[0].startswith("alloc") and lines[p].startswith("align"):
                        holds(text.startswith("no alignment"), "a request without alignment says so", (text, calls)) if seed == 0 else None
                        assert text.startswith("no alignment"), (text, calls)
                    continue
                after = ranges_after(lines[0], [*before[1:], calls[0]])
                there = dict((k, o) for o, _, k in ranges_after(lines[0], before[1:]))
                off = sorted(k for o, _, k in after if k in there and of[k] > 1 and o % of[k])
                said = sorted(int(k) for k in re.findall(r"grant (\d+)", text.split("breaks the alignment of")[1])) if "breaks the alignment" in text else []
                assert off[:4] == said[:4] or len(off) > 4, (seed, p, text, calls, off, said)
                words = calls[0].split()
                if step > 1 and words[0] == "compact" and len(words) > 1:
                    assert int(words[1]) == step and not off and "keeps its alignment" in text, (seed, p, text, step)
                kept += not off and step > 1
                broken += bool(off)
                answer = recorded("\n".join([*before, *calls]) + "\n")[0].splitlines()[-1]
                assert answer not in ("none", "gone"), (seed, p, text, calls)
                # a plain one is offered only where the step does not do
                if step > 1 and words == ["compact"] and len(calls) == 2:
                    by_step = recorded("\n".join([*before, f"compact {step}", calls[1]]) + "\n")[0].splitlines()[-1]
                    assert by_step in ("none", "gone"), (seed, p, text)
    holds(kept > 4 and broken > 5, f"{kept} helps keep alignments, and {broken} say what they break")
    # holes below the step: three ranges at multiples of 256
    text = "space 1024 nodes 32 index 32\nalign 200 256\nalign 200 256\nalign 200 256\nalloc 300\n"
    play(b, text)
    to(b, 4)
    facts, helps = b.run(STATE)[4:]
    same(facts[-1], "alignments are kept where ranges slide by multiples of 256 units (the step): compact 256 moves no range: each free block before one is smaller than that", "holes below the step")
    same([facts[0], helps[0]], ["no free block is large enough: for the request rounded up. A tight request (allocate_tight) would be granted", "compact: after it the request is granted; but it breaks the alignment of grant 2 (256), grant 3 (256)"], "what a plain one would break")
    play(b, "space 1024 nodes 32 index 32\nalloc 200\nalign 200 64\nalloc 200\nalign 100 64\nfree 1\nfree 3\nalign 500 64\n")
    to(b, 7)
    helps = b.run(STATE)[5]
    holds(helps[0] == "compact 64: after it the request is granted; ranges slide by multiples of 64 units, so each keeps its alignment" and not any(help.startswith("compact:") for help in helps), "the step", helps)
    holds(any(help.startswith("move ") and help.endswith("; by multiples of 64 units, so each keeps its alignment") for help in helps), "room by the step", helps)
    b.run("[...document.querySelectorAll('#helps button')].find(e => e.textContent.startsWith('move')).click()")
    until(b, "S.run !== S.base", "room")
    same(b.run("return [said(...S.run.call(6)), answered(S.run, S.p - 1).slice(0, 6)]"), ["room 500 64 64", "grant "], "which is shown")
    b.run("return link()")
    b.open(b.run("return location.hash"))
    same(b.run("return [$('fault').textContent, said(...S.run.call(6)), answered(S.run, S.p - 1).slice(0, 6)]"), ["", "room 500 64 64", "grant "], "and has a link")


def larger_units_are_like_the_alignments(b):
    """A unit that neither divides an alignment nor is a multiple of it is refused, by name; so is one of a step."""
    b.open()
    for text, unit, named in (("alloc 10\nalign 16 24\n", 16, "alignment of align 16 24 (row 2)"), ("align 16 8\ncompact 24\n", 16, "step of compact 24 (row 2)"),
                              ("room 16 8 12\n", 8, "step of room 16 8 12 (row 1)"), ("tight 5 6\n", 4, "alignment of tight 5 6 (row 1)")):
        play(b, "space 960 nodes 32 index 32\n" + text)
        b.run("$('xunit').value = arguments[0]; return $('compare').onclick()", unit)
        same(b.run("return [$('fault').textContent, $('compared').hidden]"), [f"Compare: a unit of {unit} and the {named} do not divide each other: choose a unit that does", True], f"a unit of {unit}")
    for unit, expected in ((8, [0, 24, 48]), (12, [0, 24, 48]), (48, [0, 48, 96]), (24, [0, 24, 48])):
        play(b, "space 960 nodes 32 index 32\nalign 16 24\nalign 16 24\nalign 16 24\n")
        b.run("$('xunit').value = arguments[0]; return $('compare').onclick()", unit)
        found = b.run("const { run, unit } = S.other; return run.view(run.count).blocks.filter(b => b.k).map(b => b.o * unit)")
        same(found, expected, f"three at a multiple of 24, in units of {unit}")


def saved_files_name_their_heap(b):
    b.open()
    give(b, HEAPS, "heaps.script")
    b.run("return openPart(1)")
    names = "const found = [], click = HTMLAnchorElement.prototype.click; HTMLAnchorElement.prototype.click = function () { found.push(this.download); }; " \
        "return (async () => { for (const id of arguments[0]) await $(id).onclick(); HTMLAnchorElement.prototype.click = click; return found; })()"
    same(b.run(names, ["export", "answers", "picture"]), ["heaps-heap-1-textures.script", "heaps-heap-1-textures.answers", "heaps-heap-1-textures.svg"], "what is saved of one heap has its name")
    title = b.run("return S.saved.text().then(t => new DOMParser().parseFromString(t, 'image/svg+xml').querySelector('text').textContent)")
    same(title, "heaps.script, heap 1 “textures”: 7 calls, 2 refusals", "so has the title of the picture")
    same([b.run(names, ["exportall"]), b.run("return S.saved.text()")], [["heaps.script"], HEAPS], "the file of all heaps is saved whole")
    b.open()
    give(b, "space 9 nodes 9 index 32\nalloc 1\n", "one.script")
    same([b.run(names, ["export"]), b.run("return $('exportall').hidden")], [["one.script"], True], "one space has the name of its file")


def dumps_are_of_their_allocator(b):
    """What the blocks of a dump of VMA would grant is VMA's to say; its ranges have the colours of their types."""
    import json
    b.open()
    give(b, json.dumps(VMA), "vma.json")
    reports = b.run("return $('reports').textContent")
    holds("Largest request that is granted" not in reports and "Largest free block: 256 MiB" in reports, "the largest free block", reports)
    holds("offset_allocator would grant" in b.run("return $('lives').textContent"), "whose curve it is")
    same(b.run("return [S.byName, $('byname').value, $('byname').options[0].disabled, $('legend').textContent]"), [True, "1", True, "Names that begin withBUFFERIMAGE_OPTIMALothersfree"], "colours by type, ages off")
    b.run("return link()")
    b.open(b.run("return location.hash"))
    holds("Largest request that is granted" not in b.run("return $('reports').textContent"), "a link to it too")
    give(b, "space 9 nodes 9 index 32\nalloc 1\n", "one.script")
    b.run("go(1)")
    holds("Largest request that is granted" in b.run("return $('reports').textContent") and not b.run("return S.byName"), "a recording is as before")


ALL = [all_are_stepped_through, heaps_are_asked, advice_keeps_alignments, larger_units_are_like_the_alignments, saved_files_name_their_heap, dumps_are_of_their_allocator]
