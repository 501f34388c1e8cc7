"""Recordings: of any length, with names and the commands that scripts lack; and a task of a programmer, from a program of
his own to a link that shows its first refusal."""

import random
import re
import subprocess

from .base import RUST, TRACES, WEB, give, holds, program, recorded, row, same, until


def saved_answers(b):
    b.run("S.saved = null")
    b.click("#answers")
    until(b, "S.saved", "the answers", 60)
    return b.run("return S.saved.text()")


# the positions, some far from the one before and some near, before it and after, where the blocks of the page are not those of the module
MODULE_S = """let x = 7, p = 0; const r = S.run, wrong = [], next = n => (x = x * 48271 % 2147483647) % n, text = list => list.map(b => [b.o, b.n, b.k]).join();
  for (let i = 0; i < arguments[0]; i++) {
    p = i % 4 ? Math.max(0, Math.min(r.count, p + next(600) - 300)) : next(r.count + 1);
    r.seek(p); const all = r.m.blocks ? r.m.blocks() : r.m.view().blocks; if (text(r.view(p).blocks) !== text(all)) wrong.push(p);
  } return wrong"""


def long_ones(b):
    r = random.Random(1)
    lines, grants = ["space 50000000 nodes 200000 index 32"], 0
    for i in range(120000):
        kind = r.random()
        if kind < 0.55:
            if kind < 0.05:
                lines.append(f"# mesh: number {i}")
            lines.append(f"alloc {r.randrange(1, 2000)}")
            grants += 1
        elif kind < 0.93:
            lines.append(f"free {r.randrange(1, grants + 2)}")
        elif kind < 0.96:
            lines.append(f"shrink {r.randrange(1, grants + 2)} {r.randrange(1, 900)}")
        elif kind < 0.9999:
            lines.append(f"grow {r.randrange(1, grants + 2)} {r.randrange(1, 2500)}")
        else:
            lines.append("compact")
    text = "\n".join(lines) + "\n"
    text += "report\n" * 20000
    holds(len(text) > 1 << 20, "a recording of more than 1 MiB", len(text))
    b.open()
    give(b, text, "long.script")
    count = sum(line[0] != "#" for line in text.splitlines()) - 1
    same(b.run("return [S.run.count, $('fault').textContent]"), [count, ""], "is read")
    same(saved_answers(b), recorded(text)[0], "and played as the program for recordings does")
    for p in (count, 1000, count // 2):
        b.run("go(arguments[0])", p)
    same(row(b), count // 2, "each of its rows is reached")
    # the blocks at a row, after going back and on: those of a fresh run up to there
    fresh = "const r = new Run(S.run.head, S.run.calls.list.slice(0, WIDE * S.p), new Map(), S.run.lines); return r.survey(new Work('x')).then(() => JSON.stringify(r.view(S.p).blocks) === JSON.stringify(S.run.view(S.p).blocks))"
    same(b.run(fresh), True, "with the blocks of a run that ends there")
    b.run("let x = 1; for (let i = 0; i < 400; i++) { x = x * 48271 % 2147483647; S.run.view(x % (S.run.count + 1)); S.run.seek(x % (S.run.count + 1)); }")
    same(b.run(fresh), True, "again after many seeks")
    same(b.run(MODULE_S, 60), [], "what is kept of the ranges is what the module has")
    size = b.run("return S.run.m.size()")
    holds(size < 64 << 20, "which take no more memory each", size)
    live = "return JSON.stringify([...Array(S.run.lifeCount).keys()].map(l => S.run.life(l)).filter(f => f.to === ALIVE).map(f => [f.o, f.n, f.k]).sort((a, b) => a[0] - b[0])) === " \
        "JSON.stringify(S.run.view(S.run.count).blocks.filter(b => b.k).map(b => [b.o, b.n, b.k]))"
    same(b.run(live), True, "the lives at the end are those of its blocks, after compact too")


def names_and_commands(b):
    text = "# a heap\nspace 1000 nodes 32 index 16\n# texture: rock_albedo\nalloc 100\nalloc 50\n\n# not of this one\nfree 2\nshrink 1 60\ngrow 1 90\ngrow 1 2000\ncompact\nreset\n"
    b.open()
    give(b, text, "names.script")
    same(saved_answers(b), recorded(text)[0], "the answers")
    b.run("refusal(1)")
    same([row(b), b.run("return $('whytitle').textContent")], [6, "Row 6: grow 1 2000 is refused"], "a refused growth")
    same(b.run("return $('facts').children[0].textContent"), "grant 1 “texture: rock_albedo” has 90 units, at 0", "the name of a range")
    b.run("$('ranges').scrollTop = 0")
    same(b.run("return document.querySelector('#ranges .row').lastChild.textContent"), "texture: rock_albedo", "in the list too")
    b.click("#show")
    same(b.run("return $('text').value"), text, "its text")
    b.run("go(2)")
    b.click("#act-compact")
    b.run("S.saved = null")
    b.click("#export")
    until(b, "S.saved", "the edited text")
    same(b.run("return S.saved.text()"), "space 1000 nodes 32 index 16\n# texture: rock_albedo\nalloc 100\nalloc 50\ncompact\n", "an edited recording is exported with its names")
    for bad in ("grow 1", "compact 0", "compact 1 2 3", "room 8 0 1", "where", "why free 1"):
        give(b, f"space 9 nodes 8 index 32\n{bad}\n", "bad.script")
        same(b.run("return $('fault').textContent"), f"bad.script, line 2: bad command: “{bad}”", "a faulty recording")


def names_after_grants(b):
    """A mark may name a grant after it, in place of a name that it had; before it, or without a number, it names none."""
    named = "return [...Array(S.run.born.length).keys()].slice(1).map(k => S.run.nameOf(k))"
    text = "space 100 nodes 32 index 16\n#! name 1 early\nalloc 10\n# texture: sky\nalloc 20\nalloc 5\nalloc 6\n#! name 1 mesh: rock\n#! frame\n" \
        "#! name 2  texture: clouds \n#! name 3 a\n#! name 3 b\n#! name 5 early\n#! name 0 zero\n#! name x y\n#! heap 0 name 4 other\nfree 2\nalloc 7\n"
    b.open()
    give(b, text, "named.script")
    same(b.run(named), ["mesh: rock", "texture: clouds", "b", "", ""], "the names")
    same(b.run("return S.run.file.marks.map(m => m.text)"), ["frame", "name x y"], "what names a grant is no mark of the page")
    b.run("go(2)")
    b.click("#act-compact")
    same(b.run(named), ["mesh: rock", "texture: clouds"], "after a call that was added")
    b.run("S.saved = null")
    b.click("#export")
    until(b, "S.saved", "the edited text")
    same(b.run("return S.saved.text()"), "space 100 nodes 32 index 16\n# mesh: rock\nalloc 10\n# texture: clouds\nalloc 20\ncompact\n", "an edited recording has them")
    begun = "heap 1 at 0 10\nheap 1 at 10 90\nheap 1 shrink 2 5\n"
    text = f"heap 0 space 100 nodes 9 index 32\nheap 1 space 100 nodes 9 index 32\n{begun}#! heap 1 name 2 two\n#! name 1 none\n#! heap 0 name 1 none\n" \
        f"heap 0 alloc 5\nheap 1 space 100 nodes 20 index 32\n{begun}#! heap 1 name 1 one\n"
    for part, names in ((0, [""]), (1, ["", "two"]), (2, ["one", "two"])):
        b.open()
        give(b, text, "heaps.script")
        b.run("openPart(arguments[0])", part)
        until(b, f"S.part === {part}", "another part")
        same(b.run(named), names, f"the names of part {part}")


def form(line):
    """The words of a line, and how many numbers are after them."""
    words = [word for word in line.split() if word.islower()]
    return " ".join(words), len(line.split()) - len(words)


def each_line_is_played(b):
    """Each line of the tables of docs/RECORDINGS.md is read and listed with its answer, and after each of them the ranges are
    where the program, asked for the offset of each grant, says that they are."""
    text = TRACES["every"].read_text()
    table = re.findall(r"^\| (`.*?) \| ", (WEB / "../docs/RECORDINGS.md").read_text(), re.M)
    # those of many heaps have a check of their own
    forms = {form(line) for cell in table for line in re.findall("`([^`]*)`", cell) if line.split()[0] not in ("heap", "none")}
    lines = [line for line in text.splitlines() if line and line[0] != "#"]
    calls = lines[1:]
    holds(len(forms) == 26, "the forms of docs/RECORDINGS.md", forms)
    same(sorted(forms - {form(line) for line in calls}), [], "each is in every.script")
    b.open("#t=every&p=0")
    same(b.run("return [S.run.count, $('fault').textContent]"), [len(calls), ""], "every.script is read")
    for name in ("every", "voxel-game", "malloc-cc1", "planetarium"):
        b.open(f"#t={name}&p=0")
        same(b.run(MODULE_S, 200), [], f"{name}: what is kept of the ranges is what the module has")
    b.open("#t=every&p=0")
    same(saved_answers(b), recorded(text)[0], "its answers are the program's")
    rows = re.findall(r"^(?!bin|class)[a-z].*", recorded(text)[0], re.M)
    listed = b.run("return [...Array(S.run.count).keys()].map(i => { const d = document.createElement('div'); drawCall(d, i); "
                   "return [...d.children].slice(0, 3).map(e => e.textContent.split(': ')[0]); })")
    same(listed, [[f"{i + 1}", call, answer] for i, (call, answer) in enumerate(zip(calls, rows))], "each is listed with its answer")
    state = "go(arguments[0]); const r = S.run, p = S.p, v = r.view(p), live = {}, lives = {}; for (const x of v.blocks) if (x.k) live[x.k] = x.o; " \
        "for (let l = 0; l < r.lifeCount; l++) { const f = r.life(l); if (f.from <= p && p < f.to) lives[f.k] = f.o; } " \
        "return [live, lives, v.blocks.reduce((s, x) => s + x.n, 0) - r.sizeAt(p), $('now').textContent.replace(/ \\([\\d,]+ units? at a multiple of [\\d,]+ units?\\):/, ':').startsWith(`Row ${p}: ${arguments[1]}: ${arguments[2]}`)]"
    grants = sum(answer.startswith("grant ") for answer in rows)
    for p, (call, answer) in enumerate(zip(calls, rows), 1):
        asked = recorded("\n".join(lines[:p + 1] + [f"offset {k}" for k in range(1, grants + 1)]) + "\n")[0].splitlines()[-grants:]
        live = {str(k): int(found.split()[1]) for k, found in enumerate(asked, 1) if found != "gone"}
        assert b.run(state, p, call, answer) == [live, live, 0, True], (p, call, live, b.run(state, p, call, answer))
    print("passed: after each the ranges, their lives and the size of the space are the program's", flush=True)
    # room was made: both slid by 96 units, a multiple of 32
    b.run("go(42)")
    same(b.run("return [...document.querySelectorAll('#ranges .row')].map(r => [...r.children].map(c => c.textContent))"),
         [["9", "4", "60", "20", "texture: rock"], ["10", "64", "96", "21", ""]], "ranges that moved keep their numbers, rows and names")


def five_minutes(b):
    """A program is recorded, its first refusal found and explained, and a link shows that state to another."""
    text = subprocess.run(["cargo", "run", "--quiet", "--release", "--offline", "-j1", "-p", "offset-allocator-recorded", "--example", "record"],
                          cwd=RUST, check=True, capture_output=True, text=True).stdout
    same(program(text)[1], "", "the recording is a script too")
    b.open()
    give(b, text, "heap.script")
    b.run("document.activeElement.blur()")
    b.keys("r")
    last = sum(line[0] != "#" for line in text.splitlines()) - 1
    same(row(b), last, "the first refusal is the last call")
    same(b.run("return [$('facts').children[0].textContent, $('helps').children[0].textContent]"),
         ["no free block is large enough until the space is compacted", "compact: after it the request is granted"], "why, and what would have helped")
    told = b.run("return $('now').textContent")
    b.keys("l")
    until(b, "$('told').textContent.startsWith('The link to this state is')", "the link")
    fragment = b.run("return location.hash")
    b.open(fragment)
    same([row(b), b.run("return $('now').textContent"), b.run("return $('why').hidden")], [last, told, False], "the link shows that state")
    holds("“texture: level " in told, "with its name", told)


def links_keep_edits(b):
    b.open("#t=voxel-game&p=2046")
    for n in (5000, 600, 70, 8):
        b.run("$('n').value = arguments[0]; act('alloc')", n)
    blocks = b.run("S.run.view(0); return S.run.view(2049).blocks")
    same(b.run("S.run.view(2050); return S.run.view(2049).blocks"), blocks, "an edited run is reached again, where the original had a copy too")
    b.open("#t=voxel-game&p=9")
    for name, k, n in (("alloc", 1, 1000), ("align", 1, 100), ("shrink", 2, 40), ("grow", 2, 50), ("compact", 1, 1), ("free", 1, 1), ("extend", 1, 60), ("reset", 1, 1)):
        b.run("$('k').value = arguments[0]; $('n').value = arguments[1]; act(arguments[2])", k, n, name)
    state = "return [S.p, S.run.count, S.run.kept, S.run.edits, S.run.view(S.p).blocks, [...Array(S.run.count).keys()].map(i => answered(S.run, i))]"
    b.run("$('a').value = 12; $('n').value = 20; act('align')")
    b.run("go(14)")
    kept = b.run(state)
    b.run("return link()")
    b.open(b.run("return location.hash"))
    same(b.run(state), kept, "a link keeps the calls that were added")
    for bad in ("#t=voxel-game&p=3&kept=4&c=1.2.0", "#t=voxel-game&p=3&kept=4&c=14.2.0", "#t=voxel-game&kept=4&c=11.2.3", "#t=voxel-game&kept=99999&c=0.2.0", "#t=nothing", "#s=abc", "#t=voxel-game&kept=4&c=0.2", "#t=voxel-game&x=1.1.1.1"):
        b.open(bad)
        same([b.run("return $('fault').textContent !== ''"), b.run("return S.run.count > 0 && $('now').textContent !== ''")], [True, True], f"a faulty link: {bad}")
    for good in ("#t=voxel-game&p=3&kept=4&c=1.2.12", "#t=voxel-game&p=3&kept=4&c=14.2.12"):
        b.open(good)
        same([b.run("return $('fault').textContent"), b.run("return S.run.count")], ["", 5], f"a link with a call at a multiple of 12: {good}")


def links_keep_the_view(b):
    """The part of the space that is shown and the filters of the lists are of the state that a link names."""
    b.open("#t=voxel-game&p=9000")
    b.run("zoomAt(300000, 5000); $('only').click(); $('atend').click(); draw()")
    state = "return [S.zoom, $('shown').textContent, $('only').checked, $('atend').checked, L.calls.count, L.ranges.count, S.p]"
    kept = b.run(state)
    holds(kept[0] and kept[1].startswith("Shown: units 297,500 to 302,500"), "a part is shown", kept)
    b.run("return link()")
    b.open(b.run("return location.hash"))
    same(b.run(state), kept, "a link keeps the zoom and the filters")
    b.open("#t=voxel-game&p=9000")
    same(b.run("return [S.zoom, $('only').checked, $('atend').checked]"), [None, False, False], "a link without them shows all")
    for bad in ("z=1", "z=5.1", "z=0.5", "z=0.999999999", "z=1.2.3", "z=", "f=x", "f=er"):
        b.open("#t=voxel-game&p=9000&" + bad)
        same([b.run("return $('fault').textContent.startsWith('The link is faulty')"), b.run("return [S.p, S.zoom]")], [True, [9000, None]], "a faulty link: " + bad)


ALL = [long_ones, names_and_commands, names_after_grants, each_line_is_played, five_minutes, links_keep_edits, links_keep_the_view]
