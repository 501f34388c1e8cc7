"""What is listed: answers, live ranges, their sizes, size classes; and the ways to a row. All are compared with the answers of the
program, and with a plain list of live ranges that is made of them here."""

import re

from .base import TRACES, give, holds, play, program, recorded, row, same, to, until
from .speed import LOOP, within


def live_at(text, p):
    """The live ranges after so many calls: grant, offset, units, row."""
    lines = [line for line in text.splitlines() if line and line[0] != "#"][1:]
    answers = program(text)[0].splitlines()
    live, at = {}, 0
    for i, line in enumerate(lines[:p]):
        answer = answers[at].split()
        at += 1 + (int(answer[1]) if answer[0] == "full" else 0)
        name, *numbers = line.split()
        if answer[0] == "grant":
            live[int(answer[1])] = (int(answer[1]), int(answer[3]), int(numbers[0]), i + 1)
        elif answer[0] == "freed":
            del live[int(numbers[0])]
        elif answer[0] == "reset":
            live.clear()
    return list(live.values())


def answers_are_the_program_s(b):
    b.open()
    b.run(LOOP)
    same(b.run("return [...$('trace').options].map(o => o.value)"), [*TRACES, "own"], "the choice of runs")
    for name, path in TRACES.items():
        b.run("$('trace').value = arguments[0]; return $('trace').onchange()", name)
        found = b.run("S.saved = null; return $('answers').onclick().then(() => S.saved.text())")
        same(found, recorded(path.read_text())[0], f"answers of {name}")
        within(b, f"a frame of {name}", 60, "for (let i = 0; i <= 100; i++) go(Math.floor(S.run.count * i / 100))", count=101)


ROWS = "return [...document.querySelectorAll(arguments[0] + ' .row')].map(r => [...r.children].map(c => c.textContent))"


def ranges_are_listed(b):
    text = TRACES["voxel-game"].read_text()
    b.open("#t=voxel-game&p=9000")
    model = live_at(text, 9000)
    whole = lambda *numbers: [f"{n:,}" for n in numbers]
    shown = lambda r: [str(r[0]), *whole(*r[1:])]
    told = b.run("return $('rangesum').textContent")
    same(told, f"Live now: {len(model):,} ranges, {sum(r[2] for r in model):,} units. Still live at the end: 0 ranges, 0 units.", "how many are live")
    for name, key in (("offset", lambda r: r[1]), ("grant", lambda r: r[0]), ("units", lambda r: (-r[2], r[1])), ("since", lambda r: r[3])):
        b.click(f"#sorts [data-by={name}]")
        b.run("$('ranges').scrollTop = 0")
        found = [r[:4] for r in b.run(ROWS, "#ranges")]
        same(found[:8], [shown(r) for r in sorted(model, key=key)[:8]], f"ranges by {name}")
    b.run("$('ranges').scrollTop = 1e9")
    b.run("return new Promise(r => requestAnimationFrame(() => requestAnimationFrame(r)))")
    same([r[:4] for r in b.run(ROWS, "#ranges")][-1], shown(sorted(model, key=lambda r: r[3])[-1]), "down to the last")
    bars = {}
    for r in model:
        e = r[2].bit_length() - 1
        bars[e] = bars.get(e, 0) + 1
    found = b.run("return [...document.querySelectorAll('.size')].map(r => r.lastChild.textContent.split(' ranges')[0])")
    same(found, [f"{bars[e]:,}" for e in sorted(bars)], "how many ranges are of which sizes")
    b.run("go(14000); $('atend').click()")
    same(b.run(ROWS, "#ranges"), [], "none is live at the end of this run")
    few = "space 1000 nodes 32 index 32\nalloc 10\nalloc 20\n# kept\nalloc 30\nfree 1\nfree 2\nreport\n"
    play(b, few)
    same([b.run(ROWS, "#ranges"), b.run("return $('rangesum').textContent")],
         [[["3", "30", "30", "3", "kept"]], "Live now: 0 ranges, 0 units. Still live at the end: 1 range, 30 units."], "what is still live at the end")
    b.open("#t=voxel-game&p=9000")
    b.click("#sorts [data-by=units]")
    b.run("$('ranges').scrollTop = 0")
    b.click("#ranges .row")
    same(row(b), sorted(model, key=lambda r: (-r[2], r[1]))[0][3], "a click goes to the row of the grant")


def bins_are_listed(b):
    text = TRACES["arena-game"].read_text()
    lines = [line for line in text.splitlines() if line and line[0] != "#"]
    for p in (100, 5000):
        b.open(f"#t=arena-game&p={p}")
        full = [r.split() for r in program("\n".join([*lines[:p + 1], "full"]) + "\n")[0].split("full ")[-1].splitlines()[1:]]
        found = b.run("return [...$('binrows').rows].map(r => [...r.cells].map(c => c.textContent))")
        same([[r[0], r[1].split(" to ")[0].replace(",", ""), r[2]] for r in found], [[r[1], r[3], r[5]] for r in full], f"bins, sizes and counts after row {p}")
        size = int(lines[0].split()[1])
        free = size - sum(r[2] for r in live_at(text, p))
        same(sum(int(r[3].replace(",", "")) for r in found), free, "the units of all bins are the free units")
    c = int(full[0][1])
    b.point("#bins", (c % 64 + 3.5) / 67, (c // 64 + 0.5) / 4)
    told = b.run("return $('bin').textContent")
    holds(told.startswith(f"Class {c}: blocks of ") and f"; {full[0][5]} free block" in told, "the class under the pointer", told)


def ways_to_a_row(b):
    b.open("#t=voxel-game&p=9000")
    b.run("$('row').value = '4321'; $('row').onchange()")
    same(row(b), 4321, "a number")
    b.run("$('row').value = '14774'; $('row').onchange()")
    same([row(b), b.run("return $('fault').textContent")], [4321, "Row: a number from 0 to 14,773"], "a number that is too large")
    b.point("#life", 0.5, 0.5, press=True)
    width = b.run("return $('life').clientWidth")
    expected = (0.5 * width - 54) / (width - 54) * 14774 - 1
    holds(abs(row(b) - expected) < 30, "a click in the lives", (row(b), expected))
    at = row(b)
    b.run("document.querySelectorAll('#calls .row')[1].click()")
    moved = row(b)
    holds(moved != at and abs(moved - at) < 12, "a click in the answers", (at, moved))
    b.focus("#calls")
    b.keys("Down", "Down", "Enter")
    same(row(b), moved + 2, "keys in the answers")
    play(b, FEW)
    to(b, 3)
    b.point("#space", 0.79, 0.1, press=True)
    same(b.run("return $('block').textContent"), "Grant 2 “texture: rock_albedo” at 100: 90 units, class 35 (88 to 95), live since row 2.",
         "the block under the pointer: name, size, class, since when")
    same(b.run("return [$('k').value, $('goto').textContent]"), ["2", "Go to row 2"], "a click chooses it")
    b.click("#goto")
    same(row(b), 2, "and its row is reached")
    same(b.run(ROWS, "#calls")[1], ["2", "alloc 90", "grant 2 at 100", "texture: rock_albedo"], "a call and its name")


FEW = "space 1000 nodes 32 index 32\nalloc 100\n# texture: rock_albedo\nalloc 90\nreport\nfree 2\n"

def one_word_for_a_class(b):
    """What has a number and sizes is a size class, wherever it is shown."""
    b.open("#t=voxel-game&p=9000")
    for place in ("document.body.innerText", "$('help').textContent", "[...document.querySelectorAll('[aria-label]')].map(e => e.ariaLabel).join()"):
        text = b.run(f"return {place}")
        holds(len(text) > 20 and not re.search(r"\bbins?\b", text, re.I), "a size class has one name in " + place[:18], text)
    holds("Size classes and masks" in b.run("return document.body.innerText"), "and it is shown")


def moved_ranges_keep_their_age(b):
    """Grant 2 is live for 50 calls: 25 before a call moves it, and 25 after; then grant 3 likewise, resized."""
    for slide in ("compact", "compact 5", "compact 1 0 10 1", "room 88", "room 88 1 10"):
        lines = ["space 100 nodes 16 index 32", "alloc 10", "# moved", "alloc 10", "free 1", *["report"] * 23, slide, *["report"] * 24, "free 2"]
        lines += ["alloc 10", *["report"] * 24, "grow 3 20", *["report"] * 24, "free 3"]
        b.open()
        give(b, "\n".join(lines) + "\n", "ages.script")
        found = b.run("const c = colors().ages; return pictured(S.run, 800, 400, new Work('x')).then(t => c.map(a => (t.split(`<path fill='${a}' d='`)[1] || '').split(\"'\")[0].split('z').length - 1))")
        # grant 1 is live for 2 calls; the ranges of grants 2 and 3 are of 31 to 100 calls, two each
        same(found[:3], [1, 0, 4], f"{slide}: ranges that were moved or resized are of one age")
        b.run("go(27)")
        same(b.run(ROWS, "#ranges"), [["2", "0", "10", "2", "moved"]], "a moved range keeps its number, its row and its name")
        b.run("go(S.run.count)")
        b.run("return new Promise(r => { const f = () => S.run.picture?.isDone ? r() : setTimeout(f, 20); f(); })")
        pixels = b.run("""const s = S.run.picture.sheet, g = s.getContext('2d'), at = (p, o) => [...g.getImageData(
            Math.round(p / (S.run.count + 1) * s.width), Math.round(s.height - o / S.run.top * s.height), 1, 1).data.slice(0, 3)].join();
            return [at(15, 15), at(38, 5), at(60, 5), at(90, 15)]""")
        same(len(set(pixels)), 1, "and its colour in the lives")
        b.run("edit(30, [[2, 2, 0]])")
        same(b.run("return [S.run.lived(1, 31), S.run.lived(2, 31)]"), [29, 29], "in a branch that ends the grant earlier too")


ALL = [answers_are_the_program_s, ranges_are_listed, bins_are_listed, ways_to_a_row, one_word_for_a_class, moved_ranges_keep_their_age]
