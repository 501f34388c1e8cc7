"""Refusals: that all are found, and that what would have helped does help. Each help is played by the program for
recordings, with the call before the refused one or another header, and one less of it must not do."""

import math
import random
import re
import subprocess

from .base import RUST, TRACES, WEB, built, holds, play, program, recorded, row, same, to, until

FRAGMENTED = "space 1000 nodes 32 index 32\n" + "alloc 100\n" * 9 + "free 1\nfree 3\nfree 5\nfree 7\nalloc 300\nalloc 2000\nreport\nalign 100 256\n"
# at its first refusal, of 300 units, so of a block of 320: free are 0 to 100, 200 to 300, 400 to 500, 600 to 700 and 900 to 1000. Four of them
# are enough, and the first four have three ranges between them. To release two ranges is enough, one is not, and the first two that do are 2 and 4
MOVED = "move 3 ranges of 300 units, from 100 to 600 (outlined): grant 2 of 100 units, grant 4 of 100 units, grant 6 of 100 units; then it is granted"
RELEASED = "release 2 ranges of 200 units, from 100 to 400 (dashed): grant 2 of 100 units, grant 4 of 100 units; then it is granted"
MANY = "space 4000000 nodes 100 index 32\n" + "alloc 10\n" * 98 + "alloc 11\n" + "report\n" * 500 + "alloc 12\n"


def alignments_of(lines):
    """The alignment of each grant by the program's answers, and the least common multiple of those granted since the last reset."""
    answers, of, step = recorded("\n".join(lines) + "\n")[0].splitlines(), {}, 1
    for line, answer in zip(lines[1:], answers):
        words = line.split()
        if answer == "reset":
            step = 1
        if answer.startswith("grant "):
            a = int(words[2]) if words[0] in ("align", "tight", "relocate") and len(words) > 2 else 1
            of[int(answer.split()[1])] = a
            step = math.lcm(step, a)
    return of, step


def outcome(head, lines):
    """What the last of these calls becomes, and whether the calls before have the answers they are to have."""
    answers = recorded("\n".join([head, *lines]) + "\n")[0].splitlines()
    return answers[-1].split()[0], answers[:-1]


def is_done(head, lines):
    return outcome(head, lines)[0] not in ("none", "gone")


def tried(head, before, call, helps, what):
    """Plays what helps, and what does not."""
    said = " | ".join(helps)
    name, *numbers = call.split()
    space, nodes = (int(head.split()[i]) for i in (1, 3))
    for n in re.findall(r"^(?:at most )?([\d,]+) units? more space \(extend \d+\)|\| ([\d,]+) units? more space", said):
        n = int("".join(n).replace(",", ""))
        assert is_done(head, [*before, f"extend {n}", call]), (what, n)
        assert n == 1 or not is_done(head, [*before, f"extend {n - 1}", call]), (what, n - 1)
    step = alignments_of([head, *before])[1]
    for slide, n in re.findall(r"(compact(?: \d+)?), and ([\d,]+) units?", said):
        n = int(n.replace(",", ""))
        assert slide == (f"compact {step}" if step > 1 else "compact"), (what, slide, step)
        assert is_done(head, [*before, slide, f"extend {n}", call]), (what, n)
        assert n == 1 or not is_done(head, [*before, slide, f"extend {n - 1}", call]), (what, n - 1)
    # by the step where that does, else plainly
    by_step = step > 1 and name != "compact" and is_done(head, [*before, f"compact {step}", call])
    assert (f"compact {step}: after it" in said) == by_step, (what, "compact by the step", step)
    assert ("compact: after it" in said) == (not by_step and is_done(head, [*before, "compact", call])), (what, "compact")
    for n in re.findall(r"more nodes: a limit of ([\d,]+)", said):
        n = int(n.replace(",", ""))
        more = head.replace(f"nodes {nodes} ", f"nodes {n} ")
        if outcome(more, [*before, call])[1] == outcome(head, [*before, call])[1]:
            assert is_done(more, [*before, call]), (what, n)
            assert not is_done(head.replace(f"nodes {nodes} ", f"nodes {n - 1} "), [*before, call]), (what, n - 1)
    for n, a in re.findall(r"a smaller request: at most ([\d,]+) units?(?: at a multiple of ([\d,]+) units?)?", said):
        n, ask = int(n.replace(",", "")), (lambda n: f"align {n} {a}" if a else f"alloc {n}")
        assert n < int(numbers[0]) and a == (numbers[1] if name == "align" and numbers[1] != "1" else ""), (what, n, a)
        assert is_done(head, [*before, ask(n)]) and not is_done(head, [*before, ask(n + 1)]), (what, n)
    for other in re.findall(r"another range: ((?:alloc|align)[ \d]+) is granted", said):
        assert is_done(head, [*before, other]), (what, other)
        assert other.startswith("align ") == (alignments_of([head, *before])[0][int(numbers[0])] > 1 or name == "relocate" and numbers[1:] not in ([], ["1"])), (what, other)
    for other in re.findall(r"((?:grow|shrink|tight)(?: \d+)+) in its place", said):
        assert is_done(head, [*before, other]), (what, other)
    for kind in ("grow", "shrink"):
        if name == kind and "in its place" not in said and ("is more" in what or "is fewer" in what):
            other = {"grow": "shrink", "shrink": "grow"}[kind]
            assert not is_done(head, [*before, f"{other} {numbers[0]} {numbers[1]}"]), what
    if name == "relocate":
        for text in (text for text in helps if text.startswith("release")):
            grants = re.findall(r"grant (\d+) ", text)
            assert "more" in text or is_done(head, [*before, *(f"free {k}" for k in grants), call]), (what, text)
    if "no alignment" in said:
        assert is_done(head, [*before, f"alloc {numbers[0]}"]), what
    if name == "extend":
        for n in re.findall(r"^at most ([\d,]+) units? more", said):
            n = int(n.replace(",", ""))
            assert is_done(head, [*before, f"extend {n}"]) and not is_done(head, [*before, f"extend {n + 1}"]), what
    if name == "retract":
        for n in re.findall(r"^at most ([\d,]+) units? fewer", said):
            n = int(n.replace(",", ""))
            assert is_done(head, [*before, f"retract {n}"]) and not is_done(head, [*before, f"retract {n + 1}"]), what
    assert space >= 0


def ranges_after(head, lines):
    """The live ranges after some calls, in the order of their offsets: offset, units, grant."""
    asked = [f"{what} {k}" for k in range(1, len(lines) + 1) for what in ("size", "offset")]
    answers = recorded("\n".join([head, *lines, *asked]) + "\n")[0].splitlines()[-len(asked):]
    numbers = [int(a.split()[1]) if a != "gone" else None for a in answers]
    return sorted((o, n, k) for k, (n, o) in enumerate(zip(numbers[::2], numbers[1::2]), 1) if n is not None)


def gone(head, before, call, helps, what):
    """What would have to be moved or released is the least that is enough."""
    said = {text.split()[0]: text for text in helps if text.startswith(("move", "release"))}
    name, *numbers = call.split()
    need = int(numbers[0]) + (int(numbers[1]) - 1 if len(numbers) > 1 else 0)
    align, step = int(numbers[1]) if len(numbers) > 1 else 1, alignments_of([head, *before])[1]
    rooms = ([f"{numbers[0]} {align} {step}"] if step > 1 or align > 1 else []) + [str(need)]
    room = next((room for room in rooms if is_done(head, [*before, f"room {room}", call])), None)
    cost = recorded("\n".join([head, *before, f"cost {room}"]) + "\n")[0].splitlines()[-1] if room else ""
    if "move" in said:
        count, least = re.findall(r"^move ([\d,]+) ranges? of ([\d,]+) units", said["move"])[0]
        assert cost == f"ranges {count} units {least}".replace(",", ""), (what, cost, said)
    else:
        assert room is None or cost == "ranges 0 units 0", (what, helps)
    live = ranges_after(head, before)
    runs = [live[i:j] for i in range(len(live)) for j in range(i + 1, len(live) + 1)]
    runs = sorted((sum(n for _, n, _ in run), len(run), [k for _, _, k in run]) for run in runs)
    limit = (float("inf"),)
    if "release" in said:
        count, units = (int(n.replace(",", "")) for n in re.findall(r"^release ([\d,]+) ranges? of ([\d,]+) units", said["release"])[0])
        limit = (units, count)
        same_cost = [run for run in runs if run[:2] == limit and all(f"grant {k} " in said["release"] for k in run[2][:4])]
        assert same_cost and is_done(head, [*before, *(f"free {k}" for k in same_cost[0][2]), call]), (what, said)
    # those that cost next to it do not do
    for units, count, grants in [run for run in runs if run[:2] < limit][-25:]:
        assert not is_done(head, [*before, *(f"free {k}" for k in grants), call]), (what, units, grants, said)


def explanations(b, text):
    """For each refusal of a text its row, its facts and its helps."""
    b.run("return take(new TextEncoder().encode(arguments[0]))", text)
    return b.run("const out = []; for (const p of S.run.refusals) { go(p); const texts = id => [...$(id).children].map(e => e.textContent); "
                 "out.push([p, $('whytitle').textContent, texts('facts'), texts('helps')]); } return out")


def are_found(b):
    b.open()
    play(b, FRAGMENTED)
    answers = program(FRAGMENTED)[0].splitlines()
    rows = [i + 1 for i, answer in enumerate(answers) if answer == "none"]
    same(b.run("return $('refusals').textContent"), f"{len(rows)} refusals", "how many")
    found = []
    b.run("document.activeElement.blur()")
    for _ in rows:
        b.keys("r")
        found.append(row(b))
    same(found, rows, "r goes to the next refusal")
    b.keys("r")
    told = b.run("return $('told').textContent")
    same((row(b), told), (rows[-1], f"No refusal after row {rows[-1]}."), "after the last there is none")
    b.keys("R")
    same(row(b), rows[-2], "R goes to the one before")
    to(b, 0)
    b.click("#rnext")
    same(row(b), rows[0], "so does a button")
    same(b.run("return $('whytitle').textContent"), "Row 14: alloc 300 is refused", "the refusal")
    same(b.run("return [...$('facts').children].map(e => e.textContent)"),
         ["no free block is large enough until the space is compacted", "asked: 300 units; rounded up to class 50: 320 units",
          "largest free block: 100 units; free in all: 500 units; largest request granted now without alignment: 96 units, since requests are rounded up", "blocks: 10 of at most 31"],
         "size, class, largest free block, and why")
    same(b.run("return [...$('helps').children].map(e => e.textContent)"),
         ["compact: after it the request is granted", "220 units more space (extend 220): then it is granted",
          "a smaller request: at most 96 units", MOVED, RELEASED], "what would have helped")


def the_first_run_has_a_refusal(b):
    """The page begins with a run of which r shows a refusal, and that is what its example writes."""
    written = subprocess.run(["cargo", "run", "--quiet", "--release", "--offline", "-j1", "-p", "offset-allocator-recorded", "--example", "levels"], cwd=RUST, capture_output=True, check=True).stdout
    same((WEB / "levels.script").read_bytes(), written, "the first run is what the example writes")
    b.open("")
    same(b.run("return [S.name, $('fault').textContent, $('why').hidden]"), ["levels", "", True], "the page begins with it")
    found = []
    for _ in range(4):
        b.keys("r")
        found.append(b.run("return [$('why').hidden, S.run.callName(S.p - 1)]"))
    answers = recorded(written)[0].splitlines()
    same([row(b), found[0][0]], [[i + 1 for i, answer in enumerate(answers) if answer == "none"][3], False], "r goes through its refusals, and says why")
    holds(all(name.startswith("texture/level ") for _, name in found), "which have names", found)
    holds(len(b.run("return [...$('helps').querySelectorAll('button')].map(e => e.textContent)")) > 0, "and what would have helped")


def tight_is_named(b):
    b.open()
    # a fresh space of 100 refuses 100, since 100 is rounded up to 104
    play(b, "space 100 nodes 4 index 32\nalloc 100\n")
    b.run("document.activeElement.blur()")
    b.keys("r")
    same(b.run("return [...$('helps').children].map(e => e.textContent)"),
         ["4 units more space (extend 4): then it is granted",
          "tight 100 in its place (allocate_tight): a free block has the 100 units, but not the rounded ones",
          "a smaller request: at most 96 units"], "a tight request is named where a free block has the units")


def smaller_is_smaller(b):
    b.open()
    # 100 units at a multiple of 256 need a block of 355; a request for 192 is granted
    play(b, "space 200 nodes 8 index 32\nalign 100 256\n")
    b.run("document.activeElement.blur()")
    b.keys("r")
    helps = b.run("return [...$('helps').children].map(e => e.textContent)")
    holds(helps and not any(help.startswith("a smaller request") for help in helps), "no larger request is called a smaller one", helps)


def extension_lacks_a_node(b):
    b.open()
    # 2 live, 2 free, 6 live: three blocks, as many as a limit of 4 admits, and the last is used
    lines = ["space 10 nodes 4 index 32", "alloc 4", "alloc 6", "free 1", "alloc 2", "extend 5"]
    play(b, "\n".join(lines) + "\n")
    b.run("document.activeElement.blur()")
    b.keys("r")
    found = b.run("return ['facts', 'helps'].map(id => [...$(id).children].map(e => e.textContent))")
    same(found, [["its last block is used (grant 2), and no further block may exist: 3 of at most 3"],
                 ["more nodes: a limit of 5", "compact: after it the space can be extended"]], "why an extension is refused")
    tried(lines[0], lines[1:-1], lines[-1], found[1], "an extension that lacks a node")


def others_are_explained(b):
    b.open()
    # 60 live, 40 free; 41 are rounded up to 44 for room, and not for a tight request
    found = explanations(b, "space 100 nodes 16 index 32\nalloc 60\nretract 50\ntight 41\nroom 41\nrelocate 1\nfirst\nafter 1\ncost 41\n")
    same([[title.split(": ", 1)[1], facts, helps] for _, title, facts, helps in found],
         [["retract 50 is refused", ["at its end 40 units are free"], ["at most 40 units fewer (retract 40)"]],
          ["tight 41 is refused", ["too few units are free", "asked: 41 units, not rounded up", "largest free block: 40 units; free in all: 40 units",
                                   "blocks: 2 of at most 15"], ["1 unit more space (extend 1): then it is granted",
                                                         "release 1 range of 60 units, from 0 to 60 (dashed): grant 1 of 60 units; then it is granted"]],
          ["room 41 is refused", ["free in all: 40 units; no moves make a block of them that serves alloc 41", "blocks: 2 of at most 15"],
           ["4 units more space (extend 4): then room is made"]],
          ["relocate 1 is refused", ["grant 1 has 60 units, at 0", "it begins where the space begins: no place is before it", "blocks: 2 of at most 15"],
           ["nothing that was tried would have helped"]]], "refusals of other calls; a question is refused nothing")
    # 1 live, 3 free, 6 live: a step of 2 leaves 1 and gives up 2, for which a fourth block is missing
    found = explanations(b, "space 10 nodes 4 index 32\nalloc 4\nalloc 6\nfree 1\nalloc 1\ncompact 2\ncompact 2 0 9 9\n")
    same([[title, facts, helps] for _, title, facts, helps in found],
         [[f"Row {p}: {call} is refused", ["no further block may exist for the units that the ranges leave: 3 of at most 3"],
           ["more nodes: a limit of 5", "compact: after it nothing is left to slide"]] for p, call in ((5, "compact 2"), (6, "compact 2 0 9 9"))],
         "a compaction by steps that lacks a node")


def are_marked(b):
    b.open()
    b.run("return take(new TextEncoder().encode(arguments[0]))", MANY)
    to(b, 0)
    same(b.run("return S.run.refusals"), [99, 600], "two refusals")
    marks = """const c = $(arguments[0]), left = arguments[1], g = c.getContext('2d'), d = devicePixelRatio, found = [];
      const w = c.width - left * d, a = g.getImageData(left * d, Math.round(2 * d), w, 1).data;
      for (let x = 0; x < w; x++) if (a[4 * x] > 150 && a[4 * x + 1] < 120 && a[4 * x + 2] < 120 && a[4 * x + 3] > 100) found.push(x / w);
      return found"""
    for canvas, left in (("marks", 0), ("life", 54)):
        found = b.run(marks, canvas, left)
        near = [any(abs(x - p / 601) < 0.02 for x in found) for p in (99, 600)]
        holds(all(near) and all(min(abs(x - p / 601) for p in (0, 99, 600)) < 0.02 for x in found), f"refusals are marked on {canvas}", found)
    b.click("#picture")
    until(b, "S.saved", "the picture")
    titles = b.run("return S.saved.text().then(t => [...new DOMParser().parseFromString(t, 'image/svg+xml').querySelectorAll('title')].map(e => e.textContent))")
    same(titles, ["row 99: alloc 11: too few nodes are left", "row 600: alloc 12: too few nodes are left"], "ticks of the saved picture have the reason as title")


def random_text(seed):
    r = random.Random(seed)
    size, nodes = r.choice((1000, 5000, 100000)), r.choice((6, 12, 40))
    lines, grants = [f"space {size} nodes {nodes} index 32"], 0
    for _ in range(60):
        kind = r.random()
        if kind < 0.4:
            lines.append(f"alloc {r.randrange(1, size // r.choice((2, 5, 12)))}")
        elif kind < 0.5:
            n, align, step = r.randrange(1, size // r.choice((2, 5, 12))), 2 ** r.randrange(0, 9), r.choice((1, 16, 50))
            lines.append(r.choice((f"tight {n}", f"tight {n} {align}", f"relocate {r.randrange(1, 30)}", f"relocate {r.randrange(1, 30)} {align}",
                                   f"retract {n}", f"room {2 * n}", f"room {2 * n} {align} {step}", f"compact {step}", f"compact {step} 0 {n} 3")))
        elif kind < 0.62:
            lines.append(f"align {r.randrange(1, size // 8)} {2 ** r.randrange(0, 9)}")
        elif kind < 0.78:
            lines.append(f"free {r.randrange(1, 30)}")
        elif kind < 0.86:
            lines.append(f"grow {r.randrange(1, 30)} {r.randrange(1, size // 4)}")
        elif kind < 0.92:
            lines.append(f"shrink {r.randrange(1, 30)} {r.randrange(1, size // 8)}")
        elif kind < 0.95:
            lines.append(r.choice(("compact", f"extend {r.choice((100, 4294967295))}")))
        else:
            lines.append("report")
    return lines


def helps_help(b):
    b.open()
    built("play-recording")
    count, kinds = 0, set()
    for seed in range(12):
        lines = random_text(seed)
        for p, title, facts, helps in explanations(b, "\n".join(lines) + "\n"):
            call = lines[p]
            assert title == f"Row {p}: {call} is refused", title
            assert facts and helps, (seed, p)
            tried(lines[0], lines[1:p], call, helps, f"seed {seed}, row {p}, {call}: {facts} {helps}")
            count += 1
            kinds |= {(call.split()[0], facts[0].split(" (")[0] if call[:2] == "al" else "") }
    holds(count > 250 and {name for name, _ in kinds} >= {"alloc", "align", "grow", "shrink", "extend", "tight", "relocate", "retract", "room", "compact"}, f"what helps does help, at {count} refusals", kinds)


def what_would_have_to_go(b):
    b.open()
    count = 0
    for seed in range(20, 26):
        lines = random_text(seed)
        for p, _, facts, helps in explanations(b, "\n".join(lines) + "\n"):
            if lines[p].split()[0] in ("alloc", "align", "tight") and facts[0] != "too few nodes are left":
                gone(lines[0], lines[1:p], lines[p], helps, f"seed {seed}, row {p}, {lines[p]}: {helps}")
                count += any(help.startswith("release") for help in helps)
    holds(count > 20, "what would have to go is the least that is enough", count)


def helps_are_shown(b):
    """Each help is a button that shows the space after it."""
    b.size(1100, 1250)
    b.open()
    play(b, FRAGMENTED)
    to(b, 14)
    lines = FRAGMENTED.splitlines()
    at = """const c = $('space'), g = c.getContext('2d'), rh = c.height / 6, mark = rgb(colors().mark).join(); return arguments[0].map(unit => {
      const y = Math.floor(unit / (1000 / 6)), x = Math.round(GUTTER + (unit / (1000 / 6) - y) * (c.width - GUTTER)), a = g.getImageData(x - 12, Math.round(y * rh), 24, 3).data;
      for (let i = 0; i < a.length; i += 4) if (a.slice(i, i + 3).join() === mark) return true; return false; })"""
    same(b.run(at, [50, 150, 250, 350, 450, 550, 650, 850]), [False, True, True, True, True, True, False, False], "what would have to move is outlined")
    texts = b.run("return [...$('helps').children].map(e => e.textContent)")
    same(b.run("return [...document.querySelectorAll('#helps button')].map(e => e.textContent)"), texts, "each is a button")
    for text, calls in (("compact", ["compact", "alloc 300"]), ("220 units more", ["extend 220", "alloc 300"]), ("a smaller", ["alloc 96"]),
                        ("move", ["room 300", "alloc 300"]), ("release", ["free 2", "free 4", "alloc 300"])):
        b.run("[...document.querySelectorAll('#helps button')].find(e => e.textContent.startsWith(arguments[0])).click()", text)
        until(b, "S.run !== S.base", text)
        all_calls = [*lines[1:14], *calls]
        same(b.run("return [S.run.count, S.p, answered(S.run, S.p - 1)]"), [len(all_calls), len(all_calls), recorded("\n".join([lines[0], *all_calls]) + "\n")[0].splitlines()[-1]],
             f"{text}: its calls come in place of the refused one, the last is granted")
        same(b.run("return S.run.view(S.p).blocks.filter(b => b.k).map(b => [b.o, b.n, b.k])"), [list(r) for r in ranges_after(lines[0], all_calls)], f"{text}: the space after it")
        b.click("#undo")
        until(b, "S.run === S.base", "undo")
        same(row(b), 14, f"{text}: undo goes back to the refusal")
    b.run("return take(new TextEncoder().encode(arguments[0]))", MANY)
    to(b, 99)
    b.run("[...document.querySelectorAll('#helps button')].find(e => e.textContent.startsWith('more nodes: a limit of')).click()")
    until(b, "S.other", "the run with more nodes")
    same(b.run("return [S.other.as[1], S.other.rows.includes(99)]"), [101, True], "more nodes are shown by a run beside this one")


def gone_is_told(b):
    b.open()
    play(b, "space 100 nodes 16 index 32\n# texture: rock\nalloc 10\nfree 1\nfree 1\nfree 7\n")
    to(b, 3)
    same(b.run("return [$('whytitle').textContent, $('facts').textContent]"), ["Row 3: free 1: gone", "grant 1 “texture: rock” ended in row 2: freed"], "a second free")
    to(b, 4)
    same(b.run("return $('facts').textContent"), "no grant has the number 7 there", "a number of no grant")


def relocations_are_explained(b):
    """A second range that is refused for nodes, for room, and because the block that is taken is after the first."""
    b.open()
    # free are 64 units from 0 on, 48 from 112 on, 16 from 192 on, which the two of 2 units are taken of, and 176 at the end: 9 blocks
    textures = ["alloc 64", "alloc 48", "alloc 48", "alloc 32", "alloc 16", "alloc 128", "free 1", "free 3", "free 5", "alloc 2", "alloc 2"]
    head = "space 512 nodes 10 index 32"
    (_, title, facts, helps), = explanations(b, "\n".join([head, *textures, "relocate 4"]) + "\n")
    same([title, facts, helps[0]], ["Row 12: relocate 4 is refused", ["too few nodes are left", "grant 4 has 32 units, at 160", "asked: 32 units; rounded up to class 24: 32 units; "
          "largest free block before it: 64 units", "blocks: 9 of at most 9"], "more nodes: a limit of 11 (it is 10), where the calls before stay the same"], "one that lacks a node")
    tried(head, textures, "relocate 4", helps, "one that lacks a node")
    b.run("go(12); [...document.querySelectorAll('#helps button')].find(e => e.textContent.startsWith('more nodes')).click()")
    until(b, "S.other", "the run with more nodes")
    same(b.run("return [S.other.as[1], S.other.rows.includes(12)]"), [11, True], "which a run with more nodes shows")
    (_, _, facts, helps), = explanations(b, "\n".join([head, *textures, "relocate 6"]) + "\n")
    same([facts[:2], helps[0]], [["too few nodes are left", "grant 6 has 128 units, at 208"], "more nodes alone would not do: no free block before it is large enough"],
         "one that lacks a node, and a place")
    # of two free blocks of 100 units, one before grant 3 and one after it, the newest is taken
    for order in ((1, 4), (4, 1)):
        lines = ["alloc 100", "alloc 50", "alloc 90", "tight 100", *(f"free {k}" for k in order), "shrink 2 40"]
        head = "space 340 nodes 6 index 32"
        (_, _, facts, helps), = explanations(b, "\n".join([head, *lines, "relocate 3"]) + "\n")
        same([facts[0], helps[0]], ["too few nodes are left", "a limit of 7 nodes (it is 6) may do: of two free blocks that serve it, one after it, the newest is taken"], "one that more nodes may help")
        same(is_done(head.replace("nodes 6", "nodes 7"), [*lines, "relocate 3"]), order == (4, 1), "and do where the newest is before it")
    # a block that no space has
    (_, _, facts, helps), = explanations(b, "space 500 nodes 9 index 32\nalloc 100\nalloc 50\nfree 1\nrelocate 2 4294967295\n")
    same([facts[1], facts[2].split("; ")[1]], ["no free block before it is large enough: this is how emptying the end stops", "rounded up to class 240: more than any block has"],
         "one at a multiple of more than there is")
    # 300 units at 0 are free, and 350 at the end; 300 are rounded up to 320
    meshes, head = ["alloc 300", "alloc 50", "alloc 300", "free 1"], "space 1000 nodes 32 index 32"
    (_, _, facts, helps), = explanations(b, "\n".join([head, *meshes, "relocate 3"]) + "\n")
    same([facts, helps], [["grant 3 has 300 units, at 350", "no free block before it is large enough: this is how emptying the end stops",
                           "asked: 300 units; rounded up to class 50: 320 units; largest free block before it: 300 units", "blocks: 4 of at most 31"],
                          ["release 1 range of 50 units, from 300 to 350 (dashed): grant 2 of 50 units; then it is granted",
                           "another range: alloc 300 is granted; copy, then free 3"]], "one that lacks room before it, and what would have to go")
    tried(head, meshes, "relocate 3", helps, "one that lacks room")
    b.run("go(5); [...document.querySelectorAll('#helps button')].find(e => e.textContent.startsWith('release')).click()")
    until(b, "S.run !== S.base", "release")
    same(b.run("return [S.run.count, answered(S.run, S.p - 1)]"), [6, recorded("\n".join([head, *meshes, "free 2", "relocate 3"]) + "\n")[0].splitlines()[-1]], "which is shown")
    b.run("return link()")
    b.run("history.replaceState(null, '', location.href); return restore()")
    same(b.run("return [$('fault').textContent, answered(S.run, S.p - 1)]"), ["", "grant 4 at 0"], "and has a link")
    # 300 units at 0 are free, and 260 at the end, of the class of the 256 to which 250 are rounded up
    meshes = ["alloc 300", "alloc 50", "alloc 250", "alloc 140", "free 1"]
    (_, _, facts, helps), = explanations(b, "\n".join([head, *meshes, "relocate 3"]) + "\n")
    holds("takes another, after it" in facts[1] and helps == ["another range: alloc 250 is granted; copy, then free 3"], "one whose block would be after it", [facts, helps])


ALL = [are_found, relocations_are_explained, the_first_run_has_a_refusal, others_are_explained, are_marked, helps_help, tight_is_named, smaller_is_smaller, extension_lacks_a_node, gone_is_told,
       what_would_have_to_go, helps_are_shown]
