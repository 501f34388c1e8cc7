"""Two runs side by side: the other one is made here too, as a recording that the program plays."""

from .base import TRACES, holds, recorded, row, same, to
from .refusals import FRAGMENTED


REQUESTS = ("alloc", "align", "tight", "relocate")
# of the lines that scripts lack, what a larger unit does to their numbers
SCALED = {"tight": "na", "room": "nas", "relocate": "ka", "retract": "d", "offset": "k", "where": "na", "first": "", "last": "",
          "before": "k", "after": "k", "cost": "nas", "why": "na", "compact": "sddc"}


def other(text, size, nodes, unit, compact):
    """For each call of a text what the other run's last answer to it is; and its refusals after that."""
    lines = [line for line in text.splitlines() if line and line[0] != "#"][1:]
    first = recorded(text)[0].splitlines()
    made, of, places, grants = [f"space {size // unit} nodes {nodes} index 32"], {}, [], 0
    # the grants of the other run are known only as it is played: so again from the start where one is refused
    up = lambda n: -(-int(n) // unit)
    number = {"n": up, "s": up, "d": lambda n: int(n) // unit, "c": int, "a": lambda n: max(1, int(n) // unit), "k": lambda k: of.get(k, 0)}
    refused, answers = set(), []
    while True:
        made, of, places, grants = made[:1], {}, [], 0
        for i, line in enumerate(lines):
            name, *n = line.split()
            call = {"alloc": lambda: f"alloc {up(n[0])}", "free": lambda: f"free {of.get(n[0], 0)}", "report": lambda: "report",
                    "align": lambda: f"align {up(n[0])} {int(n[1]) // unit}" if int(n[1]) > unit else f"alloc {up(n[0])}",
                    "extend": lambda: f"extend {int(n[0]) // unit}", "size": lambda: f"size {of.get(n[0], 0)}", "reset": lambda: "reset",
                    "shrink": lambda: f"shrink {of.get(n[0], 0)} {up(n[1])}", "grow": lambda: f"grow {of.get(n[0], 0)} {up(n[1])}"}.get(name, lambda: "")()
            if not call:
                words = [word for word in line.split() if not word.isdigit()]
                call = " ".join([*words, *(str(number[kind](v)) for kind, v in zip(SCALED[name], n[len(words) - 1:]))])
                call = "report" if compact == 2 and name in ("compact", "room") else call
            made.append(call)
            if name in REQUESTS:
                if i in refused and compact == 1 and name != "relocate":
                    made += ["compact", call]
                is_granted = (i, "last") not in refused if i in refused and compact == 1 else i not in refused
                grants += is_granted
                if first[i].startswith("grant"):
                    of[first[i].split()[1]] = grants if is_granted else 0
            places.append(len(made) - 2)
        answers = recorded("\n".join(made) + "\n")[0].splitlines()
        wrong = None
        for i, line in enumerate(lines):
            begin = places[i - 1] + 1 if i else 0
            if line.split()[0] not in REQUESTS:
                continue
            if answers[begin] in ("none", "gone") and i not in refused:
                wrong = i
            elif answers[places[i]] in ("none", "gone") and compact == 1 and (i, "last") not in refused:
                wrong = (i, "last")
            if wrong is not None:
                break
        if wrong is None:
            return [answers[p] for p in places]
        refused.add(wrong)


MOVES = FRAGMENTED + """tight 60
tight 30 64
why alloc 10
why tight 10 16
cost 10
first
last
relocate 9
free 9
offset 2
after 2
room 150
room 200 64 8
compact 16 0 200 1
relocate 8 16
alloc 150
compact 16
free 12
relocate 13
retract 60
compact 8
retract 60
alloc 90
"""
OFTEN = FRAGMENTED.replace("alloc 300", "shrink 2 50\ncompact\nalloc 300\ngrow 10 350\nshrink 4 60\ncompact\ngrow 10 360")


def outcome(answer):
    return answer if answer in ("none", "gone") else "done"


def compared(b, text, as_):
    b.run("return take(new TextEncoder().encode(arguments[0]))", text)
    for name, value in zip(("xsize", "xnodes", "xunit", "xcompact"), as_):
        b.run("$(arguments[0]).value = arguments[1]", name, value)
    b.run("return $('compare').onclick()")
    mine, theirs = recorded(text)[0].splitlines(), other(text, *as_)
    rows = [i + 1 for i, (x, y) in enumerate(zip(mine, theirs)) if outcome(x) != outcome(y)]
    return mine, theirs, rows


def table(b):
    return dict(b.run("return [...$('differences').rows].map(r => [r.cells[0].textContent, [...r.cells].slice(1).map(c => c.textContent)])"))


def two_runs(b):
    b.open()
    arena = TRACES["arena-game"].read_text().splitlines()
    arena = "\n".join([line for line in arena if line and line[0] != "#"][:1600]) + "\n"
    size, nodes = (int(arena.split()[i]) for i in (1, 3))
    for what, text, as_ in (
            ("compacted where a request is refused", FRAGMENTED, (1000, 32, 1, 1)),
            ("more space", FRAGMENTED, (1400, 32, 1, 0)),
            ("fewer nodes", FRAGMENTED, (1000, 9, 1, 0)),
            ("a unit of 64", FRAGMENTED + "extend 100\nextend 30\nalloc 260\n", (1000, 32, 64, 0)),
            ("never compacted", OFTEN, (1000, 32, 1, 2)),
            ("ranges that slide, in more space", MOVES, (1200, 32, 1, 0)),
            ("ranges that slide, with a unit of 16", MOVES, (1000, 32, 16, 0)),
            ("ranges that slide, compacted where a request is refused", MOVES, (900, 32, 1, 1)),
            ("ranges that slide no more", MOVES, (1000, 32, 1, 2)),
            ("a unit of 8, never compacted", OFTEN, (1000, 32, 8, 2)),
            ("as many nodes as 16 bits name", FRAGMENTED.replace("index 32", "index 16"), (1000, 65533, 1, 0)),
            ("more nodes than 16 bits name", FRAGMENTED.replace("index 32", "index 16"), (1000, 65534, 1, 0)),
            ("less space", arena, (100000000, nodes, 1, 0)),
            ("a unit of 256", arena, (size, nodes, 256, 0))):
        mine, theirs, rows = compared(b, text, as_)
        same(b.run("return S.other.rows"), rows, f"{what}: the rows that differ")
        found = table(b)
        refused = [mine.count("none"), theirs.count("none")]
        same(found["Refused calls"][:2], [f"{n:,}" for n in refused], f"{what}: refused calls")
        first = [f"{answers.index('none') + 1:,}" if "none" in answers else "none" for answers in (mine, theirs)]
        same(found["First refusal, row"][:2], first, f"{what}: the first refusal")
        for p in (rows[0] if rows else 1, len(mine)):
            to(b, p)
            same(table(b)["Answer"][:2], [mine[p - 1], theirs[p - 1]], f"{what}: answers at row {p}")
    mine, theirs, rows = compared(b, FRAGMENTED, (1000, 32, 1, 1))
    same(b.run("return $('differ').textContent.split('.')[0]"), f"{len(rows)} row with another outcome, the first is row {rows[0]}", "how many rows differ")
    ends = "return [$('xnext').disabled, $('xback').disabled]"
    to(b, 0)
    same(b.run(ends), [False, True], "before the first difference there is a next one alone")
    b.click("#xnext")
    same(row(b), rows[0], "a button goes to the next difference")
    same(b.run(ends), [True, True], "at the only one there is none before and none after")
    to(b, rows[0] + 1)
    same(b.run(ends), [True, False], "after the last there is one before alone")
    to(b, rows[0])
    found = table(b)
    same([found["Units in use"], found["Blocks"]], [["500", "800", "+300"], ["10", "7", "−3"]], "what differs at that row")
    b.run("return link()")
    b.open(b.run("return location.hash"))
    same([b.run("return S.other.rows"), table(b)], [rows, found], "a link keeps the comparison")
    drawn = b.run("return ['spaceA', 'spaceB', 'lifeA', 'lifeB'].map(id => { const c = $(id), d = c.getContext('2d').getImageData(0, 0, c.width, c.height).data; return new Set(new Uint32Array(d.buffer)).size; })")
    holds(min(drawn) > 3, "both are drawn", drawn)
    b.run("$('xnodes').value = ''; return $('compare').onclick()")
    same(b.run("return $('fault').textContent.startsWith('Compare: the node limit is 2 to')"), True, "an empty field is no number")


def the_other_is_in_units_of_this_one(b):
    """The numbers at the pictures of a run with a larger unit are those of this run's units, and bytes too."""
    b.open()
    b.run("return take(new TextEncoder().encode(arguments[0]))", "space 6000 nodes 64 index 32\nalloc 600\nalloc 1200\nfree 1\nalloc 300\n")
    words = """const said = new Map(), draw = CanvasRenderingContext2D.prototype.fillText, off = OffscreenCanvasRenderingContext2D.prototype.fillText;
      const note = of => function (text, ...at) { said.get('all').push(text); return of.call(this, text, ...at); };
      said.set('all', []); CanvasRenderingContext2D.prototype.fillText = note(draw); OffscreenCanvasRenderingContext2D.prototype.fillText = note(off);
      const of = f => { said.set('all', []); f(); return said.get('all').filter(t => !/^row|^[0-9]$/.test(t)); }, at = () => S.other.at[S.p];
      S.other.run.spaces = {}; S.run.spaces = {};
      try { return [of(() => drawSpace('spaceA', S.run, S.p, 0, 6000, [])), of(() => drawSpace('spaceB', S.other.run, at(), 0, 6000 / S.other.unit, [])), of(() => drawLives('lifeA', S.run, () => S.p)), of(() => drawLives('lifeB', S.other.run, at))]; }
      finally { CanvasRenderingContext2D.prototype.fillText = draw; OffscreenCanvasRenderingContext2D.prototype.fillText = off; }"""
    for bytes_, lines, top in (("", ["1000", "2000", "3000", "4000", "5000"], ["1800", "900"]), ("1024", ["1,000 KiB", "1.95 MiB", "2.93 MiB", "3.91 MiB", "4.88 MiB"], ["1.76 MiB", "900 KiB"])):
        b.run("return compare([6000, 64, 100, 0])")
        b.run("$('unit').value = arguments[0]; return $('unit').onchange()", bytes_)
        b.run("go(4)")
        found = b.run(words)
        same([found[0][-5:], found[1][-5:]], [lines, lines], f"the offsets of both spaces, a unit of {bytes_ or 'no'} bytes")
        same([found[2][:2], found[3][:2]], [top, top], "and of both lives")


ALL = [two_runs, the_other_is_in_units_of_this_one]
