"""Prints what bench/run has measured with the programs in the folder $1, and writes it into results.txt,
the second part of RESULTS.md, which has the chief of it, and plot.svg. With $2 it measures the workloads with this text in their
names itself, and writes no file; with a further word `counts` it takes no times."""
import math, sys
from typing import NamedTuple
import pages
from measures import BESIDE, COMPACTED, HERE, LIMITS, PREFIXES, RESIDENT, SIDES, WAYS
from measures import check, counts, saved, times, works

# Larger ratios are bold: ours to the original's time, to its instructions, to C's; erased to the original's time, to its
# instructions. Some workloads have others of the first two.
REACH = (0.70, 0.60, 1.05, 0.85, 0.68)
REACH_TIME = {"u16": 0.68, "a million live": 0.88, "10,000,000 nodes": 0.95}
REACH_INSTRUCTIONS = {"frames of 60,000": 0.68}
# the time of ours in a whole run, with the construction
REACH_WHOLE = {"random, 10,000,000 nodes": 0.80}
# the instructions of a construction or a reset; the cache misses of a step; of the resident bytes, those for each node
# that was ever used, and all others
REACH_COST = 2000
REACH_MISSES = {"random, 60k live": 3.4, "random, a million live": 2.0}
REACH_NODE, REACH_MORE = 28, 65_536
# the time with tickets, in parts of that with handles
REACH_GUARDED = 1.10
# workloads whose construction takes about as long as their steps
LONG = ("random, a million live", "random, 10,000,000 nodes")


class Beside(NamedTuple):
    """A side in parts of the one that it is compared with: the time of a step, its instructions, its cache misses, and the
    bytes that the library holds; and its nanoseconds."""
    time: float
    instructions: float
    misses: float
    bytes: float
    ns: float


class Row(NamedTuple):
    """The measurements of a workload. Of a step on each side: the nanoseconds of the fastest run, those with the
    construction, those without aligned branches, those with huge pages, the instructions, the cache misses, and in each
    round the nanoseconds; the instructions with other call sites; and the sides with tables of their own."""
    name: str
    kind: str
    nodes: int
    ns: list
    whole: list
    plain: list
    huge: list
    instructions: list
    misses: list
    rounds: list
    sites: dict
    beside: dict


def measured(work, timed, counted):
    """The row of a workload."""
    name = work.name
    nothing = {side: [math.nan] * 3 for side in PREFIXES}
    found = {what: timed.get(what, nothing) for what in ("sides", "plain", "huge")}
    steps = counted["steps"][name]
    ns, whole = ([found["sides"][side][k] for side in SIDES] for k in (0, 2))
    # a side that takes long is left out of further rounds
    rounds = list(zip(*(found["sides"][side][3:] for side in SIDES)))
    instructions, misses = ([steps[side][k] for side in SIDES] for k in (0, 1))
    held = {side: sum(both) for side, both in counted.get("bytes", {}).get(name, {}).items()}

    def parts(side, base):
        values = [[found["sides"][of][0], *steps[of], held.get(of, math.nan)] for of in (side, base)]
        return Beside(*(a / b if b else math.nan for a, b in zip(*values)), values[0][0])

    beside = {side: parts(side, base) for side, (_, base) in BESIDE.items()}
    plain, huge = ([found[what][side][0] for side in SIDES] for what in ("plain", "huge"))
    sites = {side: count for side, (count, _misses) in counted.get("sites", {}).get(name, {}).items()}
    return Row(name, work.kind, work.nodes, ns, whole, plain, huge, instructions, misses, rounds, sites, beside)


def number(x):
    """Nothing where it was not measured."""
    return "" if math.isnan(x) else f"{x:,.0f}" if x >= 1000 else f"{x:.1f}"


def ratios(row):
    """The ratios of ours and of the erased side, in the order of REACH."""
    ns, count = row.ns, row.instructions
    return ns[1] / ns[0], count[1] / count[0], count[1] / count[3], ns[2] / ns[0], count[2] / count[0]


def reach(row):
    """The largest ratios that are not bold."""
    found = list(REACH)
    for at, special in enumerate((REACH_TIME, REACH_INSTRUCTIONS)):
        for words, most in special.items():
            if words in row.name:
                found[at] = most
    return found


def cell(value, most=math.inf, text="{:.2f}"):
    """Bold where it is more than this. Nothing where it was not measured."""
    shown = "" if math.isnan(value) else text.format(value)
    return f"**{shown}**" if value > most else shown


def table(rows):
    yield ("| workload | ns: original | ours | erased | C | instructions: original | ours | erased | C "
           "| ours: time/original | instructions/original | instructions/C | erased: time/original | instructions/original |")
    yield "|---|" + "---:|" * 13
    for row in rows:
        cells = [number(x) for x in row.ns + row.instructions] + [cell(r, m) for r, m in zip(ratios(row), reach(row))]
        yield f"| {row.name} | " + " | ".join(cells) + " |"


def misses_table(rows):
    yield "| workload | original | ours | erased | C | ours/original | ours/C |"
    yield "|---|" + "---:|" * 6
    for row in rows:
        original, ours, _erased, c = row.misses
        cells = [f"{x:,.2f}" for x in row.misses + [ours / original, ours / c]]
        cells[1] = cell(ours, REACH_MISSES.get(row.name, math.inf))
        yield f"| {row.name} | " + " | ".join(cells) + " |"


def rounds_table(rows):
    """The best and the worst ratio to the original's time in the same round. A round is left out in which a run without
    steps took longer than the one with them."""
    yield "| workload | rounds | ours: best | worst | erased: best | worst | C: best | worst |"
    yield "|---|" + "---:|" * 7
    for row in rows:
        rounds = [ns for ns in row.rounds if min(ns) > 0]
        sides = zip(*([ns / original for ns in others] for original, *others in rounds))
        cells = [f"{x:.2f}" for side in sides for x in (min(side), max(side))]
        yield f"| {row.name} | {len(rounds)} | " + " | ".join(cells) + " |"


def plain_table(rows):
    """The times without aligned branches."""
    yield "| workload | ns: original | ours | erased | C | ours: time/original | erased: time/original |"
    yield "|---|" + "---:|" * 6
    for row in rows:
        ns = row.plain
        yield f"| {row.name} | " + " | ".join([*map(number, ns), cell(ns[1] / ns[0]), cell(ns[2] / ns[0])]) + " |"


def sites_table(rows):
    """The instructions with one call site of each function and with two."""
    yield "| workload | original: one | two | erased: one | two | erased/original, one each | two each |"
    yield "|---|" + "---:|" * 6
    for row in rows:
        original, erased = [row.instructions[0], row.sites["original"]], [row.sites["erased"], row.instructions[2]]
        cells = [number(x) for x in original + erased] + [f"{e / o:.2f}" for o, e in zip(original, erased)]
        yield f"| {row.name} | " + " | ".join(cells) + " |"


def whole_table(rows):
    """The times of whole runs."""
    yield "| workload | ns: original | ours | erased | C | ours: time/original | erased: time/original |"
    yield "|---|" + "---:|" * 6
    for row in rows:
        ns = row.whole
        ours = cell(ns[1] / ns[0], REACH_WHOLE.get(row.name, math.inf))
        yield f"| {row.name} | " + " | ".join([*map(number, ns), ours, cell(ns[2] / ns[0])]) + " |"


def huge_table(rows):
    """The times with huge pages, and their ratios to those without."""
    yield "| workload | ns: original | ours | erased | C | with/without: original | ours | erased | C |"
    yield "|---|" + "---:|" * 8
    for row in rows:
        ns = row.huge
        yield f"| {row.name} | " + " | ".join([*map(number, ns), *(cell(a / b) for a, b in zip(ns, row.ns))]) + " |"


def threads_table(threads):
    yield "| | ns a step, over all threads |"
    yield "|---|---:|"
    for way, ns in threads:
        yield f"| {way} | {number(ns)} |"


def costs_table(rows):
    """The costs of an allocator: each construction, use, and reset."""
    yield "| | ns: original | ours | erased | C | instructions: original | ours | erased | C |"
    yield "|---|" + "---:|" * 8
    for row in rows:
        ns = [number(x) for x in row.ns]
        # with grants the reach would be another
        most = math.inf if row.kind == "used" else REACH_COST
        count = [cell(x, most if side in ("ours", "erased") else math.inf, "{:,.0f}") for side, x in zip(SIDES, row.instructions)]
        yield f"| {row.name} | " + " | ".join(ns + count) + " |"


def resident_table(found, most):
    yield "| node limit | original | ours | erased | C |"
    yield "|---|" + "---:|" * 4
    for limit, row in found.items():
        cells = [cell(x, most if side in ("ours", "erased") else math.inf, "{:,.0f}") for side, x in row.items()]
        yield f"| {limit:,} | " + " | ".join(cells) + " |"


def compacting_table(rows):
    yield ("| live ranges | ns: compact | reset, allocate | free, allocate | instructions: compact | reset, allocate | free, allocate "
           "| compact/reset: time | instructions | compact/free: time | instructions |")
    yield "|---|" + "---:|" * 10
    for live, ns, count in rows:
        ratios = [cell(x[0] / x[k]) for k in (1, 2) for x in (ns, count)]
        yield f"| {live:,} | " + " | ".join([*map(number, ns + count), *ratios]) + " |"


def by_field_table(rows):
    """Ours with a table for each field of a node, in parts of ours with one table of nodes."""
    yield "| workload | ns: by field | time | instructions | cache misses |"
    yield "|---|" + "---:|" * 4
    for row in rows:
        found = row.beside["by field"]
        yield f"| {row.name} | {number(found.ns)} | {cell(found.time)} | {cell(found.instructions)} | {cell(found.misses)} |"


def guarded_table(rows):
    """The sides with tickets, in parts of those with handles."""
    yield "| workload | ns: guarded | erased: time | instructions | cache misses | bytes | ours: time | instructions | cache misses |"
    yield "|---|" + "---:|" * 8
    for row in rows:
        erased, ours = row.beside["guarded"], row.beside["ours guarded"]
        cells = [number(erased.ns), cell(erased.time, REACH_GUARDED), *map(cell, erased[1:4]), cell(ours.time, REACH_GUARDED), *map(cell, ours[1:3])]
        yield f"| {row.name} | " + " | ".join(cells) + " |"


COLOURS = {"original": "#c0392b", "ours": "#2471a3", "erased": "#1e8449", "c": "#7d8a8f"}
NAMES = {"original": "original", "ours": "ours", "erased": "erased", "c": "C"}


# On a dark page: lighter colours of the sides, and darker ones of the page, of its lines and of outlines.
DARK = {"#c0392b": "#ff7b72", "#2471a3": "#6cb0f5", "#a9cce3": "#1f4a73", "#1e8449": "#56d364", "#7d8a8f": "#a5b0b5", "#d68910": "#f0b23e",
        "#7e5109": "#c9985a", "#8e44ad": "#c792ea", "#148f77": "#4fd1b5", "#ddd": "#30363d", "#e5e5e5": "#21262d", "#bbb": "#484f58", "white": "#0d1117"}


def page(width, height, name, parts):
    """A picture for light and dark pages, with a name for those who do not see it."""
    parts = "\n".join(parts)
    dark = "".join(f"[{part}='{light}']{{{part}:{colour}}}" for light, colour in DARK.items() for part in ("fill", "stroke")
                   if f'{part}="{light}"' in parts or (part, light) == ("fill", "white"))
    return (f'<svg xmlns="http://www.w3.org/2000/svg" width="{width}" height="{height}" viewBox="0 0 {width} {height}" '
            f'font-family="sans-serif" fill="#1f2328" role="img" aria-label="{name}">\n<title>{name}</title>\n'
            f"<style>@media (prefers-color-scheme:dark){{svg{{fill:#e6edf3}}{dark}}}</style>\n"
            f'<rect width="{width}" height="{height}" fill="white"/>\n{parts}\n</svg>\n')


def text(x, y, words, anchor="start", size=12):
    return f'<text x="{x:.1f}" y="{y:.1f}" text-anchor="{anchor}" font-size="{size}">{words}</text>'


def bars(rows, top):
    """Our time and our instructions, relative to the original's."""
    left, width, height = 260, 420, 22
    yield text(left, top - 24, "ours, where the original is 1: time (upper bar), instructions (lower bar)", size=13)
    bottom = top + height * len(rows)
    for at in (0, 0.25, 0.5, 0.75, 1, 1.25):
        x = left + width * at / 1.25
        yield f'<line x1="{x}" y1="{top}" x2="{x}" y2="{bottom}" stroke="#ddd"/>' + text(x, top - 6, at, "middle", 10)
    for i, row in enumerate(rows):
        y = top + i * height
        yield text(left - 8, y + 15, row.name, "end")
        for value, colour, offset in zip(ratios(row), ("#2471a3", "#a9cce3"), (3, 11)):
            yield f'<rect x="{left}" y="{y + offset}" width="{width * min(value, 1.25) / 1.25:.1f}" height="7" fill="{colour}"/>'


def spread(wanted, space):
    """Places near the wanted ones, at least `space` from each other."""
    order = sorted(range(len(wanted)), key=lambda i: wanted[i])
    found = list(wanted)
    for _ in range(100):
        for i, j in zip(order, order[1:]):
            if (lack := space - (found[j] - found[i])) > 0:
                found[i] -= lack / 2
                found[j] += lack / 2
    return found


def curves(rows, top, title, values):
    """A curve for each side over the number of nodes."""
    left, width, height = 80, 600, 200
    most = max(max(values(row)) for row in rows) * 1.1
    yield text(left, top - 12, title, size=13)
    # round steps, at most five of them
    step = next(s for s in (f * 10 ** e for e in range(9) for f in (1, 2, 5)) if most / s <= 5)
    for at in range(0, int(most) + 1, step):
        y = top + height * (1 - at / most)
        yield f'<line x1="{left}" y1="{y:.1f}" x2="{left + width}" y2="{y:.1f}" stroke="#ddd"/>' + text(left - 6, y + 4, f"{at:,}", "end", 10)
    first, last = rows[0].nodes, rows[-1].nodes
    xs = [left + width * math.log(row.nodes / first) / math.log(last / first) for row in rows]
    for x, row in zip(xs, rows):
        # powers of 4 only, since there is no room for all numbers
        if row.nodes.bit_length() % 2 == 1:
            yield text(x, top + height + 16, f"{row.nodes:,}", "middle", 10)
    ends = []
    for s, side in enumerate(SIDES):
        ys = [top + height * (1 - values(row)[s] / most) for row in rows]
        points = " ".join(f"{x:.1f},{y:.1f}" for x, y in zip(xs, ys))
        yield f'<polyline points="{points}" fill="none" stroke="{COLOURS[side]}" stroke-width="2"/>'
        ends.append(ys[-1])
    for side, y in zip(SIDES, spread(ends, 13)):
        yield text(left + width + 8, y + 4, NAMES[side])


def plot(work, growth):
    first = 60 + 22 * len(work) + 60
    parts = [*bars(work, 60), *curves(growth, first, "nanoseconds a step, over the nodes of the table", lambda row: row.ns),
             *curves(growth, first + 270, "instructions a step, over the nodes of the table", lambda row: row.instructions)]
    size = first + 270 + 240
    return page(760, size, "Time and instructions a step: ours, the original's, and that of C", parts)


def aims(rows, resident, most):
    """Each aim, what it allows, and what was found for it: each value with its place."""
    for what, limit, values in every_aim(rows, resident, most):
        yield what, limit, [(value, where) for value, where in values if not math.isnan(value)]


def every_aim(rows, resident, most):
    steps = [row for row in rows if row.kind == "steps"]
    named = lambda words: [row for row in steps if words in row.name]
    usual = lambda special: [row for row in steps if not any(words in row.name for words in special)]
    ratio = lambda rows, k: [(ratios(row)[k], row.name) for row in rows]
    cost = lambda kind: [(row.instructions[k], f"{row.name}, {side}") for row in rows if row.kind == kind for k, side in ((1, "ours"), (2, "erased"))]
    yield "instructions of a construction", REACH_COST, cost("make")
    yield "instructions of a reset with 10 live ranges", REACH_COST, cost("last")
    if resident:
        found = [(row[side], f"{limit:,} nodes, {side}") for limit, row in resident.items() for side in ("ours", "erased")]
        yield f"resident bytes, *{RESIDENT}*", most, found
    yield "time, ours/original", REACH[0], ratio(usual(REACH_TIME), 0)
    for words, limit in REACH_TIME.items():
        yield f"time, ours/original, *{words}*", limit, ratio(named(words), 0)
    for words, limit in REACH_WHOLE.items():
        yield f"time with the construction, *{words}*", limit, [(row.whole[1] / row.whole[0], row.name) for row in named(words)]
    yield "instructions, ours/original", REACH[1], ratio(usual(REACH_INSTRUCTIONS), 1)
    for words, limit in REACH_INSTRUCTIONS.items():
        yield f"instructions, ours/original, *{words}*", limit, ratio(named(words), 1)
    yield "instructions, ours/C", REACH[2], ratio(steps, 2)
    yield "time, erased/original", REACH[3], ratio(steps, 3)
    yield "instructions, erased/original, two call sites beside one, random steps", REACH[4], ratio(named("random, "), 4)
    others = [row for row in steps if "random, " not in row.name]
    yield "instructions, erased/original, two call sites beside one, other steps", REACH[4], ratio(others, 4)
    for words, limit in REACH_MISSES.items():
        yield f"first-level misses a step, *{words}*", limit, [(row.misses[1], row.name) for row in named(words)]
    for side, base in (("guarded", "erased"), ("ours guarded", "ours")):
        yield f"time with tickets beside handles, {base}", REACH_GUARDED, [(row.beside[side].time, row.name) for row in rows]


def aims_table(found):
    yield "| | aim: at most | the most | where | above the aim |"
    yield "|---|---:|---:|---|---:|"
    for what, most, values in found:
        if values:
            worst, where = max(values)
            text = "{:,.0f}" if most >= 100 else "{:.2f}"
            above = sum(value > most for value, _ in values)
            yield f"| {what} | {text.format(most)} | {cell(worst, most, text)} | {where} | {above} of {len(values)} |"


def brief(report):
    """The part of the page: how many aims were missed."""
    when = next((line for line in report if line.startswith("All times took")), "")
    aims = pages.table(report, "Aims")[1:]
    missed = [row for row in aims if row[2].startswith("**")]
    return ["What the prover's toolchain builds, and the crate for `cargo`, for x86-64-v2, and for times without jumps that cross 32 bytes. "
            f"{when} {len(missed)} of {len(aims)} aims are missed: [results.txt](results.txt) has them, and all tables."]


def main():
    part = sys.argv[2] if len(sys.argv) > 2 else ""
    if part:
        check(part)
        timed = {"work": {}, "threads": [], "compacting": {}, "rounds": 0} if sys.argv[3:] == ["counts"] else times(part)
        counted = counts(part)
    else:
        timed, counted = saved("times"), saved("counts")
        # whose answers are equal
        saved("check")
    some = timed["rounds"] > 0
    rows = [measured(work, timed["work"].get(work.name, {}), counted) for work in works(part)]
    steps = [row for row in rows if row.kind == "steps"]
    growth = [row for row in steps if row.name.startswith("growth")]
    work = [row for row in steps if row not in growth]
    costs = [row for row in rows if row.kind != "steps"]
    large = [row for row in steps if row.nodes >= 262_144 or row.name == "random, 60k live"]
    resident = {limit: counted["resident"][str(limit)] for limit in LIMITS} if "resident" in counted else {}
    most = REACH_NODE * counted["nodes"][RESIDENT]["least"] + REACH_MORE if resident else 0
    special = ", ".join(f"{most:.2f} for *{words}*" for words, most in REACH_TIME.items())
    special_count = ", ".join(f"{most:.2f} for *{words}*" for words, most in REACH_INSTRUCTIONS.items())
    found = list(aims(rows, resident, most))
    head = [
        "# Results", "",
        "Nanoseconds and instructions are per step, without the construction. "
        f"Times are the fastest of {timed['rounds']} runs, or of {min(timed['rounds'], 3)} where a run takes a fifth of a second. "
        "All sides returned the same offsets and refusals.", "",
        f"Marked by *: more than {REACH[0]:.2f} of the original's time ({special}), {REACH[1]:.2f} of its instructions ({special_count}), or "
        f"{REACH[2]:.2f} of C's; for the erased side {REACH[3]:.2f} of the original's time, or {REACH[4]:.2f} of its "
        "instructions.", "",
    ]
    if "seconds" in timed:
        head += [f"All times took {timed['seconds'] / 60:.0f} minutes ({timed['processor']}). Meanwhile other programs took "
                 f"{timed['others']:.2f} of a processor, and the host {timed['steal']:.2f}.", ""]
    shown = [*head, "## Aims", "", "Marked by *: above the aim.", "",
             *aims_table(found), "", "## A step", "", *table(work), "", "## Over the size of the tables", "",
             "Random steps, a quarter of the nodes live.", "", *table(growth), "",
             "## What an allocator costs", "",
             "An allocator is made and dropped, without and with 10 grants between. A reset takes too short "
             f"a time to measure. Marked by *: more than {REACH_COST:,} instructions, ours or erased, without grants.", "",
             *costs_table(costs), "",
             "## By field", "",
             "In parts of ours by node.", "", *by_field_table(rows), "",
             "## Tickets", "",
             "In parts of the same side with handles. The bytes are the library's; the caller keeps 20 for a "
             f"ticket, and 8 for a handle. Marked by *: more than {REACH_GUARDED:.2f} of the time.", "",
             *guarded_table(rows), ""]
    if resident:
        shown += ["## Resident memory", "",
                  f"Resident bytes of *{RESIDENT}*, the player's included. Marked by *: more than "
                  f"{REACH_NODE} for each node that was ever used, and {REACH_MORE:,}.", "", *resident_table(resident, most), ""]
    whole = " and ".join(f"{limit:.2f} of the original's in *{name}*" for name, limit in REACH_WHOLE.items())
    shown += ["## With the construction", "",
              f"The time of a whole run, a step. Marked by *: more than {whole}.", "",
              *whole_table([row for row in steps if row.name in LONG]), "",
              "## Huge pages", "",
              "With `GLIBC_TUNABLES=glibc.malloc.hugetlb=1` the C library asks for huge pages.", "",
              *huge_table([row for row in large if row.name.startswith("random")]), "",
              "## Without aligned branches", "",
              *plain_table(work), "",
              "## One call site or two", "",
              "Instructions of a step.", "", *sites_table(work), "",
              "## Cache misses", "",
              "Misses of a step in a first-level data cache of 32 KiB. Marked by *: more than "
              + " and ".join(f"{most} in *{name}*" for name, most in REACH_MISSES.items()) + ".", "",
              *misses_table(steps), "",
              "## The best and the worst run", "",
              "With large tables: times in parts of the original's in the same round. Rounds in which the run without steps "
              "took longer are left out.", "", *rounds_table(large if some else [])]
    if timed["threads"]:
        shown += ["", "## Threads", "",
                  "The erased side, with 1,000 live ranges a thread: a step's nanoseconds, divided by the threads. "
                  "In the last row another thread returns each range by a queue, which the owner drains every 64 requests.", "", *threads_table(timed["threads"])]
    if "compacting" in counted:
        compacting = [(live, timed["compacting"].get(str(live), [math.nan] * len(WAYS)), [counted["compacting"][str(live)][way] for way in WAYS])
                      for live in COMPACTED]
        shown += ["", "## Compact", "",
                  "The erased side, per live range.", "",
                  *compacting_table(compacting)]
    if not part:
        pages.put(HERE, 1, brief(shown), "results", shown)
        (HERE / "plot.svg").write_text(plot(work, growth))
    print(pages.text_of(shown))
    missed = sum(value > most for _what, most, values in found for value, _ in values)
    print(f"{len(rows)} workloads, equal answers; {missed} of {sum(len(values) for *_, values in found)} figures miss their aim")


if __name__ == "__main__":
    main()
