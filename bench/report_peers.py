"""Prints what bench/run has measured of the linked peers, beside the original and ours, with the programs in the folder $1,
and writes it into peers.txt, the third part of RESULTS.md, which has the chief of it, and peers.svg."""
import math, sys
import pages
from measures import CAP, HERE, LIVE, PARTS, PEERS_BESIDE, peers, saved, traces, works
from report import COLOURS, number, page, spread, text

# how much the time by the clock and that of the processor may differ
NEAR = 0.05
NAMES = {"original": "original", "ours": "ours", "vma": "VMA", "vma_min": "VMA, least memory", "u_mm": "u_mm", "util_vma": "util_vma_heap"}
COLOURS = {**COLOURS, "vma": "#d68910", "vma_min": "#7e5109", "u_mm": "#8e44ad", "util_vma": "#148f77"}
VERSIONS, PEERS = peers()
SIDES = [*PEERS_BESIDE, *PEERS]


def measurements():
    """For each workload of steps: its name, nodes and steps, the refusals of each side, and the nanoseconds a step by the
    clock and of the processor: none where it takes too long."""
    refused, timed = saved("check"), saved("times")["work"]
    for work in works():
        if work.peers:
            name, times = work.name, timed[work.name]["peers"]
            # the answers of the original are those of ours
            counts = {"original": refused[name]["ours"], **refused[name]}
            if set(times) != {side for side, count in counts.items() if count is not None}:
                sys.exit(f"{name}: bench/run --check found later that other peers take too long: run bench/run --times")
            yield name, work.nodes, work.count, counts, {side: row[:2] for side, row in times.items()}


def busy(times, side):
    """Whether the time by the clock differs too much from that of the processor."""
    clock, processor = times[side]
    return abs(clock - processor) > NEAR * clock


def time_cells(row, side):
    """The nanoseconds a step, and their ratio to the original's, as texts."""
    _name, _nodes, count, _refused, times = row
    original = times["original"][0]
    if side not in times:
        bound = CAP * 1e9 / count
        return f"over {math.floor(bound):,}", f"over {math.floor(bound / original)}"
    marks = ["~" if busy(times, side) else "", "~" if busy(times, side) or busy(times, "original") else ""]
    bold = "**" if is_ahead(row, side) else ""
    return marks[0] + number(times[side][0]), f"{bold}{marks[1]}{times[side][0] / original:.2f}{bold}"


def is_ahead(row, side):
    """Whether a peer takes less time than ours."""
    return side in PEERS and side in row[4] and row[4][side][0] < row[4]["ours"][0]


def ahead(rows):
    """How many of the times of peers are less than ours, in words."""
    found = sum(is_ahead(row, side) for row in rows for side in PEERS)
    return f"{found or 'none'} of {len(rows) * len(PEERS)}"


def times_table(rows):
    yield "| workload | ns: " + " | ".join(NAMES[s] for s in SIDES) + " | time/original: " + " | ".join(NAMES[s] for s in SIDES[1:]) + " |"
    yield "|---|" + "---:|" * (2 * len(SIDES) - 1)
    for row in rows:
        ns = [time_cells(row, side)[0] for side in SIDES]
        ratios = [time_cells(row, side)[1] for side in SIDES[1:]]
        yield f"| {row[0]} | " + " | ".join(ns + ratios) + " |"


def refusals_table(rows):
    yield "| workload | " + " | ".join(NAMES[s] for s in SIDES[1:]) + " |"
    yield "|---|" + "---:|" * len(SIDES[1:])
    for name, _nodes, _count, refused, _times in rows:
        if any(refused.values()):
            cells = ["" if refused[side] is None else f"{refused[side]:,}" for side in SIDES[1:]]
            yield f"| {name} | " + " | ".join(cells) + " |"


def memory():
    """For each row of the table its side and name, the bytes after construction, and those at each number of ranges."""
    counted = saved("counts")
    for side in SIDES:
        found = [counted["heap"][name].get(side) for name in LIVE.values()]
        yield side, NAMES[side], found[0][0], [sum(both) if both else None for both in found]
        if side in PEERS_BESIDE:
            limits = ", ".join(f"{counted['nodes'][name]['least']:,}" for name in LIVE.values())
            yield side, f"{NAMES[side]}, with {limits} nodes", None, [sum(counted["tight"][name][side]) for name in LIVE.values()]


def memory_table(found):
    yield "| | bytes after construction | " + " | ".join(f"a live range of {live:,}" for live in LIVE) + " |"
    yield "|---|" + "---:|" * (1 + len(LIVE))
    for _side, name, made, at in found:
        cells = ["" if made is None else f"{made:,}"] + ["" if b is None else number(b / live) for b, live in zip(at, LIVE)]
        yield f"| {name} | " + " | ".join(cells) + " |"


def recorded_table():
    """The most bytes with each recorded program."""
    yield "| | " + " | ".join(NAMES[s] for s in SIDES) + " |"
    yield "|---|" + "---:|" * len(SIDES)
    counted = saved("counts")["recorded"]
    for name in traces():
        yield f"| {name} | " + " | ".join(f"{sum(counted[name][side]):,}" for side in SIDES) + " |"


def most_of(rows, side):
    """The largest ratio to the original's time."""
    ratios = [row[4][side][0] / row[4]["original"][0] for row in rows if side in row[4]]
    late = [time_cells(row, side)[1] for row in rows if side not in row[4]]
    largest = max(late, key=lambda words: float(words.split()[1]), default="over 0")
    return largest if float(largest.split()[1]) > max(ratios) else f"{max(ratios):.2f}" + (" or more" if late else "")


def short_table(rows, found):
    """A row for each side: a summary of the other tables."""
    # the last row of a side is that of a table just large enough
    bytes_of = {side: at for side, _name, _made, at in found}
    yield "| | time/original, smallest | largest | bytes a live range |"
    yield "|---|---:|---:|---:|"
    for side in SIDES:
        lowest = min(row[4][side][0] / row[4]["original"][0] for row in rows if side in row[4])
        each = [b / live for b, live in zip(bytes_of[side], LIVE) if b is not None]
        bounds = sorted({f"{min(each):.0f}", f"{max(each):.0f}"}, key=int)
        yield f"| {NAMES[side]} | {lowest:.2f} | {most_of(rows, side)} | {' to '.join(bounds)} |"


def meets(points, left, right, b):
    """Whether a line comes near a label of one line that is between two places, at the height b."""
    for (x1, y1), (x2, y2) in zip(points, points[1:]):
        steps = max(1, round(abs(x2 - x1) + abs(y2 - y1)))
        for i in range(steps + 1):
            if left - 12 < x1 + (x2 - x1) * i / steps < right + 12 and abs(y1 + (y2 - y1) * i / steps - b) < 12:
                return True
    return False


def is_before(side, end, lines):
    """Whether the name of a line that ends sooner than others is before its end: there, unless another line comes near."""
    a, b = end
    wide = 7 * len(NAMES[side])
    near = lambda left: any(meets(points, left, left + wide, b) for other, points in lines.items() if other != side)
    return not near(a - 10 - wide) or near(a + 10)


def plot(growth):
    """A line for each side: nanoseconds a step over live ranges."""
    left, top, width, height = 76, 44, 520, 400
    lives = [nodes // 4 for _name, nodes, *_ in growth]
    all_ns = [row[4][side][0] for row in growth for side in row[4]]
    low, high = 10 ** math.floor(math.log10(min(all_ns))), max(CAP * 1000, *all_ns)
    # the axis begins at a power of ten, as its lines are
    first = 10 ** math.floor(math.log10(lives[0]))
    x = lambda live: left + width * math.log10(live / first) / math.log10(lives[-1] / first)
    y = lambda ns: top + height * (1 - math.log10(ns / low) / math.log10(high / low))
    yield text(left, 22, "nanoseconds a step, over live ranges (both axes are logarithmic)", size=13)
    for decade in range(round(math.log10(low)), 5):
        for digit in (1, 2, 5):
            ns = digit * 10 ** decade
            if low <= ns <= high:
                yield f'<line x1="{left}" y1="{y(ns):.1f}" x2="{left + width}" y2="{y(ns):.1f}" stroke="{"#bbb" if digit == 1 else "#e5e5e5"}"/>'
                yield text(left - 6, y(ns) + 4, f"{ns:,}", "end", 11)
    for live in (10 ** e for e in range(round(math.log10(first)), math.floor(math.log10(lives[-1])) + 1)):
        yield f'<line x1="{x(live):.1f}" y1="{top}" x2="{x(live):.1f}" y2="{top + height}" stroke="#e5e5e5"/>'
        yield text(x(live), top + height + 18, f"{live:,}", "middle", 11)
    yield text(left + width / 2, top + height + 38, "live ranges", "middle", 12)
    ends, lines = {}, {}
    for side in SIDES:
        points = lines[side] = [(x(live), y(row[4][side][0])) for live, row in zip(lives, growth) if side in row[4]]
        drawn = " ".join(f"{a:.1f},{b:.1f}" for a, b in points)
        yield f'<polyline points="{drawn}" fill="none" stroke="{COLOURS[side]}" stroke-width="2"/>'
        for a, b in points:
            yield f'<circle cx="{a:.1f}" cy="{b:.1f}" r="2.5" fill="{COLOURS[side]}"/>'
        ends.setdefault(points[-1][0], []).append((side, points[-1][1]))
    for a, here in ends.items():
        for (side, _), b in zip(here, spread([b for _, b in here], 16)):
            # the outline parts the text from what crosses it
            before = a < left + width and is_before(side, (a, b), lines)
            paint = f'fill="{COLOURS[side]}" stroke="white" stroke-width="4" paint-order="stroke"'
            yield text(a - 10 if before else a + 10, b + 4, NAMES[side], "end" if before else "start").replace("<text", f"<text {paint}")


def brief(report):
    """The part of the page: what each side takes, and the versions."""
    versions = next(line for line in report[1:] if line)
    head, *rows = pages.table(report)
    return [f"{versions} The bytes of ours and of the original are those of a table just large enough. "
            "[peers.txt](peers.txt) has each workload.", "",
            *pages.lines_of(head, rows), "",
            "![Time a step over live ranges](peers.svg)"]


def main():
    all_rows = list(measurements())
    rows = [row for row in all_rows if not row[0].startswith("make")]
    made = [row for row in all_rows if row not in rows]
    growth = [row for row in rows if row[0].startswith("growth")]
    found = list(memory())
    versions = "; ".join(f"{' and '.join(NAMES[part] for part in PARTS[name])}: {version}" for name, version in VERSIONS.items())
    shown = [
        "# Beside what an engine would use instead", "",
        f"{versions}.", "",
        *short_table(rows, found), "",
        "The bytes of ours and of the original are those of a table just large enough.", "",
        "## Time", "",
        f"Nanoseconds a step. *Over*: the run takes more than {CAP} seconds, and so more than this a step. Marked by ~: the time by "
        f"the clock and that of the processor differ by more than {100 * NEAR:.0f}%. Marked by *: a peer that takes less time than ours: "
        f"{ahead(rows)}.", "",
        *times_table(rows), "",
        "Nanoseconds of an allocator that is made, grants 10 ranges, and is dropped. The node limit is that of ours and of the original.", "",
        *times_table(made), "",
        "## Refusals", "", "In the workloads in which any side refuses a request.", "", *refusals_table(rows), "",
        "## Memory", "", "The most bytes that `malloc` holds at any time, its headers included, divided by the live ranges. Empty: the run takes too long.", "", *memory_table(found), "",
        "The most bytes with each recorded program. Ours and the original have the node limit of its script.", "", *recorded_table(),
    ]
    pages.put(HERE, 2, brief(shown), "peers", shown)
    (HERE / "peers.svg").write_text(page(760, 500, "Nanoseconds a step over live ranges, of ours, the original and three peers", plot(growth)))
    print(pages.text_of(shown))
    marked = sum(busy(row[4], side) for row in all_rows for side in row[4])
    print(f"{len(PEERS)} peers, ranges apart; {marked} of {sum(len(row[4]) for row in all_rows)} times are those of a busy machine")


main()
