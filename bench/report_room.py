"""Runs the programs that bench/room built in the folder $1, prints what they take, and writes it into room.txt
and the fourth part of RESULTS.md, which has the chief of it, in the folder $2."""
import os, pathlib, re, sys, time

import pages
from measures import counted, lines, processors

OUT, HERE = map(pathlib.Path, sys.argv[1:3])
BLOCKS, ORDERS = (1_000, 60_000, 400_000), {"ordered": "in space order", "mixed": "in no order"}
WAYS = {"walk": "room_walk", "small": "room_ask", "half": "room_ask", "make": "room_make", "compact": "room_compact"}


def table(head, rows):
    yield "| " + " | ".join(head) + " |"
    yield "|---|---|" + "---:|" * (len(head) - 2)
    yield from ("| " + " | ".join(row) + " |" for row in rows)


def rows(show):
    """A row for each number of blocks and each order, with the cells that `show` has of the times, and of the counts."""
    for blocks in BLOCKS:
        for order, words in ORDERS.items():
            of_times = show(*(found[blocks, order] for found in (TIMES, UNITS)), blocks)
            of_counts = show(*(found[blocks, order] for found in (COUNTS, UNITS)), blocks)
            yield [f"{blocks:,}", words, *(f"{number:.1f}" for number in (*of_times, *of_counts))]


def of_a_block(found, _units, blocks):
    return [found[way] / blocks for way in ("walk", "small", "half")]


def of_a_range(found, moved, _blocks):
    return [(found["make"] - found["half"]) / moved["make"], found["compact"] / moved["compact"]]


TIMES, COUNTS, UNITS, RUNS = {}, {}, {}, []
began, before = time.time(), processors()
for blocks in BLOCKS:
    for order in ORDERS:
        found = lines("time", str(blocks), order, program=f"{OUT}/aligned")
        TIMES[blocks, order] = {way: float(ns) for way, (ns, _) in zip(WAYS, found)}
        RUNS += [int(runs) for _, runs in found]
spent, _steal, own = (b - a for a, b in zip(before, processors()))
seconds = time.time() - began
others = (spent - own) / seconds
for blocks in BLOCKS:
    for order in ORDERS:
        words = {way: ("once", str(blocks), order, way) for way in WAYS}
        COUNTS[blocks, order] = {way: counted(WAYS[way], *words[way], program=f"{OUT}/plain")[0][0] for way in WAYS}
        UNITS[blocks, order] = {way: int(lines(*words[way], program=f"{OUT}/plain")[0][1]) for way in WAYS}
with open("/proc/cpuinfo") as file:
    model = re.search(r"^model name\s*: (.*)", file.read(), re.M)
PROCESSOR = f"{model[1] if model else 'unknown'}, {os.cpu_count()} of them"
SMALL = [found["small"] for found in UNITS.values()]


def whole(blocks):
    """The milliseconds of a call."""
    found = [TIMES[blocks, order][way] / 1e6 for order in ORDERS for way in ("small", "half")]
    return f"{min(found):.2g} to {max(found):.2g} ms over {blocks:,} blocks"


shown = [
    "# What `room_cost` takes", "",
    "On the erased side, where every other block is free, and a block has 1 to 1,024 units. "
    f"Times are the least of {min(RUNS)} runs or more ({PROCESSOR}), beside other work: other programs took {others:.2f} "
    "of a processor meanwhile. So the instructions say more.", "",
    "## A block", "",
    f"For 5,120 units {min(SMALL)} to {max(SMALL)} ranges would move, for half of the free units about half of all ranges. "
    "*Nodes*: whether those of neighbouring blocks lie side by side. `blocks` is a walk that adds up what is live.", "",
    *table(["blocks", "nodes", "ns: `blocks`", "`room_cost`, 5,120 units", "half", "instructions: `blocks`",
            "`room_cost`, 5,120 units", "half"], rows(of_a_block)), "",
    f"A call takes {', '.join(map(whole, BLOCKS))}.", "",
    "## A range that moves", "",
    "For half of the free units: what `make_room` takes beyond `room_cost`; and `compact` of the same space, with its own "
    "walk.", "",
    *table(["blocks", "nodes", "ns: `make_room`", "`compact`", "instructions: `make_room`", "`compact`"], rows(of_a_range)),
]


def brief(report):
    """The part of the page: how long a call takes, and by the order of nodes a block and a range."""
    block, moved = pages.table(report, "A block")[1:], pages.table(report, "A range that moves")[1:]
    head = ["nodes", "`room_cost`, a block", "`make_room`, a range that moves", "`compact`"]
    rows = []
    for words in ORDERS.values():
        columns = ([row[3] for row in block if row[1] == words], *([row[at] for row in moved if row[1] == words] for at in (2, 3)))
        rows.append([words, *(f"{min(column, key=float)} to {max(column, key=float)}" for column in columns)])
    return [next(line for line in report if line.startswith("A call takes")) + " Nanoseconds, where every other block is free; "
            "[room.txt](room.txt) has each number of blocks.", "", *pages.lines_of(head, rows)]


pages.put(HERE, 3, brief(shown), "room", shown)
print(pages.text_of(shown))
