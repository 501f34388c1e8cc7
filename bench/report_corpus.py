"""Prints what bench/corpus counted in the folder $1; if a peer is there, writes it into corpus.txt and CORPUS.md,
which has the chief of it, in the folder $2."""
import collections, pathlib, sys
import pages

OUT, HERE = map(pathlib.Path, sys.argv[1:3])
NAMES = {"ours": "ours", "tight": "ours, tight", "original": "original", "c": "C", "vma": "VMA", "vma_min": "VMA, least memory", "u_mm": "u_mm",
         "util_vma": "util_vma_heap", "best": "best fit"}
MADE = ("ours", "original", "c")


def class_value(size):
    """A size rounded up to four binary digits."""
    shift = max(size.bit_length() - 4, 0)
    return -(-size >> shift) << shift


def left(calls, space):
    """How many requests are refused in a space where all free units are one block at each request."""
    sizes, now = [], 0
    for word, number in calls:
        if word == "free":
            now -= sizes[number - 1]
        elif now + class_value(number) > space:
            sizes.append(0)
        else:
            sizes.append(number)
            now += number
    return sizes.count(0)


Retried = collections.namedtuple("Retried", "space times units")
Moving = collections.namedtuple("Moving", "refused rounded times units most")


class Trace:
    def __init__(self, path):
        self.name, self.least, self.refusing, self.refused, self.retried, self.moving = path.stem, {}, {}, {}, {}, {}
        for words in (line.split("\t") for line in path.read_text().splitlines()):
            match words:
                case ["least", side, space]:
                    self.least[side] = int(space)
                case ["refusing", side, space]:
                    self.refusing[side] = int(space)
                case ["refused", percent, side, count, fitting]:
                    self.refused[int(percent), side] = int(count), int(fitting)
                case ["retried", way, *numbers]:
                    self.retried[way] = Retried(*map(int, numbers))
                case ["moving", percent, way, *numbers]:
                    self.moving[int(percent), way] = Moving(*map(int, numbers))
                case [key, number]:
                    setattr(self, key, int(number))
        # counted here once more
        words = (line.split() for line in (HERE / f"traces/{self.name}.script").read_text().splitlines()[1:])
        calls = [(word[0], int(word[1])) for word in words if word[0] in ("alloc", "free")]
        sizes, now, peak, least = [], 0, 0, 0
        for word, number in calls:
            if word == "alloc":
                least = max(least, now + class_value(number))
                sizes.append(number)
            now += number if word == "alloc" else -sizes[number - 1]
            peak = max(peak, now)
        assert (len(sizes), peak) == (self.requests, self.peak), self.name
        assert len({self.least[side] for side in MADE}) == 1, f"{self.name}: ours, the original and C differ"
        assert all(found.space == least for found in self.retried.values()), f"{self.name}: {least} are enough"
        for (percent, way), found in self.moving.items():
            if way in ("each", "room"):
                count = left(calls, self.peak * (100 + percent) // 100)
                assert (found.refused, found.rounded) == (count, count), f"{self.name}, {percent}%: {count} are refused"

    def over(self, space):
        return f"{100 * (space / self.peak - 1):.2f}"


def table(head, rows):
    yield f"| | {' | '.join(head)} |"
    yield "|---|" + "---:|" * len(head)
    for trace, cells in rows:
        yield f"| {trace.name} | {' | '.join(map(str, cells))} |"
    yield ""


traces = [Trace(path) for path in sorted(OUT.glob("*.txt")) if path.stem != "peers"]
assert [t.name for t in traces] == sorted(path.stem for path in (HERE / "traces").glob("*.script"))
sides = [side for side in NAMES if side in traces[0].least]
peers = [side for side in sides if side not in (*MADE, "tight", "best")]


def least_cells(trace):
    smallest = min(space for side, space in trace.least.items() if side != "best")
    shown = [(trace.over(space), side != "best" and space == smallest) for side, space in ((s, trace.least[s]) for s in sides)]
    return [f"**{cell}**" if bold else cell for cell, bold in shown]


def refusing_cells(trace):
    spaces = [trace.refusing[side] for side in sides]
    return ["" if space == 0 else "50 or more" if 2 * space >= 3 * trace.peak - 2 else trace.over(space) for space in spaces]


def refused_cells(trace, percent):
    counts = [trace.refused[percent, side] for side in sides if side != "c"]
    return [f"{count} ({fits})" if i == 0 and count else count for i, (count, fits) in enumerate(counts)]


def listed(names):
    return ", ".join(names) or "none"


def less(side):
    """The programs for which a peer needs less than ours."""
    return listed(t.name for t in traces if t.least[side] < t.least["ours"])


def fitting(percent):
    """Of all programs, the refusals of ours, and those for which a free block was large enough."""
    return [sum(numbers) for numbers in zip(*(t.refused[percent, "ours"] for t in traces))]


PERCENT = sorted({percent for percent, _ in traces[0].refused})
SHARES = ", ".join(f"{fits} of {count} at {percent}%" for percent in PERCENT for count, fits in [fitting(percent)])
SAVED = listed(t.name for t in traces if t.over(t.once) != t.over(t.least["ours"]))
shown = [
    "# What recorded programs need", "",
    f"Counted over the {len(traces)} programs in traces.", "",
    "## The least space", "",
    "The smallest space in which nothing is refused, in percent above the peak of live bytes. Marked by *: the smallest of a row, "
    "*best fit* left out.", "",
    *table([NAMES[s] for s in sides], [(t, least_cells(t)) for t in traces]),
    f"- *{NAMES['tight']}* is ours with `allocate_tight` for each request: it needs less than ours for {less('tight')}.",
    *(f"- {NAMES[s]} needs less than ours for {less(s)}." for s in peers),
    "- Ours needs the least, or as little as any peer, for "
    f"{listed(t.name for t in traces if all(t.least['ours'] <= t.least[p] for p in peers))}.", "",
    "Ours, as the original, rounds a request up to a size class, and takes no block of the class below; the peers, and "
    "`allocate_tight`, try every "
    f"free block before they refuse. Of the requests that ours refuses, a free block was large enough for {SHARES} above the peak. "
    "The rest is due to where ranges were placed before.", "",
    "A larger space may refuse what a smaller one grants. The largest of 1,000 sizes, up to half above the peak, in which "
    "something is refused, in percent above it; empty where none refuses:", "",
    *table([NAMES[s] for s in sides], [(t, refusing_cells(t)) for t in traces]),
]
shown += ["## Refusals", "",
          "In brackets, after ours: for how many a free block was large enough. A program that none refuses is left out.", ""]
for percent in PERCENT:
    some = [t for t in traces if any(count for (p, _), (count, _) in t.refused.items() if p == percent)]
    shown += [f"{percent}% above the peak:" if percent else "The peak alone:", "",
              *table(["requests", *(NAMES[s] for s in sides if s != "c")], [(t, [f"{t.requests:,}", *refused_cells(t, percent)]) for t in some])]
MOVED = sorted({percent for percent, _ in traces[0].moving})
CASES = [(t, percent) for percent in MOVED for t in traces if t.moving[percent, "none"].refused]
# those in which something moves
RUNS = [(t, percent) for t, percent in CASES if t.moving[percent, "room"].times]


def counted(found):
    return f"{found.refused} ({found.rounded})" if found.rounded else found.refused


def moving_cells(trace, percent):
    none, first, each, room = (trace.moving[percent, way] for way in ("none", "first", "each", "room"))
    return [f"{percent}%", counted(none), counted(first), f"{first.units:,}", counted(room), each.times, f"{each.units:,}", room.times,
            f"{room.units:,}", f"{room.most:,}"]


def more(way):
    """The rows in which `make_room` moves more units in all than this."""
    return listed(f"{t.name} at {percent}%" for t, percent in RUNS if t.moving[percent, "room"].units > t.moving[percent, way].units)


def ratio(trace, percent):
    return trace.moving[percent, "room"].units / trace.moving[percent, "each"].units


ONCE = [(t, percent) for t, percent in RUNS if t.moving[percent, "room"].times == 1]
shown += [
    "## Where ranges move", "",
    "The least space of ours; with one `compact`, before the request that makes the peak; and with a call of `compact`, or of "
    "`make_room`, at each request that is refused as `Fragmented`, how many these are, and how many units they move in all.", "",
    *table(["none", "one at the peak", "where needed", "by `compact`", "units", "by `make_room`", "units"],
           [(t, [t.over(t.least["ours"]), t.over(t.once), t.over(t.retried["room"].space),
                 *(f"{number:,}" for way in ("each", "room") for number in t.retried[way][1:])]) for t in traces]),
    f"One at the peak saves something only for {SAVED}. Where needed, both calls are enough in the same space: the most units that "
    "a request, rounded up to a class, and what is live before it take together. So what is left above the peak is what the rounding "
    "costs.", "",
    "Requests that are refused in a space so much above the peak: with no call; with one `compact`, at the first that is `Fragmented`, "
    "and the units that it moves; with a call at each such. In brackets: for how many of them as many units were free as they "
    "requested, but fewer than rounded up. Then the calls at each, and the units that they move; *at once*: the most that one "
    "`make_room` moves.", "",
    *table(["above the peak", "refused", "one `compact`: refused", "units", "at each: refused", "`compact`: calls", "units",
            "`make_room`: calls", "units", "at once"], [(t, moving_cells(t, percent)) for t, percent in CASES]),
    "- What is refused with a call at each is so for the rounding alone: "
    f"{listed(f'{t.name} at {p}%' for t, p in CASES if t.moving[p, 'room'].refused)}.",
    f"- Where one `make_room` was enough, it moved {min(ratio(t, p) for t, p in ONCE):.2g} to {max(ratio(t, p) for t, p in ONCE):.2g} "
    "of the units that `compact` moved.",
    "- A `make_room` leaves all other free blocks where they are, so more requests may be refused later: over a whole program the "
    f"calls at each moved more units than those of `compact` for {more('each')} of {len(RUNS)} rows in which something moves, and in "
    f"the least space for {listed(t.name for t in traces if t.retried['room'].units > t.retried['each'].units)}.", "",
    "Each `make_room` moved what the cheapest of all runs of blocks costs, by a search over them.",
]


def brief(report):
    """The page: the least space, and what moves where room is made."""
    least, moves = pages.table(report, "The least space"), pages.table(report, "Where ranges move")
    # the original and C need what ours does
    kept = [k for k, name in enumerate(least[0]) if name not in [NAMES[side] for side in ("original", "c", "best")]]
    least = [[row[k] for k in kept] for row in least]
    # and of ours where ranges move
    least = [[*row, moved[3] if k else "ours, moved"] for k, (row, moved) in enumerate(zip(least, moves))]
    rounded = next(line for line in report if line.startswith("Ours, as the original, rounds"))
    return [report[0], "",
            "Over the [recorded programs](traces/README.md) ([how](README.md#compact-heaps-corpus-room)), the least space in which "
            "nothing is refused, in percent above the peak of live bytes; the original's is ours. *Moved*: with `compact`, or "
            "`make_room`, at each request refused as `Fragmented`. [corpus.txt](corpus.txt) has what these move.", "",
            *pages.lines_of(least[0], least[1:]), "",
            rounded, "",
            # what bench/frames wrote
            *"".join((HERE / "CORPUS.md").read_text().partition("## Over frames")[1:]).splitlines()]


if peers:
    pages.write(HERE, "corpus", brief(shown), shown)
print(pages.text_of(shown))
