"""Plays the recorded programs on blocks of its own, where ours would place their ranges, and checks what bench/corpus counted in
the folder $1 where ranges move. $2: the folder of bench/corpus. It shares no code with the library."""
import bisect, itertools, pathlib, sys

OUT, HERE = map(pathlib.Path, sys.argv[1:3])


def binary(size, up):
    """A size in four binary digits, and zeros: rounded up or down."""
    shift = max(size.bit_length() - 4, 0)
    return (size + up * ((1 << shift) - 1)) >> shift << shift


class Block:
    def __init__(self, size, live=False):
        self.size, self.live, self.before, self.after = size, live, None, None


def join(before, after):
    before.after, after.before = after, before


class Space:
    """Blocks in space order, in a ring that begins and ends at a live one of no units; free ones by class, the newest last."""

    def __init__(self, size):
        self.free, self.classes, self.ring = size, {}, Block(0, True)
        whole = Block(size)
        join(self.ring, whole)
        join(whole, self.ring)
        self.push(whole)

    def push(self, block):
        self.classes.setdefault(binary(block.size, 0), {})[block] = None

    def remove(self, block):
        value = binary(block.size, 0)
        del self.classes[value][block]
        if not self.classes[value]:
            del self.classes[value]

    def allocate(self, size):
        value = min((value for value in self.classes if value >= binary(size, 1)), default=None)
        if value is None:
            return None
        block = next(reversed(self.classes[value]))
        self.remove(block)
        if block.size > size:
            rest = Block(block.size - size)
            join(rest, block.after)
            join(block, rest)
            self.push(rest)
        block.size, block.live = size, True
        self.free -= size
        return block

    def release(self, block):
        self.free += block.size
        block.live = False
        for other in (block.before, block.after):
            if not other.live:
                self.remove(other)
                block.size += other.size
                join(other.before, other.after)
        self.push(block)

    def blocks(self):
        found = []
        block = self.ring.after
        while block is not self.ring:
            found.append(block)
            block = block.after
        return found

    def slide(self, run):
        """The live blocks of a run to its front. Returns their units."""
        before, after = run[0].before, run[-1].after
        live, free = ([block for block in run if block.live is kind] for kind in (True, False))
        for block in free:
            self.remove(block)
        whole = Block(sum(block.size for block in free))
        for one, next_one in itertools.pairwise([before, *live, whole, after]):
            join(one, next_one)
        self.push(whole)
        return sum(block.size for block in live)

    def compact(self, _size):
        blocks = self.blocks()
        return self.slide(blocks[next(i for i, block in enumerate(blocks) if not block.live):])

    def make_room(self, size):
        """Slides the cheapest of the shortest runs that begin with each free block; of equal ones the last."""
        blocks = self.blocks()
        sums = [[0, *itertools.accumulate(block.size if block.live is kind else 0 for block in blocks)] for kind in (False, True)]
        counts = [0, *itertools.accumulate(block.live for block in blocks)]
        runs = []
        for first, block in enumerate(blocks):
            end = bisect.bisect_left(sums[False], sums[False][first] + binary(size, 1))
            if not block.live and end < len(sums[False]):
                runs.append((sums[True][end] - sums[True][first], counts[end] - counts[first], -first, end))
        _, _, first, end = min(runs)
        return self.slide(blocks[-first:end])


def play(calls, size, way):
    """The refusals, those for the rounding, how often ranges move, their units, and the most at once."""
    space, held, refused, rounded, moves = Space(size), [], 0, 0, []
    for word, number in calls:
        if word == "free":
            if held[number - 1]:
                space.release(held[number - 1])
            continue
        block = space.allocate(number)
        if not block and space.free >= binary(number, 1) and (way in ("each", "room") or way == "first" and not moves):
            moves.append((space.make_room if way == "room" else space.compact)(number))
            block = space.allocate(number)
            assert block
        refused += not block
        rounded += not block and number <= space.free < binary(number, 1)
        held.append(block)
    return refused, rounded, len(moves), sum(moves), max(moves, default=0)


for path in sorted((HERE / "traces").glob("*.script")):
    words = (line.split() for line in path.read_text().splitlines()[1:])
    calls = [(word[0], int(word[1])) for word in words if word[0] in ("alloc", "free")]
    rows = [line.split("\t") for line in (OUT / f"{path.stem}.txt").read_text().splitlines()]
    peak = next(int(row[1]) for row in rows if row[0] == "peak")
    for row in rows:
        match row:
            case ["moving", percent, way, *numbers]:
                found = play(calls, peak * (100 + int(percent)) // 100, way)
                assert found == tuple(map(int, numbers)), f"{path.stem}: {row}, but {found}"
            case ["retried", way, space, times, units]:
                found = play(calls, int(space), way)
                assert found[:4] == (0, 0, int(times), int(units)), f"{path.stem}: {row}, but {found}"
