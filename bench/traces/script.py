"""A script as it is recorded. It ends before 1,000,000 bytes: the program plays at most 1,048,576."""
import sys

MOST = 1_000_000


class Script:
    def __init__(self):
        self.lines, self.bytes, self.grants, self.held = [], 0, 0, {}
        self.live = self.peak = self.count = 0

    @property
    def full(self):
        return self.bytes > MOST

    def add(self, line):
        self.lines.append(line)
        self.bytes += len(line) + 1

    def resize(self, key, size):
        """What `key` names has this size from here on; 0: it is gone."""
        number, before = self.held.get(key, (0, 0))
        if before == size or self.full:
            return
        if before:
            self.add(f"free {number}")
            self.live -= before
            del self.held[key]
        if size:
            self.grants += 1
            self.add(f"alloc {size}")
            self.held[key] = self.grants, size
            self.live += size
            self.count = max(self.count, len(self.held))
            self.peak = max(self.peak, self.live)

    def write(self):
        """The space is a power of two, at least twice the peak where that is at most 2^30; the node limit is a power of two
        that is enough."""
        space, nodes = min(1 << 30, 1 << (2 * self.peak - 1).bit_length()), 1 << (2 * self.count + 2).bit_length()
        print(f"space {space} nodes {nodes} index 32")
        print("\n".join(self.lines))
        print(f"{len(self.lines)} commands, {self.grants} grants, at most {self.count} live, {self.peak} bytes", file=sys.stderr)
