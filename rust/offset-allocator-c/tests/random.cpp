// A million random calls: a line for each. examples/random.rs prints the same of the Rust side.
#include "offsetAllocator.hpp"

#include <cinttypes>
#include <cstdio>
#include <vector>

using namespace OffsetAllocator;

static uint64_t state = 88172645463325252u;

static uint32 below(uint32 n) {
    state ^= state << 13;
    state ^= state >> 7;
    state ^= state << 17;
    return uint32(((state >> 32) * n) >> 32);
}

int main() {
    Allocator a(1 << 24, 4096);
    std::vector<Allocation> live;
    for (int step = 0; step < 1000000; step++) {
        uint32 size = below(1 << (4 + below(12))), kind = below(100), place = live.empty() ? 0 : below(uint32(live.size()));
        if (kind < 46) {
            Allocation x = kind < 38 ? a.allocate(size) : a.allocateAligned(size, 1u << (size % 12));
            if (x.metadata != Allocation::NO_SPACE) live.push_back(x);
            std::printf("grant %" PRIu32 " %" PRIu32 "\n", x.offset, x.metadata);
        } else if (live.empty()) {
            std::printf("none\n");
        } else if (kind < 90) {
            std::printf("free %d\n", a.free(live[place]));
            live[place] = live.back();
            live.pop_back();
        } else if (kind < 94) {
            bool shrunk = a.shrink(live[place], size), grown = a.growInPlace(live[place], size);
            std::printf("resize %d %d\n", shrunk, grown);
        } else if (kind < 98) {
            StorageReport report = a.storageReport();
            std::printf("report %" PRIu32 " %" PRIu32 " %d %d\n", report.totalFreeSpace, report.largestFreeRegion, int(a.refusal(size)), int(a.refusalAligned(size, 64)));
        } else if (step % 997 == 0) {
            uint32 moved = 0;
            a.compact([&](Move m) { moved = moved * 31 + m.from * 7 + m.to * 3 + m.size + m.allocation.metadata; });
            std::printf("compact %" PRIu32 "\n", moved);
        } else {
            std::printf("at %" PRIu32 " %" PRIu32 "\n", a.allocationOffset(live[place]), a.allocationSize(live[place]));
        }
    }
}
