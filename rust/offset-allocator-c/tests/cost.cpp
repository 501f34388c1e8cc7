// What a step costs from C++: slots that are filled and emptied at random. examples/cost.rs makes the same steps in Rust.
// The first argument is the number of steps; with 0 only what comes before them is done. With a second one tickets are
// kept in place of handles.
#include "offsetAllocator.hpp"

#include <cstdio>
#include <cstdlib>
#include <vector>

using namespace OffsetAllocator;

static uint64_t state = 88172645463325252u;

static uint32 below(uint32 n) {
    state ^= state << 13;
    state ^= state >> 7;
    state ^= state << 17;
    return uint32(((state >> 32) * n) >> 32);
}

static bool isGranted(Allocation slot) { return slot.offset != Allocation::NO_SPACE; }
static bool isGranted(Ticket slot) { return bool(slot); }
static uint32 found(Allocator &, Allocation slot) { return slot.offset; }
static uint32 found(GuardedAllocator &, Ticket slot) { return slot.name; }

template <class Slot, class A> static uint64_t run(A &a, int steps) {
    std::vector<Slot> slots(4096);
    uint64_t sum = 0;
    for (; steps > 0; steps--) {
        Slot &slot = slots[below(4096)];
        uint32 size = 1 + below(4000);
        if (isGranted(slot)) {
            a.free(slot);
            slot = Slot();
            sum = sum * 31 + 7;
        } else {
            slot = a.allocate(size);
            sum = sum * 31 + found(a, slot);
        }
    }
    return sum;
}

int main(int count, char **arguments) {
    int steps = std::atoi(arguments[1]);
    uint64_t sum;
    if (count > 2) {
        GuardedAllocator a(0x08000000, 131072);
        sum = run<Ticket>(a, steps);
    } else {
        Allocator a(0x08000000, 131072);
        sum = run<Allocation>(a, steps);
    }
    std::printf("%016llx\n", static_cast<unsigned long long>(sum));
}
