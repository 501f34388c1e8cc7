// The class of the C++ original, as an engine uses it, and what it has beside.
#include "offsetAllocator.hpp"

#include <algorithm>
#include <cstdio>
#include <cstdlib>
#include <cstring>
#include <stdexcept>
#include <string>
#include <type_traits>
#include <utility>
#include <vector>

using namespace OffsetAllocator;

static int checks;

#define CHECK(condition) do { \
    checks++; \
    if (!(condition)) { std::fprintf(stderr, "%s:%d: %s\n", __FILE__, __LINE__, #condition); std::exit(1); } \
} while (0)

#define ASK(name, in_cpp) space.in_cpp()
#include "questions.h"

static const uint32 MIB = 1 << 20, WHOLE = 256 * MIB;

// The cases of the original's tests, by the names that these have there.
static void allClean(Allocator &a) {
    Allocation whole = a.allocate(WHOLE);
    CHECK(whole.offset == 0);
    a.free(whole);
}

static void basic() {
    Allocator a(WHOLE);
    Allocation x = a.allocate(1337);
    CHECK(x.offset == 0);
    a.free(x);
}

static void simple() {
    Allocator a(WHOLE);
    const uint32 sizes[] = {0, 1, 123, 1234}, offsets[] = {0, 0, 1, 124};
    std::vector<Allocation> live;
    for (uint32 i = 0; i < 4; i++) {
        live.push_back(a.allocate(sizes[i]));
        CHECK(live[i].offset == offsets[i] && a.allocationSize(live[i]) == sizes[i]);
    }
    for (Allocation x : live) a.free(x);
    allClean(a);
}

static void mergeTrivial() {
    Allocator a(WHOLE);
    for (int i = 0; i < 2; i++) {
        Allocation x = a.allocate(1337);
        CHECK(x.offset == 0);
        a.free(x);
    }
    allClean(a);
}

static void reuseTrivial() {
    Allocator a(WHOLE);
    Allocation x = a.allocate(1024), y = a.allocate(3456);
    CHECK(x.offset == 0 && y.offset == 1024);
    a.free(x);
    Allocation z = a.allocate(1024);
    CHECK(z.offset == 0);
    a.free(z);
    a.free(y);
    allClean(a);
}

static void reuseComplex() {
    Allocator a(WHOLE);
    Allocation x = a.allocate(1024), y = a.allocate(3456);
    a.free(x);
    Allocation c = a.allocate(2345), d = a.allocate(456), e = a.allocate(512);
    CHECK(c.offset == 4480 && d.offset == 0 && e.offset == 456);
    StorageReport report = a.storageReport();
    CHECK(report.totalFreeSpace == WHOLE - 3456 - 2345 - 456 - 512 && report.largestFreeRegion != report.totalFreeSpace);
    a.free(c);
    a.free(d);
    a.free(y);
    a.free(e);
    allClean(a);
}

static void zeroFragmentation() {
    Allocator a(WHOLE);
    std::vector<Allocation> live;
    for (uint32 i = 0; i < 256; i++) {
        live.push_back(a.allocate(MIB));
        CHECK(live[i].offset == i * MIB);
    }
    CHECK(a.storageReport().totalFreeSpace == 0 && a.storageReport().largestFreeRegion == 0);
    CHECK(!a.isEmpty() && a.freeUnits() + a.liveUnits() == a.size() && a.statistics().freeUnits == a.freeUnits());
    CHECK(!a.roomCost(1).possible);
    for (uint32 i : {243u, 5u, 123u, 95u, 151u, 152u, 153u, 154u}) a.free(live[i]);
    // one at 5 and one at 95 have 89 between them, one at 123 and those from 151 on 27: five free together need those
    RoomCost cost = a.roomCost(5 * MIB);
    CHECK(cost.possible && cost.units == 27 * MIB && cost.ranges == 27 && a.roomCost(4 * MIB).units == 0);
    for (uint32 i : {243u, 5u, 123u, 95u}) {
        live[i] = a.allocate(MIB);
        CHECK(live[i].offset != Allocation::NO_SPACE);
    }
    live[151] = a.allocate(4 * MIB);
    CHECK(live[151].offset == 151 * MIB);
    for (uint32 i = 0; i < 256; i++)
        if (i < 152 || i > 154) a.free(live[i]);
    CHECK(a.storageReport().totalFreeSpace == WHOLE && a.storageReport().largestFreeRegion == WHOLE);
    allClean(a);
}

// What an engine keeps of its ranges, in a table by name, which compact does not change.
static void sideTable() {
    Allocator heap(100, 16);
    std::vector<const char *> meshes(heap.maxAllocs());
    Allocation rock = heap.allocate(10), tree = heap.allocate(10);
    meshes[rock.metadata] = "rock";
    meshes[tree.metadata] = "tree";
    heap.free(rock);
    meshes[rock.metadata] = nullptr;
    heap.compact([](Move) {});
    for (Block block : heap.blocks())
        if (block.used) CHECK(block.offset == 0 && !std::strcmp(meshes[block.allocation.metadata], "tree"));
    CHECK(std::count(meshes.begin(), meshes.end(), nullptr) == 15);
}

// The same with tickets: a value is the ticket's alone.
static void values() {
    GuardedAllocator heap = GuardedAllocator::withRealm(100, 16, 7);
    Beside<const char *> meshes;
    const Ticket rock = heap.allocate(10), tree = heap.allocate(10);
    CHECK(meshes && meshes.isEmpty() && !meshes.get(rock) && !meshes.has(rock) && !meshes.set(rock, "stone"));
    CHECK(meshes.put(heap, rock, "rock") && meshes.put(heap, tree, "tree") && meshes.size() == 2);
    CHECK(!std::strcmp(meshes.get(rock), "rock") && meshes.set(tree, "oak") && !std::strcmp(meshes.get(tree), "oak"));
    CHECK(heap.free(rock) && !std::strcmp(meshes.take(rock), "rock") && !meshes.take(rock) && !meshes.put(heap, rock, "rock"));
    const Ticket leaf = heap.allocate(10);
    CHECK(leaf.name == rock.name && !meshes.get(leaf) && meshes.put(heap, leaf, "leaf") && !meshes.has(rock));
    std::vector<Ticket> met;
    meshes.each([&](Ticket at, const char *mesh) {
        met.push_back(at);
        CHECK(mesh == meshes.get(at));
        return true;
    });
    CHECK(met.size() == 2 && met[0].name < met[1].name && meshes.has(met[0]) && meshes.has(met[1]));
    int once = 0;
    meshes.each([&](Ticket, const char *) { return ++once < 1; });
    CHECK(once == 1);
    heap.compactUnaligned([&](Move) { CHECK(false); });
    CHECK(heap.free(leaf) && meshes.take(leaf, nullptr));
    heap.compactUnaligned([&](Move range) { CHECK(!std::strcmp(meshes.under(range.allocation.metadata), "oak") && !meshes.under(rock.name)); });
    CHECK(heap.offsetOf(tree) == 0);
    const Ticket last = heap.allocate(10);
    CHECK(last && !meshes.under(last.name) && meshes.put(heap, last, "last") && !std::strcmp(meshes.under(last.name), "last"));
    // a smaller value, and one that is neither pointer nor number
    struct Pair {
        uint16_t first, second;
    };
    Beside<Pair> pairs;
    CHECK(pairs.put(heap, last, Pair{1, 2}) && pairs.get(last).second == 2 && pairs.get(tree).first == 0 && pairs.get(tree, Pair{3, 4}).first == 3);
    Beside<double> weights;
    CHECK(weights.put(heap, last, 0.5) && weights.get(last) == 0.5 && weights.take(tree, -1.0) == -1.0);
    Beside<const char *> gone(std::move(meshes));
    CHECK(!meshes && !meshes.put(heap, last, "last") && meshes.size() == 0 && gone.size() == 2);
    meshes = std::move(gone);
    meshes.clear();
    CHECK(meshes && meshes.isEmpty() && !gone && meshes.put(heap, last, "last"));
}

// A walk from either end meets each live range once, also one at 0, and ends where none is at 0.
template <class H, class A, class F> static void walkToTheEnd(const A &heap, F offsetOf, std::vector<uint32> wanted) {
    std::vector<uint32> met, back;
    heap.eachLive([&](H at) { met.push_back(offsetOf(at)); return met.size() < 100; });
    heap.eachLiveBack([&](H at) { back.push_back(offsetOf(at)); return back.size() < 100; });
    CHECK(met == wanted);
    std::reverse(back.begin(), back.end());
    CHECK(back == wanted);
}

// A range finds a multiple of 256 before it.
static void relocateToAMultiple() {
    Allocator a(1000, 8);
    GuardedAllocator g = GuardedAllocator::withRealm(1000, 8, 3);
    a.allocate(10), g.allocate(10);
    Allocation hole = a.allocate(320), mesh = a.allocate(64);
    Ticket space = g.allocate(320), range = g.allocate(64);
    CHECK(a.relocateAligned(mesh, 256).offset == Allocation::NO_SPACE && !g.relocateAligned(range, 256));
    CHECK(a.free(hole) && g.free(space));
    CHECK(a.relocateAligned(mesh, 0).offset == Allocation::NO_SPACE && !g.relocateAligned(range, 0));
    CHECK(a.relocateAligned(mesh, 256).offset == 256 && g.offsetOf(g.relocateAligned(range, 256)) == 256 && g.isLive(range));
}

// The end of a heap is emptied: each last range that finds a place before it is copied there, and the old one freed.
static void emptyTheEnd() {
    Allocator heap(100, 16);
    std::vector<char> bytes(100);
    std::vector<Allocation> live;
    for (uint32 i = 0; i < 5; i++) live.push_back(heap.allocate(10));
    std::fill(bytes.begin() + 40, bytes.begin() + 50, 'e');
    CHECK(heap.free(live[1]) && heap.free(live[3]));
    for (Allocation old = heap.lastLive(); old.offset != Allocation::NO_SPACE;) {
        Allocation to = heap.relocate(old);
        if (to.offset == Allocation::NO_SPACE) break;
        Move copy{old.offset, to.offset, heap.allocationSize(old), to};
        CHECK(copyInPieces(copy, 4, [&](Piece p) { std::memcpy(&bytes[p.to], &bytes[p.from], p.size); }));
        CHECK(heap.free(old));
        old = heap.lastLive();
    }
    Allocation last = heap.lastLive();
    CHECK(last.offset == 20 && heap.liveBefore(last).offset == 10 && heap.liveAfter(heap.liveBefore(last)).offset == 20);
    CHECK(heap.retract(70) && heap.size() == 30 && !heap.retract(1));
    // a walk from either end, which can stop, and free what it meets
    std::vector<uint32> met;
    heap.eachLive([&](Allocation at) { met.push_back(at.offset); return true; });
    heap.eachLiveBack([&](Allocation at) { met.push_back(at.offset); return at.offset != 10; });
    CHECK(heap.firstLive().offset == 0 && met == (std::vector<uint32>{0, 10, 20, 20, 10}));
    auto offset = [&](Allocation at) { return heap.allocationOffset(at); };
    walkToTheEnd<Allocation>(heap, offset, {0, 10, 20});
    heap.eachLive([&](Allocation at) { return at.offset == 20 || heap.free(at); });
    CHECK(heap.firstLive().offset == 20 && heap.lastLive().offset == 20);
    walkToTheEnd<Allocation>(heap, offset, {20});
    CHECK(heap.free(heap.firstLive()));
    walkToTheEnd<Allocation>(heap, offset, {});
    CHECK(std::string(bytes.begin() + 10, bytes.begin() + 20) == "eeeeeeeeee");
    CHECK(!copyInPieces(Move{4, 4, 1, last}, 1, [](Piece) {}));
}

// In the largest space a range of no units may begin behind all units, at NO_SPACE: a walk meets it, and a request for no units
// would begin there where it is free.
static void atTheLastNumber() {
    const uint32 most = Allocation::NO_SPACE;
    Allocator a(most, 8);
    GuardedAllocator g = GuardedAllocator::withRealm(most, 8, 3);
    Allocation end = a.allocateAt(most, 0);
    Ticket last = g.allocateAt(most, 0);
    const auto offset = [&](Allocation at) { return a.allocationOffset(at); };
    const auto offsetOf = [&](Ticket at) { return g.offsetOf(at); };
    walkToTheEnd<Allocation>(a, offset, {most});
    walkToTheEnd<Ticket>(g, offsetOf, {most});
    CHECK(a.allocateTight(most).offset == 0 && g.offsetOf(g.allocateTight(most)) == 0);
    walkToTheEnd<Allocation>(a, offset, {0, most});
    walkToTheEnd<Ticket>(g, offsetOf, {0, most});
    CHECK(!a.wouldBegin(0, 1).granted && !g.wouldBegin(0, 1).granted && a.free(end) && g.free(last));
    CHECK(a.wouldBegin(0, 1).granted && a.wouldBegin(0, 1).offset == most && g.wouldBegin(0, 1).granted && g.wouldBegin(0, 1).offset == most);
    CHECK(!a.wouldBegin(1, 1).granted && !a.wouldBegin(1, 1).offset && !g.wouldBegin(1, 1).granted && !g.wouldBegin(0, 0).granted);
}

// A pass of handles and of tickets by a step.
static Progress within(Allocator &space, uint32 step, uint32 units, uint32 ranges) {
    return space.compactWithin(step, 0, units, ranges, [](Move) {});
}
static Progress within(GuardedAllocator &space, uint32 step, uint32 units, uint32 ranges) {
    return space.compactWithinBy(step, 0, units, ranges, [](Move) {});
}

// Two ranges of 100 and 50 units behind a hole: either budget alone stops a compaction before the second.
template <class A> static void budgets() {
    struct Row { uint32 units, ranges, moved; };
    for (Row row : {Row{150, 2, 2}, Row{149, 2, 1}, Row{150, 1, 1}, Row{2, 150, 1}}) {
        A space(1000, 16);
        auto hole = space.allocate(300);
        space.allocate(100), space.allocate(50);
        CHECK(space.free(hole) && within(space, 1, row.units, row.ranges).ranges == row.moved);
    }
}

// A walk may free each range that it is called with, from either end, and goes on: it meets all four.
template <class A> static void freesOnTheWay() {
    for (bool back : {false, true}) {
        A space(100, 16);
        for (int i = 0; i < 4; i++) space.allocate(10);
        std::vector<uint32> sizes;
        auto seen = [&](decltype(space.allocate(0)) at) {
            CHECK(space.free(at) && !space.isLive(at));
            sizes.push_back(space.statistics().liveRanges);
            return true;
        };
        if (back) space.eachLiveBack(seen);
        else space.eachLive(seen);
        CHECK(sizes == (std::vector<uint32>{3, 2, 1, 0}) && space.isEmpty());
    }
}

// Spaces, or heaps, of 100 and 200 units are swapped, also with an empty one, and two empty ones, from either side.
template <class A, class F> static void swaps(F make, uint32 (*sizeOf)(const A &)) {
    A a = make(100), b = make(200), empty = make(100);
    A(std::move(empty));
    swap(a, b);
    CHECK(sizeOf(a) == 200 && sizeOf(b) == 100);
    swap(a, empty);
    CHECK(!a && sizeOf(a) == 0 && empty && sizeOf(empty) == 200);
    swap(a, empty);
    CHECK(a && sizeOf(a) == 200 && !empty && sizeOf(empty) == 0);
    empty.swap(b);
    CHECK(!b && sizeOf(empty) == 100);
    empty.swap(b);
    CHECK(!empty && sizeOf(b) == 100);
    A other = make(100);
    A(std::move(other));
    swap(empty, other);
    CHECK(!empty && !other);
    swap(a, a);
    CHECK(a && sizeOf(a) == 200);
}

static void swapsOfBoth() {
    swaps<Allocator>([](uint32 size) { return Allocator(size, 16); }, [](const Allocator &of) { return of.size(); });
    swaps<GuardedAllocator>([](uint32 size) { return GuardedAllocator(size, 16); }, [](const GuardedAllocator &of) { return of.size(); });
}

// 30 free units, 34 live, 36 free from 64 on: 31 at a multiple of 7 would begin at 70, where 30 are left.
template <class A> static void tightRefusals() {
    A space(100, 16);
    auto first = space.allocate(30);
    space.allocateTight(34);
    CHECK(space.free(first));
    CHECK(space.refusalTight(31) == Refusal::granted && space.refusalTightAligned(31, 7) == Refusal::fragmented);
    CHECK(space.refusalTightAligned(30, 7) == Refusal::granted && space.refusalTightAligned(31, 8) == Refusal::granted);
}

static void minSize() {
    for (uint32 needed : {0u, 1u, 7u, 8u, 9u, 100u, 118u, 1024u, 529445u, 1048575u, 4026531840u}) {
        uint32 size = minAllocatorSize(needed);
        Allocator a(size);
        CHECK(size >= needed && a.allocate(needed).offset == 0);
        if (size > needed) {
            Allocator less(size - 1);
            CHECK(less.allocate(needed).offset == Allocation::NO_SPACE && less.refusal(needed) == Refusal::tooLarge);
        }
    }
    CHECK(minAllocatorSize(4026531841u) == 0);
}

static void scales() {
    Scale scale{4096, 256};
    CHECK(scale.unitsOf(257).fits && scale.unitsOf(257).value == 2 && scale.bytesOf(3).value == 768);
    CHECK(scale.addressOf(3).value == 4864 && scale.offsetAt(5119).value == 3 && !scale.offsetAt(4095).fits);
    CHECK(scale.alignOf(4096).value == 16 && !scale.alignOf(8192).fits);
}

// What the class has.
static void surface() {
    static_assert(!std::is_copy_constructible<Allocator>::value && !std::is_copy_assignable<Allocator>::value, "");
    static_assert(std::is_nothrow_move_constructible<Allocator>::value, "");
    static_assert(sizeof(Allocation) == 8 && NUM_LEAF_BINS == 256, "");
    Allocation none;
    CHECK(none.offset == Allocation::NO_SPACE && none.metadata == Allocation::NO_SPACE);
    Allocator a(100);
    CHECK(a && a.maxAllocs() == 128 * 1024 && a.size() == 100);
    Allocation x = a.allocate(10);
    CHECK(!a.free(none) && a.allocationSize(none) == 0 && x != none && x == x);
    Allocator b(std::move(a));
    CHECK(!a && b && b.isLive(x));
    // an empty one refuses all
    CHECK(a.allocate(1).offset == Allocation::NO_SPACE && !a.free(x) && a.refusal(1) == Refusal::badCall && !a.extend(1));
    CHECK(!a.eachBlock([](Block) {}));
    a.reset();
    a = std::move(b);
    CHECK(a && !b && a.isLive(x));
    a.reset();
    CHECK(!a.isLive(x) && !a.free(x));
    CHECK(!Allocator(10, 1) && !Allocator(10, 0xfffffffe));
    std::vector<Allocator> several;
    for (uint32 i = 0; i < 5; i++) several.emplace_back(100 * i, 16);
    CHECK(several[4].allocate(200).offset == 0 && several[0].allocate(1).offset == Allocation::NO_SPACE);
    StorageReportFull full = several[3].storageReportFull();
    uint32 count = 0;
    for (StorageReportFull::Region &region : full.freeRegions) count += region.count;
    CHECK(count == 1);
}

// Moves, swaps, and a constant that is bound to a reference.
static void moves() {
    Allocator a(100), b(200);
    Allocation x = a.allocate(10), y = b.allocate(20);
    a = std::move(b);
    CHECK(a && !b && b.size() == 0 && a.size() == 200 && a.isLive(y) && a.allocationSize(y) == 20);
    CHECK(b.allocate(1).offset == Allocation::NO_SPACE && b.blockCount() == 0 && !b.isLive(x));
    b = std::move(b);
    CHECK(!b);
    Allocator &same = a;
    a = std::move(same);
    CHECK(a && a.isLive(y));
    Allocator c(300);
    swap(a, c);
    CHECK(a.size() == 300 && c.size() == 200 && c.isLive(y));
    c.swap(b);
    CHECK(!c && b.isLive(y));
    b = Allocator(400);
    CHECK(b.size() == 400 && !b.isLive(y));
    std::vector<Allocator> several;
    for (uint32 i = 1; i <= 5; i++) several.push_back(Allocator(100 * i));
    several.erase(several.begin());
    std::swap(several[0], several[3]);
    CHECK(several.size() == 4 && several[0].size() == 500 && several[3].size() == 200);
    CHECK(std::max(x.offset, Allocation::NO_SPACE) == Allocation::NO_SPACE);
}

// at a place, and what is there: 40 units free, 20 live, 40 free
static void places() {
    Allocator a(100, 8);
    Allocation mesh = a.allocateAt(40, 20);
    CHECK(mesh.offset == 40 && a.allocationSize(mesh) == 20 && a.liveAt(59) == mesh && a.liveAt(60).offset == Allocation::NO_SPACE);
    CHECK(a.isFreeAt(0, 40) && !a.isFreeAt(0, 41) && a.inTheWay(0, 41) == mesh && a.inTheWay(0, 40).offset == Allocation::NO_SPACE);
    CHECK(a.allocateAt(30, 20).offset == Allocation::NO_SPACE && a.blockCount() == 3);
    CHECK(a.isFreeAt(40, 0) && !a.isFreeAt(41, 0) && a.isFreeAt(100, 0) && !a.isFreeAt(101, 0));
    Allocation start = a.allocateAt(0, 10), end = a.allocateAt(90, 10);
    CHECK(a.liveAt(9) == start && a.liveAt(39) == Allocation() && a.liveAt(50) == mesh && a.liveAt(90) == end && a.inTheWay(0, 100) == end);
    CHECK(a.free(start) && a.free(end) && a.free(a.liveAt(50)) && a.allocateAt(30, 20).offset == 30);
    GuardedAllocator g = GuardedAllocator::withRealm(100, 8, 3);
    Ticket range = g.allocateAt(40, 20);
    CHECK(range && g.offsetOf(range) == 40 && g.liveAt(59) == range && !g.liveAt(60) && g.inTheWay(0, 41) == range && !g.inTheWay(0, 40));
    CHECK(g.isFreeAt(40, 0) && !g.isFreeAt(41, 0) && g.isFreeAt(100, 0) && !g.isFreeAt(101, 0));
    Ticket before = g.allocateAt(0, 10), behind = g.allocateAt(90, 10);
    CHECK(g.liveAt(9) == before && !g.liveAt(39) && g.liveAt(50) == range && g.liveAt(90) == behind && g.inTheWay(0, 100) == behind);
    CHECK(g.free(before) && g.free(behind));
    CHECK(g.isFreeAt(60, 40) && !g.isFreeAt(59, 1) && !g.allocateAt(30, 20) && g.free(g.liveAt(50)) && !g.free(range) && g.allocateAt(30, 20));
    CHECK(!Allocator(0, 1).isFreeAt(0, 0) && Allocator(0, 1).allocateAt(0, 0).offset == Allocation::NO_SPACE);
}

static void beside() {
    Allocator full(100, 16);
    CHECK(full.allocate(100).offset == Allocation::NO_SPACE && full.refusalTight(100) == Refusal::granted);
    CHECK(full.allocateTight(36).offset == 0 && full.refusalTightAligned(64, 4) == Refusal::granted);
    CHECK(full.allocateTightAligned(64, 4).offset == 36 && full.freeUnits() == 0);
    Allocator a(100, 16);
    CHECK(a.allocateAligned(10, 0).offset == Allocation::NO_SPACE && a.refusalAligned(10, 0) == Refusal::badCall);
    // behind 5 units, 10 at a multiple of 12, and then 10 at a multiple of 48
    Allocator odd(100, 16);
    CHECK(odd.allocate(5).offset == 0 && odd.allocateAligned(10, 12).offset == 12 && odd.allocateAligned(10, 48).offset == 48);
    std::vector<Allocation> live;
    for (int i = 0; i < 4; i++) live.push_back(a.allocate(24));
    a.free(live[0]);
    a.free(live[2]);
    CHECK(a.refusal(48) == Refusal::fragmented && a.blockCount() == 5 && !a.isFull());
    std::vector<uint32> to;
    // 24 free, 24 live, 24 free, 24 live, and 4 free: the first two holes do
    Allocator copied = a.clone();
    RoomCost made = copied.makeRoom(48, [&](Move m) { to.push_back(m.to); CHECK(m.from == 24 && m.size == 24); });
    CHECK(made.possible && made.ranges == 1 && made.units == 24 && to == std::vector<uint32>{0} && copied.refusal(48) == Refusal::granted);
    CHECK(!copied.makeRoom(97, [](Move) {}).possible && copied.allocate(48).offset == 24);
    to.clear();
    // steps of 16 units leave 8 of each hole
    Allocator stepped = a.clone();
    CHECK(stepped.compactBy(16, [&](Move m) { to.push_back(m.to); CHECK((m.from - m.to) % 16 == 0 && m.size == 24); }));
    CHECK(to == (std::vector<uint32>{8, 40}) && stepped.allocationOffset(live[1]) == 8 && stepped.allocationOffset(live[3]) == 40);
    CHECK(stepped.blockCount() == 5 && stepped.compactBy(16, [](Move) { CHECK(false); }) && !stepped.compactBy(0, [](Move) {}));
    CHECK(!Allocator(0, 1).compactBy(1, [](Move) {}));
    to.clear();
    // the same a range at a time
    Allocator bit = a.clone();
    Progress far = bit.compactWithin(16, 0, 24, 8, [&](Move m) { to.push_back(m.to); CHECK(m.from == 24); });
    CHECK(far.done && far.more && far.units == 24 && far.ranges == 1 && far.next == 72);
    far = bit.compactWithin(16, far.next, 1, 1, [&](Move m) { to.push_back(m.to); CHECK(m.from == 72); });
    CHECK(far.done && !far.more && far.ranges == 1 && to == (std::vector<uint32>{8, 40}) && !bit.compactWithin(0, 0, 1, 1, [](Move) {}).done);
    to.clear();
    // two steps of 8 units, and all 24 of the second hole: 40 are needed for 33 at a multiple of 8
    Allocator aligned = a.clone();
    CHECK(aligned.compactCostBy(16).ranges == 2 && aligned.compactCostBy(16).possible && !aligned.compactCostBy(0).possible);
    CHECK(aligned.roomCostBy(33, 8, 16).ranges == 1 && !aligned.roomCostBy(33, 8, 0).possible && !aligned.roomCostBy(42, 1, 16).possible);
    made = aligned.makeRoomBy(33, 8, 16, [&](Move m) { to.push_back(m.to); CHECK(m.from == 24 && m.size == 24); });
    CHECK(made.possible && made.units == 24 && to == std::vector<uint32>{8} && aligned.wouldBegin(33, 8).granted && aligned.wouldBegin(33, 8).offset == 32);
    CHECK(aligned.allocateAligned(33, 8).offset == 32 && !aligned.wouldBegin(33, 8).granted && !aligned.wouldBegin(1, 0).granted);
    CHECK(!aligned.makeRoomBy(1, 0, 1, [](Move) {}).possible);
    to.clear();
    a.compact([&](Move m) { to.push_back(m.to); CHECK(m.allocation.offset == m.to && m.size == 24 && m.to < m.from); });
    CHECK(to == (std::vector<uint32>{0, 24}) && a.refusal(48) == Refusal::granted);
    CHECK(a.allocationOffset(live[1]) == 0 && a.allocationOffset(live[0]) == Allocation::NO_SPACE);
    uint32 end = 0, used = 0;
    CHECK(a.eachBlock([&](Block b) { CHECK(b.offset == end); end += b.size; used += b.used; }));
    CHECK(end == 100 && used == 2);
    CHECK(a.shrink(live[1], 8) && a.growInPlace(live[1], 24) && a.extend(28) && a.size() == 128);

    // an exception of the closure goes on when all has moved
    a.free(live[1]);
    a.allocate(48);
    int called = 0;
    bool caught = false;
    try {
        a.compact([&](Move) { called++; throw std::runtime_error("stop"); });
    } catch (const std::runtime_error &e) {
        caught = !std::strcmp(e.what(), "stop");
    }
    CHECK(caught && called == 1 && a.allocationOffset(live[3]) == 0);
}

// The blocks, in a loop that may end early and takes no memory.
static void loops() {
    Allocator a(100, 16);
    Allocation x = a.allocate(10), y = a.allocate(20);
    a.free(x);
    std::vector<uint32> offsets;
    for (auto block : a.blocks()) offsets.push_back(block.offset);
    CHECK(offsets == (std::vector<uint32>{30, 10, 0}));
    uint32 seen = 0;
    for (const Block &block : a.blocks()) {
        seen++;
        if (block.used) {
            CHECK(block.allocation == y && block.size == 20);
            break;
        }
    }
    CHECK(seen == 2);
    Blocks blocks = a.blocks();
    CHECK(std::count_if(blocks.begin(), blocks.end(), [](const Block &b) { return !b.used; }) == 2);
    Blocks::iterator at = blocks.begin();
    CHECK(at++->offset == 30 && at->offset == 10 && (++at)->size == 10 && at != blocks.end() && ++at == blocks.end());
    Allocator empty(std::move(a));
    for (auto block : a.blocks()) CHECK(block.used && false);
    // eachBlock may change the allocator
    CHECK(empty.eachBlock([&](Block b) { if (b.used) CHECK(empty.free(b.allocation)); }) && empty.blockCount() == 1);
    CHECK(SmallFloat::uintToFloatRoundUp(118) == 39 && SmallFloat::uintToFloatRoundDown(118) == 38 && SmallFloat::floatToUint(39) == 120);
}

// The table of questions.h, which says what the states are.
static void questions() {
    Allocator space(100, 7);
    QUESTIONS(FRESH)
    Allocation first = space.allocate(10);
    space.allocate(20);
    CHECK(space.free(first));
    QUESTIONS(USED)
    for (int i = 0; i < 3; i++) space.allocate(1);
    QUESTIONS(FULL)
    Allocator moved(std::move(space));
    QUESTIONS(NONE)
}

static void questionsOfTickets() {
    GuardedAllocator space = GuardedAllocator::withRealm(100, 7, 5);
    QUESTIONS(FRESH)
    QUESTIONS_OF_TICKETS(FRESH)
    Ticket first = space.allocate(10);
    space.allocate(20);
    CHECK(space.free(first));
    QUESTIONS(USED)
    QUESTIONS_OF_TICKETS(USED)
    for (int i = 0; i < 3; i++) space.allocate(1);
    QUESTIONS(FULL)
    QUESTIONS_OF_TICKETS(FULL)
    GuardedAllocator moved(std::move(space));
    QUESTIONS(NONE)
    QUESTIONS_OF_TICKETS(NONE)
}

// Tickets: what a stale handle does by the original's class, and what a stale ticket does.
static void tickets() {
    Allocator a(100, 16);
    Allocation x = a.allocate(10);
    CHECK(a.free(x) && !a.free(x));
    Allocation z = a.allocate(20);
    CHECK(z.metadata == x.metadata && a.free(x) && !a.isLive(z)); // the grant of another is freed

    static_assert(!std::is_copy_constructible<GuardedAllocator>::value && std::is_nothrow_move_constructible<GuardedAllocator>::value, "");
    static_assert(sizeof(Ticket) == 16 && sizeof(GuardedAllocator) == sizeof(void *), "");
    GuardedAllocator g = GuardedAllocator::withRealm(100, 16, 3), other = GuardedAllocator::withRealm(100, 16, 4);
    Ticket t = g.allocate(10), foreign = other.allocate(10), none;
    CHECK(g && t && !none && t != none && t == t && t.serial == 1 && t.realm == 3 && g.realm() == 3 && !g.isSpent());
    CHECK(g.step() == 1 && g.raiseStep(4) && !g.raiseStep(0) && g.step() == 4);
    CHECK(g.isLive(t) && g.sizeOf(t) == 10 && g.offsetOf(t) == 0 && !g.isLive(none) && !g.isLive(foreign) && !g.free(foreign));
    CHECK(g.free(t) && !g.free(t));
    Ticket u = g.allocate(20);
    CHECK(u.name == t.name && !g.free(t) && g.isLive(u) && g.sizeOf(t) == 0 && g.offsetOf(t) == Allocation::NO_SPACE);
    CHECK(g.shrink(u, 5) && g.growInPlace(u, 20) && !g.shrink(t, 0) && !g.growInPlace(t, 30) && g.extend(28) && g.size() == 128);
    Ticket v = g.allocateAligned(10, 32);
    CHECK(v && g.offsetOf(v) == 32 && !g.allocateAligned(1, 0) && g.refusalAligned(1, 0) == Refusal::badCall);
    CHECK(g.refusal(129) == Refusal::tooLarge && g.refusalAligned(8, 8) == Refusal::granted && g.maxAllocs() == 16);
    CHECK(g.blockCount() == 4 && !g.isFull() && g.storageReport().totalFreeSpace == 98);
    // 20 units from 0 on, 12 free, 10 units from 32 on, and 86 free
    CHECK(g.refusalTight(86) == Refusal::granted && g.refusalTightAligned(87, 2) == Refusal::fragmented && !g.allocateTight(87));
    Ticket filled = g.allocateTightAligned(86, 2);
    CHECK(filled && g.offsetOf(filled) == 42 && g.free(filled) && g.free(g.allocateTight(86)));
    // the step is 32, which the 12 free units have not
    RoomCost cost = g.roomCostUnaligned(88);
    CHECK(cost.possible && cost.units == 10 && cost.ranges == 1 && g.roomCost(80).ranges == 0 && !g.roomCostUnaligned(99).possible);
    CHECK(g.step() == 32 && !g.roomCost(88).possible && g.roomCost(80).possible && !g.roomCostAligned(80, 8).possible && g.roomCostAligned(72, 8).possible);
    Statistics sums = g.statistics();
    CHECK(sums.freeUnits == 98 && g.freeUnits() == 98 && sums.liveUnits == g.liveUnits() && !g.isEmpty());
    CHECK(sums.liveRanges + sums.freeBlocks == 4 && sums.unusedNodes + 4 == g.maxAllocs());
    uint32 count = 0, used = 0;
    for (StorageReportFull::Region &region : g.storageReportFull().freeRegions) count += region.count;
    CHECK(count == 2);
    for (auto block : g.blocks()) {
        CHECK(!block.used || g.ticketOf(block.allocation) == (block.offset ? v : u));
        used += block.used;
    }
    CHECK(used == 2 && !g.ticketOf(Allocation()));
    used = 0;
    CHECK(g.eachBlock([&](Block b) { used += b.used; }) && used == 2);
    CHECK(g.free(u));
    std::vector<uint32> to;
    CHECK(g.makeRoom(1, [&](Move m) { to.push_back(m.to); }).ranges == 0 && to.empty());
    CHECK(g.roomCostBy(1, 1, 1).possible && g.makeRoomBy(1, 1, 1, [&](Move m) { to.push_back(m.to); }).ranges == 0 && to.empty());
    CHECK(g.wouldBegin(1, 1).granted && g.wouldBegin(1, 1).offset == 0 && !g.wouldBegin(1, 0).granted);
    // 32 units are three steps of 10, and 2
    GuardedAllocator bit = g.clone();
    CHECK(bit.compactWithinBy(10, 0, 1, 1, [&](Move m) { CHECK(m.to == 2); }).units == 10 && bit.offsetOf(v) == 2);
    GuardedAllocator stepped = g.clone();
    CHECK(stepped.compactBy(10, [&](Move m) { to.push_back(m.to); CHECK(m.from == 32 && m.size == 10); }));
    CHECK(to == (std::vector<uint32>{2}) && stepped.isLive(v) && stepped.offsetOf(v) == 2 && !stepped.compactBy(0, [](Move) {}));
    CHECK(stepped.compactBy(33, [](Move) { CHECK(false); }));
    bool stopped = false;
    try {
        stepped.compactBy(1, [](Move) { throw std::runtime_error("stop"); });
    } catch (const std::runtime_error &) {
        stopped = true;
    }
    CHECK(stopped && stepped.offsetOf(v) == 0);
    to.clear();
    g.compact([&](Move m) { to.push_back(m.to); CHECK(m.allocation.metadata == v.name); });
    CHECK(to == (std::vector<uint32>{0}) && g.isLive(v) && g.offsetOf(v) == 0);
    bool caught = false;
    g.extend(1);
    Ticket w = g.allocate(1);
    g.free(v);
    CHECK(g.compact([](Move) { CHECK(false); }) && g.offsetOf(w) == 10);
    try {
        g.compactUnaligned([](Move) { throw std::runtime_error("stop"); });
    } catch (const std::runtime_error &) {
        caught = true;
    }
    CHECK(caught && g.offsetOf(w) == 0);
    Ticket last = g.allocateAligned(10, 32);
    walkToTheEnd<Ticket>(g, [&](Ticket at) { return g.offsetOf(at); }, {0, 32});
    CHECK(g.allocate(2) && g.free(w) && g.free(last));
    walkToTheEnd<Ticket>(g, [&](Ticket at) { return g.offsetOf(at); }, {1});
    CHECK(g.free(g.lastLive()));
    walkToTheEnd<Ticket>(g, [&](Ticket at) { return g.offsetOf(at); }, {});
    w = g.allocate(1);
    // moves, as those of Allocator
    GuardedAllocator h(std::move(g));
    CHECK(!g && h.isLive(w) && !g.allocate(1) && g.refusal(1) == Refusal::badCall && !g.eachBlock([](Block) {}) && g.isFull());
    g = std::move(h);
    GuardedAllocator &same = g;
    g = std::move(same);
    CHECK(g.isLive(w) && !h && h.size() == 0);
    swap(g, other);
    CHECK(other.isLive(w) && g.isLive(foreign));
    other.reset();
    CHECK(!other.isLive(w) && !other.free(w) && !GuardedAllocator(10, 1) && GuardedAllocator(10).maxAllocs() == 128 * 1024);
    std::vector<GuardedAllocator> several;
    for (uint32 i = 0; i < 5; i++) several.push_back(GuardedAllocator::withRealm(100 * i, 16, i));
    CHECK(several[4].allocate(200).realm == 4 && !several[0].allocate(1));
}

// What goes by the step of the space: 300 live, 212 free, 140 live from 512 on, 348 free, and then 512 free before it.
static void byTheStep() {
    GuardedAllocator g(1000, 16);
    const auto never = [](Move) { CHECK(false); };
    int moves = 0;
    const auto count = [&](Move m) { CHECK(m.from == 512 && m.to == 0 && m.size == 140); moves++; };
    Ticket first = g.allocate(300), mesh = g.allocateAligned(140, 256);
    CHECK(g.step() == 256 && g.offsetOf(mesh) == 512 && g.compact(never) && g.compactWithin(0, 9, 9, never).ranges == 0);
    CHECK(!g.makeRoom(500, never).possible && !g.roomCost(500).possible && g.roomCostUnaligned(500).units == 140 && !g.relocate(mesh));
    CHECK(!g.makeRoomAligned(300, 0, never).possible && !g.roomCostAligned(300, 0).possible && g.free(first));
    CompactCost all = g.compactCost();
    CHECK(all.possible && all.units == 140 && all.ranges == 1 && all.largest == 832 && g.compactCostBy(512).units == 140);
    CHECK(g.roomCost(832).units == 140 && !g.roomCost(833).possible && g.roomCostAligned(800, 32).ranges == 1);
    GuardedAllocator a = g.clone(), b = g.clone(), c = g.clone(), d = g.clone(), e = g.clone();
    CHECK(a.makeRoom(832, count).units == 140 && a.offsetOf(mesh) == 0 && a.allocate(832));
    CHECK(b.makeRoomAligned(800, 32, count).ranges == 1 && b.allocateAligned(800, 32));
    CHECK(c.compact(count) && c.offsetOf(mesh) == 0 && d.compactWithin(0, 1, 1, count).units == 140 && d.offsetOf(mesh) == 0 && moves == 4);
    Ticket second = e.relocate(mesh);
    CHECK(e.offsetOf(second) == 0 && e.isLive(mesh) && e.step() == 256 && e.free(mesh) && !e.relocate(mesh));
    // and by none: 460 free, 8 units from 600 on, 392 free
    Ticket given = e.allocateAt(600, 8);
    CHECK(e.makeRoomUnaligned(832, [](Move) {}).ranges == 1 && e.offsetOf(given) == 140 && e.free(second));
    CHECK(e.offsetOf(e.relocateUnaligned(given)) == 0);
    e.compactUnaligned([](Move) {});
    CHECK(e.offsetOf(given) == 8);
    // without a step nothing moves, and an exception of a move goes on to the caller
    CHECK(g.raiseStep(4294967291u) && g.step() == 0 && !g.compact(never) && !g.compactWithin(0, 9, 9, never).done && !g.relocate(mesh));
    CHECK(!g.makeRoom(1, never).possible && !g.makeRoomAligned(1, 1, never).possible && !g.roomCost(1).possible && !g.roomCostAligned(1, 1).possible);
    GuardedAllocator thrown(1000, 16);
    int caught = 0;
    for (int kind = 0; kind < 6; kind++) {
        thrown.reset();
        Ticket hole = thrown.allocate(256);
        mesh = thrown.allocateAligned(100, 256);
        CHECK(thrown.free(hole));
        const auto stop = [](Move) { throw std::runtime_error("stop"); };
        try {
            if (kind == 0) thrown.compact(stop);
            else if (kind == 1) thrown.compactWithin(0, 1, 1, stop);
            else if (kind == 2) thrown.makeRoom(896, stop);
            else if (kind == 3) thrown.makeRoomAligned(800, 32, stop);
            else if (kind == 4) thrown.compactUnaligned(stop);
            else thrown.makeRoomUnaligned(896, stop);
        } catch (const std::runtime_error &) {
            caught++;
        }
        CHECK(thrown.offsetOf(mesh) == 0);
    }
    CHECK(caught == 6);
}

// Random calls, and whatever moves, is copied, stored and read: each range that was granted at a multiple of an alignment begins
// at one as long as it lives, and the others keep the multiple of 4 at which they were.
static void everyAlignment() {
    uint64_t state = 88172645463325252u;
    const auto below = [&](uint32 n) {
        state = state * 6364136223846793005u + 1442695040888963407u;
        return uint32((state >> 33) % n);
    };
    struct Held { Ticket ticket; uint32 align; };
    const uint32 families[3][3] = {{12, 20, 32}, {4, 256, 4096}, {4, 36, 7}};
    uint32 moves = 0;
    for (int i = 0; i < 300; i++) {
        GuardedAllocator g(20000, 100);
        std::vector<Held> held;
        CHECK(g.raiseStep(4));
        for (int call = 0; call < 400; call++) {
            const uint32 align = families[i % 3][below(3)], size = below(1u << below(11)), kind = below(16);
            const auto note = [&](Move m) { moves += m.to < m.from; };
            Ticket found;
            uint32 of = align;
            if (kind < 4) found = g.allocateAligned(size, align);
            else if (kind == 4) found = g.allocateTightAligned(size, align);
            else if (kind == 5) found = g.allocateAt(below(5000) * (of = 4), size);
            else if (kind < 9 && !held.empty()) {
                const size_t place = below(uint32(held.size()));
                CHECK(g.free(held[place].ticket));
                held.erase(held.begin() + long(place));
            } else if (kind == 9 && !held.empty()) {
                Held &old = held[below(uint32(held.size()))];
                const Ticket second = g.relocate(old.ticket);
                if (second && g.free(old.ticket)) old.ticket = second;
                moves += bool(second);
            } else if (kind == 10) g.compact(note);
            else if (kind == 11) g.compactWithin(below(20000), size, 1 + below(4), note);
            else if (kind == 12) g.makeRoom(size * 8, note);
            else if (kind == 13) g.makeRoomAligned(size * 8, align, note);
            else if (kind == 14) g = g.clone();
            else {
                std::vector<uint8_t> bytes;
                CHECK(g.save(bytes));
                g = std::move(GuardedAllocator::load(bytes.data(), bytes.size()).space);
            }
            if (found) held.push_back({found, of});
            for (const Held &one : held)
                if (g.offsetOf(one.ticket) % one.align) CHECK(false);
        }
    }
    CHECK(moves > 2000);
}

// As README has them: no ticket of one is live in the other.
static void realms() {
    GuardedAllocator vertices(1000), indices(1000);
    Ticket vertex = vertices.allocate(10), index = indices.allocate(10);
    CHECK(vertex.serial == index.serial && vertex.name == index.name && vertices.realm() != indices.realm());
    CHECK(!indices.free(vertex) && indices.isLive(index) && vertices.isLive(vertex));
    CHECK(GuardedAllocator::withRealm(1000, 8, 7).realm() == 7 && !GuardedAllocator::withRealm(1000, 1, 7));
}

// At most 2 blocks, and then 3: the second range begins where the first one ends.
static void raised() {
    Allocator heap(100, 3);
    Allocation rock = heap.allocate(30);
    CHECK(heap.refusal(5) == Refusal::nodes && !heap.raiseLimit(2) && heap.raiseLimit(4) && heap.maxAllocs() == 4);
    CHECK(heap.isLive(rock) && heap.allocate(5).offset == 30);
    Allocator moved = std::move(heap);
    CHECK(!heap.raiseLimit(100) && moved.raiseLimit(100) && moved.isLive(rock) && moved.maxAllocs() == 100);
    GuardedAllocator guarded = GuardedAllocator::withRealm(100, 3, 5);
    Ticket mesh = guarded.allocate(30);
    CHECK(!guarded.allocate(5) && !guarded.raiseLimit(2) && guarded.raiseLimit(4) && guarded.maxAllocs() == 4);
    Ticket next = guarded.allocate(5);
    CHECK(guarded.isLive(mesh) && guarded.offsetOf(next) == 30 && next.serial == 2 && guarded.free(mesh) && !guarded.free(mesh));
}

// A level that is saved and loaded, and a game that is rolled back.
static void states() {
    Allocator heap(1000, 16);
    Allocation rock = heap.allocate(300), tree = heap.allocate(200);
    heap.free(rock);
    std::vector<unsigned char> level;
    CHECK(heap.save(level) && level.size() == 32 + 3 * 8 + 2 * 4);
    Allocator before = heap.clone();
    heap.allocate(77);
    heap.free(tree);
    Allocator::Loaded loaded = Allocator::load(level.data(), level.size());
    CHECK(loaded.found == OA_SPACE_READ && loaded.space.isLive(tree) && loaded.space.allocationSize(tree) == 200);
    heap = std::move(before);
    CHECK(heap.isLive(tree) && heap.freeUnits() == 800);
    CHECK(heap.allocate(40).metadata == loaded.space.allocate(40).metadata);
    level[0]++;
    Allocator::Loaded bad = Allocator::load(level.data(), level.size());
    CHECK(!bad.space && bad.found == OA_BAD_FORM && bad.at == 0);
    CHECK(Allocator::load(level.data(), 7).found == OA_BAD_LENGTH && !Allocator::load(nullptr, 0).space);
    GuardedAllocator guarded = GuardedAllocator::withRealm(100, 16, 5);
    Ticket t = guarded.allocate(10);
    GuardedAllocator copy = guarded.clone();
    guarded.free(t);
    CHECK(copy.isLive(t) && !guarded.isLive(t));
    CHECK(copy.save(level) && level.size() == 56 + 2 * 8 + 32 + 2 * 8 + 4);
    GuardedAllocator::Loaded restored = GuardedAllocator::load(level.data(), level.size());
    CHECK(restored.found == OA_SPACE_READ && restored.space.isLive(t) && restored.space.realm() == 5);
    CHECK(restored.space.allocate(20) == copy.allocate(20) && restored.space.free(t) && !restored.space.free(t));
    level[55] ^= 1;
    GuardedAllocator::Loaded lost = GuardedAllocator::load(level.data(), level.size());
    CHECK(!lost.space && lost.found == OA_BAD_CHECKSUM && lost.at == 64);
    CHECK(GuardedAllocator::load(level.data(), 55).found == OA_BAD_LENGTH && !GuardedAllocator::load(nullptr, 0).space);
    CHECK(!lost.space.save(level) && level.size() == 124);
}

// Behind 30 live units are 70 free ones, which are filed as 64.
static void dumps() {
    Allocator heap(100, 16);
    const std::string name = std::to_string(heap.allocate(30).metadata);
    const std::string json =
        "{\"size\":100,\"max_allocs\":16,\"live_ranges\":1,\"live_units\":30,\"free_blocks\":1,\"free_units\":70,"
        "\"largest_free_block\":70,\"largest_free_region\":64,\"unused_nodes\":14,\"blocks\":["
        "{\"offset\":0,\"size\":30,\"name\":" + name + "},{\"offset\":30,\"size\":70}]}";
    const std::string vmaJson =
        "{\"General\":{\"API\":\"Vulkan\"},\"DefaultPools\":{\"Type 0\":{\"PreferredBlockSize\":100,\"Blocks\":{\"0\":{"
        "\"TotalBytes\":100,\"UnusedBytes\":70,\"Allocations\":1,\"UnusedRanges\":1,\"Suballocations\":["
        "{\"Offset\":0,\"Type\":\"UNKNOWN\",\"Size\":30},{\"Offset\":30,\"Type\":\"FREE\",\"Size\":70}]}},\"DedicatedAllocations\":[]}}}";
    CHECK(heap.json() == json && heap.vmaJson() == vmaJson);
    GuardedAllocator guarded = GuardedAllocator::withRealm(100, 16, 5);
    CHECK(std::to_string(guarded.allocate(30).name) == name && guarded.json() == json && guarded.vmaJson() == vmaJson);
    Allocator moved(std::move(heap));
    GuardedAllocator gone(std::move(guarded));
    CHECK(heap.json().empty() && heap.vmaJson().empty() && guarded.json().empty() && guarded.vmaJson().empty());
}

int main() {
    basic();
    simple();
    mergeTrivial();
    reuseTrivial();
    reuseComplex();
    zeroFragmentation();
    minSize();
    scales();
    sideTable();
    values();
    relocateToAMultiple();
    emptyTheEnd();
    atTheLastNumber();
    budgets<Allocator>();
    budgets<GuardedAllocator>();
    freesOnTheWay<Allocator>();
    freesOnTheWay<GuardedAllocator>();
    swapsOfBoth();
    tightRefusals<Allocator>();
    tightRefusals<GuardedAllocator>();
    raised();
    states();
    dumps();
    surface();
    moves();
    places();
    beside();
    loops();
    questions();
    questionsOfTickets();
    tickets();
    byTheStep();
    everyAlignment();
    realms();
    std::printf("C++: %d checks pass\n", checks);
}
