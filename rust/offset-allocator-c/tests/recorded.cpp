// What a recording has: recorded FOLDER. It also writes random recordings there, FOLDER/N.script, and what their calls gave,
// FOLDER/N.answers, for play-recording: for a line with which a heap of many begins anew `?`.
#include "offsetAllocatorRecorded.hpp"

#include <algorithm>
#include <cstdint>
#include <cstdio>
#include <cstdlib>
#include <map>
#include <string>
#include <utility>
#include <vector>

using namespace OffsetAllocator;

static void check(bool holds, const char *what) {
    if (!holds) {
        std::fprintf(stderr, "does not hold: %s\n", what);
        std::exit(1);
    }
}

static std::string read(const std::string &path) {
    std::string text;
    std::FILE *file = std::fopen(path.c_str(), "rb");
    check(file != nullptr, path.c_str());
    for (int c; (c = std::fgetc(file)) != EOF;) text.push_back(char(c));
    std::fclose(file);
    return text;
}

static void byHand(const std::string &path) {
    std::FILE *file = std::fopen(path.c_str(), "wb");
    {
        Recorded<GuardedAllocator> heap(file, 1000, 32);
        heap.name("texture: rock\ralbedo");
        Ticket rock = heap.allocate(100);
        Ticket other = heap.allocateAligned(50, 64);
        check(heap->offsetOf(other) == 128, "the second range is aligned");
        check(heap.shrink(rock, 40) && heap.growInPlace(rock, 60), "resized");
        check(!heap.allocate(5000), "refused");
        check(heap.free(rock) && !heap.free(rock), "freed once");
        // each line is there before the file is closed
        check(read(path) == "space 1000 nodes 32 index 32\n# texture: rock albedo\nalloc 100\nalign 50 64\nshrink 1 40\ngrow 1 60\nalloc 5000\nfree 1\nfree 0\n", "the lines");
        heap.name(nullptr);
        heap.name("refused");
        check(!heap.allocateAligned(10, 0), "no alignment");
        Recorded<GuardedAllocator> moved(std::move(heap));
        check(heap.isFailed() && !heap.allocate(1), "what was moved from is empty, and writes nothing");
        int moves = 0;
        moved.compactUnaligned([&](Move) { moves++; });
        check(moves == 1 && moved->offsetOf(other) == 0 && moved.extend(24), "compacted");
        Ticket again = moved.allocate(1), aligned = moved.allocateAligned(32, 32);
        check(moved.free(other) && !moved.relocateAligned(aligned, 0), "no alignment");
        Ticket second = moved.relocateAligned(aligned, 16);
        check(second && moved->offsetOf(second) == 0 && moved->offsetOf(aligned) == 64 && moved.free(second), "relocated");
        auto step = [&](Move move) { check(move.from == move.to + 48, "a multiple of 16"); };
        check(!moved.compactBy(0, step) && moved.compactBy(16, step), "compacted by 16");
        check(moved->offsetOf(again) == 2 && moved->offsetOf(aligned) == 16, "both moved");
        Progress progress = moved.compactWithinBy(1, 0, 7, 1, [](Move) {});
        check(progress.done && progress.ranges == 1 && progress.units == 1 && progress.more && progress.next == 16, "one range of a pass");
        check(!moved.compactWithinBy(0, 0, 1, 1, [](Move) {}).done && !moved.makeRoomBy(1000, 1, 0, [](Move) {}).possible, "no step");
        check(!moved.makeRoomUnaligned(1000, [](Move) {}).possible && moved.retract(24) && moved.extend(24), "the end");
        check(!moved.relocateUnaligned(again) && moved.allocateTight(5) && !moved.allocateTightAligned(5, 0), "requests");
        RoomCost cost = moved.makeRoomBy(800, 64, 16, [](Move) {});
        check(cost.possible && cost.ranges == 0 && moved.allocateTightAligned(800, 64), "room by steps");
        moved.reset();
        check(!moved.isFailed() && moved->size() == 1024, "reset");
        check(moved.allocate(5) && moved->offsetOf(moved.allocateAligned(10, 12)) == 12, "at a multiple of 12");
        check(moved->offsetOf(moved.allocateTightAligned(7, 48)) == 48, "at a multiple of 48");
    }
    std::fclose(file);
    check(read(path) == "space 1000 nodes 32 index 32\n# texture: rock albedo\nalloc 100\nalign 50 64\nshrink 1 40\ngrow 1 60\nalloc 5000\nfree 1\nfree 0\n# refused\n\ncompact\nextend 24\nalloc 1\nalign 32 32\nfree 2\nrelocate 4 16\nfree 5\ncompact 16\ncompact 1 0 7 1\nroom 1000\nretract 24\nextend 24\nrelocate 3\ntight 5\nroom 800 64 16\ntight 800 64\nreset\nalloc 5\nalign 10 12\ntight 7 48\n", "all lines");
    // no file, and a file that cannot be written
    Recorded<Allocator> none(nullptr, 100, 8);
    check(none.isFailed() && none.allocate(10).offset == 0, "without a file calls go on");
    Recorded<GuardedAllocator> third(nullptr, GuardedAllocator::withRealm(100, 8, 3)), usual(nullptr, 100);
    check(third->realm() == 3 && usual->realm() != 0 && usual->maxAllocs() == 131072, "the realm, and the usual limit");
    std::FILE *full = std::fopen("/dev/full", "w");
    if (full) {
        Recorded<Allocator> lost(full, 100, 8);
        check(lost.isFailed() && lost.allocate(10).offset == 0, "on a full disk calls go on");
        std::fclose(full);
    }
}

// The lines of a recording, from a file that is closed.
static std::string of(std::FILE *file, const std::string &path) {
    std::fclose(file);
    return read(path);
}

// Calls by the step of a space with tickets have it in their lines.
static void byTheStep(const std::string &path) {
    std::FILE *file = std::fopen(path.c_str(), "wb");
    {
        Recorded<GuardedAllocator> heap(file, 1000, 32);
        auto none = [](Move) {};
        Ticket hole = heap.allocate(50), first = heap.allocateAligned(24, 24), second = heap.allocateAligned(16, 16);
        check(heap->offsetOf(first) == 72 && heap->offsetOf(second) == 96 && heap->step() == 48, "a step of 48");
        check(heap.free(hole) && heap.compact(none), "compacted");
        // of the 72 units before both 48 are a step
        check(heap->offsetOf(first) == 24 && heap->offsetOf(second) == 48, "both keep their alignments");
        check(!heap.makeRoom(950, none).possible && heap.makeRoomAligned(700, 32, none).possible, "room");
        // 24 and 48 have 24 in common, and the 24 units before it are fewer than 24 + 23; 200 and 48 have 8, and 8 + 7 are fewer
        check(!heap.relocate(first), "no range before it");
        Ticket end = heap.allocateAt(200, 8);
        check(heap->offsetOf(heap.relocate(end)) == 0 && heap.free(end), "relocated");
        Progress progress = heap.compactWithin(5, 6, 7, none);
        check(progress.done && !progress.more && progress.ranges == 0, "nothing has to move");
        heap.compactUnaligned(none);
        check(heap.makeRoomUnaligned(10, none).possible && !heap.relocateUnaligned(second), "without alignments");
        check(!heap.makeRoomAligned(10, 0, none).possible, "no alignment");
        // without a step nothing moves, and nothing is written, nor goes a name to another call
        check(heap.raiseStep(4294967291u) && heap->step() == 0, "no step");
        heap.name("lost");
        check(!heap.compact(none) && !heap.compactWithin(0, 9, 9, none).done && !heap.makeRoom(10, none).possible, "refused");
        check(!heap.makeRoomAligned(10, 1, none).possible && !heap.relocate(second) && !heap.relocate(end) && heap.allocate(1), "and a request");
    }
    check(of(file, path) == "space 1000 nodes 32 index 32\nalloc 50\nalign 24 24\nalign 16 16\nfree 1\ncompact 48\nroom 950 1 48\nroom 700 32 48\nrelocate 2 24\n"
          "at 200 8\nrelocate 4 8\nfree 4\ncompact 48 5 6 7\ncompact\nroom 10\nrelocate 3\n# lost\n\nrelocate 0\nalloc 1\n", "the steps");
}

// A pass of handles and of tickets by a step.
static Progress pass(Recorded<Allocator> &heap, uint32 step, uint32 from, uint32 units, uint32 ranges) {
    return heap.compactWithin(step, from, units, ranges, [](Move) {});
}
static Progress pass(Recorded<GuardedAllocator> &heap, uint32 step, uint32 from, uint32 units, uint32 ranges) {
    return heap.compactWithinBy(step, from, units, ranges, [](Move) {});
}

// 30 free units, 10 live, 8 live, 52 free: either budget alone stops before the second range, and the line has what was passed.
template <class A> static void budgets(const std::string &path) {
    struct Row { uint32 units, ranges, moved; };
    for (Row row : {Row{18, 2, 2}, Row{17, 2, 1}, Row{18, 1, 1}, Row{2, 18, 1}}) {
        std::FILE *file = std::fopen(path.c_str(), "wb");
        Recorded<A> heap(file, 100, 16);
        auto hole = heap.allocate(30);
        heap.allocate(10), heap.allocate(8);
        check(heap.free(hole) && pass(heap, 1, 0, row.units, row.ranges).ranges == row.moved, "as many ranges as the budget allows");
        check(of(file, path) == "space 100 nodes 16 index 32\nalloc 30\nalloc 10\nalloc 8\nfree 1\ncompact 1 0 " + std::to_string(row.units) + " " + std::to_string(row.ranges) + "\n",
              "the budget as it was passed");
    }
}

template <class A, class H> static void made(A &space, std::vector<H> &held) {
    for (uint32_t size : {10u, 5u, 5u, 5u, 5u}) held.push_back(space.allocate(size));
    space.free(held[3]);
    space.free(held[1]);
}

static void beginnings(const std::string &path) {
    // used 0 to 10, free 10 to 15, used 15 to 20, free 20 to 25, used 25 to 30, free 30 to 100; the first of 5 units is the newer
    const std::string begun = "space 100 nodes 16 index 32\nat 0 15\nat 15 10\nat 25 75\nshrink 3 5\nshrink 2 5\nshrink 1 10\n#! begun\n";
    std::vector<uint8_t> bytes;
    {
        GuardedAllocator space = GuardedAllocator::withRealm(100, 16, 7);
        std::vector<Ticket> held;
        made(space, held);
        check(space.save(bytes), "a state");
        std::FILE *file = std::fopen(path.c_str(), "wb");
        Recorded<GuardedAllocator> copied(file, space.clone());
        check(copied->offsetOf(copied.allocate(5)) == 10 && copied.free(held[2]), "a copy");
        check(of(file, path) == begun + "alloc 5\nfree 2\n", "begins with a copy");
        file = std::fopen(path.c_str(), "wb");
        Recorded<GuardedAllocator> loaded(file, std::move(GuardedAllocator::load(bytes.data(), bytes.size()).space));
        check(loaded.free(held[4]), "a ticket from before");
        check(of(file, path) == begun + "free 3\n", "begins with a state");
    }
    {
        Allocator space(100, 16);
        std::vector<Allocation> held;
        made(space, held);
        std::FILE *file = std::fopen(path.c_str(), "wb");
        Recorded<Allocator> heap(file, std::move(space));
        heap.name("named");
        heap.frameEnd();
        heap.time(18446744073709551615u);
        heap.thread(3);
        heap.unit(256);
        heap.mark("a level\rnamed x");
        check(heap.allocateAt(90, 10).offset == 90 && heap.allocateAt(90, 1).offset == Allocation::NO_SPACE, "at a place");
        check(heap.raiseLimit(20) && !heap.raiseLimit(19) && heap->maxAllocs() == 20, "a larger limit");
        check(heap.free(held[0]), "an old handle");
        check(of(file, path) == begun + "# named\n#! frame\n#! time 18446744073709551615\n#! thread 3\n#! unit 256\n#! mark a level named x\nat 90 10\nat 90 1\n"
              "space 100 nodes 20 index 32\nat 0 15\nat 15 10\nat 25 65\nat 90 10\nshrink 3 5\nshrink 2 5\nshrink 1 10\n#! begun\nfree 1\n", "all lines");
    }
    // as many blocks as may be, of which only the first is free
    Allocator full(100, 4);
    Allocation first = full.allocateAt(0, 10), second = full.allocateAt(10, 20);
    check(second.offset == 10 && full.allocateAt(30, 70).offset == Allocation::NO_SPACE, "no node is left");
    full.free(first);
    std::FILE *file = std::fopen(path.c_str(), "wb");
    Recorded<Allocator> heap(file, std::move(full));
    check(!heap.isFailed() && heap.free(second), "it begins");
    check(of(file, path) == "space 100 nodes 4 index 32\nat 0 10\nat 10 90\nshrink 2 20\nfree 1\n#! begun\nfree 2\n", "the oldest first");
    // as many, of which only the first is free: from the end on
    Allocator last(100, 4);
    Allocation end = last.allocateAt(30, 70), before = last.allocateAt(10, 20);
    check(end.offset == 30 && before.offset == 10 && last.isFull(), "no node is left");
    file = std::fopen(path.c_str(), "wb");
    Recorded<Allocator> lower(file, std::move(last));
    check(!lower.isFailed() && lower.free(before), "it begins");
    check(of(file, path) == "space 100 nodes 4 index 32\nat 30 70\nat 10 20\n#! begun\nfree 2\n", "the last first");
    // a range of no units at the end of all units there can be
    Allocator empty(4294967295u, 100);
    check(empty.allocateTight(4294967295u).offset == 0 && !empty.extend(1), "all units");
    check(!Recorded<Allocator>(std::fopen("/dev/null", "w"), std::move(empty)).isFailed(), "a whole space");
}

// Names that ranges get after their grants.
static void named(const std::string &path) {
    std::FILE *file = std::fopen(path.c_str(), "wb");
    {
        GuardedAllocator space = GuardedAllocator::withRealm(100, 16, 7);
        Ticket first = space.allocate(10);
        Recorded<GuardedAllocator> heap(file, std::move(space));
        Ticket second = heap.allocate(20);
        heap.nameLive(first, "mesh: rock\rand moss");
        heap.nameLive(second, "second");
        check(heap.free(second), "freed");
        heap.nameLive(second, "gone");
        heap.nameLive(first, nullptr);
        heap.nameLive(first, "");
        heap.nameLive(first, "rock");
        check(!heap.isFailed(), "named");
    }
    check(of(file, path) == "space 100 nodes 16 index 32\nat 0 100\nshrink 1 10\n#! begun\nalloc 20\n#! name 1 mesh: rock and moss\n#! name 2 second\nfree 2\n#! name 1 rock\n", "the names");
    file = std::fopen(path.c_str(), "wb");
    {
        Recording recording(file);
        Recorded<GuardedAllocator> meshes(recording, 100, 8);
        Recorded<Allocator> textures(recording, 50, 8);
        Allocation texture = textures.allocate(5);
        meshes.allocate(6);
        textures.thread(2);
        textures.name("the next");
        textures.nameLive(texture, "texture");
        textures.allocate(7);
    }
    check(of(file, path) == "heap 0 space 100 nodes 8 index 32\nheap 1 space 50 nodes 8 index 32\nheap 1 alloc 5\nheap 0 alloc 6\n#! thread 2\n#! heap 1 name 1 texture\n"
          "# the next\nheap 1 alloc 7\n", "of one of several");
    file = std::fopen(path.c_str(), "wb");
    {
        RecordedHeaps heaps(file, Heaps::withRealm({100, 16, 2, 0}, 1));
        Place rock = heaps.allocate(60).place, moss = heaps.allocate(30).place;
        heaps.name("sky");
        Place sky = heaps.allocate(90).place;
        heaps.nameLive(rock, "rock");
        heaps.nameLive(moss, "moss");
        heaps.nameLive(moss, "moss,\rwet");
        heaps.nameLive(moss, nullptr);
        check(heaps.free(rock), "freed");
        heaps.nameLive(rock, "gone");
        check(sky.heap == 1 && heaps.shrink(moss, 5) && heaps.relocate(moss).heap == 1 && !heaps.isFailed(), "relocated");
    }
    check(of(file, path) == "heap 0 space 100 nodes 16 index 32\nheap 0 alloc 60\nheap 0 alloc 30\nheap 1 space 100 nodes 16 index 32\n# sky\nheap 1 alloc 90\n#! heap 0 name 1 rock\n"
          "#! heap 0 name 2 moss\n#! heap 0 name 2 moss, wet\nheap 0 free 1\nheap 0 shrink 2 5\n# moss, wet (of grant 2, heap 0)\nheap 1 alloc 5\n", "of many heaps");
}

static void several(const std::string &path) {
    std::FILE *file = std::fopen(path.c_str(), "wb");
    Recording recording(file);
    Recorded<GuardedAllocator> meshes(recording, 100, 8);
    recording.name("the\rtextures");
    Recorded<Allocator> textures(recording, 50, 8u);
    Recorded<GuardedAllocator> third(recording, GuardedAllocator::withRealm(9, 8, 5));
    check(third->realm() == 5, "the realm");
    meshes.name("mesh\nrock");
    meshes.unit(32);
    textures.unit(65536);
    recording.frameEnd();
    recording.time(18446744073709551615u);
    recording.mark("a\rlevel");
    textures.frameEnd();
    textures.name("lost");
    check(textures.allocateAligned(1, 0).offset == Allocation::NO_SPACE, "no alignment");
    check(textures.allocate(5).offset == 0 && meshes.allocate(20), "requests");
    check(meshes.raiseLimit(9) && meshes.makeRoom(70, [](Move) {}).possible, "room");
    check(of(file, path) == "heap 0 space 100 nodes 8 index 32\n# the textures\nheap 1 space 50 nodes 8 index 32\nheap 2 space 9 nodes 8 index 32\n#! unit 32 heap 0\n#! unit 65536 heap 1\n#! frame\n#! time 18446744073709551615\n#! mark a level\n#! frame\n# lost\n\n"
          "heap 1 alloc 5\n# mesh rock\nheap 0 alloc 20\nheap 0 space 100 nodes 9 index 32\nheap 0 at 0 100\nheap 0 shrink 1 20\n#! begun\nheap 0 room 70 1 1\n",
          "one file");
}

// Each heap of one file has the thread of its own calls, also where a line of another is between.
static void threads(const std::string &path) {
    std::FILE *file = std::fopen(path.c_str(), "wb");
    Recording *recording = new Recording(file);
    Recorded<GuardedAllocator> meshes(*recording, 100, 8), textures(*recording, 100, 8), sounds(*recording, 100, 8);
    sounds.allocate(1);
    meshes.thread(1);
    Ticket first = meshes.allocate(2);
    textures.thread(2);
    textures.name("texture");
    textures.allocate(3);
    // the heaps may outlive it
    delete recording;
    meshes.frameEnd();
    check(meshes.free(first), "freed");
    meshes.allocate(4);
    sounds.allocate(5);
    Recorded<GuardedAllocator> moved(std::move(textures));
    moved.allocate(6);
    moved.thread(2);
    moved.allocate(7);
    meshes.thread(2);
    meshes.allocate(8);
    moved.allocate(9);
    std::string text = of(file, path), heads = "heap 0 space 100 nodes 8 index 32\nheap 1 space 100 nodes 8 index 32\nheap 2 space 100 nodes 8 index 32\n";
    check(text == heads + "heap 2 alloc 1\n#! thread 1\nheap 0 alloc 2\n#! thread 2\n# texture\nheap 1 alloc 3\n#! thread 1\n#! frame\nheap 0 free 1\nheap 0 alloc 4\n"
          "heap 2 alloc 5\n#! thread 2\nheap 1 alloc 6\n#! thread 2\nheap 1 alloc 7\n#! thread 2\nheap 0 alloc 8\nheap 1 alloc 9\n",
          "the thread of each");
}

static void manyHeaps(const std::string &path) {
    std::FILE *file = std::fopen(path.c_str(), "wb");
    RecordedHeaps heaps(file, Heaps::withRealm({1000, 16, 2, 1}, 1));
    heaps.name("mesh: rock\nand moss");
    Granted rock = heaps.allocate(300);
    heaps.name("level");
    Granted big = heaps.allocateAligned(5001, 64);
    check(rock.isNew && big.place.heap == 2, "new heaps");
    heaps.frameEnd();
    check(!heaps.allocate(0) && heaps.allocateAligned(1, 0).refusal == HeapRefusal::badCall, "refused");
    heaps.name("too large");
    check(heaps.allocateAligned(5001, 8).refusal == HeapRefusal::full, "full");
    check(heaps.allocateAligned(24, 64).place.heap == 0, "aligned");
    Granted page = heaps.allocate(660);
    check(page.place.heap == 1 && !heaps.relocate(page.place).ticket, "no heap takes it");
    Place moved = heaps.relocateAligned(rock.place, 8);
    check(moved.heap == 1 && heaps->offsetOf(moved) == 664, "relocated");
    check(heaps.free(rock.place) && !heaps.free(rock.place) && !heaps.relocate(rock.place).ticket, "freed once");
    check(!heaps.dropHeap(1) && !heaps.dropHeap(7) && !heaps.giveUp(7) && heaps.free(big.place), "not empty");
    int dropped = 0;
    heaps.dropEmpty(0, [&](uint32 number) { dropped += number == 2; });
    check(dropped == 1 && heaps.giveUp(1) && heaps.allocate(900).place.heap == 1, "another heap of the number");
    heaps.reset();
    heaps.name("all of it");
    check(heaps.allocateTight(1000).place.heap == 0 && heaps.allocateTightAligned(8, 16).place.heap == 1, "filled");
    check(heaps.allocateTight(1001).isNew && heaps.allocateTightAligned(5000, 8).refusal == HeapRefusal::full, "a larger heap");
    check(heaps.extendHeap(1, 24) && !heaps.extendHeap(7, 1) && heaps->unitsOfHeap(1) == 1024, "extended");
    heaps.compact([](uint32, Move) {});
    heaps.unit(16);
    heaps.mark("end");
    check(!heaps.isFailed(), "to its end");
    check(of(file, path) == "heap 0 space 1000 nodes 16 index 32\n# mesh: rock and moss\nheap 0 alloc 300\nheap 2 space 5001 nodes 4 index 32\n# level\nheap 2 tight 5001\n"
          "#! frame\nnone alloc 0 empty\n# too large\nnone align 5001 8 full\nheap 0 align 24 64\nheap 1 space 1000 nodes 16 index 32\nheap 1 alloc 660\n"
          "none relocate 660 1\n# mesh: rock and moss (of grant 1, heap 0)\nheap 1 align 300 8\nheap 0 free 1\nnone free\nnone relocate\nheap 1 drop\n"
          "heap 2 free 1\nheap 2 drop\nheap 1 give up\nheap 1 space 1000 nodes 16 index 32\nheap 1 alloc 900\nheap 0 reset\nheap 1 reset\n# all of it\nheap 0 tight 1000\nheap 1 tight 8 16\n"
          "heap 2 space 1001 nodes 4 index 32\nheap 2 tight 1001\nnone tight 5000 8 full\nheap 1 extend 24\nheap 0 compact 1\nheap 1 compact 16\nheap 2 compact 1\n#! unit 16\n#! mark end\n", "the lines");
    RecordedHeaps none(nullptr, {1000, 16, 2, 1});
    check(none.isFailed() && none.allocate(10), "without a file calls go on");
}

// The lines of calls on one heap of many. tests/one_heap.rs of offset-allocator-recorded has the same.
static void onOneHeap(const std::string &path) {
    auto none = [](Move) {};
    std::FILE *file = std::fopen(path.c_str(), "wb");
    {
        HeapLimits limits(100, 16, 1, 0, 100, 8);
        RecordedHeaps heaps(file, Heaps::withRealm(limits, 1));
        std::vector<Place> places;
        for (int i = 0; i < 6; i++) {
            if (i < 5) heaps.name("mesh");
            places.push_back(heaps.allocate(10).place);
        }
        std::string after = "heap 0 space 100 nodes 16 index 32\n";
        for (int i = 0; i < 5; i++) after += "# mesh\nheap 0 alloc 10\n";
        after += "heap 0 alloc 10\n";
        check(read(path) == after, "calls of heaps alone");
        // six ranges and the free block behind them: of eight nodes one is left, and a request needs two
        RecordedHeap heap = heaps.at(0);
        heap.name("refused");
        check(!heap.allocate(10) && !heap.allocateAt(60, 1), "no node");
        const std::string ranges = "heap 0 at 0 10\nheap 0 at 10 10\nheap 0 at 20 10\nheap 0 at 30 10\nheap 0 at 40 10\n";
        after += "heap 0 space 100 nodes 8 index 32\n" + ranges + "heap 0 at 50 50\nheap 0 shrink 6 10\n#! begun\n# refused\nheap 0 alloc 10\nheap 0 at 60 1\n";
        check(read(path) == after, "a heap with few nodes begins anew");
        // a call of heaps that is granted there raises the limit: what it has from now on, and as it was before
        heaps.name("granted");
        Granted granted = heaps.allocate(30);
        check(granted.place.heap == 0 && heaps->offsetOf(granted.place) == 60 && heap->maxAllocs() == 16, "a larger limit");
        after += "heap 0 space 100 nodes 16 index 32\n" + ranges + "heap 0 at 50 10\nheap 0 at 60 40\nheap 0 shrink 7 30\nheap 0 free 7\n#! begun\n# granted\nheap 0 alloc 30\n";
        check(read(path) == after, "and begins with the larger");
        // with room for more it does not begin anew
        check(!heap.allocate(11) && heap.allocateTight(9), "requests");
        after += "heap 0 alloc 11\nheap 0 tight 9\n";
        // where the number has no heap nothing is written, and a name is that of no other call
        RecordedHeap gone = heaps.at(1);
        gone.name("lost");
        check(heap && !gone && gone.number() == 1 && !gone.allocate(1) && !gone.free(places[0].ticket) && !gone.extend(1), "no heap");
        check(!gone.retract(0) && !gone.compact(none) && !gone.makeRoomUnaligned(1, none).possible && !gone.relocate(places[0].ticket), "nor moves");
        gone.reset();
        heap.nameLive(places[2].ticket, "one\rmore");
        heap.nameLive(places[2].ticket, " \t");
        heap.nameLive(Ticket(), "gone");
        check(heap.free(places[5].ticket) && !heap.free(places[5].ticket) && heap.allocate(10), "freed once");
        check(!heaps.isFailed() && read(path) == after + "#! heap 0 name 3 one more\nheap 0 free 6\nheap 0 free 0\nheap 0 alloc 10\n", "all lines");
    }
    std::fclose(file);

    // an extension that raises the limit is as it was
    file = std::fopen(path.c_str(), "wb");
    {
        HeapLimits limits(60, 16, 1, 0, 60, 8);
        RecordedHeaps heaps(file, Heaps::withRealm(limits, 1));
        std::vector<Place> places;
        for (uint32 size : {10u, 10u, 10u, 10u, 8u, 12u}) places.push_back(heaps.allocateTight(size).place);
        check(heaps.free(places[0]), "freed");
        const size_t before = read(path).size();
        check(heaps.at(0).allocateTight(9) && !heaps.at(0).extend(5) && heaps.extendHeap(0, 5), "extended");
        check(read(path).substr(before) == "heap 0 space 60 nodes 8 index 32\nheap 0 at 48 12\nheap 0 at 40 8\nheap 0 at 30 10\nheap 0 at 20 10\nheap 0 at 10 10\n#! begun\n"
              "heap 0 tight 9\nheap 0 extend 5\nheap 0 space 65 nodes 16 index 32\nheap 0 at 0 10\nheap 0 at 10 10\nheap 0 at 20 10\nheap 0 at 30 10\nheap 0 at 40 8\n"
              "heap 0 at 48 17\nheap 0 shrink 6 12\nheap 0 shrink 1 9\nheap 0 retract 5\n#! begun\nheap 0 extend 5\n",
              "extended as it was");
    }
    std::fclose(file);

    // and room of heaps is made with the nodes that there are: of eight seven are used
    file = std::fopen(path.c_str(), "wb");
    {
        HeapLimits limits(60, 16, 1, 0, 60, 8);
        RecordedHeaps heaps(file, Heaps::withRealm(limits, 1));
        std::vector<Place> places;
        for (int i = 0; i < 6; i++) places.push_back(heaps.allocate(10).place);
        check(heaps.free(places[1]) && heaps.free(places[3]) && heaps.allocate(5) && !heaps.makeRoomAligned(0, 9, 0, none).possible, "no alignment");
        heaps.mark("here");
        check(heaps.makeRoom(0, 15, none).possible, "room");
    }
    check(of(file, path) == "heap 0 space 60 nodes 16 index 32\nheap 0 alloc 10\nheap 0 alloc 10\nheap 0 alloc 10\nheap 0 alloc 10\nheap 0 alloc 10\nheap 0 alloc 10\nheap 0 free 2\nheap 0 free 4\nheap 0 alloc 5\n"
          "#! mark here\nheap 0 space 60 nodes 8 index 32\nheap 0 at 0 20\nheap 0 at 20 10\nheap 0 at 30 10\nheap 0 at 40 10\nheap 0 at 50 10\nheap 0 shrink 1 10\nheap 0 shrink 3 5\n#! begun\nheap 0 room 15 1 1\n",
          "room of a heap with few nodes");

    // a name is that of the next request
    file = std::fopen(path.c_str(), "wb");
    {
        RecordedHeaps heaps(file, Heaps::withRealm({100, 16, 1, 0}, 1));
        heaps.allocate(10);
        RecordedHeap heap = heaps.at(0);
        heap.name("kept");
        heap.compactUnaligned(none);
        Ticket mesh = heap.allocate(5);
        heap.name("lost");
        check(!heap.allocateAligned(1, 0) && heap.allocate(3), "no alignment");
        heap.name("lost");
        check(!heap.compactBy(0, none) && heap.allocate(3), "no step");
        heap.nameLive(mesh, "mesh\nof level 2");
        Place place = heap.place(mesh);
        check(heap.number() == 0 && heap->size() == 100 && place.heap == 0 && (*heap).isLive(mesh), "questions");
        // and of the calls of heaps
        heap.name("of heaps");
        check(heaps.free(place) && heaps.allocate(1), "a call of heaps");
        // a retraction that is not done is not written, and one that is, is
        check(!heap.retract(1) && heap.extend(20) && heap.retract(20) && !heap.retract(1), "the end");
        check(heap.raiseStep(4) && heap.compact(none) && heap.makeRoom(10, none).possible, "by its step");
        heap.reset();
        heap.compactUnaligned(none);
    }
    check(of(file, path) == "heap 0 space 100 nodes 16 index 32\nheap 0 alloc 10\nheap 0 compact\n# kept\nheap 0 alloc 5\nheap 0 alloc 3\nheap 0 alloc 3\n#! heap 0 name 2 mesh of level 2\n"
          "heap 0 free 2\n# of heaps\nheap 0 alloc 1\nheap 0 extend 20\nheap 0 retract 20\nheap 0 compact 4\nheap 0 room 10 1 4\nheap 0 reset\nheap 0 compact\n", "the names");

    // a heap that is dropped, and made again; and heaps that there are
    file = std::fopen(path.c_str(), "wb");
    {
        Heaps made = Heaps::withRealm({100, 16, 1, 1}, 1);
        Place level = made.allocate(150).place;
        RecordedHeaps heaps(file, std::move(made));
        RecordedHeap larger = heaps.at(1), heap = heaps.at(0);
        check(larger.free(level.ticket) && larger.allocateAt(50, 20) && !heap && !heap.allocate(1), "a larger heap");
        Place first = heaps.allocate(90).place;
        check(heap.free(first.ticket) && heaps.dropHeap(0) && !heap && !heap.allocate(1), "dropped");
        check(heaps.allocate(60).place.heap == heap.number() && heap && heap.allocateAligned(30, 10), "made again");
    }
    check(of(file, path) == "heap 1 space 150 nodes 4 index 32\nheap 1 at 0 150\n#! begun\nheap 1 free 1\nheap 1 at 50 20\nheap 0 space 100 nodes 16 index 32\nheap 0 alloc 90\nheap 0 free 1\nheap 0 drop\n"
          "heap 0 space 100 nodes 16 index 32\nheap 0 alloc 60\nheap 0 align 30 10\n", "heaps that come and go");

    // a second range in another heap has the name of the first, which is not where that came from, nor blanks
    file = std::fopen(path.c_str(), "wb");
    {
        RecordedHeaps heaps(file, Heaps::withRealm({100, 16, 3, 0}, 1));
        Place held[5];
        const uint32 sizes[] = {70, 25, 40, 55, 10};
        for (int i = 0; i < 5; i++) held[i] = heaps.allocate(sizes[i]).place;
        RecordedHeap heap = heaps.at(2);
        heap.name("rock");
        Place rock = heap.place(heap.allocate(7));
        heap.name(" ");
        Place moss = heap.place(heap.allocate(6));
        heap.nameLive(rock.ticket, "\t ");
        check(held[1].heap == 0 && held[3].heap == 1 && held[4].heap == 2 && heaps.free(held[3]), "three heaps");
        Place second = heaps.relocate(held[4]), other = heaps.relocate(rock);
        check(second.heap == 1 && other.heap == 1 && heaps.relocate(moss).heap == 1 && heaps.free(held[1]), "to the second");
        check(heaps.relocate(second).heap == 0 && heaps.relocate(other).heap == 0, "to the first");
    }
    check(of(file, path) == "heap 0 space 100 nodes 16 index 32\nheap 0 alloc 70\nheap 0 alloc 25\nheap 1 space 100 nodes 16 index 32\nheap 1 alloc 40\nheap 1 alloc 55\n"
          "heap 2 space 100 nodes 16 index 32\nheap 2 alloc 10\n# rock\nheap 2 alloc 7\n#  \nheap 2 alloc 6\nheap 1 free 2\n# (of grant 1, heap 2)\nheap 1 alloc 10\n"
          "# rock (of grant 2, heap 2)\nheap 1 alloc 7\n# (of grant 3, heap 2)\nheap 1 alloc 6\nheap 0 free 2\n# (of grant 3, heap 1)\nheap 0 alloc 10\n"
          "# rock (of grant 2, heap 2) (of grant 4, heap 1)\nheap 0 alloc 7\n", "names of second ranges");

    // without a file calls go on, and on a full disk
    RecordedHeaps unwritten(nullptr, {1000, 16, 2, 1});
    check(unwritten.allocate(10) && unwritten.at(0).allocate(10) && unwritten.at(0)->liveUnits() == 20, "calls go on");
    std::FILE *full = std::fopen("/dev/full", "w");
    if (full) {
        RecordedHeaps lost(full, {1000, 16, 2, 1});
        Granted granted = lost.allocate(10);
        lost.nameLive(granted.place, "lost");
        check(granted && lost.isFailed() && lost.at(0).free(granted.place.ticket) && lost.at(0).allocate(5), "calls go on");
        std::fclose(full);
    }
}

static uint32_t below(uint64_t &state, uint32_t n) {
    state = state * 6364136223846793005u + 1442695040888963407u;
    return uint32_t((state >> 33) % n);
}

// a power of two, or any number
static uint32_t alignment(uint64_t &state, uint32_t bits) {
    if (below(state, 2)) return 1u << below(state, bits);
    return 1 + below(state, 1u << bits);
}

// Whether each free block begins the space, from the last of the lists of bins to the first: docs/STATES.md has the form.
template <class A> static void frees(const A &space, std::vector<bool> &order) {
    std::vector<uint8_t> bytes;
    check(space.save(bytes), "a state");
    size_t at = bytes[0] == 'O' && bytes[1] == 'A' && bytes[2] == 'T' ? 8 * (7 + size_t(bytes[16] | bytes[17] << 8)) : 0;
    auto word = [&](size_t i) { return uint32_t(bytes[at + 4 * i] | bytes[at + 4 * i + 1] << 8 | bytes[at + 4 * i + 2] << 16) | uint32_t(bytes[at + 4 * i + 3]) << 24; };
    uint32_t count = word(4), free = word(5), first = word(7 + 2 * (count - 1));
    for (uint32_t i = free; i-- > 0;) order.push_back(word(7 + 2 * count + i) == first);
}

// The answer of a call that makes room or compacts by the step of tickets, and of handles by none.
static const char *compacted(Recorded<Allocator> &heap) {
    heap.compact([](Move) {});
    return "compacted\n";
}
static const char *compacted(Recorded<GuardedAllocator> &heap) {
    bool has = heap->step() != 0, done = heap.compact([](Move) {});
    check(has || !done, "nothing moves without a step");
    return done ? "compacted\n" : has ? "none\n" : "";
}
static bool hasStep(const Allocator &) { return true; }
static bool hasStep(const GuardedAllocator &space) { return space.step() != 0; }
// What tickets have besides, kind of 5: a call by the step, or one without. Whether it is one of those with a cost, and its cost.
static bool besides(Recorded<Allocator> &, uint64_t &, RoomCost &, Progress &, int &) { return false; }
static bool besides(Recorded<GuardedAllocator> &heap, uint64_t &state, RoomCost &cost, Progress &progress, int &kind) {
    kind = int(below(state, 4));
    if (kind == 0) cost = heap.makeRoomAligned(below(state, 3000), alignment(state, 5), [](Move) {});
    if (kind == 1) cost = heap.makeRoomUnaligned(below(state, 3000), [](Move) {});
    if (kind == 2) progress = heap.compactWithin(below(state, 3000), below(state, 500), below(state, 9), [](Move) {});
    if (kind == 3) heap.compactUnaligned([](Move) {});
    return true;
}

template <class A, class H> static void randomCalls(uint64_t seed, const std::string &path) {
    uint64_t state = seed;
    std::FILE *file = std::fopen((path + ".script").c_str(), "wb"), *answers = std::fopen((path + ".answers").c_str(), "wb");
    uint32_t grants = 0;
    std::vector<H> live;
    {
        Recorded<A> heap(file, 100 + below(state, 5000), 4 + below(state, 60));
        auto granted = [&](H found) {
            if (detail::isGranted(found)) {
                live.push_back(found);
                std::fprintf(answers, "grant %u at ", ++grants);
                for (Block block : heap->blocks())
                    if (block.used && block.allocation.metadata == detail::nameOf(found)) std::fprintf(answers, "%u\n", block.offset);
            } else std::fputs("none\n", answers);
        };
        for (int i = 0; i < 500; i++) {
            auto room = [&](RoomCost cost) {
                if (cost.possible) std::fprintf(answers, "ranges %u units %u\n", cost.ranges, cost.units);
                else std::fputs("none\n", answers);
            };
            auto passed = [&](Progress progress) {
                if (!progress.done) std::fputs("none\n", answers);
                else if (!progress.more) std::fprintf(answers, "ranges %u units %u end\n", progress.ranges, progress.units);
                else std::fprintf(answers, "ranges %u units %u next %u\n", progress.ranges, progress.units, progress.next);
            };
            const bool has = hasStep(*heap);
            uint32_t kind = below(state, 28);
            if (kind >= 26) {
                RoomCost cost = {false, 0, 0};
                Progress progress = {false, false, 0, 0, 0};
                int of = 0;
                if (!besides(heap, state, cost, progress, of)) continue;
                if (of == 1 || (of == 0 && has)) room(cost);
                if (of == 2 && has) passed(progress);
                if (of == 3) std::fputs("compacted\n", answers);
                check(has || (of != 0 && of != 2) || (!cost.possible && !progress.done), "nothing moves without a step");
            } else if (kind == 25) {
                granted(heap.allocateAt(below(state, 5000), below(state, 100)));
            } else if (kind == 24) {
                // another space takes the place of this one: each live range is a grant, and so is a free block at the start
                bool isFirstFree = false, hasEmpty = false;
                uint32_t free = 0;
                std::vector<uint32_t> offsets;
                for (Block block : heap->blocks()) {
                    hasEmpty = hasEmpty || block.size == 0;
                    isFirstFree = isFirstFree || (!block.used && block.offset == 0);
                    if (block.used) offsets.push_back(block.offset);
                    else free++;
                }
                // of ranges without units the lines are not worked out here
                if (hasEmpty || offsets.empty()) {
                    i--;
                    continue;
                }
                check(heap.raiseLimit(heap->maxAllocs() + below(state, 5)), "a larger limit");
                std::reverse(offsets.begin(), offsets.end());
                bool isFromTheEnd = isFirstFree && free == 1;
                if (isFirstFree && !isFromTheEnd) offsets.insert(offsets.begin(), 0);
                if (isFromTheEnd) std::reverse(offsets.begin(), offsets.end());
                grants = 0;
                for (uint32_t offset : offsets) std::fprintf(answers, "grant %u at %u\n", ++grants, offset);
                // free blocks in the order of their classes, the largest first: all but the first shrink a range
                if (!isFromTheEnd) {
                    std::vector<bool> order;
                    frees(*heap, order);
                    for (bool isFirst : order) std::fputs(isFirst ? "freed\n" : "shrunk\n", answers);
                }
            } else if (kind < 8 || live.empty()) {
                granted(kind < 2 ? heap.allocateAligned(below(state, 200), alignment(state, 7)) : heap.allocate(below(state, 300)));
            } else if (kind == 23) {
                const uint32_t step = 1 + below(state, 20), from = below(state, 3000), units = below(state, 500), ranges = below(state, 9);
                passed(pass(heap, step, from, units, ranges));
            } else if (kind == 22) {
                room(heap.makeRoomBy(below(state, 3000), alignment(state, 5), 1 + below(state, 40), [](Move) {}));
            } else if (kind == 21) {
                RoomCost cost = heap.makeRoom(below(state, 3000), [](Move) {});
                if (has) room(cost);
            } else if (kind == 20) {
                std::fputs(heap.retract(below(state, 20)) ? "retracted\n" : "none\n", answers);
            } else if (kind == 19) {
                H second = heap.relocate(live[below(state, uint32_t(live.size()))]);
                if (has) granted(second);
            } else if (kind == 18) {
                granted(below(state, 2) ? heap.allocateTight(below(state, 300)) : heap.allocateTightAligned(below(state, 200), alignment(state, 7)));
            } else if (kind == 17) {
                std::fputs(heap.compactBy(1 + below(state, 99), [](Move) {}) ? "compacted\n" : "none\n", answers);
            } else if (kind == 16) {
                granted(heap.relocateAligned(live[below(state, uint32_t(live.size()))], alignment(state, 7)));
            } else if (kind == 15) {
                std::fputs(compacted(heap), answers);
            } else if (kind == 14) {
                std::fputs(heap.extend(below(state, 20)) ? "extended\n" : "none\n", answers);
            } else {
                size_t at = below(state, uint32_t(live.size()));
                if (kind < 12) {
                    std::fputs(heap.free(live[at]) ? "freed\n" : "gone\n", answers);
                    live.erase(live.begin() + long(at));
                } else if (kind == 12) {
                    std::fputs(heap.shrink(live[at], 0) ? "shrunk\n" : "none\n", answers);
                } else {
                    std::fputs(heap.growInPlace(live[at], 300 + below(state, 100)) ? "grown\n" : "none\n", answers);
                }
            }
        }
        check(!heap.isFailed(), "a recording to its end");
    }
    std::fclose(file);
    std::fclose(answers);
}

// Random calls on heaps that may have been there before; a grant is known by its heap and its offset.
static void randomHeaps(uint64_t seed, const std::string &path) {
    uint64_t state = seed;
    std::FILE *file = std::fopen((path + ".script").c_str(), "wb"), *answers = std::fopen((path + ".answers").c_str(), "wb");
    HeapLimits limits = {200 + below(state, 2000), 4 + below(state, 30), below(state, 5), below(state, 4)};
    // of some the first heaps are small
    if (seed % 3 == 0) limits.firstSize = 1 + limits.size / 9;
    Heaps made = Heaps::withRealm(limits, 3);
    std::vector<Place> places;
    if (seed % 2)
        for (int i = 0; i < 20; i++) {
            Granted granted = made.allocate(1 + below(state, limits.size / 4));
            if (granted) places.push_back(granted.place);
            if (i % 3 == 2 && !places.empty()) made.free(places[below(state, uint32_t(places.size()))]);
        }
    {
        RecordedHeaps heaps(file, std::move(made));
        for (int i = 0; i < 300; i++) {
            uint32_t kind = below(state, 12);
            Place place = places.empty() ? Place() : places[below(state, uint32_t(places.size()))];
            if (kind < 6) {
                Granted granted = heaps.allocateAligned(below(state, limits.size) * (1 + below(state, 2)), alignment(state, 6));
                if (granted) places.push_back(granted.place);
                if (granted) std::fprintf(answers, "heap %u at %u\n", granted.place.heap, heaps->offsetOf(granted.place));
                else std::fputs("none\n", answers);
            } else if (kind < 9) {
                bool freed = heaps.free(place);
                if (freed) std::fprintf(answers, "heap %u freed\n", place.heap);
                else std::fputs("gone\n", answers);
            } else if (kind < 11) {
                bool isLive = heaps->isLive(place);
                Place second = heaps.relocateAligned(place, alignment(state, 4));
                if (second.ticket) places.push_back(second);
                if (second.ticket) std::fprintf(answers, "heap %u at %u\n", second.heap, heaps->offsetOf(second));
                else std::fputs(isLive ? "none\n" : "gone\n", answers);
            } else {
                uint32_t number = below(state, 9);
                if (below(state, 2)) {
                    if (heaps.giveUp(number)) std::fprintf(answers, "heap %u given up\n", number);
                } else heaps.dropEmpty(below(state, 2), [&](uint32 dropped) { std::fprintf(answers, "heap %u dropped\n", dropped); });
            }
        }
        check(!heaps.isFailed(), "a recording to its end");
    }
    std::fclose(file);
    std::fclose(answers);
}

// Random calls on one space with tickets, as tests/random_calls of offset-allocator-recorded draws them.
enum class Of {
    allocate, aligned, tight, tightAligned, at, free, shrink, grow, relocate, relocateAligned, relocateUnaligned, compact, compactBy,
    compactUnaligned, within, withinBy, room, roomAligned, roomBy, roomUnaligned, extend, retract, raiseStep, reset
};
struct Call {
    Of of;
    uint32_t n, align, step, offset, ranges;
};

static Call randomCall(uint64_t &state, uint32_t size) {
    static const struct Kind {
        uint32_t last;
        Of of;
    } kinds[] = {{17, Of::allocate}, {25, Of::aligned}, {29, Of::tight}, {33, Of::tightAligned}, {38, Of::at}, {58, Of::free}, {62, Of::shrink}, {66, Of::grow},
                 {69, Of::relocate}, {71, Of::relocateAligned}, {72, Of::relocateUnaligned}, {75, Of::compact}, {77, Of::compactBy}, {78, Of::compactUnaligned},
                 {81, Of::within}, {83, Of::withinBy}, {86, Of::room}, {88, Of::roomAligned}, {90, Of::roomBy}, {92, Of::roomUnaligned}, {95, Of::extend},
                 {96, Of::retract}, {98, Of::raiseStep}, {99, Of::reset}};
    static const uint32_t steps[] = {1, 2, 4, 16, 256};
    const uint32_t n = below(state, size / 3 + 2), align = 1 + below(state, 20), step = steps[below(state, 5)], drawn = below(state, 100);
    const Kind *kind = kinds;
    while (kind->last < drawn) kind++;
    Call call = {kind->of, n, align, step, 0, 0};
    if (call.of == Of::at || call.of == Of::shrink) call.n = n / 4;
    if (call.of == Of::at || call.of == Of::within || call.of == Of::withinBy) call.offset = below(state, size);
    if (call.of == Of::within || call.of == Of::withinBy) call.ranges = below(state, 4);
    if (call.of == Of::extend || call.of == Of::retract) call.n = below(state, 60);
    return call;
}

// Makes a call with a ticket, and returns what it is answered where it writes a line; what it grants goes into a list. The calls of
// a recorded space, and of one heap of many, have the same names.
template <class H> static std::string answered(H &heap, const Call &call, Ticket ticket, std::vector<Ticket> &granted) {
    const auto none = [](Move) {};
    const bool hasStep = heap->step() != 0, isLive = heap->isLive(ticket);
    const auto grant = [&](Ticket found) -> std::string {
        if (!found) return "none";
        granted.push_back(found);
        return "at " + std::to_string(heap->offsetOf(found));
    };
    const auto second = [&](Ticket found) -> std::string { return isLive ? grant(found) : "gone"; };
    const auto done = [](const char *word, bool isDone) -> std::string { return isDone ? word : "none"; };
    const auto resized = [&](const char *word, bool isDone) { return isLive ? done(word, isDone) : "gone"; };
    const auto room = [](RoomCost cost) -> std::string {
        return cost.possible ? "ranges " + std::to_string(cost.ranges) + " units " + std::to_string(cost.units) : "none";
    };
    const auto passed = [](Progress it) -> std::string {
        if (!it.done) return "none";
        return "ranges " + std::to_string(it.ranges) + " units " + std::to_string(it.units) + (it.more ? " next " + std::to_string(it.next) : " end");
    };
    const auto byStep = [&](const std::string &answer) { return hasStep ? answer : ""; };
    switch (call.of) {
    case Of::allocate: return grant(heap.allocate(call.n));
    case Of::aligned: return grant(heap.allocateAligned(call.n, call.align));
    case Of::tight: return grant(heap.allocateTight(call.n));
    case Of::tightAligned: return grant(heap.allocateTightAligned(call.n, call.align));
    case Of::at: return grant(heap.allocateAt(call.offset, call.n));
    case Of::free: return heap.free(ticket) ? "freed" : "gone";
    case Of::shrink: return resized("shrunk", heap.shrink(ticket, call.n));
    case Of::grow: return resized("grown", heap.growInPlace(ticket, call.n));
    case Of::relocate: {
        const std::string answer = second(heap.relocate(ticket));
        return isLive ? byStep(answer) : answer;
    }
    case Of::relocateAligned: return second(heap.relocateAligned(ticket, call.align));
    case Of::relocateUnaligned: return second(heap.relocateUnaligned(ticket));
    case Of::compact: return byStep(done("compacted", heap.compact(none)));
    case Of::compactBy: return done("compacted", heap.compactBy(call.step, none));
    case Of::compactUnaligned: heap.compactUnaligned(none); return "compacted";
    case Of::within: return byStep(passed(heap.compactWithin(call.offset, call.n, call.ranges, none)));
    case Of::withinBy: return passed(heap.compactWithinBy(call.step, call.offset, call.n, call.ranges, none));
    case Of::room: return byStep(room(heap.makeRoom(call.n, none)));
    case Of::roomAligned: return byStep(room(heap.makeRoomAligned(call.n, call.align, none)));
    case Of::roomBy: return room(heap.makeRoomBy(call.n, call.align, call.step, none));
    case Of::roomUnaligned: return room(heap.makeRoomUnaligned(call.n, none));
    case Of::extend: return done("extended", heap.extend(call.n));
    case Of::retract: return heap.retract(call.n) ? "retracted" : "";
    case Of::raiseStep: heap.raiseStep(call.step); return "";
    case Of::reset: heap.reset(); return "reset";
    }
    return "";
}

// A space, and the one heap of many that has its size and nodes, are given the same calls: both write the same lines.
static void besideASpace(uint64_t seed, const std::string &path) {
    uint64_t state = seed;
    const uint32_t size = 50 + below(state, 1000), nodes = 8 + below(state, 30);
    std::FILE *one = std::fopen(path.c_str(), "wb"), *many = std::fopen((path + "-many").c_str(), "wb");
    {
        Recorded<GuardedAllocator> space(one, GuardedAllocator::withRealm(size, nodes, 1));
        Heaps made = Heaps::withRealm({size, nodes, 1, 0}, 1);
        check(made.free(made.allocate(1).place), "an empty heap");
        RecordedHeaps heaps(many, std::move(made));
        RecordedHeap heap = heaps.at(0);
        std::vector<Ticket> ofOne, ofMany;
        for (int i = 0; i < 200; i++) {
            Call call = randomCall(state, size);
            // a space may give up what a heap keeps, and has a line also where it is not done: that is another test
            if (call.of == Of::retract && (call.n > space->size() - size || !space->clone().retract(call.n))) call.of = Of::compact;
            const size_t which = below(state, uint32_t(ofOne.size()) + 1);
            if (i % 3 == 0 && (call.of == Of::allocate || call.of == Of::at || call.of == Of::relocateAligned)) {
                space.name(("call " + std::to_string(i)).c_str());
                heap.name(("call " + std::to_string(i)).c_str());
            }
            const Ticket first = which < ofOne.size() ? ofOne[which] : Ticket(), second = which < ofMany.size() ? ofMany[which] : Ticket();
            check(answered(space, call, first, ofOne) == answered(heap, call, second, ofMany), "a heap answers as a space");
            if (i % 20 == 19 && !ofOne.empty()) {
                space.nameLive(ofOne.back(), "the last");
                heap.nameLive(ofMany.back(), "the last");
            }
        }
        check(!space.isFailed() && !heaps.isFailed() && space->json() == heap->json(), "the same space");
    }
    const std::string lines = of(one, path);
    std::string behind;
    for (size_t at = 0, end; at < lines.size(); at = end + 1) {
        end = lines.find('\n', at);
        const std::string line = lines.substr(at, end + 1 - at);
        if (line.compare(0, 8, "#! name ") == 0) behind += "#! heap 0 name " + line.substr(8);
        else behind += (line[0] == '#' ? "" : "heap 0 ") + line;
        if (at == 0) behind += "#! begun\n";
    }
    check(of(many, path + "-many") == behind, "the lines of a space");
}

// Random calls of heaps, and on them; a grant is known by its heap and its offset. Rust writes the same by
// `cargo run --example one_heap` of offset-allocator-recorded.
static void randomAt(uint64_t seed, const std::string &path) {
    uint64_t state = seed;
    std::FILE *file = std::fopen((path + ".script").c_str(), "wb"), *answers = std::fopen((path + ".answers").c_str(), "wb");
    const uint32_t maxAllocs = 8 + below(state, 40), size = 100 + below(state, 1000), most = 1 + below(state, 4), larger = below(state, 3);
    HeapLimits limits(size, maxAllocs, most, larger, size, seed % 4 == 0 ? maxAllocs : 8);
    // what was given, by the end of the line
    std::map<long, std::string> given;
    {
        RecordedHeaps heaps(file, Heaps::withRealm(limits, 3));
        std::vector<Place> places;
        for (int i = 0; i < 250; i++) {
            const bool isNamed = below(state, 9) == 0;
            size_t which = below(state, uint32_t(places.size()) + 1);
            if (isNamed && which < places.size()) heaps.nameLive(places[which], ("range " + std::to_string(i)).c_str());
            const long before = std::ftell(file);
            which = below(state, uint32_t(places.size()) + 1);
            const bool isSome = which < places.size();
            const Place place = isSome ? places[which] : Place();
            if (below(state, 4) == 0) heaps.name(("call " + std::to_string(i)).c_str());
            std::string answer;
            const auto done = [&](const char *word, bool isDone) { answer = isDone ? "heap " + std::to_string(place.heap) + " " + word : ""; };
            const auto grant = [&](const Place &found) {
                places.push_back(found);
                answer = "heap " + std::to_string(found.heap) + " at " + std::to_string(heaps->offsetOf(found));
            };
            const uint32_t kind = below(state, 10);
            if (kind < 2) {
                const uint32_t n = 1 + below(state, size / 2), align = 1 + below(state, 9);
                const Granted found = below(state, 3) == 0 ? heaps.allocateTightAligned(n, align) : heaps.allocateAligned(n, align);
                answer = "none";
                if (found) grant(found.place);
            } else if (kind == 2 && isSome) {
                done("freed", heaps.free(place));
                if (answer.empty()) answer = "gone";
            } else if (kind == 3 && isSome) {
                const uint32_t of = below(state, 6);
                if (of == 0) done("shrunk", heaps.shrink(place, below(state, 20)));
                else if (of == 1) done("grown", heaps.growInPlace(place, below(state, 90)));
                else if (of == 2) done("extended", heaps.extendHeap(place.heap, below(state, 40)));
                else if (of == 3) done("compacted", heaps.compactHeap(place.heap, [](Move) {}));
                else if (of == 4) {
                    const uint32_t n = below(state, size), align = 1 + below(state, 9);
                    const RoomCost cost = heaps.makeRoomAligned(place.heap, n, align, [](Move) {});
                    done(("ranges " + std::to_string(cost.ranges) + " units " + std::to_string(cost.units)).c_str(), cost.possible);
                } else {
                    answer = heaps->isLive(place) ? "none" : "gone";
                    const Place second = heaps.relocateAligned(place, 1 + below(state, 9));
                    if (second.ticket) grant(second);
                }
            } else if (kind == 4 && below(state, 20) == 0) {
                if (heaps.giveUp(0)) answer = "heap 0 given up";
            } else {
                const uint32_t number = below(state, most + larger);
                Call call = randomCall(state, size);
                // a range of no units with no node left cannot begin anew: that is another test
                const bool isOfUnits = call.of == Of::allocate || call.of == Of::aligned || call.of == Of::tight || call.of == Of::tightAligned || call.of == Of::at || call.of == Of::shrink;
                if (isOfUnits && call.n == 0) call.of = Of::compact;
                RecordedHeap heap = heaps.at(number);
                std::vector<Ticket> granted;
                if (heap) answer = answered(heap, call, isSome && place.heap == number ? place.ticket : Ticket(), granted);
                for (Ticket ticket : granted) places.push_back(heap.place(ticket));
                if (!answer.empty()) answer = "heap " + std::to_string(number) + " " + answer;
            }
            const long now = std::ftell(file);
            check(answer.empty() || (now > before && given.insert({now, answer}).second), "a line for each answer");
        }
        check(!heaps.isFailed(), "a recording to its end");
    }
    const std::string lines = of(file, path + ".script");
    for (size_t at = 0, end; at < lines.size(); at = end + 1) {
        end = lines.find('\n', at);
        const std::string line = lines.substr(at, end - at);
        if (line[0] == '#' || line.find(" space ") != std::string::npos) continue;
        const auto found = given.find(long(end + 1));
        std::fprintf(answers, "%s\n", found == given.end() ? "?" : found->second.c_str());
    }
    std::fclose(answers);
}

int main(int, char **arguments) {
    std::string folder = arguments[1];
    byHand(folder + "/hand.script");
    byTheStep(folder + "/step.script");
    budgets<Allocator>(folder + "/budgets.script");
    budgets<GuardedAllocator>(folder + "/budgets.script");
    beginnings(folder + "/begun.script");
    named(folder + "/named.script");
    several(folder + "/several.script");
    threads(folder + "/threads.script");
    manyHeaps(folder + "/many.script");
    onOneHeap(folder + "/one-heap.script");
    for (unsigned i = 0; i < 50; i++) besideASpace(i, folder + "/beside.script");
    for (unsigned i = 0; i < 40; i++) randomAt(i, folder + "/at-" + std::to_string(i));
    for (unsigned i = 0; i < 20; i++) randomHeaps(i + 1, folder + "/heaps-" + std::to_string(i));
    for (unsigned i = 0; i < 20; i++) {
        if (i % 2) randomCalls<Allocator, Allocation>(i + 1, folder + "/" + std::to_string(i));
        else randomCalls<GuardedAllocator, Ticket>(i + 1, folder + "/" + std::to_string(i));
    }
}
