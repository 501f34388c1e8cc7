// The calls of offsetAllocatorHeaps.hpp: a store of buffers that grows, has one of its own for what is large, and shrinks.
#include "offsetAllocatorHeaps.hpp"

#include <cstdio>
#include <cstdlib>
#include <map>
#include <string>
#include <type_traits>
#include <utility>
#include <vector>

using namespace OffsetAllocator;

static int checks;
#define CHECK(x) do { checks++; if (!(x)) { std::fprintf(stderr, "%s:%d: not so: %s\n", __FILE__, __LINE__, #x); std::exit(1); } } while (0)

static_assert(!std::is_copy_constructible<Heaps>::value, "heaps are not copied");
static_assert(std::is_nothrow_move_constructible<Heaps>::value && std::is_nothrow_move_assignable<Heaps>::value, "they are moved");
static_assert(sizeof(Place) == 24, "a place is as in C");

// What each call of one space returns and leaves, one after the other.
template <class Space> std::vector<uint64_t> trace(Space &space, Ticket all) {
    std::vector<uint64_t> found;
    const auto note = [&](uint64_t x) { found.push_back(x); };
    const auto moved = [&](Move range) {
        note(range.from);
        note(range.to);
        note(range.size);
    };
    note(space.free(all) && !space.free(all));
    const Ticket hole = space.allocate(300), mesh = space.allocateAligned(100, 64), tight = space.allocateTight(20);
    const Ticket placed = space.allocateAt(700, 100), uneven = space.allocateTightAligned(12, 12);
    for (Ticket ticket : {hole, mesh, tight, placed, uneven}) {
        note(ticket.serial);
        note(space.offsetOf(ticket));
    }
    note(space.step());
    note(space.raiseStep(128) && space.shrink(hole, 200) && space.growInPlace(hole, 250));
    note(space.refusalAligned(900, 64) == Refusal::fragmented);
    note(space.free(hole));
    for (Ticket second : {space.relocate(tight), space.relocateAligned(uneven, 4), space.relocateUnaligned(placed)}) note(space.offsetOf(second));
    note(space.compactCost().units);
    const Progress progress = space.compactWithin(0, 64, 1, moved);
    note(progress.done);
    note(progress.units);
    note(space.compact(moved));
    note(space.free(mesh));
    note(space.roomCostAligned(400, 16).units);
    note(space.makeRoomAligned(400, 16, moved).ranges);
    note(space.makeRoom(410, moved).units);
    note(space.makeRoomBy(420, 1, 4, moved).units);
    note(space.makeRoomUnaligned(430, moved).units);
    note(space.compactBy(2, moved));
    note(space.compactWithinBy(1, 0, 1000, 9, moved).ranges);
    space.compactUnaligned(moved);
    note(space.extend(100));
    note(space.size());
    note(space.retract(60));
    note(space.size());
    for (const Block &block : space.blocks()) note(block.offset + 5000 * uint64_t(block.size));
    space.eachLive([&](Ticket ticket) {
        note(ticket.serial);
        return true;
    });
    note(space.statistics().freeUnits);
    space.reset();
    note(space.isEmpty());
    return found;
}

// A heap answers as a space with tickets does.
void oneHeap() {
    Heaps heaps = Heaps::withRealm({1024, 64, 2, 0}, 5);
    const Granted granted = heaps.allocate(1000);
    GuardedAllocator space = GuardedAllocator::withRealm(1024, 64, granted.place.ticket.realm);
    const Ticket first = space.allocate(1000);
    Heap heap = heaps.at(0);
    CHECK(heap && heap.number() == 0 && first == granted.place.ticket && heaps.realm() == 5);
    CHECK(heaps.isLive(heap.place(first)) && !heaps.at(1) && !heaps.at(1).allocate(1));
    // a value beside a range of a heap; and heaps that are only asked
    Beside<int> values;
    CHECK(values.put(heap, first, 7) && values.get(first) == 7 && !values.put(heaps.at(1), first, 8));
    const Heaps &seen = heaps;
    CHECK(seen.at(0).sizeOf(first) == 1000 && !seen.at(1));
    const std::vector<uint64_t> one = trace(space, first), other = trace(heap, first);
    CHECK(one == other && one.size() > 45);
    CHECK(!heaps.isLive(granted.place) && heaps.totals().units == 1064 && heaps.totals().liveUnits == 0);
}

int main() {
    oneHeap();
    Heaps heaps = Heaps::withRealm({1024, 64, 4, 2}, 5);
    CHECK(heaps);
    std::map<uint32, std::vector<char>> buffers;
    std::vector<Place> places;
    // each range is filled with a letter of its own, and none writes into another
    for (uint32 i = 0; i < 26; i++) {
        Granted granted = heaps.allocateAligned(100, 4);
        CHECK(granted);
        if (granted.isNew) buffers[granted.place.heap].resize(1024);
        CHECK(heaps.offsetOf(granted.place) % 4 == 0 && heaps.sizeOf(granted.place) == 100);
        for (uint32 k = 0; k < 100; k++) buffers[granted.place.heap][heaps.offsetOf(granted.place) + k] = char('a' + i);
        places.push_back(granted.place);
    }
    for (uint32 i = 0; i < 26; i++)
        for (uint32 k = 0; k < 100; k++) CHECK(buffers[places[i].heap][heaps.offsetOf(places[i]) + k] == char('a' + i));
    CHECK(buffers.size() == 3 && heaps.totals().heaps == 3 && heaps.totals().liveUnits == 2600);
    Granted large = heaps.allocate(5000);
    CHECK(large && large.isNew && large.place.heap == 4 && heaps.storageReport(4).totalFreeSpace == 0);
    // its buffer can't be made
    CHECK(heaps.giveUp(large.place.heap) && !heaps.isLive(large.place));
    CHECK(heaps.allocate(0).refusal == HeapRefusal::empty && !heaps.allocate(0));
    CHECK(heaps.allocateAligned(1, 0).refusal == HeapRefusal::badCall);
    for (const Place &place : places) CHECK(heaps.free(place) && !heaps.free(place));
    std::vector<uint32> dropped;
    heaps.dropEmpty(1, [&](uint32 number) { dropped.push_back(number); });
    CHECK((dropped == std::vector<uint32>{2, 1}) && heaps.has(0) && !heaps.has(1));
    Heaps moved(std::move(heaps));
    CHECK(!heaps && moved && moved.totals().heaps == 1 && heaps.totals().heaps == 0);
    swap(heaps, moved);
    CHECK(heaps && !moved && !moved.allocate(1));
    CHECK(!heaps.dropHeap(1) && heaps.allocate(1) && !heaps.dropHeap(0));
    heaps.reset();
    CHECK(heaps.statistics(0).liveRanges == 0 && heaps.statistics(0).freeUnits == 1024);
    CHECK(!Heaps({1, 3, 1, 1}));
    Granted kept = heaps.allocate(7);
    std::vector<unsigned char> bytes;
    CHECK(kept && heaps.save(bytes) && bytes.size() > 96);
    Heaps copy = heaps.clone();
    CHECK(heaps.free(kept.place) && copy.isLive(kept.place));
    Heaps::Loaded loaded = Heaps::load(bytes.data(), bytes.size(), 6, 64);
    CHECK(loaded.found == OA_SPACE_READ && loaded.heaps.sizeOf(kept.place) == 7 && loaded.heaps.totals().heaps == 1);
    Heaps::Loaded lost = Heaps::load(bytes.data(), bytes.size() - 1, 6, 64);
    CHECK(!lost.heaps && lost.found == OA_BAD_PLACE && lost.at == 80 + 8 * 6);
    CHECK(Heaps::load(bytes.data(), bytes.size(), 5, 64).found == OA_BAD_LIMIT && !Heaps::load(nullptr, 0, 6, 64).heaps);
    // and one heap as a space of its own, with its tickets
    CHECK(copy.at(kept.place.heap).save(bytes) && GuardedAllocator::load(bytes.data(), bytes.size()).space.sizeOf(kept.place.ticket) == 7);
    CHECK(!copy.at(5).save(bytes));
    // heaps that begin with few nodes
    HeapLimits small(1024, 64, 4, 2);
    small.firstAllocs = 8;
    Heaps few(small);
    for (int i = 0; i < 62; i++) CHECK(few.allocate(1).place.heap == 0);
    CHECK(few.statistics(0).unusedNodes == 1 && few.allocate(1).isNew && !Heaps({1024, 64, 4, 2, 0, 7}));
    // and with few units: 256, 512, 1024, 1024
    small.firstSize = 256;
    Heaps doubling(small);
    CHECK(doubling.limits().firstSize == 256 && doubling.limits().firstAllocs == 8 && heaps.limits().firstSize == heaps.limits().size);
    for (uint32 number = 0; number < 4; number++) {
        Granted all = doubling.allocate(number == 0 ? 256 : number == 1 ? 512 : 1024);
        CHECK(all.isNew && all.place.heap == number && doubling.unitsOfHeap(number) == doubling.sizeOf(all.place));
    }
    CHECK(!Heaps({1024, 64, 4, 2, 1025}) && bool(Heaps({1024, 64, 4, 2, 1024})));
    // a heap that becomes larger, a tight request, and all heaps compacted
    Heaps filled({100, 8, 2, 0});
    Place early = filled.allocate(21).place, late = filled.allocate(72).place;
    CHECK(filled.free(early) && filled.refusalTight(21) == HeapRefusal::granted && filled.refusalTightAligned(22, 8) == HeapRefusal::granted);
    CHECK(filled.allocateTight(21).place.heap == 0 && filled.extendHeap(0, 20) && filled.unitsOfHeap(0) == 120 && !filled.extendHeap(1, 1));
    Place behind = filled.allocateTightAligned(16, 8).place;
    CHECK(behind.heap == 0 && filled.offsetOf(behind) == 96 && filled.free(late));
    std::vector<std::pair<uint32, uint32>> slid;
    CHECK(filled.compact([&](uint32 number, Move it) { slid.push_back({number, it.size}); }));
    CHECK(slid.size() == 1 && slid[0].first == 0 && slid[0].second == 16 && filled.offsetOf(behind) == 24);
    // each heap has its number: 30 units of the first slide by 60, and 20 of the second by 50
    Heaps sliding({100, 8, 2, 0});
    Place holes[] = {sliding.allocate(60).place, sliding.allocate(30).place, sliding.allocate(50).place, sliding.allocate(20).place};
    CHECK(holes[1].heap == 0 && holes[2].heap == 1 && holes[3].heap == 1 && sliding.free(holes[0]) && sliding.free(holes[2]));
    slid.clear();
    sliding.compact([&](uint32 number, Move it) { slid.push_back({number, it.size}); CHECK(it.to == 0 && it.from == (number ? 50 : 60)); });
    CHECK((slid == std::vector<std::pair<uint32, uint32>>{{0, 30}, {1, 20}}));
    // of 70 units from 30 on, and 80 from 20 on, no 68 begin at a multiple of 33, and 66 do
    CHECK(sliding.refusalTight(80) == HeapRefusal::granted && sliding.refusalTightAligned(68, 33) == HeapRefusal::full);
    CHECK(sliding.refusalTightAligned(66, 33) == HeapRefusal::granted && sliding.refusalTightAligned(80, 20) == HeapRefusal::granted);
    // swapped with an empty one, from either side
    Heaps gone(std::move(sliding));
    swap(gone, sliding);
    CHECK(!gone && sliding && sliding.offsetOf(holes[3]) == 0);
    swap(gone, sliding);
    CHECK(gone && !sliding && gone.offsetOf(holes[3]) == 0 && sliding.firstHeap() == Allocation::NO_SPACE);
    sliding.swap(gone);
    Heaps none(std::move(gone));
    swap(none, gone);
    CHECK(!none && !gone && sliding.isLive(holes[1]));
    // a page at an alignment fits a page
    Heaps pages({1024, 8, 1, 0});
    Granted page = pages.allocateAligned(1024, 256);
    CHECK(page.isNew && page.place.heap == 0 && pages.offsetOf(page.place) == 0);
    CHECK(pages.allocateAligned(1024, 256).refusal == HeapRefusal::full && pages.allocateAligned(1025, 256).refusal == HeapRefusal::tooLarge);
    // heaps 0 and 1 have 70 and 30 live units of 96: the second is emptied into the first, as far as that has room
    Heaps two = Heaps::withRealm({96, 8, 2, 0}, 1);
    Place first = two.allocate(70).place, freed = two.allocate(26).place, old = two.allocate(20).place, last = two.allocate(10).place;
    CHECK(two.free(freed) && two.emptiest() == 1 && two.lastLive(1) == last && two.liveBefore(last) == old);
    CHECK(two.liveBefore(old).ticket.serial == 0 && two.lastLive(2).ticket.serial == 0);
    Place second = two.relocate(last);
    CHECK(second.heap == 0 && two.offsetOf(second) == 70 && two.isLive(last) && two.free(last));
    // 16 units are left there
    CHECK(two.relocate(old).ticket.serial == 0 && two.relocate(first).ticket.serial == 0 && two.relocate(last).ticket.serial == 0);
    CHECK(two.free(second) && two.relocate(old).heap == 0);
    CHECK(moved.emptiest() == Allocation::NO_SPACE && moved.relocate(old).ticket.serial == 0);
    // 26 units from 70 on are filed as 26: 8 + 15 fit at a multiple of 16, which is 80
    Heaps pair = Heaps::withRealm({96, 8, 2, 0}, 1);
    Place front = pair.allocate(70).place, hole = pair.allocate(26).place, uniforms = pair.allocate(8).place;
    CHECK(front.heap == 0 && pair.free(hole) && uniforms.heap == 1 && pair.relocateAligned(uniforms, 32).ticket.serial == 0);
    Place odd = pair.relocateAligned(uniforms, 12);
    CHECK(odd.heap == 0 && pair.offsetOf(odd) == 72 && pair.free(odd));
    Place aligned = pair.relocateAligned(uniforms, 16);
    CHECK(aligned.heap == 0 && pair.offsetOf(aligned) == 80 && pair.relocateAligned(uniforms, 0).ticket.serial == 0);
    // number 1 was dropped
    Heaps changed = Heaps::withRealm({100, 8, 2, 2}, 1);
    Place low = changed.allocate(60).place, high = changed.allocate(30).place, big = changed.allocate(120).place;
    CHECK(changed.firstHeap() == 0 && changed.heapAfter(0) == 2 && changed.unitsOfHeap(2) == 120 && changed.limits().mostLarger == 2);
    CHECK(changed.firstPlace() == low && changed.placeAfter(low) == high && changed.placeAfter(high) == big);
    CHECK(changed.firstLive(0) == low && changed.liveAfter(low) == high && changed.liveAfter(high).ticket.serial == 0);
    CHECK(changed.growInPlace(high, 40) && !changed.growInPlace(high, 41) && changed.shrink(low, 40) && changed.sizeOf(low) == 40);
    CHECK(changed.refusal(121) == HeapRefusal::granted && changed.refusalAligned(1, 0) == HeapRefusal::badCall && changed.refusal(0) == HeapRefusal::empty);
    uint32 units = 0;
    CHECK(changed.compactHeap(0, [&](const Move &move) { units += move.size; }) && units == 40 && changed.offsetOf(high) == 40);
    CHECK(changed.free(low) && changed.makeRoom(0, 56, [&](const Move &move) { units += move.size; }).possible && units == 80);
    // a range at 128 goes to 0 by its step, and one in another heap to a multiple of 64
    Heaps stepped({512, 16, 2, 0});
    Place gap = stepped.allocate(100).place, texture = stepped.allocateAligned(50, 64).place, rest = stepped.allocate(300).place;
    CHECK(stepped.step(0) == 64 && stepped.step(1) == 0 && stepped.offsetOf(texture) == 128 && stepped.free(gap) && stepped.free(rest));
    CHECK(stepped.makeRoomAligned(0, 300, 64, [&](Move it) { CHECK(it.from == 128 && it.to == 0); }).units == 50 && stepped.offsetOf(texture) == 0);
    CHECK(stepped.compact([](uint32, Move) {}) && stepped.allocate(448).place.heap == 0 && stepped.makeRoomAligned(0, 1, 0, [](Move) {}).possible == false);
    Place odd64 = stepped.allocateAligned(10, 64).place;
    CHECK(odd64.heap == 1 && stepped.step(1) == 64);

    Heaps dumped = Heaps::withRealm({100, 8, 3, 0}, 1);
    Place one = dumped.allocate(96).place, other = dumped.allocate(96).place, third = dumped.allocate(60).place;
    CHECK(third.heap == 2 && dumped.free(one) && dumped.free(other) && dumped.dropHeap(1));
    CHECK(dumped.json() ==
          "{\"totals\":{\"heaps\":2,\"units\":200,\"live_units\":60,\"free_units\":140,\"largest_free_region\":96},\"heaps\":["
          "{\"number\":0,\"space\":{\"size\":100,\"max_allocs\":8,\"live_ranges\":0,\"live_units\":0,\"free_blocks\":1,"
          "\"free_units\":100,\"largest_free_block\":100,\"largest_free_region\":96,\"unused_nodes\":7,\"blocks\":["
          "{\"offset\":0,\"size\":100}]}},"
          "{\"number\":2,\"space\":{\"size\":100,\"max_allocs\":8,\"live_ranges\":1,\"live_units\":60,\"free_blocks\":1,"
          "\"free_units\":40,\"largest_free_block\":40,\"largest_free_region\":40,\"unused_nodes\":6,\"blocks\":["
          "{\"offset\":0,\"size\":60,\"name\":" + std::to_string(third.ticket.name) + "},{\"offset\":60,\"size\":40}]}}]}");
    CHECK(moved.json().empty());
    std::printf("C++: %d checks of heaps pass\n", checks);
}
