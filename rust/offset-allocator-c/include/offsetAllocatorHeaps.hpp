// Many heaps as one, over offset_allocator_heaps.h:
//
//     OffsetAllocator::HeapLimits limits(1 << 24, 65536, 64, 16);
//     limits.firstSize = 1 << 18;    // or not: then all usual heaps have 1 << 24 units
//     limits.firstAllocs = 64;       // or not: then they begin with 65536 nodes
//     OffsetAllocator::Heaps heaps(limits);
//     OffsetAllocator::Granted mesh = heaps.allocate(3000);
//     if (mesh && mesh.isNew) ...    // make its buffer, of heaps.unitsOfHeap(mesh.place.heap) units, or heaps.giveUp
//     heaps.free(mesh.place);
//     heaps.dropEmpty(1, [](OffsetAllocator::uint32 number) { ... });    // drop the buffer of this number
//
// That header says of each call what it does, its errors and its cost. No call throws but where what it is
// passed does, and json where std::string does. C++11 or later.
#pragma once

#include "offsetAllocator.hpp"
#include "offset_allocator_heaps.h"

namespace OffsetAllocator {

// As oah_limits, where firstSize 0 means size, and firstAllocs 0 means maxAllocs.
struct HeapLimits {
    uint32 size;
    uint32 maxAllocs;
    uint32 most;
    uint32 mostLarger;
    uint32 firstSize;
    uint32 firstAllocs;

    HeapLimits(uint32 size_, uint32 maxAllocs_, uint32 most_, uint32 mostLarger_, uint32 firstSize_ = 0,
               uint32 firstAllocs_ = 0) noexcept
        : size(size_), maxAllocs(maxAllocs_), most(most_), mostLarger(mostLarger_), firstSize(firstSize_),
          firstAllocs(firstAllocs_) {}
};

// A granted range, for as long as the grant lives.
struct Place {
    Ticket ticket;
    uint32 heap = Allocation::NO_SPACE;
    uint32 realm = 0;
};

inline bool operator==(const Place &a, const Place &b) { return a.ticket == b.ticket && a.heap == b.heap && a.realm == b.realm; }
inline bool operator!=(const Place &a, const Place &b) { return !(a == b); }

enum class HeapRefusal { granted, empty, tooLarge, full, memory, badCall };

struct Granted {
    Place place;
    bool isNew = false;
    HeapRefusal refusal = HeapRefusal::badCall;

    // Whether the request was granted.
    explicit operator bool() const { return refusal == HeapRefusal::granted; }
};

struct HeapTotals {
    uint32 heaps;
    uint32 largestFreeRegion;
    uint64_t units;
    uint64_t liveUnits;
    uint64_t freeUnits;
};

// The heap of a number, for every call of one space: each does in this heap what it does in a GuardedAllocator, and no
// other heap changes. Where the number has no heap it converts to false, and every call is refused. It must not be used once the
// heaps are dropped, or others are assigned to them; it stays valid where they are moved. Its tickets have the realm of the heap
// alone: of two Heaps made by withRealm tickets may be alike.
class Heap : public TicketQuestions<Heap> {
public:
    explicit operator bool() const noexcept { return asked() != nullptr; }
    uint32 number() const { return index; }

    // The place of a ticket here, for the calls of Heaps.
    Place place(Ticket ticket) const {
        Place at;
        at.ticket = ticket;
        at.heap = index;
        at.realm = oah_realm(heaps);
        return at;
    }

    void reset() { oah_heap_reset(heaps, index); }
    Ticket allocate(uint32 size) { return detail::of(oah_heap_allocate(heaps, index, size)); }
    Ticket allocateAligned(uint32 size, uint32 align) { return detail::of(oah_heap_allocate_aligned(heaps, index, size, align)); }
    Ticket allocateTight(uint32 size) { return detail::of(oah_heap_allocate_tight(heaps, index, size)); }
    Ticket allocateTightAligned(uint32 size, uint32 align) { return detail::of(oah_heap_allocate_tight_aligned(heaps, index, size, align)); }
    bool free(Ticket ticket) { return oah_heap_free(heaps, index, detail::in(ticket)); }
    Ticket allocateAt(uint32 offset, uint32 size) { return detail::of(oah_heap_allocate_at(heaps, index, offset, size)); }
    bool shrink(Ticket ticket, uint32 size) { return oah_heap_shrink(heaps, index, detail::in(ticket), size); }
    bool growInPlace(Ticket ticket, uint32 size) { return oah_heap_grow_in_place(heaps, index, detail::in(ticket), size); }
    bool extend(uint32 more) { return oah_heap_extend(heaps, index, more); }
    // Leaves at least the units that the limits give the number, or one of a larger heap.
    bool retract(uint32 less) { return oah_heap_retract(heaps, index, less); }
    Ticket relocate(Ticket ticket) { return detail::of(oah_heap_relocate(heaps, index, detail::in(ticket))); }
    Ticket relocateAligned(Ticket ticket, uint32 align) { return detail::of(oah_heap_relocate_aligned(heaps, index, detail::in(ticket), align)); }
    Ticket relocateUnaligned(Ticket ticket) { return detail::of(oah_heap_relocate_unaligned(heaps, index, detail::in(ticket))); }
    template <class F> bool compact(F &&moved) {
        detail::Calling<F> each(moved);
        const bool done = oah_heap_compact(heaps, index, detail::Calling<F>::moved, &each);
        each.finish();
        return done;
    }
    template <class F> Progress compactWithin(uint32 from, uint32 mostUnits, uint32 mostRanges, F &&moved) {
        detail::Calling<F> each(moved);
        Progress done = detail::of(oah_heap_compact_within(heaps, index, from, mostUnits, mostRanges, detail::Calling<F>::moved, &each));
        each.finish();
        return done;
    }
    template <class F> RoomCost makeRoom(uint32 size, F &&moved) {
        detail::Calling<F> each(moved);
        RoomCost cost = detail::of(oah_heap_make_room(heaps, index, size, detail::Calling<F>::moved, &each));
        each.finish();
        return cost;
    }
    template <class F> RoomCost makeRoomAligned(uint32 size, uint32 align, F &&moved) {
        detail::Calling<F> each(moved);
        RoomCost cost = detail::of(oah_heap_make_room_aligned(heaps, index, size, align, detail::Calling<F>::moved, &each));
        each.finish();
        return cost;
    }
    template <class F> bool compactBy(uint32 step, F &&moved) {
        detail::Calling<F> each(moved);
        const bool done = oah_heap_compact_by(heaps, index, step, detail::Calling<F>::moved, &each);
        each.finish();
        return done;
    }
    template <class F> Progress compactWithinBy(uint32 step, uint32 from, uint32 mostUnits, uint32 mostRanges, F &&moved) {
        detail::Calling<F> each(moved);
        Progress done = detail::of(oah_heap_compact_within_by(heaps, index, step, from, mostUnits, mostRanges, detail::Calling<F>::moved, &each));
        each.finish();
        return done;
    }
    template <class F> RoomCost makeRoomBy(uint32 size, uint32 align, uint32 step, F &&moved) {
        detail::Calling<F> each(moved);
        RoomCost cost = detail::of(oah_heap_make_room_by(heaps, index, size, align, step, detail::Calling<F>::moved, &each));
        each.finish();
        return cost;
    }
    template <class F> void compactUnaligned(F &&moved) {
        detail::Calling<F> each(moved);
        oah_heap_compact_unaligned(heaps, index, detail::Calling<F>::moved, &each);
        each.finish();
    }
    template <class F> RoomCost makeRoomUnaligned(uint32 size, F &&moved) {
        detail::Calling<F> each(moved);
        RoomCost cost = detail::of(oah_heap_make_room_unaligned(heaps, index, size, detail::Calling<F>::moved, &each));
        each.finish();
        return cost;
    }
    bool raiseStep(uint32 align) { return oah_heap_raise_step(heaps, index, align); }

private:
    friend class Heaps;
    friend class TicketQuestions<Heap>;
    Heap(oah_heaps *of, uint32 number) noexcept : heaps(of), index(number) {}
    const oag_allocator *asked() const { return oah_heap(heaps, index); }
    oah_heaps *heaps;
    uint32 index;
};

class Heaps {
public:
    // With a realm of their own, which no others made so have. Where memory is out, or a limit is out of range, it has none:
    // every request is refused.
    explicit Heaps(const HeapLimits &limits) noexcept : heaps(oah_new(in(limits))) {}
    // The same with a realm that you choose.
    static Heaps withRealm(const HeapLimits &limits, uint32 realm) noexcept { return Heaps(oah_with_realm(in(limits), realm)); }

    // What is moved from has none; a move to itself changes nothing.
    Heaps(Heaps &&other) noexcept : heaps(other.heaps) { other.heaps = nullptr; }
    Heaps &operator=(Heaps &&other) noexcept {
        if (this != &other) {
            oah_drop(heaps);
            heaps = other.heaps;
            other.heaps = nullptr;
        }
        return *this;
    }
    void swap(Heaps &other) noexcept {
        oah_heaps *mine = heaps;
        heaps = other.heaps;
        other.heaps = mine;
    }
    Heaps(const Heaps &) = delete;
    Heaps &operator=(const Heaps &) = delete;
    ~Heaps() { oah_drop(heaps); }

    explicit operator bool() const noexcept { return heaps != nullptr; }

    // A copy, to be used in place of this one; it has none where memory is out.
    Heaps clone() const { return Heaps(oah_clone(heaps)); }

    // Assigns the bytes of the state to a vector, say. False where memory for them is out.
    template <class Bytes> bool save(Bytes &bytes) const { return detail::assign(oah_write_state(heaps), bytes); }

    // The heaps of bytes that save has assigned, with the same places, or none and what is wrong with the bytes, and where.
    // They are to be used in place of the ones that were saved: later grants of both may have the same place.
    struct Loaded;
    static Loaded load(const void *bytes, size_t size, uint32 mostHeaps, uint32 mostAllocs);

    void reset() { oah_reset(heaps); }

    // Where it is refused, it converts to false.
    Granted allocate(uint32 size) { return of(oah_allocate(heaps, size)); }
    Granted allocateAligned(uint32 size, uint32 align) { return of(oah_allocate_aligned(heaps, size, align)); }

    // From any free block that holds the range, in the first heap that has one.
    Granted allocateTight(uint32 size) { return of(oah_allocate_tight(heaps, size)); }
    Granted allocateTightAligned(uint32 size, uint32 align) { return of(oah_allocate_tight_aligned(heaps, size, align)); }

    // Whether the place was live; if not, nothing changes.
    bool free(const Place &place) { return oah_free(heaps, in(place)); }

    bool isLive(const Place &place) const { return oah_is_live(heaps, in(place)); }
    uint32 sizeOf(const Place &place) const { return oah_size_of(heaps, in(place)); }
    uint32 offsetOf(const Place &place) const { return oah_offset_of(heaps, in(place)); }

    // The place of a second range in another heap in which at least as many units are live, whose serial is 0 where none
    // takes it, also where align is 0; the old one stays live. It keeps every alignment that was asked for, or begins at a
    // multiple of align, whatever the first one has.
    Place relocate(const Place &place) { return of(oah_relocate(heaps, in(place))); }
    Place relocateAligned(const Place &place, uint32 align) { return of(oah_relocate_aligned(heaps, in(place), align)); }

    // The number of the heap that is emptied with the least copies, or NO_SPACE, and its live ranges from the last on.
    uint32 emptiest() const { return oah_emptiest(heaps); }
    Place lastLive(uint32 number) const { return of(oah_last_live(heaps, number)); }
    Place liveBefore(const Place &place) const { return of(oah_live_before(heaps, in(place))); }

    // The live ranges of a heap from the first on, and those of all heaps, by their numbers.
    Place firstLive(uint32 number) const { return of(oah_first_live(heaps, number)); }
    Place liveAfter(const Place &place) const { return of(oah_live_after(heaps, in(place))); }
    Place firstPlace() const { return of(oah_first_place(heaps)); }
    Place placeAfter(const Place &place) const { return of(oah_place_after(heaps, in(place))); }

    // The numbers that have heaps, or NO_SPACE, and what the buffer of one needs, or 0.
    uint32 firstHeap() const { return oah_first_heap(heaps); }
    uint32 heapAfter(uint32 number) const { return oah_heap_after(heaps, number); }
    uint32 unitsOfHeap(uint32 number) const { return oah_units_of_heap(heaps, number); }

    HeapLimits limits() const {
        oah_limits are = oah_limits_of(heaps);
        return {are.size, are.max_allocs, are.most, are.most_larger, are.first_size, are.first_allocs};
    }

    bool shrink(const Place &place, uint32 size) { return oah_shrink(heaps, in(place), size); }
    bool growInPlace(const Place &place, uint32 size) { return oah_grow_in_place(heaps, in(place), size); }

    // Why a request would be refused now; granted, if memory for another heap is given.
    HeapRefusal refusal(uint32 size) const { return HeapRefusal(oah_refusal(heaps, size)); }
    HeapRefusal refusalAligned(uint32 size, uint32 align) const { return HeapRefusal(oah_refusal_aligned(heaps, size, align)); }

    HeapRefusal refusalTight(uint32 size) const { return HeapRefusal(oah_refusal_tight(heaps, size)); }
    HeapRefusal refusalTightAligned(uint32 size, uint32 align) const { return HeapRefusal(oah_refusal_tight_aligned(heaps, size, align)); }

    // Adds units at the end of the heap of a number, whose buffer became larger in place: whether it did.
    bool extendHeap(uint32 number, uint32 more) { return oah_extend_heap(heaps, number, more); }

    // The step of the heap of a number, by which its ranges move; 0 where it has none.
    uint32 step(uint32 number) const { return oah_step(heaps, number); }

    // Slides the ranges of each heap to its front by its step, by number, so that each keeps every alignment that was asked
    // for: calls moved(number, Move). Returns whether it was done in each.
    template <class F> bool compact(F &&moved) {
        detail::Calling<F> each(moved);
        const bool done = oah_compact(heaps, detail::Calling<F>::movedIn, &each);
        each.finish();
        return done;
    }

    // The same of the heap of a number, and room for a request in it.
    template <class F> bool compactHeap(uint32 number, F &&moved) {
        detail::Calling<F> each(moved);
        const bool done = oah_compact_heap(heaps, number, detail::Calling<F>::moved, &each);
        each.finish();
        return done;
    }
    template <class F> RoomCost makeRoom(uint32 number, uint32 size, F &&moved) {
        detail::Calling<F> each(moved);
        RoomCost cost = detail::of(oah_make_room(heaps, number, size, detail::Calling<F>::moved, &each));
        each.finish();
        return cost;
    }
    template <class F> RoomCost makeRoomAligned(uint32 number, uint32 size, uint32 align, F &&moved) {
        detail::Calling<F> each(moved);
        RoomCost cost = detail::of(oah_make_room_aligned(heaps, number, size, align, detail::Calling<F>::moved, &each));
        each.finish();
        return cost;
    }

    bool giveUp(uint32 number) { return oah_give_up(heaps, number); }

    // Drops empty heaps, the last first, until at most `keep` are empty, and calls dropped(number) for each.
    template <class F> void dropEmpty(uint32 keep, F &&dropped) {
        for (uint32 number; (number = oah_drop_empty(heaps, keep)) != OA_NO_SPACE;) dropped(number);
    }

    bool dropHeap(uint32 number) { return oah_drop_heap(heaps, number); }

    // The realm of the places.
    uint32 realm() const { return oah_realm(heaps); }

    // The heap of a number, to be asked and changed.
    Heap at(uint32 number) { return Heap(heaps, number); }
    const Heap at(uint32 number) const { return Heap(heaps, number); }

    bool has(uint32 number) const { return oah_has(heaps, number); }
    StorageReport storageReport(uint32 number) const { return detail::of(oah_storage_report(heaps, number)); }
    Statistics statistics(uint32 number) const { return detail::of(oah_statistics(heaps, number)); }
    HeapTotals totals() const {
        oah_all all = oah_totals(heaps);
        return {all.heaps, all.largest_free_region, all.units, all.live_units, all.free_units};
    }

    // All heaps as JSON. Empty where memory is out, or there are none; an exception of std::string is that of the caller.
    std::string json() const { return detail::of(oah_json(heaps)); }

private:
    static oah_limits in(const HeapLimits &limits) {
        return {limits.size, limits.maxAllocs, limits.most, limits.mostLarger, limits.firstSize, limits.firstAllocs};
    }
    static oah_place in(const Place &place) {
        return {{place.ticket.serial, place.ticket.name, place.ticket.realm}, place.heap, place.realm};
    }
    static Place of(const oah_place &from) {
        Place place;
        place.ticket.serial = from.ticket.serial;
        place.ticket.name = from.ticket.name;
        place.ticket.realm = from.ticket.realm;
        place.heap = from.heap;
        place.realm = from.realm;
        return place;
    }
    static Granted of(const oah_granted &from) {
        Granted granted;
        granted.place = of(from.place);
        granted.isNew = from.is_new;
        granted.refusal = HeapRefusal(from.refusal);
        return granted;
    }

    explicit Heaps(oah_heaps *made) noexcept : heaps(made) {}
    oah_heaps *heaps;
};

// Heaps that were loaded, or none and what is wrong with the bytes, and where.
struct Heaps::Loaded {
    Heaps heaps;
    oa_found found;
    size_t at;
};

inline Heaps::Loaded Heaps::load(const void *bytes, size_t size, uint32 mostHeaps, uint32 mostAllocs) {
    const detail::State state(oa_state_new(size));
    if (!state.held) return Loaded{Heaps(static_cast<oah_heaps *>(nullptr)), OA_OUT_OF_MEMORY, 0};
    if (size != 0) std::memcpy(oa_state_bytes(state.held), bytes, size);
    oah_read read = oah_read_state(state.held, mostHeaps, mostAllocs);
    return Loaded{Heaps(read.heaps), read.found, read.at};
}

inline void swap(Heaps &a, Heaps &b) noexcept { a.swap(b); }

} // namespace OffsetAllocator
