// The class of the C++ original, over the C interface: an engine changes its include and its link line.
//
//     OffsetAllocator::Allocator vertices(1 << 20);
//     OffsetAllocator::Allocation mesh = vertices.allocate(3000);    // mesh.offset is its first vertex
//     vertices.free(mesh);
//
// Allocator is the original's class, with handles of 8 bytes: a second free of mesh is refused as long as no later grant
// has its name, and then frees that grant. GuardedAllocator refuses it always, with tickets of 16 bytes; new code is to
// take that one:
//
//     OffsetAllocator::GuardedAllocator vertices(1 << 20);
//     OffsetAllocator::Ticket mesh = vertices.allocate(3000);    // vertices.offsetOf(mesh) is its first vertex
//     vertices.free(mesh);
//
// offset_allocator.h says of each call what it does, its errors and its cost; only what is particular to C++ is said
// here. No call throws but where what it is passed does, and json and vmaJson where std::string does. C++11 or later.
#pragma once

#include "offset_allocator.h"

#include <cstddef>
#include <cstdint>
#include <cstring>
#include <iterator>
#include <string>
#include <type_traits>
#if defined(__cpp_exceptions) || defined(__EXCEPTIONS) || defined(_CPPUNWIND)
#define OFFSET_ALLOCATOR_EXCEPTIONS 1
#include <exception>
#endif

#ifdef USE_16_BIT_NODE_INDICES
#error "node indices have 32 bits here"
#endif

namespace OffsetAllocator {

typedef uint8_t uint8;
typedef uint16_t uint16;
typedef uint32_t uint32;
typedef uint32 NodeIndex;

static constexpr uint32 NUM_TOP_BINS = 32;
static constexpr uint32 BINS_PER_LEAF = 8;
static constexpr uint32 NUM_LEAF_BINS = NUM_TOP_BINS * BINS_PER_LEAF;

// Of a refused request both parts are NO_SPACE. A name, `metadata`, never is; the offset of a range of no units at the end of
// a space of 4294967295 units is that number too.
struct Allocation {
    static constexpr uint32 NO_SPACE = 0xffffffff;

    uint32 offset = NO_SPACE;
    NodeIndex metadata = NO_SPACE;
};

// Before C++17 a constant that is bound to a reference, as std::max does, needs a definition: here one for all sources.
#if !defined(__cpp_inline_variables) && defined(__GNUC__)
__attribute__((weak)) constexpr uint32 Allocation::NO_SPACE;
#endif

inline bool operator==(Allocation a, Allocation b) { return a.offset == b.offset && a.metadata == b.metadata; }
inline bool operator!=(Allocation a, Allocation b) { return !(a == b); }

struct StorageReport {
    uint32 totalFreeSpace;
    uint32 largestFreeRegion;
};

struct StorageReportFull {
    struct Region {
        uint32 size;
        uint32 count;
    };

    Region freeRegions[NUM_LEAF_BINS];
};

struct Statistics {
    uint32 liveRanges;
    uint32 liveUnits;
    uint32 freeBlocks;
    uint32 freeUnits;
    uint32 largestFreeBlock;
    uint32 largestFreeRegion;
    uint32 unusedNodes;
};

// How far compactWithin came: done, the ranges that moved, and, if there is more, where the next call goes on.
struct Progress {
    bool done;
    bool more;
    uint32 units;
    uint32 ranges;
    uint32 next;
};

// What has to move at least so that a request finds its block, where all free units together are enough for it.
struct RoomCost {
    bool possible;
    uint32 units;
    uint32 ranges;
};

// What a compaction by whole steps would copy, and the largest request that would be granted then; all 0 where it would not be
// done.
struct CompactCost {
    bool possible;
    uint32 units;
    uint32 ranges;
    uint32 largest;
};

// Where a range would begin; where the request would not be granted, the offset is 0.
struct Beginning {
    bool granted;
    uint32 offset;
};

enum class Refusal { granted, nodes, tooLarge, space, fragmented, badCall, serials };

struct Move {
    uint32 from;
    uint32 to;
    uint32 size;
    Allocation allocation;
};

struct Piece {
    uint32 from;
    uint32 to;
    uint32 size;
};

struct Block {
    bool used;
    uint32 offset;
    uint32 size;
    Allocation allocation;
};

namespace detail {

inline Allocation of(oa_allocation from) {
    Allocation allocation;
    allocation.offset = from.offset;
    allocation.metadata = from.metadata;
    return allocation;
}

inline Block of(const oa_block &from) { return Block{from.kind == OA_USED, from.offset, from.size, of(from.allocation)}; }

inline oa_allocation in(Allocation allocation) { return {allocation.offset, allocation.metadata}; }

inline StorageReport of(oa_report report) { return {report.total_free_space, report.largest_free_region}; }

inline Statistics of(const oa_totals &from) {
    return {from.live_ranges,        from.live_units,          from.free_blocks, from.free_units,
            from.largest_free_block, from.largest_free_region, from.unused_nodes};
}

inline Progress of(oa_progress from) { return {from.done, from.more, from.units, from.ranges, from.next}; }

inline RoomCost of(oa_room from) { return {from.possible, from.units, from.ranges}; }

inline CompactCost of(oa_compaction from) { return {from.possible, from.units, from.ranges, from.largest}; }

inline Beginning of(oa_beginning from) { return {from.granted, from.offset}; }

inline StorageReportFull of(const oa_report_full &from) {
    StorageReportFull report;
    for (uint32 i = 0; i < NUM_LEAF_BINS; i++) report.freeRegions[i] = {from.free_regions[i].size, from.free_regions[i].count};
    return report;
}

// Calls a function with each block of a list.
template <class F> bool each(oa_blocks *blocks, F &seen) {
    struct Listed {
        oa_blocks *blocks;
        ~Listed() { oa_blocks_drop(blocks); }
    } listed = {blocks};
    if (!listed.blocks) return false;
    for (;;) {
        oa_block block = oa_blocks_next(listed.blocks);
        if (block.kind == OA_END) return true;
        seen(of(block));
    }
}

// What is called with each move or piece.
template <class F> struct Calling {
    F &called;
    explicit Calling(F &f) : called(f) {}
#ifdef OFFSET_ALLOCATOR_EXCEPTIONS
    std::exception_ptr thrown;

    template <class G, class T> void guard(G &&call, const T &value) {
        if (thrown) return;
        try {
            call(value);
        } catch (...) {
            thrown = std::current_exception();
        }
    }

    void finish() {
        if (thrown) std::rethrow_exception(thrown);
    }
#else
    template <class G, class T> void guard(G &&call, const T &value) { call(value); }

    void finish() {}
#endif

    template <class T> void pass(const T &value) { guard(called, value); }

    static void moved(void *user, oa_move range) {
        static_cast<Calling *>(user)->pass(Move{range.from, range.to, range.size, of(range.allocation)});
    }

    static void movedIn(void *user, uint32_t heap, oa_move range) {
        Calling &each = *static_cast<Calling *>(user);
        const auto in = [&](const Move &move) { each.called(heap, move); };
        each.guard(in, Move{range.from, range.to, range.size, of(range.allocation)});
    }

    static void copied(void *user, uint32_t from, uint32_t to, uint32_t size) {
        static_cast<Calling *>(user)->pass(Piece{from, to, size});
    }
};

} // namespace detail

// The blocks of a space, from its end to its start, for a loop: for (Block block : a.blocks()). It takes no memory, and
// the loop may end early. The allocator may not be changed in the loop; eachBlock is for that.
class Blocks {
public:
    class iterator {
    public:
        typedef std::input_iterator_tag iterator_category;
        typedef Block value_type;
        typedef std::ptrdiff_t difference_type;
        typedef const Block *pointer;
        typedef const Block &reference;

        iterator() : walk(), block(), end(true) {}
        const Block &operator*() const { return block; }
        const Block *operator->() const { return &block; }
        iterator &operator++() {
            oa_block next = oa_walk_next(&walk);
            end = next.kind == OA_END;
            block = detail::of(next);
            return *this;
        }
        iterator operator++(int) {
            iterator before = *this;
            ++*this;
            return before;
        }
        // Only whether they are at the end counts.
        friend bool operator==(const iterator &a, const iterator &b) { return a.end == b.end; }
        friend bool operator!=(const iterator &a, const iterator &b) { return a.end != b.end; }

    private:
        friend class Blocks;
        explicit iterator(const oa_walk &start) : walk(start), block(), end(false) { ++*this; }
        oa_walk walk;
        Block block;
        bool end;
    };

    iterator begin() const { return iterator(start); }
    iterator end() const { return iterator(); }

private:
    friend class Allocator;
    template <class Of> friend class TicketQuestions;
    explicit Blocks(const oa_walk &walk) : start(walk) {}
    oa_walk start;
};

namespace detail {
// Drops a state.
struct State {
    oa_state *held;
    explicit State(oa_state *state) : held(state) {}
    State(const State &) = delete;
    State &operator=(const State &) = delete;
    ~State() { oa_state_drop(held); }
};

// Assigns the bytes of a state, which is dropped; or returns false where there is none.
template <class Bytes> bool assign(oa_state *made, Bytes &bytes) {
    const State state(made);
    if (!state.held) return false;
    const uint8_t *first = oa_state_bytes(state.held);
    bytes.assign(first, first + oa_state_size(state.held));
    return true;
}

// A text, which is dropped; or an empty one where there is none.
inline std::string of(oa_text *made) {
    struct Made {
        oa_text *text;
        ~Made() { oa_text_drop(text); }
    } held = {made};
    return held.text ? std::string(oa_text_bytes(held.text), oa_text_size(held.text)) : std::string();
}
} // namespace detail

class Allocator {
public:
    // Where memory is out, or the limit is not 2 to 4294967293, it is empty: every request is refused.
    Allocator(uint32 size, uint32 maxAllocs = 128 * 1024) noexcept : space(oa_new(size, maxAllocs)) {}

    // What is moved from is empty; a move to itself changes nothing.
    Allocator(Allocator &&other) noexcept : space(other.space) { other.space = nullptr; }
    Allocator &operator=(Allocator &&other) noexcept {
        if (this != &other) {
            oa_drop(space);
            space = other.space;
            other.space = nullptr;
        }
        return *this;
    }
    void swap(Allocator &other) noexcept {
        oa_allocator *mine = space;
        space = other.space;
        other.space = mine;
    }
    Allocator(const Allocator &) = delete;
    Allocator &operator=(const Allocator &) = delete;
    ~Allocator() { oa_drop(space); }

    // Whether it has a space.
    explicit operator bool() const noexcept { return space != nullptr; }

    // A copy, which goes on alike; empty where memory is out.
    Allocator clone() const { return Allocator(oa_clone(space)); }

    // A node limit at least as large: all allocations stay live. False, and nothing changes, where maxAllocs is smaller or
    // above 4294967293, or memory is out.
    bool raiseLimit(uint32 maxAllocs) { return oa_raise_limit(space, maxAllocs); }

    // Assigns the bytes of the state to a vector, say. False where memory for them is out; an exception of assign is that
    // of the caller.
    template <class Bytes> bool save(Bytes &bytes) const { return detail::assign(oa_write_state(space), bytes); }

    // The space of bytes that save has assigned, or an empty one and what is wrong with them, and where.
    struct Loaded;
    static Loaded load(const void *bytes, size_t size, uint32 mostAllocs = 128 * 1024);

    void reset() { oa_reset(space); }

    // Where it is refused, both parts are NO_SPACE.
    Allocation allocate(uint32 size) { return detail::of(oa_allocate(space, size)); }
    Allocation allocateAligned(uint32 size, uint32 align) { return detail::of(oa_allocate_aligned(space, size, align)); }

    Allocation allocateTight(uint32 size) { return detail::of(oa_allocate_tight(space, size)); }
    Allocation allocateTightAligned(uint32 size, uint32 align) {
        return detail::of(oa_allocate_tight_aligned(space, size, align));
    }

    // The units from an offset on, where one free block holds them; else, or where a node is missing, both parts are NO_SPACE.
    // It walks over the blocks, as do the questions: whether one free block holds them, which live range has a unit, and which
    // one is the last in the way of units; where there is none, both parts are NO_SPACE.
    Allocation allocateAt(uint32 offset, uint32 size) { return detail::of(oa_allocate_at(space, offset, size)); }
    bool isFreeAt(uint32 offset, uint32 size) const { return oa_is_free_at(space, offset, size); }
    Allocation liveAt(uint32 offset) const { return detail::of(oa_live_at(space, offset)); }
    Allocation inTheWay(uint32 offset, uint32 size) const { return detail::of(oa_in_the_way(space, offset, size)); }

    // Whether the allocation was live; if not, nothing changes.
    bool free(Allocation allocation) { return oa_free(space, detail::in(allocation)); }

    bool isLive(Allocation allocation) const { return oa_is_live(space, detail::in(allocation)); }
    uint32 allocationSize(Allocation allocation) const { return oa_allocation_size(space, detail::in(allocation)); }
    uint32 allocationOffset(Allocation allocation) const { return oa_allocation_offset(space, detail::in(allocation)); }
    bool shrink(Allocation allocation, uint32 size) { return oa_shrink(space, detail::in(allocation), size); }
    bool growInPlace(Allocation allocation, uint32 size) { return oa_grow_in_place(space, detail::in(allocation), size); }
    bool extend(uint32 more) { return oa_extend(space, more); }
    bool retract(uint32 less) { return oa_retract(space, less); }

    // A second range before that of a live allocation, which keeps no alignment; by relocateAligned at a multiple of align,
    // which is at least 1. Where there is none, both parts are NO_SPACE, also where align is 0.
    Allocation relocate(Allocation allocation) { return detail::of(oa_relocate(space, detail::in(allocation))); }
    Allocation relocateAligned(Allocation allocation, uint32 align) { return detail::of(oa_relocate_aligned(space, detail::in(allocation), align)); }

    // The live ranges in space; where there is none, both parts are NO_SPACE.
    Allocation firstLive() const { return detail::of(oa_first_live(space)); }
    Allocation lastLive() const { return detail::of(oa_last_live(space)); }
    Allocation liveBefore(Allocation allocation) const { return detail::of(oa_live_before(space, detail::in(allocation))); }
    Allocation liveAfter(Allocation allocation) const { return detail::of(oa_live_after(space, detail::in(allocation))); }

    // Calls seen(Allocation) for each live range, from the first one on or from the last one back, until it returns false.
    // It takes no memory. The next range is asked for before, so seen may free the one that it is called with.
    template <class F> void eachLive(F &&seen) const {
        for (Allocation at = firstLive(); at.metadata != Allocation::NO_SPACE;) {
            const Allocation next = liveAfter(at);
            if (!seen(at)) return;
            at = next;
        }
    }
    template <class F> void eachLiveBack(F &&seen) const {
        for (Allocation at = lastLive(); at.metadata != Allocation::NO_SPACE;) {
            const Allocation next = liveBefore(at);
            if (!seen(at)) return;
            at = next;
        }
    }

    // compact and makeRoom break every alignment of the ranges that move; by compactBy, compactWithin and makeRoomBy they keep
    // those that divide step. Handles stay live; a range that moves begins at allocationOffset from then on. With a step of 0 nothing moves: compactBy returns false,
    // compactWithin is not done, and makeRoomBy is not possible, nor is it where align is 0. compactBy and
    // compactWithin refuse also where, as oa_compact_by says, a node is missing. moved(Move) is called for each range that
    // moves. An exception of it goes on to the caller when all ranges have moved; after it, moved is not called again.
    template <class F> void compact(F &&moved) {
        detail::Calling<F> each(moved);
        oa_compact(space, detail::Calling<F>::moved, &each);
        each.finish();
    }
    template <class F> bool compactBy(uint32 step, F &&moved) {
        detail::Calling<F> each(moved);
        const bool done = oa_compact_by(space, step, detail::Calling<F>::moved, &each);
        each.finish();
        return done;
    }
    template <class F> Progress compactWithin(uint32 step, uint32 from, uint32 mostUnits, uint32 mostRanges, F &&moved) {
        detail::Calling<F> each(moved);
        Progress done = detail::of(oa_compact_within(space, step, from, mostUnits, mostRanges, detail::Calling<F>::moved, &each));
        each.finish();
        return done;
    }
    template <class F> RoomCost makeRoom(uint32 size, F &&moved) {
        detail::Calling<F> each(moved);
        RoomCost cost = detail::of(oa_make_room(space, size, detail::Calling<F>::moved, &each));
        each.finish();
        return cost;
    }
    template <class F> RoomCost makeRoomBy(uint32 size, uint32 align, uint32 step, F &&moved) {
        detail::Calling<F> each(moved);
        RoomCost cost = detail::of(oa_make_room_by(space, size, align, step, detail::Calling<F>::moved, &each));
        each.finish();
        return cost;
    }

    // Calls seen(Block) for each block, from the start of the space to its end, of a list that is made first: seen may
    // change the allocator. False where memory for the list is out.
    template <class F> bool eachBlock(F &&seen) const {
        return detail::each(oa_blocks_new(space), seen);
    }

    // The blocks, for a loop.
    Blocks blocks() const {
        oa_walk walk;
        oa_walk_start(space, &walk);
        return Blocks(walk);
    }

    // The space as JSON, and as a dump of VMA. Empty where memory is out, or this is empty; an exception of std::string is
    // that of the caller.
    std::string json() const { return detail::of(oa_json(space)); }
    std::string vmaJson() const { return detail::of(oa_vma_json(space)); }

    uint32 size() const { return oa_size(space); }
    uint32 maxAllocs() const { return oa_max_allocs(space); }
    uint32 blockCount() const { return oa_block_count(space); }
    bool isFull() const { return oa_is_full(space); }

    bool isEmpty() const { return oa_is_empty(space); }
    uint32 freeUnits() const { return oa_free_units(space); }
    uint32 liveUnits() const { return oa_live_units(space); }
    Statistics statistics() const { return detail::of(oa_statistics(space)); }
    StorageReport storageReport() const { return detail::of(oa_storage_report(space)); }
    StorageReportFull storageReportFull() const { return detail::of(oa_storage_report_full(space)); }
    // Not granted where allocateAligned would refuse, and where align is 0: align is at least 1.
    Beginning wouldBegin(uint32 size, uint32 align) const { return detail::of(oa_would_begin(space, size, align)); }
    Refusal refusal(uint32 size) const { return Refusal(oa_refusal(space, size)); }
    Refusal refusalAligned(uint32 size, uint32 align) const { return Refusal(oa_refusal_aligned(space, size, align)); }
    Refusal refusalTight(uint32 size) const { return Refusal(oa_refusal_tight(space, size)); }
    Refusal refusalTightAligned(uint32 size, uint32 align) const {
        return Refusal(oa_refusal_tight_aligned(space, size, align));
    }
    RoomCost roomCost(uint32 size) const { return detail::of(oa_room_cost(space, size)); }
    RoomCost roomCostBy(uint32 size, uint32 align, uint32 step) const {
        return detail::of(oa_room_cost_by(space, size, align, step));
    }
    CompactCost compactCostBy(uint32 step) const { return detail::of(oa_compact_cost_by(space, step)); }

private:
    explicit Allocator(oa_allocator *made) noexcept : space(made) {}
    oa_allocator *space;
};

inline void swap(Allocator &a, Allocator &b) noexcept { a.swap(b); }

// A space that was loaded, or an empty one and what is wrong with the bytes, and where.
struct Allocator::Loaded {
    Allocator space;
    oa_found found;
    size_t at;
};

inline Allocator::Loaded Allocator::load(const void *bytes, size_t size, uint32 mostAllocs) {
    const detail::State state(oa_state_new(size));
    if (!state.held) return Loaded{Allocator(static_cast<oa_allocator *>(nullptr)), OA_OUT_OF_MEMORY, 0};
    if (size != 0) std::memcpy(oa_state_bytes(state.held), bytes, size);
    oa_read read = oa_read_state(state.held, mostAllocs);
    return Loaded{Allocator(read.space), read.found, read.at};
}

// A granted range of a GuardedAllocator, for as long as the grant lives.
struct Ticket {
    uint64_t serial = 0;
    uint32 name = Allocation::NO_SPACE;
    uint32 realm = 0;

    // Whether a request was granted; isLive says whether the range still is.
    explicit operator bool() const { return serial != 0; }
};

inline bool operator==(Ticket a, Ticket b) { return a.serial == b.serial && a.name == b.name && a.realm == b.realm; }
inline bool operator!=(Ticket a, Ticket b) { return !(a == b); }

namespace detail {
inline Ticket of(const oag_ticket &from) {
    Ticket ticket;
    ticket.serial = from.serial;
    ticket.name = from.name;
    ticket.realm = from.realm;
    return ticket;
}
inline oag_ticket in(Ticket ticket) { return {ticket.serial, ticket.name, ticket.realm}; }
} // namespace detail

// What is asked of one space with tickets: of a GuardedAllocator, and of the heap of a number. As of Allocator, by tickets.
template <class Of>
class TicketQuestions {
    template <class V> friend class Beside;

public:
    bool isFreeAt(uint32 offset, uint32 size) const { return oag_is_free_at(asked(), offset, size); }
    Ticket liveAt(uint32 offset) const { return detail::of(oag_live_at(asked(), offset)); }
    Ticket inTheWay(uint32 offset, uint32 size) const { return detail::of(oag_in_the_way(asked(), offset, size)); }
    bool isLive(Ticket ticket) const { return oag_is_live(asked(), detail::in(ticket)); }
    uint32 sizeOf(Ticket ticket) const { return oag_size_of(asked(), detail::in(ticket)); }
    uint32 offsetOf(Ticket ticket) const { return oag_offset_of(asked(), detail::in(ticket)); }
    Ticket firstLive() const { return detail::of(oag_first_live(asked())); }
    Ticket lastLive() const { return detail::of(oag_last_live(asked())); }
    Ticket liveBefore(Ticket ticket) const { return detail::of(oag_live_before(asked(), detail::in(ticket))); }
    Ticket liveAfter(Ticket ticket) const { return detail::of(oag_live_after(asked(), detail::in(ticket))); }
    template <class F> void eachLive(F &&seen) const {
        for (Ticket at = firstLive(); at;) {
            const Ticket next = liveAfter(at);
            if (!seen(at)) return;
            at = next;
        }
    }
    template <class F> void eachLiveBack(F &&seen) const {
        for (Ticket at = lastLive(); at;) {
            const Ticket next = liveBefore(at);
            if (!seen(at)) return;
            at = next;
        }
    }

    // The ticket of the allocation of a block or of a move; it converts to false where that is not live.
    Ticket ticketOf(Allocation allocation) const { return detail::of(oag_ticket_of(asked(), detail::in(allocation))); }
    template <class F> bool eachBlock(F &&seen) const { return detail::each(oag_blocks_new(asked()), seen); }
    Blocks blocks() const {
        oa_walk walk;
        oag_walk_start(asked(), &walk);
        return Blocks(walk);
    }
    std::string json() const { return detail::of(oag_json(asked())); }
    std::string vmaJson() const { return detail::of(oag_vma_json(asked())); }
    uint32 size() const { return oag_size(asked()); }
    uint32 maxAllocs() const { return oag_max_allocs(asked()); }
    uint32 blockCount() const { return oag_block_count(asked()); }
    bool isFull() const { return oag_is_full(asked()); }
    bool isEmpty() const { return oag_is_empty(asked()); }
    uint32 freeUnits() const { return oag_free_units(asked()); }
    uint32 liveUnits() const { return oag_live_units(asked()); }
    Statistics statistics() const { return detail::of(oag_statistics(asked())); }
    StorageReport storageReport() const { return detail::of(oag_storage_report(asked())); }
    StorageReportFull storageReportFull() const { return detail::of(oag_storage_report_full(asked())); }
    Beginning wouldBegin(uint32 size, uint32 align) const { return detail::of(oag_would_begin(asked(), size, align)); }
    Refusal refusal(uint32 size) const { return Refusal(oag_refusal(asked(), size)); }
    Refusal refusalAligned(uint32 size, uint32 align) const { return Refusal(oag_refusal_aligned(asked(), size, align)); }
    Refusal refusalTight(uint32 size) const { return Refusal(oag_refusal_tight(asked(), size)); }
    Refusal refusalTightAligned(uint32 size, uint32 align) const {
        return Refusal(oag_refusal_tight_aligned(asked(), size, align));
    }
    RoomCost roomCost(uint32 size) const { return detail::of(oag_room_cost(asked(), size)); }
    RoomCost roomCostAligned(uint32 size, uint32 align) const {
        return detail::of(oag_room_cost_aligned(asked(), size, align));
    }
    RoomCost roomCostBy(uint32 size, uint32 align, uint32 step) const {
        return detail::of(oag_room_cost_by(asked(), size, align, step));
    }
    RoomCost roomCostUnaligned(uint32 size) const { return detail::of(oag_room_cost_unaligned(asked(), size)); }
    CompactCost compactCost() const { return detail::of(oag_compact_cost(asked())); }
    CompactCost compactCostBy(uint32 step) const { return detail::of(oag_compact_cost_by(asked(), step)); }
    bool isSpent() const { return oag_is_spent(asked()); }
    uint32 realm() const { return oag_realm(asked()); }

    // By multiples of it ranges move and keep the alignments that were asked for; 0: there is none, and no call that goes by it
    // moves a range.
    uint32 step() const { return oag_step(asked()); }

    // Assigns the bytes of the state to a vector, say, with realm and serials. False where memory for them is out.
    template <class Bytes> bool save(Bytes &bytes) const { return detail::assign(oag_write_state(asked()), bytes); }

private:
    const oag_allocator *asked() const { return static_cast<const Of *>(this)->asked(); }
};

// An allocator whose tickets are refused once stale: a ticket is live exactly until its grant is freed or reset. Every call takes
// any ticket, and one that is not live changes nothing. It refuses the tickets of an allocator with another realm.
class GuardedAllocator : public TicketQuestions<GuardedAllocator> {
public:
    // With a realm of its own, which no other made so has: the next number of one counter, as oag_new has it. Where memory is
    // out, or the limit is not 2 to 4294967293, it is empty: every request is refused.
    explicit GuardedAllocator(uint32 size, uint32 maxAllocs = 128 * 1024) noexcept : space(oag_new(size, maxAllocs)) {}
    // The same with a realm that you choose.
    static GuardedAllocator withRealm(uint32 size, uint32 maxAllocs, uint32 realm) noexcept {
        return GuardedAllocator(oag_with_realm(size, maxAllocs, realm));
    }

    // What is moved from is empty; a move to itself changes nothing.
    GuardedAllocator(GuardedAllocator &&other) noexcept : space(other.space) { other.space = nullptr; }
    GuardedAllocator &operator=(GuardedAllocator &&other) noexcept {
        if (this != &other) {
            oag_drop(space);
            space = other.space;
            other.space = nullptr;
        }
        return *this;
    }
    void swap(GuardedAllocator &other) noexcept {
        oag_allocator *mine = space;
        space = other.space;
        other.space = mine;
    }
    // A copy, to be used in place of this one: later grants of both may have the same ticket. Empty where memory is out.
    GuardedAllocator clone() const { return GuardedAllocator(oag_clone(space)); }

    // As that of Allocator: all tickets stay live.
    bool raiseLimit(uint32 maxAllocs) { return oag_raise_limit(space, maxAllocs); }

    GuardedAllocator(const GuardedAllocator &) = delete;
    GuardedAllocator &operator=(const GuardedAllocator &) = delete;
    ~GuardedAllocator() { oag_drop(space); }

    // Whether it has a space.
    explicit operator bool() const noexcept { return space != nullptr; }

    // The space of bytes that save has assigned, or that of a heap, with the same tickets, or an empty one and what is wrong with
    // them, and where. It is to be used in place of the one that was saved: later grants of both may have the same ticket.
    struct Loaded;
    static Loaded load(const void *bytes, size_t size, uint32 mostAllocs = 128 * 1024);

    void reset() { oag_reset(space); }

    // Where it is refused, the ticket converts to false.
    Ticket allocate(uint32 size) { return of(oag_allocate(space, size)); }
    Ticket allocateAligned(uint32 size, uint32 align) { return of(oag_allocate_aligned(space, size, align)); }

    Ticket allocateTight(uint32 size) { return of(oag_allocate_tight(space, size)); }
    Ticket allocateTightAligned(uint32 size, uint32 align) { return of(oag_allocate_tight_aligned(space, size, align)); }

    // Whether the ticket was live; if not, nothing changes.
    bool free(Ticket ticket) { return oag_free(space, in(ticket)); }

    // As of Allocator; where there is none, the ticket converts to false.
    Ticket allocateAt(uint32 offset, uint32 size) { return of(oag_allocate_at(space, offset, size)); }

    bool shrink(Ticket ticket, uint32 size) { return oag_shrink(space, in(ticket), size); }
    bool growInPlace(Ticket ticket, uint32 size) { return oag_grow_in_place(space, in(ticket), size); }
    bool extend(uint32 more) { return oag_extend(space, more); }
    bool retract(uint32 less) { return oag_retract(space, less); }

    // A second range before that of a live ticket, which keeps every alignment that was asked for; by relocateAligned at a
    // multiple of align, which is at least 1; by relocateUnaligned anywhere. Where there is none, the ticket converts to false.
    Ticket relocate(Ticket ticket) { return of(oag_relocate(space, in(ticket))); }
    Ticket relocateAligned(Ticket ticket, uint32 align) { return of(oag_relocate_aligned(space, in(ticket), align)); }
    Ticket relocateUnaligned(Ticket ticket) { return of(oag_relocate_unaligned(space, in(ticket))); }

    // Ranges that move keep every alignment that was asked for: they go by step(). Where there is none, compact returns
    // false, compactWithin is not done, makeRoom and makeRoomAligned are not possible, and nothing moves. moved is as of
    // Allocator.
    template <class F> bool compact(F &&moved) {
        detail::Calling<F> each(moved);
        const bool done = oag_compact(space, detail::Calling<F>::moved, &each);
        each.finish();
        return done;
    }
    template <class F> Progress compactWithin(uint32 from, uint32 mostUnits, uint32 mostRanges, F &&moved) {
        detail::Calling<F> each(moved);
        Progress done = detail::of(oag_compact_within(space, from, mostUnits, mostRanges, detail::Calling<F>::moved, &each));
        each.finish();
        return done;
    }
    template <class F> RoomCost makeRoom(uint32 size, F &&moved) {
        detail::Calling<F> each(moved);
        RoomCost cost = detail::of(oag_make_room(space, size, detail::Calling<F>::moved, &each));
        each.finish();
        return cost;
    }
    template <class F> RoomCost makeRoomAligned(uint32 size, uint32 align, F &&moved) {
        detail::Calling<F> each(moved);
        RoomCost cost = detail::of(oag_make_room_aligned(space, size, align, detail::Calling<F>::moved, &each));
        each.finish();
        return cost;
    }

    // The same by a step that you choose: a range keeps the alignments that divide it.
    template <class F> bool compactBy(uint32 step, F &&moved) {
        detail::Calling<F> each(moved);
        const bool done = oag_compact_by(space, step, detail::Calling<F>::moved, &each);
        each.finish();
        return done;
    }
    template <class F> Progress compactWithinBy(uint32 step, uint32 from, uint32 mostUnits, uint32 mostRanges, F &&moved) {
        detail::Calling<F> each(moved);
        Progress done = detail::of(oag_compact_within_by(space, step, from, mostUnits, mostRanges, detail::Calling<F>::moved, &each));
        each.finish();
        return done;
    }
    template <class F> RoomCost makeRoomBy(uint32 size, uint32 align, uint32 step, F &&moved) {
        detail::Calling<F> each(moved);
        RoomCost cost = detail::of(oag_make_room_by(space, size, align, step, detail::Calling<F>::moved, &each));
        each.finish();
        return cost;
    }

    // And by none: a range that moves keeps no alignment.
    template <class F> void compactUnaligned(F &&moved) {
        detail::Calling<F> each(moved);
        oag_compact_unaligned(space, detail::Calling<F>::moved, &each);
        each.finish();
    }
    template <class F> RoomCost makeRoomUnaligned(uint32 size, F &&moved) {
        detail::Calling<F> each(moved);
        RoomCost cost = detail::of(oag_make_room_unaligned(space, size, detail::Calling<F>::moved, &each));
        each.finish();
        return cost;
    }

    bool raiseStep(uint32 align) { return oag_raise_step(space, align); }

private:
    template <class V> friend class Beside;
    friend class TicketQuestions<GuardedAllocator>;
    explicit GuardedAllocator(oag_allocator *made) noexcept : space(made) {}
    const oag_allocator *asked() const { return space; }
    oag_allocator *space;

    static Ticket of(oag_ticket from) { return detail::of(from); }
    static oag_ticket in(Ticket ticket) { return detail::in(ticket); }
};

inline void swap(GuardedAllocator &a, GuardedAllocator &b) noexcept { a.swap(b); }

// A space that was loaded, or an empty one and what is wrong with the bytes, and where.
struct GuardedAllocator::Loaded {
    GuardedAllocator space;
    oa_found found;
    size_t at;
};

inline GuardedAllocator::Loaded GuardedAllocator::load(const void *bytes, size_t size, uint32 mostAllocs) {
    const detail::State state(oa_state_new(size));
    if (!state.held) return Loaded{GuardedAllocator(static_cast<oag_allocator *>(nullptr)), OA_OUT_OF_MEMORY, 0};
    if (size != 0) std::memcpy(oa_state_bytes(state.held), bytes, size);
    oag_read read = oag_read_state(state.held, mostAllocs);
    return Loaded{GuardedAllocator(read.space), read.found, read.at};
}

// A value of yours beside each of some tickets of one GuardedAllocator, or of one heap of Heaps: a pointer, an index, or what else is copied by its
// bytes, of which it has at most 8.
//
//     OffsetAllocator::Beside<Mesh *> meshes;
//     meshes.put(vertices, ticket, mesh);
//     meshes.get(ticket)->draw();
//     meshes.take(ticket);
template <class V>
class Beside {
    static_assert(sizeof(V) <= sizeof(uint64_t), "a value has at most 8 bytes");
    static_assert(std::is_trivially_copyable<V>::value, "a value is copied by its bytes");

public:
    // No value. Where memory is out it is empty: no value is put.
    Beside() noexcept : words(oab_new()) {}

    // What is moved from is empty; a move to itself changes nothing.
    Beside(Beside &&other) noexcept : words(other.words) { other.words = nullptr; }
    Beside &operator=(Beside &&other) noexcept {
        if (this != &other) {
            oab_drop(words);
            words = other.words;
            other.words = nullptr;
        }
        return *this;
    }
    Beside(const Beside &) = delete;
    Beside &operator=(const Beside &) = delete;
    ~Beside() { oab_drop(words); }

    // Whether it has its table.
    explicit operator bool() const noexcept { return words != nullptr; }

    // Whether the value is put: only where the ticket is live in its space. What was under its name is replaced.
    template <class Of> bool put(const TicketQuestions<Of> &space, Ticket ticket, V value) {
        return oab_put(words, space.asked(), detail::in(ticket), packed(value));
    }

    // The value beside a ticket, or `other` where it has none; by take it is taken out.
    V get(Ticket ticket, V other = V()) const {
        const uint64_t *found = oab_get(words, GuardedAllocator::in(ticket));
        return found ? unpacked(*found) : other;
    }
    V take(Ticket ticket, V other = V()) {
        const oab_entry found = oab_take(words, GuardedAllocator::in(ticket));
        return found.found ? unpacked(found.word) : other;
    }
    bool has(Ticket ticket) const { return oab_get(words, GuardedAllocator::in(ticket)) != nullptr; }

    // The value under a name, or `other` where there is none: that of the range that has the name, as `metadata` of a move,
    // where each grant gets one; else it may be one of an earlier grant that was not taken.
    V under(uint32 name, V other = V()) const {
        const oab_entry found = oab_from(words, name);
        return found.found && found.ticket.name == name ? unpacked(found.word) : other;
    }

    // Changes the value beside a ticket. False, and nothing changes, where it has none.
    bool set(Ticket ticket, V value) {
        uint64_t *found = oab_get_mut(words, GuardedAllocator::in(ticket));
        if (found) *found = packed(value);
        return found != nullptr;
    }

    // Calls seen(Ticket, V) for each value, by the names of the tickets, until it returns false.
    template <class F> void each(F &&seen) const {
        for (oab_entry it = oab_from(words, 0); it.found; it = oab_from(words, it.ticket.name + 1)) {
            if (!seen(GuardedAllocator::of(it.ticket), unpacked(it.word))) return;
        }
    }
    size_t size() const { return oab_len(words); }
    bool isEmpty() const { return oab_is_empty(words); }
    void clear() { oab_clear(words); }

private:
    oab_words *words;

    static uint64_t packed(const V &value) {
        uint64_t word = 0;
        std::memcpy(&word, &value, sizeof(V));
        return word;
    }

    static V unpacked(uint64_t word) {
        V value;
        std::memcpy(&value, &word, sizeof(V));
        return value;
    }
};

// Calls copy(Piece) for the copies that make a move where a copy may not overlap, in the order in which they can be made: each
// of at most `most` units, none of which it also reads. False, and nothing is called, where `most` is 0 or the move is none to
// a smaller offset. An exception of copy goes on to the caller; after it, copy is not called again.
template <class F>
inline bool copyInPieces(Move range, uint32 most, F &&copy) {
    detail::Calling<F> each(copy);
    bool done = oa_copy_in_pieces(range.from, range.to, range.size, most, detail::Calling<F>::copied, &each);
    each.finish();
    return done;
}

// The smallest size of a fresh space that grants a request of this size; 0 above 4026531840.
inline uint32 minAllocatorSize(uint32 size) { return oa_min_allocator_size(size); }

// How units of a space are bytes: a unit has `unit` bytes, and the first begins at the address `base`. Each number is there
// where `fits`; when it does not, oa_scale_units says.
struct Scale {
    uint64_t base;
    uint64_t unit;

    using Scaled = oa_scaled;

    // The fewest units that hold so many bytes.
    Scaled unitsOf(uint64_t bytes) const { return oa_scale_units({base, unit}, bytes); }
    Scaled bytesOf(uint32 units) const { return oa_scale_bytes({base, unit}, units); }
    Scaled addressOf(uint32 offset) const { return oa_scale_address({base, unit}, offset); }
    // The offset of the unit that has the byte at an address.
    Scaled offsetAt(uint64_t address) const { return oa_scale_offset({base, unit}, address); }
    // The alignment, in units, of the offsets whose addresses are multiples of so many bytes.
    Scaled alignOf(uint64_t bytes) const { return oa_scale_align({base, unit}, bytes); }
};

// The size classes, by the names of the original.
namespace SmallFloat {
inline uint32 uintToFloatRoundUp(uint32 size) { return oa_uint_to_float_round_up(size); }
inline uint32 uintToFloatRoundDown(uint32 size) { return oa_uint_to_float_round_down(size); }
inline uint32 floatToUint(uint32 floatValue) { return oa_float_to_uint(floatValue); }
} // namespace SmallFloat

} // namespace OffsetAllocator
