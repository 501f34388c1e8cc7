/* Many heaps as one: ranges of as many buffers as are needed, each with a heap of its own.
 *
 *     oah_limits limits = {.size = 1 << 24, .max_allocs = 65536, .most = 64, .most_larger = 16};
 *     limits.first_size = 1 << 18;          // or not: then all usual heaps have 1 << 24 units
 *     limits.first_allocs = 64;             // or not: then they begin with 65536 nodes
 *     oah_heaps *heaps = oah_new(limits);
 *     oah_granted mesh = oah_allocate(heaps, 3000);
 *     if (mesh.is_new) ...                  // make its buffer, of oah_units_of_heap(heaps, mesh.place.heap) units, or oah_give_up
 *     oah_offset_of(heaps, mesh.place);     // where the range begins in it
 *     oah_free(heaps, mesh.place);
 *     for (uint32_t n; (n = oah_drop_empty(heaps, 1)) != OA_NO_SPACE;) ...    // drop the buffer of number n
 *
 * Usual heaps have the numbers below most, larger ones those from most on. Nothing is known of the buffers.
 * Every call takes any place: one that is stale, altered, made up, or of other heaps with another realm is refused by the
 * result, and nothing changes. No call takes memory but a request that makes a heap, or one for which, as for
 * oah_extend_heap, a heap gets more nodes (first_allocs), and oah_new, oah_clone, oah_write_state, oah_read_state and
 * oah_json. Any pointer to heaps may be null. Several threads may read at a time; none may read or write while another
 * writes. */
#ifndef OFFSET_ALLOCATOR_HEAPS_H
#define OFFSET_ALLOCATOR_HEAPS_H

#include "offset_allocator.h"

#ifdef __cplusplus
extern "C" {
#endif

/* Many heaps. */
typedef struct oah_heaps oah_heaps;

/* What heaps are, and how many there may be. A field that is left out is 0.
 *
 * size: the most units that a usual heap is made with. max_allocs: its node limit, 4 to 4294967293 (a larger heap has 4).
 * most: how many usual heaps there may be at a time. most_larger: how many larger ones, each of the size of the request that
 * it was made for.
 *
 * first_size: 0, and all usual heaps have that size; or the units of the usual heap of number 0, at most size: the one of
 * number 1 has twice as many, that of number 2 four times, and so on, up to size. A heap is made at the first number that
 * has none and whose heap has room for the request.
 *
 * first_allocs: 0, and a usual heap has the node limit max_allocs; or the limit that it begins with, at least 8 and at most
 * max_allocs: it takes memory for the nodes of its limit, which is doubled, up to max_allocs, as a part of the grant, or of the
 * extension, that has too few. Which request is granted, and where, is the same, but oah_relocate and oah_shrink take no
 * memory: a heap that would have to get nodes takes no range, and a range is not shrunk where that needs one. */
typedef struct oah_limits {
    uint32_t size;
    uint32_t max_allocs;
    uint32_t most;
    uint32_t most_larger;
    uint32_t first_size;
    uint32_t first_allocs;
} oah_limits;

/* A granted range, of 24 bytes. ticket: its ticket in its heap, whose serial is 0 for a refused request. heap: the number of
 * its heap. realm: that of the heaps. */
typedef struct oah_place {
    oag_ticket ticket;
    uint32_t heap;
    uint32_t realm;
} oah_place;

/* Why a request is refused: the first of these that applies. */
typedef enum oah_reason {
    OAH_GRANTED = 0,   /* It is granted. */
    OAH_EMPTY = 1,     /* It is for no unit. */
    OAH_TOO_LARGE = 2, /* No heap has room, nor would the last usual one when fresh, and there may be no larger ones. */
    OAH_FULL = 3,      /* No heap has room, and each number whose heap would has one. Free ranges, or drop empty heaps. */
    OAH_MEMORY = 4,    /* Memory was refused: for another heap where none has room, or for more nodes of the one that has. */
    OAH_BAD_CALL = 5   /* The heaps are null, or the alignment is 0. */
} oah_reason;

/* What a request gets. is_new: its heap was made for it: make the buffer of that number before the range is used, or take the
 * heap back by oah_give_up. */
typedef struct oah_granted {
    oah_place place;
    bool is_new;
    oah_reason refusal;
} oah_granted;

/* What is live and what is free in all heaps: Rust's `Totals`, C++'s `HeapTotals`. A request of at least 1 unit, without alignment, is granted by a heap that is
 * there exactly when it is at most largest_free_region. */
typedef struct oah_all {
    uint32_t heaps;
    uint32_t largest_free_region;
    uint64_t units;
    uint64_t live_units;
    uint64_t free_units;
} oah_all;

/* No heap, and memory for the numbers of all that may be made, some 1.2 KB each, with a realm of their own, which is kept in
 * places: the next number of the counter of oag_new. Null where a limit is out of range, there may be more than 4294967295
 * heaps, or memory is out. */
oah_heaps *oah_new(oah_limits limits);

/* The same with a realm that you choose. Its heaps have the realms 1, 2, .., as those of any other such heaps: so tickets of two
 * may be alike, though their places are not. */
oah_heaps *oah_with_realm(oah_limits limits, uint32_t realm);

/* Frees the memory of all heaps. A null pointer is allowed. */
void oah_drop(oah_heaps *heaps);

/* A copy, where each place that is live is live too, for which the buffers are those of the same numbers. Use it in place of
 * the one that was copied: later grants of both may have the same place. Null where memory is out, or heaps is null. */
oah_heaps *oah_clone(const oah_heaps *heaps);

/* The bytes of the state of all heaps: 96, 8 for each number, and those of oag_write_state for each heap. Null where memory
 * is out, or heaps is null. To be dropped by oa_state_drop. */
oa_state *oah_write_state(const oah_heaps *heaps);

/* Heaps that were read, or null, and what is wrong, and where: OA_BAD_LIMIT of limits that are not admitted, OA_BAD_COUNTS of
 * a realm or a count of more than 32 bits, OA_BAD_REALM of a heap that was not made, OA_BAD_SIZE of one of fewer units than
 * its number has, or of another node limit than the limits say, too. */
typedef struct oah_read {
    oah_heaps *heaps;
    oa_found found;
    size_t at;
} oah_read;

/* The heaps of these bytes, which go on as the ones that were written: with their limits and realm, and the same places are
 * live. Make the buffer of each number that has a heap. Any bytes are read, as by oa_read_state. More numbers than
 * most_heaps and a node limit above most_allocs are refused, since memory for them is reserved. Use them in place of the
 * ones that were written: later grants of both may have the same place. The state is not dropped. */
oah_read oah_read_state(const oa_state *state, uint32_t most_heaps, uint32_t most_allocs);

/* Makes the space of each heap free. No earlier place is live then. All heaps stay, for oah_drop_empty. */
void oah_reset(oah_heaps *heaps);

/* Grants `size` units of the first heap, by number, that has room; where none has, of a new heap: a usual one if the
 * last of these has room when fresh, else one of exactly `size` units. Where it is refused, nothing changes.
 * Cost: that of oag_allocate, and some steps for each bit of the numbers. */
oah_granted oah_allocate(oah_heaps *heaps, uint32_t size);

/* The same at a multiple of align, which is at least 1, in the heap: one that is there needs room for size + align - 1 units, a
 * new one for size, since its first range begins at 0. */
oah_granted oah_allocate_aligned(oah_heaps *heaps, uint32_t size, uint32_t align);

/* The same from any free block that holds the range: of the first heap, by number, that has such a block, where the block is,
 * and unused nodes; where none has, a heap is made as by oah_allocate_aligned. So heaps that are nearly full are filled.
 * Cost: each number is read up to that of the heap, and in each heap the free blocks of the class of `size` or above, up to
 * the first that holds the range. */
oah_granted oah_allocate_tight(oah_heaps *heaps, uint32_t size);
oah_granted oah_allocate_tight_aligned(oah_heaps *heaps, uint32_t size, uint32_t align);

/* Frees the range of a place. True if it was live; else nothing changes. Its heap stays, for oah_drop_empty. */
bool oah_free(oah_heaps *heaps, oah_place place);

/* Whether the range of a place was not freed, its heap not given up, and nothing reset since. */
bool oah_is_live(const oah_heaps *heaps, oah_place place);

/* The units of the range of a place; 0 where it is not live. */
uint32_t oah_size_of(const oah_heaps *heaps, oah_place place);

/* Where the range of a place begins in its heap; OA_NO_SPACE where it is not live. */
uint32_t oah_offset_of(const oah_heaps *heaps, oah_place place);

/* Grants a second range of as many units as that of a place, in the first other heap, by number, that has room and in which
 * at least as many units are live, and returns its place; the old one stays live. Its serial is 0 where no heap takes the
 * range, or the place is not live; then nothing changes. No heap is made. A range of no units, which oah_shrink may leave, needs
 * room for one, and goes to a heap with more live units or, of as many, with a lower number. Such calls, each followed by the
 * release of its old range before the next one, come to an end, since the sum of the squares of the heaps' live units grows
 * at each that has units; with later releases a range may go to and fro: make one pass, free what it left, then begin the
 * next. The second range keeps every alignment that was asked for: it begins at a multiple of what the offset of the first one
 * and the step of its heap (oah_step) have in common. Of a heap that has no step no range is taken; see oah_relocate_aligned.
 * Done for each live range of the emptiest heap, it empties that heap, for oah_drop_empty:
 *
 *     uint32_t from = oah_emptiest(heaps);
 *     for (oah_place old = oah_last_live(heaps, from), next; old.ticket.serial; old = next) {
 *         next = oah_live_before(heaps, old);
 *         oah_place to = oah_relocate(heaps, old);
 *         if (to.ticket.serial) ...      // copy the units, and oah_free(heaps, old) when no frame reads the old ones
 *     }
 *
 * Cost: that of oah_allocate_aligned, and at most one read of each number. */
oah_place oah_relocate(oah_heaps *heaps, oah_place place);

/* The same at a multiple of align, which is at least 1, whatever alignment the first range has: with 1 at any. The heap needs
 * room for as many units and align - 1 more, or for one. Its serial is 0 also where align is 0. */
oah_place oah_relocate_aligned(oah_heaps *heaps, oah_place place, uint32_t align);

/* The number of the heap with the fewest live units, of those that have a live range, the last such; OA_NO_SPACE where
 * nothing is live, or for null. Cost: each number is read once. */
uint32_t oah_emptiest(const oah_heaps *heaps);

/* The place of the live range that is the last one in the heap of a number, and of the one directly before that of a place.
 * Its serial is 0 where there is none, or the place is not live. */
oah_place oah_last_live(const oah_heaps *heaps, uint32_t number);
oah_place oah_live_before(const oah_heaps *heaps, oah_place place);

/* The first live range of the heap of a number, and the one directly after that of a place, as the two before. */
oah_place oah_first_live(const oah_heaps *heaps, uint32_t number);
oah_place oah_live_after(const oah_heaps *heaps, oah_place place);

/* The first live range of all heaps, by their numbers, and the one after that of a place: in its heap, or else the first one
 * of the heaps behind it. So each is met once:
 *
 *     for (oah_place at = oah_first_place(heaps), next; at.ticket.serial; at = next) {
 *         next = oah_place_after(heaps, at);
 *         ...                            // at may be freed here
 *     }
 *
 * The serial is 0 where there is none, or the place is not live. Cost: the numbers up to that of its heap are read. */
oah_place oah_first_place(const oah_heaps *heaps);
oah_place oah_place_after(const oah_heaps *heaps, oah_place place);

/* The first number that has a heap, and the first after `number`, which may be any; OA_NO_SPACE where there is none, or for
 * null. Cost: the numbers up to it are read. */
uint32_t oah_first_heap(const oah_heaps *heaps);
uint32_t oah_heap_after(const oah_heaps *heaps, uint32_t number);

/* The units of the heap of a number: what the buffer of a new heap needs. 0 where the number has none. */
uint32_t oah_units_of_heap(const oah_heaps *heaps, uint32_t number);

/* The limits, with which oah_new makes heaps that are alike: as it was given them, or the heaps had them that were read, with
 * size and max_allocs where first_size and first_allocs were 0. All are 0 for null. */
oah_limits oah_limits_of(const oah_heaps *heaps);

/* As oag_shrink and oag_grow_in_place, in the heap of a place: true if done. False, and nothing changes, also where the place
 * is not live. */
bool oah_shrink(oah_heaps *heaps, oah_place place, uint32_t size);
bool oah_grow_in_place(oah_heaps *heaps, oah_place place, uint32_t size);

/* What oah_allocate and oah_allocate_aligned would refuse a request for now: OAH_GRANTED where it would be granted, if memory
 * for another heap, or for more nodes of one, is given; never OAH_MEMORY. Cost: some steps for each bit of the numbers. */
oah_reason oah_refusal(const oah_heaps *heaps, uint32_t size);
oah_reason oah_refusal_aligned(const oah_heaps *heaps, uint32_t size, uint32_t align);

/* The same of oah_allocate_tight and oah_allocate_tight_aligned. Cost: that of these. */
oah_reason oah_refusal_tight(const oah_heaps *heaps, uint32_t size);
oah_reason oah_refusal_tight_aligned(const oah_heaps *heaps, uint32_t size, uint32_t align);

/* As oag_extend, of the heap of a number, whose buffer became larger in place: true if done. Every place keeps its range. A
 * usual heap that needs more nodes for the units, and may have them, gets them first. False, and nothing changes, also where
 * the number has no heap, or the memory for these was refused. */
bool oah_extend_heap(oah_heaps *heaps, uint32_t number, uint32_t more);

/* The step of the heap of a number: the least common multiple of the alignments of its grants since it was made or reset. What
 * moves goes by multiples of it. 0 where that would have more than 32 bits, or the number has no heap. */
uint32_t oah_step(const oah_heaps *heaps, uint32_t number);

/* Slides the live ranges of the heap of a number to its front by multiples of its step, as oag_compact_by does, so that each
 * keeps every alignment that was asked for. True if done; false, and no range moves, where the number has no heap, or the heap
 * no step, or oag_compact_by refuses it under the nodes that the heap has now. Every place stays live; a range that moves begins
 * at oah_offset_of from then on. The moves are within the buffer of that number. */
bool oah_compact_heap(oah_heaps *heaps, uint32_t number, void (*moved)(void *user, oa_move range), void *user);

/* The same of each heap, by number: `moved` is called with the number of the heap and each move in it. True if it was done in
 * each; one that refuses it stays as it is. */
bool oah_compact(oah_heaps *heaps, void (*moved)(void *user, uint32_t heap, oa_move range), void *user);

/* Makes room for oah_allocate(heaps, size) in the heap of a number, as oag_make_room_by does by its step: each range that moves
 * keeps every alignment that was asked for. Not possible also where the heap has no step. oah_allocate takes the first heap that
 * has room. */
oa_room oah_make_room(oah_heaps *heaps, uint32_t number, uint32_t size, void (*moved)(void *user, oa_move range), void *user);

/* The same for oah_allocate_aligned(heaps, size, align), where align is at least 1. Not possible also where it is 0. */
oa_room oah_make_room_aligned(oah_heaps *heaps, uint32_t number, uint32_t size, uint32_t align, void (*moved)(void *user, oa_move range),
                              void *user);

/* Takes back the heap of a number, with all that it granted. True if there was one. No place of it is ever live again. */
bool oah_give_up(oah_heaps *heaps, uint32_t number);

/* Drops the last empty heap, by number, if more than `keep` are empty, and returns its number: drop its buffer. OA_NO_SPACE
 * where at most `keep` are empty, or for null. No place loses its range. Cost: some steps for each bit of the numbers. */
uint32_t oah_drop_empty(oah_heaps *heaps, uint32_t keep);

/* Drops the heap of a number, if it is empty. True if it did: then drop its buffer. */
bool oah_drop_heap(oah_heaps *heaps, uint32_t number);

/* The realm of the places, or 0 where the heaps are null. */
uint32_t oah_realm(const oah_heaps *heaps);

/* The heap of a number, for every question of offset_allocator.h that takes a const oag_allocator, and oab_put; null where the
 * number has no heap. It is valid until the next call that changes or drops the heaps. Never pass it to a call whose parameter
 * is not const. */
const oag_allocator *oah_heap(const oah_heaps *heaps, uint32_t number);

/* The calls of one space on the heap of a number: each does in this heap what the oag_ call of its name does, under the node
 * limit that the heap has now, and no other heap changes. Where the number has no heap, or the heaps are null, it is refused as
 * by a null allocator. oah_heap_extend raises no node limit, as oah_extend_heap does; oah_heap_relocate grants in the same heap, as
 * oah_relocate does in another; oah_heap_retract leaves a heap the units that the limits give its number, or one of a larger heap.
 * `moved` must not use the heaps, or a pointer of oah_heap.
 *
 * A ticket here and a place are of one grant: {ticket, number, oah_realm(heaps)} is the place. A ticket has the realm of the heap
 * alone: one of other heaps, whose realm is chosen too, may be taken for one of these. */
oag_ticket oah_heap_allocate(oah_heaps *heaps, uint32_t number, uint32_t size);
oag_ticket oah_heap_allocate_aligned(oah_heaps *heaps, uint32_t number, uint32_t size, uint32_t align);
oag_ticket oah_heap_allocate_tight(oah_heaps *heaps, uint32_t number, uint32_t size);
oag_ticket oah_heap_allocate_tight_aligned(oah_heaps *heaps, uint32_t number, uint32_t size, uint32_t align);
oag_ticket oah_heap_allocate_at(oah_heaps *heaps, uint32_t number, uint32_t offset, uint32_t size);
bool oah_heap_free(oah_heaps *heaps, uint32_t number, oag_ticket ticket);
bool oah_heap_shrink(oah_heaps *heaps, uint32_t number, oag_ticket ticket, uint32_t size);
bool oah_heap_grow_in_place(oah_heaps *heaps, uint32_t number, oag_ticket ticket, uint32_t size);
bool oah_heap_extend(oah_heaps *heaps, uint32_t number, uint32_t more);
bool oah_heap_retract(oah_heaps *heaps, uint32_t number, uint32_t less);
oag_ticket oah_heap_relocate(oah_heaps *heaps, uint32_t number, oag_ticket ticket);
oag_ticket oah_heap_relocate_aligned(oah_heaps *heaps, uint32_t number, oag_ticket ticket, uint32_t align);
oag_ticket oah_heap_relocate_unaligned(oah_heaps *heaps, uint32_t number, oag_ticket ticket);
bool oah_heap_compact(oah_heaps *heaps, uint32_t number, void (*moved)(void *user, oa_move range), void *user);
bool oah_heap_compact_by(oah_heaps *heaps, uint32_t number, uint32_t step, void (*moved)(void *user, oa_move range),
    void *user);
void oah_heap_compact_unaligned(oah_heaps *heaps, uint32_t number, void (*moved)(void *user, oa_move range), void *user);
oa_progress oah_heap_compact_within(oah_heaps *heaps, uint32_t number, uint32_t from, uint32_t most_units,
    uint32_t most_ranges, void (*moved)(void *user, oa_move range), void *user);
oa_progress oah_heap_compact_within_by(oah_heaps *heaps, uint32_t number, uint32_t step, uint32_t from,
    uint32_t most_units, uint32_t most_ranges, void (*moved)(void *user, oa_move range), void *user);
oa_room oah_heap_make_room(oah_heaps *heaps, uint32_t number, uint32_t size, void (*moved)(void *user, oa_move range),
    void *user);
oa_room oah_heap_make_room_aligned(oah_heaps *heaps, uint32_t number, uint32_t size, uint32_t align,
    void (*moved)(void *user, oa_move range), void *user);
oa_room oah_heap_make_room_by(oah_heaps *heaps, uint32_t number, uint32_t size, uint32_t align, uint32_t step,
    void (*moved)(void *user, oa_move range), void *user);
oa_room oah_heap_make_room_unaligned(oah_heaps *heaps, uint32_t number, uint32_t size, void (*moved)(void *user,
    oa_move range), void *user);
bool oah_heap_raise_step(oah_heaps *heaps, uint32_t number, uint32_t align);
void oah_heap_reset(oah_heaps *heaps, uint32_t number);

/* Whether a number has a heap. */
bool oah_has(const oah_heaps *heaps, uint32_t number);

/* As oa_storage_report and oa_statistics, of the heap of a number; all 0 where it has none. A report of 0 and 0 may mean that
 * the heap has reached the node limit that it has now, which a request raises: oah_totals looks at the largest limit. */
oa_report oah_storage_report(const oah_heaps *heaps, uint32_t number);
oa_totals oah_statistics(const oah_heaps *heaps, uint32_t number);

/* What is live and what is free in all heaps; all 0 for null. Cost: each number is read once. */
oah_all oah_totals(const oah_heaps *heaps);

/* All heaps as JSON: an object with `totals`, the fields of oah_all by their names, and `heaps`, by number: each with its
 * `number` and `space`, the object that oa_json writes. Null where memory is out, or heaps is null. To be dropped by
 * oa_text_drop. Cost: each number is read twice, and oa_json of each heap. */
oa_text *oah_json(const oah_heaps *heaps);

#ifdef __cplusplus
}
#endif

#endif
