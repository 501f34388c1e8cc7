/* Ranges of one contiguous space, handed out and taken back: the C interface (C99) of offset-allocator-proved.
 *
 *     oa_allocator *vertices = oa_new(1 << 20, 4096);
 *     oa_allocation mesh = oa_allocate(vertices, 3000);    // mesh.offset is its first vertex
 *     oa_free(vertices, mesh);
 *     oa_drop(vertices);
 *
 * A second oa_free of mesh is refused as long as no later grant has its name, and then frees that grant. The calls oag_*
 * have tickets of 16 bytes in place of handles, for which it is always refused.
 *
 * A space has units: bytes, vertices, rows. It is never touched. A block is a run of units, live or free; no two free
 * blocks are neighbours. Each block has a node, whose number is its name.
 *
 * Errors. No argument is undefined, except a pointer that is neither null nor returned by a call here or that was dropped,
 * and a walk whose space changed. A call with a null allocator does nothing and returns what its comment says. A handle
 * that is not live here is refused by the result, and nothing changes: it was freed, or a reset freed it, or its name is
 * not in use. A stale handle, or one of another allocator, whose name is in use here cannot be distinguished from the live
 * one. Only oab_put and the calls named *_new, *_clone, *_raise_limit, *_write_state, *_read_state and *_json take memory.
 *
 * Threads. Calls with an oa_allocator * need it for themselves; calls with a const oa_allocator * may run at the same
 * time as each other.
 *
 * Cost. "Bounded" is at most 144 accesses to table cells, whatever the space holds. The calls named *_tight are not.
 */
#ifndef OFFSET_ALLOCATOR_H
#define OFFSET_ALLOCATOR_H

#include <stdbool.h>
#include <stddef.h>
#include <stdint.h>

#ifdef __cplusplus
extern "C" {
#endif

/* The value of a missing offset or name. */
#define OA_NO_SPACE UINT32_C(0xffffffff)

/* The node limit of the C++ class, where none is given. */
#define OA_MAX_ALLOCS UINT32_C(131072)

/* The allocator of one space. */
typedef struct oa_allocator oa_allocator;

/* A handle of a granted range. It is two numbers: it may be stored, copied, and compared by both.
 * offset: where the range began when the handle was made. metadata: its name; only this counts in calls.
 * For a refused request both are OA_NO_SPACE. A name never is, so test metadata; the offset of a range of no units at the
 * end of a space of 4294967295 units is that number too. */
typedef struct oa_allocation {
    uint32_t offset;
    uint32_t metadata;
} oa_allocation;

/* The free space in short.
 * total_free_space: the units of all free blocks. largest_free_region: the largest request that would be granted.
 * Both are 0 where the node limit is reached. */
typedef struct oa_report {
    uint32_t total_free_space;
    uint32_t largest_free_region;
} oa_report;

/* What is live and what is free, exactly, at the node limit too: `Statistics` of Rust and C++. live_units + free_units is the size of the space, and
 * live_ranges + free_blocks + unused_nodes the node limit.
 * largest_free_block: its units. largest_free_region: the smallest size of its class; with room for one more block a
 * request of at least 1 unit is granted exactly when it is at most this.
 * unused_nodes: a block is added only while there are at least 2. */
typedef struct oa_totals {
    uint32_t live_ranges;
    uint32_t live_units;
    uint32_t free_blocks;
    uint32_t free_units;
    uint32_t largest_free_block;
    uint32_t largest_free_region;
    uint32_t unused_nodes;
} oa_totals;

/* How far oa_compact_within came. done: false where it was refused, and then the rest is 0. units, ranges: of the ranges that moved.
 * more: whether `next` is where the next call goes on; if not, the end of the space was reached, and it is 0. */
typedef struct oa_progress {
    bool done;
    bool more;
    uint32_t units;
    uint32_t ranges;
    uint32_t next;
} oa_progress;

/* What has to move at least so that a request finds its block. possible: whether all free units together are enough, or, by
 * steps, whether some run of blocks gives up enough units and nodes; if not, the rest is 0. units, ranges: of the ranges that have to move. */
typedef struct oa_room {
    bool possible;
    uint32_t units;
    uint32_t ranges;
} oa_room;

/* What a compaction by whole steps would copy, in units and in ranges, and the largest request that would be granted then,
 * while the node limit admits one block more. possible: whether it would be done; if not, all is 0. */
typedef struct oa_compaction {
    bool possible;
    uint32_t units;
    uint32_t ranges;
    uint32_t largest;
} oa_compaction;

/* Where a range would begin. granted: whether the request would be granted; if not, offset is 0. */
typedef struct oa_beginning {
    bool granted;
    uint32_t offset;
} oa_beginning;

/* The free blocks by size class. size: the smallest size of the class (from class 240 on, where no block is, modulo
 * 2 to the power of 32). count: how many free blocks it has. */
typedef struct oa_region {
    uint32_t size;
    uint32_t count;
} oa_region;
typedef struct oa_report_full {
    oa_region free_regions[256];
} oa_report_full;

/* Why a request would be refused: the first of these that applies. */
typedef enum oa_reason {
    OA_GRANTED = 0,    /* It would be granted. */
    OA_NODES = 1,      /* Too few nodes are left. Raise the limit, use another space, or free ranges beside free blocks. */
    OA_TOO_LARGE = 2,  /* A fresh space of this size would refuse it too. Extend the space. */
    OA_SPACE = 3,      /* All free units in one block would not be enough. Free ranges, or extend the space. */
    OA_FRAGMENTED = 4, /* They would be enough: after oa_compact the request is granted. */
    OA_BAD_CALL = 5,   /* The allocator is null, or the alignment is 0. */
    OA_SERIALS = 6     /* All serials are given (oag_refusal alone). Use another space. */
} oa_reason;

/* A range that oa_compact or oa_make_room moves, by steps too: its units were at from, and have to be at to, which is
 * smaller. */
typedef struct oa_move {
    uint32_t from;
    uint32_t to;
    uint32_t size;
    oa_allocation allocation; /* the handle, with the new offset */
} oa_move;

/* A block. allocation: its handle, where it is used. */
typedef enum oa_kind { OA_END = 0, OA_FREE = 1, OA_USED = 2 } oa_kind;
typedef struct oa_block {
    oa_kind kind;
    uint32_t offset;
    uint32_t size;
    oa_allocation allocation;
} oa_block;

/* A walk over the blocks of a space, in memory of yours. What is in it is not to be read or changed; all 0 it has ended. */
typedef struct oa_walk {
    uint64_t state[4];
} oa_walk;

/* A list of blocks. */
typedef struct oa_blocks oa_blocks;

/* The bytes of a state. */
typedef struct oa_state oa_state;

/* A text. */
typedef struct oa_text oa_text;

/* What oa_read_state, oag_read_state and oah_read_state found: a space, no memory for it, or what is wrong with the bytes. */
typedef enum oa_found {
    OA_SPACE_READ = 0,
    OA_OUT_OF_MEMORY = 1,
    OA_BAD_LENGTH = 2,     /* They are not as many as their counts say, or no multiple of 4. */
    OA_BAD_FORM = 3,       /* They do not begin as a state does, or are of another version. */
    OA_BAD_LIMIT = 4,      /* The node limit is above the one that is admitted. */
    OA_BAD_COUNTS = 5,     /* No block, or more blocks and unused names, or live ranges, than the node limit admits. */
    OA_BAD_CHECKSUM = 6,
    OA_BAD_BLOCK = 7,      /* A block with a wrong name, or the sizes are not that of the space. */
    OA_BAD_UNUSED = 8,     /* An unused name that is wrong, or listed twice. */
    OA_BAD_FREE = 9,       /* The name of no block, or of a free one that was listed before. */
    OA_BAD_NEIGHBOURS = 10, /* This block and the one after it are both free. */
    OA_BAD_REALM = 11,     /* A realm of more than 32 bits. */
    OA_BAD_SERIAL = 12,    /* A serial that is above the number of grants, or none for a live range. */
    OA_BAD_PLACE = 13,     /* Of many heaps: the state of a heap does not begin where the one before it ends. */
    OA_BAD_SIZE = 14,      /* Of many heaps: a heap with fewer units, or another node limit, than the limits say. */
    OA_BAD_STEP = 15       /* A step of more than 32 bits. */
} oa_found;

/* A space that was read, or null, and what is wrong. at: the place of the byte from which on the bytes are wrong, or their
 * number where there are too few or too many. */
typedef struct oa_read {
    oa_allocator *space;
    oa_found found;
    size_t at;
} oa_read;

/* Makes a space of `size` units, all free. At most max_allocs - 1 blocks exist at a time, free ones included, so with at
 * most L live ranges 2 * L + 2 are enough. Null where max_allocs is not 2 to 4294967293, or memory is out.
 * Cost: 28 bytes a node, reserved here and written when the node is used for the first time. */
oa_allocator *oa_new(uint32_t size, uint32_t max_allocs);

/* Frees the allocator's own memory. A null pointer is allowed. */
void oa_drop(oa_allocator *space);

/* A copy with memory of its own: the same live handles, and the same answers and handles to all further calls. Null where
 * memory is out, or space is null. Cost: as oa_new, and time for the nodes that were made. */
oa_allocator *oa_clone(const oa_allocator *space);

/* Gives a space another node limit, at least as large: all handles stay live, and requests that were refused as OA_NODES may
 * be granted. True if done. False, and nothing changes, where max_allocs is smaller than the limit or above 4294967293, where
 * memory is out, or if the allocator is null. Cost: as oa_clone; the old tables are dropped when the new ones are made. */
bool oa_raise_limit(oa_allocator *space, uint32_t max_allocs);

/* The bytes of the state of a space, in which it can be stored: 32, 8 for each block, 4 more for each free one, and 4 for
 * each unused node that was made. Null where memory is out, or space is null. To be dropped by oa_state_drop. */
oa_state *oa_write_state(const oa_allocator *space);

/* Room for the bytes of a state that was stored, all 0: copy them to oa_state_bytes. Null where memory is out. */
oa_state *oa_state_new(size_t size);

/* The bytes, to be read and written until the state is dropped, and their number. Null and 0 where state is null. */
uint8_t *oa_state_bytes(oa_state *state);
size_t oa_state_size(const oa_state *state);

/* Frees the bytes. A null pointer is allowed. */
void oa_state_drop(oa_state *state);

/* The space of these bytes, which goes on as the one that was written: the same handles are live. Any bytes are read: where
 * they are no state, the answer says what is wrong with them, and where. A node limit above most_allocs is refused, since
 * memory for it is reserved. The state is not dropped. */
oa_read oa_read_state(const oa_state *state, uint32_t most_allocs);

/* Frees all ranges: the whole space is one free block again, with what oa_extend added. No earlier handle is live.
 * Cost: at most 270 accesses, whatever the node limit. */
void oa_reset(oa_allocator *space);

/* Grants a range of `size` units. With size 0 too it takes a node. Where it is refused (see oa_refusal), or the
 * allocator is null, both parts are OA_NO_SPACE, and nothing changes. Cost: at most 64 accesses. */
oa_allocation oa_allocate(oa_allocator *space, uint32_t size);

/* Grants a range of `size` units that begins at a multiple of align; align is at least 1: 256, or 12 for vertices of 12
 * bytes. Above 1, it needs a free block for size + align - 1 units, and room for two more blocks. It is refused as
 * oa_allocate, and where align is 0. Where all requests have one alignment, count in units of it instead: then no padding is
 * needed. Bounded. */
oa_allocation oa_allocate_aligned(oa_allocator *space, uint32_t size, uint32_t align);

/* Grants `size` units as oa_allocate does, and where that is refused, of the first free block of the class of `size` that
 * has them. So it is refused only where no free block has `size` units, or no node is left: a heap that is nearly full is
 * filled, and a fresh space grants all its units. Cost: at most 140 accesses, and 6 for each free block of the class. */
oa_allocation oa_allocate_tight(oa_allocator *space, uint32_t size);

/* The same at a multiple of align, which is at least 1: as oa_allocate_aligned, and where that is refused, of the first free
 * block, from the class of `size` on, that holds them where it begins. Above 1, it needs room for two more blocks.
 * Cost: at most 140 accesses, and 6 for each free block of these classes. */
oa_allocation oa_allocate_tight_aligned(oa_allocator *space, uint32_t size, uint32_t align);

/* Grants the `size` units that begin at `offset`, where one free block holds them all: for addresses that were captured, or
 * that are reserved. A range of no units is taken of the last free block that begins at `offset` or before. Both parts are
 * OA_NO_SPACE, and nothing changes, where no free block holds them (oa_in_the_way has the last live range in the way), where no node
 * is left for the blocks that are added, one for the units of the block before the range, one for those after it, and at least
 * one, or if the allocator is null. Cost: 80 accesses, and 3 for each block, from the last one back. */
oa_allocation oa_allocate_at(oa_allocator *space, uint32_t offset, uint32_t size);

/* Whether one free block holds the `size` units that begin at `offset`; false for null. Cost: 2 accesses, and 3 for each block,
 * from the last one back. */
bool oa_is_free_at(const oa_allocator *space, uint32_t offset, uint32_t size);

/* The handle of the live range that has the unit at `offset`, so that a range can be freed by a place in it. Both parts are
 * OA_NO_SPACE where that unit is free or not in the space, or if the allocator is null. Cost: 5 accesses, and 5 for each block,
 * from the last one back. */
oa_allocation oa_live_at(const oa_allocator *space, uint32_t offset);

/* The handle of the last live range that is in the way of the `size` units that begin at `offset`: it has one of them, or lies
 * among them, as a range of no units may; of no units, it has units on both sides of `offset`. Both parts are OA_NO_SPACE where there is none, or if the allocator is null. Cost: 5
 * accesses, and 5 for each block, from the last one back. */
oa_allocation oa_in_the_way(const oa_allocator *space, uint32_t offset, uint32_t size);

/* Frees a range. True if its handle is live; false, and nothing changes, if not or if the allocator is null. Bounded. */
bool oa_free(oa_allocator *space, oa_allocation allocation);

/* Whether a handle is live: its name is the name of a used block. False for a null allocator. At most 8 accesses. */
bool oa_is_live(const oa_allocator *space, oa_allocation allocation);

/* The units of a range, exactly as requested. 0 if the handle is not live or the allocator is null, and for a range of
 * no units. At most 16 accesses. */
uint32_t oa_allocation_size(const oa_allocator *space, oa_allocation allocation);

/* Where a range begins now, which the calls that move ranges may have changed. OA_NO_SPACE if the handle is not live or the
 * allocator is null. At most 16 accesses. */
uint32_t oa_allocation_offset(const oa_allocator *space, oa_allocation allocation);

/* Gives the last units of a range back, so that `size` remain. True if done. False, and nothing changes, where it has
 * fewer, where a node is needed and none is left, if the handle is not live, or if the allocator is null. Bounded. */
bool oa_shrink(oa_allocator *space, oa_allocation allocation, uint32_t size);

/* Takes units that are free directly after a range, so that it has `size`. True if done. False, and nothing changes,
 * where it has more, where too few are free there, if the handle is not live, or if the allocator is null. Bounded. */
bool oa_grow_in_place(oa_allocator *space, oa_allocation allocation, uint32_t size);

/* Adds `more` free units at the end of the space. True if done. False, and nothing changes, where the space would have
 * more than 4294967295 units, where its last block is used and no node is left, or if the allocator is null. Bounded. */
bool oa_extend(oa_allocator *space, uint32_t more);

/* Takes `less` free units off the end of the space, the reverse of oa_extend. True if done. False, and nothing changes, where
 * the last block is used or has fewer units, or if the allocator is null. Bounded. */
bool oa_retract(oa_allocator *space, uint32_t less);

/* A second range of as many units before that of a live handle, which keeps no alignment (oa_relocate_aligned has one), from
 * the block that oa_allocate takes for them. Both are live until the old one is freed, so the units can be copied while the
 * old ones are still read, and the copies do not overlap. Both parts are OA_NO_SPACE, and nothing changes, where oa_allocate
 * would refuse them, where that block begins after the range, if the handle is not live, or if the allocator is null.
 * Bounded. */
oa_allocation oa_relocate(oa_allocator *space, oa_allocation allocation);

/* The same at a multiple of align, from the block that oa_allocate_aligned takes for these units. Both parts are OA_NO_SPACE,
 * and nothing changes, also where align is 0; align is at least 1. Bounded. */
oa_allocation oa_relocate_aligned(oa_allocator *space, oa_allocation allocation, uint32_t align);

/* Moves all live ranges to the front of the space, and breaks every alignment: a range that moves keeps none, by oa_compact_by
 * those that divide a step. They stay in order, so all free units are one block. Handles stay live; a range that moves begins
 * at oa_allocation_offset from then on.
 * `moved`, if it is not null, is called with `user` and each range that moves, in the order in which they can be copied
 * one after the other. It must return: no exception, no longjmp; and it must not use this allocator.
 * Nothing is done where the allocator is null. Cost: at most 10 accesses a block, and 384. */
void oa_compact(oa_allocator *space, void (*moved)(void *user, oa_move range), void *user);

/* Moves live ranges to the front of the space, in order, each by a multiple of `step` units, by as many as the free blocks
 * before it have. Handles stay live; a range that moves begins at oa_allocation_offset from then on, and keeps its alignment
 * where that divides `step`: pass the least common multiple of the alignments that are used. What whole steps leave of a
 * free block stays a free block; all that the others give up is one free block at the end of the space. `moved` is called
 * as by oa_compact.
 * True if done, also where no free block before another block has a whole step, and so nothing changes. False, and nothing
 * changes, where there is such a block but the free block at the end needs a node that nothing frees: no node is left, and
 * of the free blocks from that one on none is used up, as one of whole steps is, and a last one (so never where `step` is 1);
 * also where `step` is 0, or if the allocator is null. Cost: at most 21 accesses a block, and 40. */
bool oa_compact_by(oa_allocator *space, uint32_t step, void (*moved)(void *user, oa_move range), void *user);

/* The same for a part of the space, so that it can be done over several frames: moves the live ranges behind the first free
 * block of at least a step that ends at the offset `from` or later, until the next one would take more than `most_units` units,
 * or more than `most_ranges` ranges, in all; the first one moves in any case. Begin at 0, and go on from `next`, whatever is
 * granted and freed between the calls; where there is no `more`, begin at 0 again. Where nothing has to move, done is true and
 * the rest is 0. Handles, alignments and `moved` are as of oa_compact_by; all that the free blocks give up is one free block
 * behind the last range that moved.
 * Not done, and nothing changes, where no node is left and of the free blocks that would slide none is used up: a larger
 * budget, or a smaller step, may help; also where `step` is 0, or if the allocator is null. Cost: 4 accesses a block, 42 for
 * each range that the budget allows, and 60; at most 21 a block, and 40. */
oa_progress oa_compact_within(oa_allocator *space, uint32_t step, uint32_t from, uint32_t most_units, uint32_t most_ranges,
                              void (*moved)(void *user, oa_move range), void *user);

/* The copies that make a move of `size` units from `from` to `to` where a copy may not overlap, as on a device: `copy`, if it
 * is not null, is called with `user` and each, in the order in which they can be made. Each has at most `most` units, as many
 * as it can, and reads none that it writes. True if done. False, and nothing is called, where `most` is 0, where `to` is not
 * below `from`, or where `from + size` is above 4294967295. Cost: a call for each piece. */
bool oa_copy_in_pieces(uint32_t from, uint32_t to, uint32_t size, uint32_t most,
                       void (*copy)(void *user, uint32_t from, uint32_t to, uint32_t size), void *user);

/* The live ranges in space: the first one, the last one, and the one before or after that of a live handle. Both parts are
 * OA_NO_SPACE where there is none, if the handle is not live, or if the allocator is null. Bounded, but for the first one: 2
 * accesses a block, and 1. */
oa_allocation oa_first_live(const oa_allocator *space);
oa_allocation oa_last_live(const oa_allocator *space);
oa_allocation oa_live_before(const oa_allocator *space, oa_allocation allocation);
oa_allocation oa_live_after(const oa_allocator *space, oa_allocation allocation);

/* Makes room for a request of this size, and breaks every alignment of the ranges that move for it; by oa_make_room_by they
 * keep those that divide a step. It slides those of a run of blocks that costs what oa_room_cost returns to its front, so that
 * its free units are one block after them, which is large enough. `moved` is called as by oa_compact, and the same holds of
 * handles. Returns what oa_room_cost would have returned before; where that is not possible or has no ranges, nothing changes.
 * Else oa_allocate grants the request afterwards, at the node limit too.
 * All 0 for null. Cost: 6 accesses a block, 40 a range that moves, and 20. */
oa_room oa_make_room(oa_allocator *space, uint32_t size, void (*moved)(void *user, oa_move range), void *user);

/* The same by whole steps, for oa_allocate_aligned of this size and alignment (1: for oa_allocate): slides the ranges of a
 * run of blocks that costs what oa_room_cost_by returns to its front, each by a multiple of `step` units, so that it keeps
 * its alignment where that divides `step`. What whole steps leave of a free block of the run stays a free block. Returns what
 * oa_room_cost_by would have returned before; where that is not possible or has no ranges, nothing changes. Wherever it is
 * possible, oa_allocate_aligned grants the request afterwards, at the node limit too.
 * All 0 for null, or where `align` or `step` is 0: both are at least 1. Cost: 7 accesses a block, 36 a range of the
 * run, and 60. */
oa_room oa_make_room_by(oa_allocator *space, uint32_t size, uint32_t align, uint32_t step,
                        void (*moved)(void *user, oa_move range), void *user);

/* The units of the space, with what oa_extend added; 0 for null. */
uint32_t oa_size(const oa_allocator *space);

/* The node limit; 0 for null. */
uint32_t oa_max_allocs(const oa_allocator *space);

/* The number of blocks, used and free; 0 for null. */
uint32_t oa_block_count(const oa_allocator *space);

/* Whether max_allocs - 1 blocks exist, so that every request is refused; true for null. */
bool oa_is_full(const oa_allocator *space);

/* Whether no range is live, not even one of no units; true for null. At most 8 accesses. */
bool oa_is_empty(const oa_allocator *space);

/* The units of all free blocks, at the node limit too, and of all live ranges; 0 for null. No accesses. */
uint32_t oa_free_units(const oa_allocator *space);
uint32_t oa_live_units(const oa_allocator *space);

/* What is live and what is free; all 0 for null. Cost: 520 accesses, and 4 a free block. */
oa_totals oa_statistics(const oa_allocator *space);

/* The free space in short; 0, 0 for null. A request of at least 1 unit is granted exactly when it is at most
 * largest_free_region. At most 8 accesses. */
oa_report oa_storage_report(const oa_allocator *space);

/* The free blocks by class; all 0 for null. Cost: 512 accesses, and 2 a free block. */
oa_report_full oa_storage_report_full(const oa_allocator *space);

/* Where the range would begin that oa_allocate_aligned would grant now; with an `align` of 1, oa_allocate. Not granted where it
 * would refuse, and for null or an `align` of 0: align is at least 1. Nothing is taken. At most 4 accesses. */
oa_beginning oa_would_begin(const oa_allocator *space, uint32_t size, uint32_t align);

/* Why oa_allocate would be refused now. At most 8 accesses. */
oa_reason oa_refusal(const oa_allocator *space, uint32_t size);

/* Why oa_allocate_aligned would be refused now. At most 8 accesses. */
oa_reason oa_refusal_aligned(const oa_allocator *space, uint32_t size, uint32_t align);

/* Why oa_allocate_tight and oa_allocate_tight_aligned would be refused now. OA_TOO_LARGE: the space has fewer units.
 * OA_SPACE: all free units together are fewer, or none is free. OA_FRAGMENTED: they are enough, but no free block holds it;
 * after oa_compact a request without alignment is granted. Cost: 2 accesses, and 6 for each free block of the class of
 * `size` or above. */
oa_reason oa_refusal_tight(const oa_allocator *space, uint32_t size);
oa_reason oa_refusal_tight_aligned(const oa_allocator *space, uint32_t size, uint32_t align);

/* What has to move at least so that oa_allocate of this size finds its block: of all runs of blocks, from a free one to a
 * free one, that have enough free units together, one whose ranges have the fewest units, and of these one with the fewest
 * ranges. Both are 0 where a free block is large enough, though the request is refused at the node limit. For an aligned
 * request ask with size + align - 1. All 0 for null. Cost: 6 accesses a block, and 2. */
oa_room oa_room_cost(const oa_allocator *space, uint32_t size);

/* What has to move at least, by whole steps, so that oa_allocate_aligned of this size and alignment is granted: of all runs
 * of blocks, from a free one to a free one, that leave one free block which is large enough and give back the nodes that the
 * request needs, one whose ranges have the fewest units, and of these one with the fewest ranges. Not possible where there is
 * no such run. Possible with both 0 exactly where the request would be granted now. At the node limit a cost may be too high: it
 * counts ranges of the run that stay. All 0 for null, or where `align` or `step` is 0: both are at least 1. Cost: 7
 * accesses a block, and 2. */
oa_room oa_room_cost_by(const oa_allocator *space, uint32_t size, uint32_t align, uint32_t step);

/* What oa_compact_by of this step would copy now, and the largest request that would be granted then; nothing moves. Not
 * possible exactly where oa_compact_by would return false. All 0 for null, or where `step` is 0. Cost: 7 accesses a block,
 * and 8. */
oa_compaction oa_compact_cost_by(const oa_allocator *space, uint32_t step);

/* The smallest size of a fresh space that grants a request of this size; 0 above 4026531840, where none does. */
uint32_t oa_min_allocator_size(uint32_t size);

/* How units of a space are bytes of something larger: each unit has `unit` bytes, and the first begins at the address `base`,
 * both of 64 bits. So a space stands for addresses of a device, or for a heap of more than 4 GiB. */
typedef struct oa_scale {
    uint64_t base;
    uint64_t unit;
} oa_scale;

/* A number, where `fits`; else 0. */
typedef struct oa_scaled {
    bool fits;
    uint64_t value;
} oa_scaled;

/* The fewest units that hold so many bytes; the bytes of units; the address at which the unit of an offset begins; the offset
 * of the unit that has the byte at an address; and the alignment in units of the offsets whose addresses are multiples of so
 * many bytes: exactly these are multiples of it. `fits` is false where the number would have more than 32 bits (of bytes and
 * addresses 64); where the address is before the base; of an alignment where it is 0, where the base is no multiple of it, and
 * where neither of it and the unit is a multiple of the other; and with a unit of 0, but of bytes and addresses. No space is
 * touched. */
oa_scaled oa_scale_units(oa_scale scale, uint64_t bytes);
oa_scaled oa_scale_bytes(oa_scale scale, uint32_t units);
oa_scaled oa_scale_address(oa_scale scale, uint32_t offset);
oa_scaled oa_scale_offset(oa_scale scale, uint64_t address);
oa_scaled oa_scale_align(oa_scale scale, uint64_t bytes);

/* The size classes of the original's SmallFloat: the smallest class whose value is at least `size` (240, which no block
 * has, above 4026531840), the largest whose value is at most `size`, and the value of a class: of those from 240 on the
 * low 32 bits; 0 from 256 on. */
uint32_t oa_uint_to_float_round_up(uint32_t size);
uint32_t oa_uint_to_float_round_down(uint32_t size);
uint32_t oa_float_to_uint(uint32_t class_of_size);

/* Starts a walk over all blocks, from the end of the space to its start, with oa_walk_next. It takes no memory, and can
 * be left at any block. No call may change or drop the space before the last oa_walk_next. Of a null allocator it has
 * ended. */
void oa_walk_start(const oa_allocator *space, oa_walk *walk);

/* The next block of a walk; after the last one, and for null, of kind OA_END. At most 5 accesses. */
oa_block oa_walk_next(oa_walk *walk);

/* Lists all blocks, for oa_blocks_next. The list stays as it is when the space changes. Null where memory is out, or the
 * allocator is null. Cost: 20 bytes and 5 accesses a block. */
oa_blocks *oa_blocks_new(const oa_allocator *space);

/* The next block of a list, from the start of the space to its end; after the last one, and for null, of kind OA_END. */
oa_block oa_blocks_next(oa_blocks *blocks);

/* Frees a list. A null pointer is allowed. */
void oa_blocks_drop(oa_blocks *blocks);

/* A space as JSON: an object with its `size` and `max_allocs`, the fields of oa_totals by their names, and `blocks`, from the
 * start of the space to its end: each with `offset` and `size`, and a used one with its `name`. Null where memory is out, or
 * space is null. To be dropped by oa_text_drop.
 * Cost: the accesses of oa_statistics and oa_blocks_new; memory for the text, at most 58 bytes a block and 244, and meanwhile
 * for the blocks. */
oa_text *oa_json(const oa_allocator *space);

/* The same in the form of the dumps of VMA, the Vulkan Memory Allocator, as one block of memory: with the fields that its
 * viewer, GpuMemDumpVis.py, reads. */
oa_text *oa_vma_json(const oa_allocator *space);

/* A text, with a 0 behind it, to be read until it is dropped, and the number of its bytes without that 0. Null and 0 where
 * text is null. */
const char *oa_text_bytes(const oa_text *text);
size_t oa_text_size(const oa_text *text);

/* Frees a text. A null pointer is allowed. */
void oa_text_drop(oa_text *text);

/* ---- Tickets: handles that are refused once stale ----
 *
 * A guarded allocator keeps a serial for each name. A ticket has the serial of its grant, so it is live exactly until
 * that grant is freed or reset: a stale copy, an altered ticket or random numbers are refused by the result, and nothing
 * changes. A ticket of another allocator is refused where the two have different realms, as all that oag_new makes have.
 * Cost: as the call without tickets, one serial read, and one written for a grant; 8 bytes more a node. */

/* A guarded allocator. */
typedef struct oag_allocator oag_allocator;

/* A ticket, of 16 bytes. serial: the number of the grant, from 1; 0 for a refused request. */
typedef struct oag_ticket {
    uint64_t serial;
    uint32_t name;
    uint32_t realm;
} oag_ticket;

/* A space of `size` units, all free, as oa_new makes one, with a realm of its own, which is kept in its tickets: the next
 * number of one counter in this library, 1, 2, .., which begins again after 2147483647 of them. Null where memory is out,
 * or the node limit is not from 2 to 4294967293. */
oag_allocator *oag_new(uint32_t size, uint32_t max_allocs);

/* The same with a realm that you choose, where tickets have to be known from outside, as by a file. Tickets of two spaces
 * with one realm may be taken for each other. */
oag_allocator *oag_with_realm(uint32_t size, uint32_t max_allocs, uint32_t realm);

/* Frees the allocator. A null pointer is allowed. */
void oag_drop(oag_allocator *space);

/* As oa_clone, with the same realm and serials: each ticket that is live here is live there. Use one copy in place of the
 * other, not beside it: later grants of both may have the same ticket. */
oag_allocator *oag_clone(const oag_allocator *space);

/* As oa_raise_limit: all tickets stay live. */
bool oag_raise_limit(oag_allocator *space, uint32_t max_allocs);

/* The bytes of the state of a space with its tickets: as oa_write_state, and 56 more, and 8 for each node that was ever
 * made. Null where memory is out, or space is null. To be dropped by oa_state_drop. */
oa_state *oag_write_state(const oag_allocator *space);

/* A space with tickets that was read, or null, and what is wrong, and where. */
typedef struct oag_read {
    oag_allocator *space;
    oa_found found;
    size_t at;
} oag_read;

/* The space of these bytes, which goes on as the one that was written: with its realm, and the same tickets are live. Any
 * bytes are read, as by oa_read_state. Use it in place of the one that was written: later grants of both may have the same
 * ticket. The state is not dropped. */
oag_read oag_read_state(const oa_state *state, uint32_t most_allocs);

/* Makes the whole space free. No earlier ticket is live then. */
void oag_reset(oag_allocator *space);

/* Grants `size` units, as oa_allocate. The serial is 0 where it is refused, or the allocator is null. Bounded. */
oag_ticket oag_allocate(oag_allocator *space, uint32_t size);

/* The same at a multiple of `align`, which is at least 1. The serial is 0 also where it is 0. Bounded. */
oag_ticket oag_allocate_aligned(oag_allocator *space, uint32_t size, uint32_t align);

/* As oa_allocate_tight and oa_allocate_tight_aligned. The serial is 0 where they are refused. */
oag_ticket oag_allocate_tight(oag_allocator *space, uint32_t size);
oag_ticket oag_allocate_tight_aligned(oag_allocator *space, uint32_t size, uint32_t align);

/* As oa_allocate_at and oa_is_free_at. The serial is 0 where the request is refused. */
oag_ticket oag_allocate_at(oag_allocator *space, uint32_t offset, uint32_t size);
bool oag_is_free_at(const oag_allocator *space, uint32_t offset, uint32_t size);

/* As oa_live_at and oa_in_the_way. The serial is 0 where there is no such range, or the allocator is null. */
oag_ticket oag_live_at(const oag_allocator *space, uint32_t offset);
oag_ticket oag_in_the_way(const oag_allocator *space, uint32_t offset, uint32_t size);

/* Frees the range of a ticket. True if it was live; else nothing changes. Bounded. */
bool oag_free(oag_allocator *space, oag_ticket ticket);

/* Whether the grant of the ticket has neither been freed nor reset. */
bool oag_is_live(const oag_allocator *space, oag_ticket ticket);

/* The units of the range of a ticket; 0 where it is not live, and for a range of no units. */
uint32_t oag_size_of(const oag_allocator *space, oag_ticket ticket);

/* Where the range of a ticket begins; OA_NO_SPACE where it is not live. */
uint32_t oag_offset_of(const oag_allocator *space, oag_ticket ticket);

/* As oa_shrink and oa_grow_in_place: true if done. False, and nothing changes, also where the ticket is not live. */
bool oag_shrink(oag_allocator *space, oag_ticket ticket, uint32_t size);
bool oag_grow_in_place(oag_allocator *space, oag_ticket ticket, uint32_t size);

/* As oa_extend and oa_retract. */
bool oag_extend(oag_allocator *space, uint32_t more);
bool oag_retract(oag_allocator *space, uint32_t less);

/* A second range of as many units before that of a live ticket, which keeps every alignment that was asked for: as
 * oa_relocate_aligned at the greatest common divisor of the step and the offset of the range. The serial is 0, and nothing
 * changes, where that refuses, where the ticket is not live, where there is no step, or for null. The old ticket stays live. */
oag_ticket oag_relocate(oag_allocator *space, oag_ticket ticket);

/* As oa_relocate_aligned, at a multiple of an alignment that you choose, which is taken into the step; and as oa_relocate, which
 * keeps none. The serial is 0 where there is no such range. */
oag_ticket oag_relocate_aligned(oag_allocator *space, oag_ticket ticket, uint32_t align);
oag_ticket oag_relocate_unaligned(oag_allocator *space, oag_ticket ticket);

/* As oa_first_live, oa_last_live, oa_live_before and oa_live_after. The serial of the ticket is 0 where there is none. */
oag_ticket oag_first_live(const oag_allocator *space);
oag_ticket oag_last_live(const oag_allocator *space);
oag_ticket oag_live_before(const oag_allocator *space, oag_ticket ticket);
oag_ticket oag_live_after(const oag_allocator *space, oag_ticket ticket);

/* As oa_compact_by and oa_compact_within by the step of the space: ranges that move keep every alignment that was asked for.
 * Tickets stay live; a range that moves begins at oag_offset_of from then on. metadata of a move is the name in the ticket.
 * False, and not done, also where there is no step; then nothing changes. */
bool oag_compact(oag_allocator *space, void (*moved)(void *user, oa_move range), void *user);
oa_progress oag_compact_within(oag_allocator *space, uint32_t from, uint32_t most_units, uint32_t most_ranges,
                               void (*moved)(void *user, oa_move range), void *user);

/* The same by a step that you choose, where a range keeps the alignments that divide it; and as oa_compact, which keeps none. */
bool oag_compact_by(oag_allocator *space, uint32_t step, void (*moved)(void *user, oa_move range), void *user);
oa_progress oag_compact_within_by(oag_allocator *space, uint32_t step, uint32_t from, uint32_t most_units, uint32_t most_ranges,
                                  void (*moved)(void *user, oa_move range), void *user);
void oag_compact_unaligned(oag_allocator *space, void (*moved)(void *user, oa_move range), void *user);

/* As oa_make_room_by by the step of the space, for oag_allocate and for oag_allocate_aligned: ranges that move keep every
 * alignment that was asked for. Not possible also where there is no step, and where `align` is 0; then nothing changes. */
oa_room oag_make_room(oag_allocator *space, uint32_t size, void (*moved)(void *user, oa_move range), void *user);
oa_room oag_make_room_aligned(oag_allocator *space, uint32_t size, uint32_t align,
                              void (*moved)(void *user, oa_move range), void *user);

/* The same by a step that you choose; and as oa_make_room, where a range that moves keeps no alignment. */
oa_room oag_make_room_by(oag_allocator *space, uint32_t size, uint32_t align, uint32_t step,
                         void (*moved)(void *user, oa_move range), void *user);
oa_room oag_make_room_unaligned(oag_allocator *space, uint32_t size, void (*moved)(void *user, oa_move range), void *user);

/* As the calls oa_* of these names. */
uint32_t oag_size(const oag_allocator *space);
uint32_t oag_max_allocs(const oag_allocator *space);
uint32_t oag_block_count(const oag_allocator *space);
bool oag_is_full(const oag_allocator *space);
bool oag_is_empty(const oag_allocator *space);
uint32_t oag_free_units(const oag_allocator *space);
uint32_t oag_live_units(const oag_allocator *space);
oa_totals oag_statistics(const oag_allocator *space);
oa_report oag_storage_report(const oag_allocator *space);
oa_report_full oag_storage_report_full(const oag_allocator *space);

/* Whether all serials are given, after 18446744073709551615 grants, so that every request is refused; true for null. */
bool oag_is_spent(const oag_allocator *space);

/* The realm of its tickets; 0 for null. */
uint32_t oag_realm(const oag_allocator *space);

/* The step: the least common multiple of the alignments of all grants since the space was made or reset, by multiples of
 * which its ranges move and keep them; 1 at first, and 0 where it has more than 32 bits, or for null: then no call that goes
 * by it moves a range, until a reset. */
uint32_t oag_step(const oag_allocator *space);

/* Takes an alignment into the step that no request says, as of sizes or places that were given. False, and nothing
 * changes, where it is 0, or for null. */
bool oag_raise_step(oag_allocator *space, uint32_t align);

/* As oa_would_begin. */
oa_beginning oag_would_begin(const oag_allocator *space, uint32_t size, uint32_t align);

/* Why oag_allocate and oag_allocate_aligned would be refused now. */
oa_reason oag_refusal(const oag_allocator *space, uint32_t size);
oa_reason oag_refusal_aligned(const oag_allocator *space, uint32_t size, uint32_t align);

/* Why oag_allocate_tight and oag_allocate_tight_aligned would be refused now. */
oa_reason oag_refusal_tight(const oag_allocator *space, uint32_t size);
oa_reason oag_refusal_tight_aligned(const oag_allocator *space, uint32_t size, uint32_t align);

/* What oag_make_room and oag_make_room_aligned would return now: as oa_room_cost_by by the step of the space. */
oa_room oag_room_cost(const oag_allocator *space, uint32_t size);
oa_room oag_room_cost_aligned(const oag_allocator *space, uint32_t size, uint32_t align);

/* What oag_compact would copy now, as oa_compact_cost_by by the step of the space; and what oag_compact_by would. */
oa_compaction oag_compact_cost(const oag_allocator *space);
oa_compaction oag_compact_cost_by(const oag_allocator *space, uint32_t step);

/* What oag_make_room_by and oag_make_room_unaligned would return now. */
oa_room oag_room_cost_by(const oag_allocator *space, uint32_t size, uint32_t align, uint32_t step);
oa_room oag_room_cost_unaligned(const oag_allocator *space, uint32_t size);

/* As oa_walk_start and oa_blocks_new, for oa_walk_next, oa_blocks_next and oa_blocks_drop. A block has a handle, which
 * oag_ticket_of makes a ticket. */
void oag_walk_start(const oag_allocator *space, oa_walk *walk);
oa_blocks *oag_blocks_new(const oag_allocator *space);

/* As oa_json and oa_vma_json. */
oa_text *oag_json(const oag_allocator *space);
oa_text *oag_vma_json(const oag_allocator *space);

/* The ticket of a handle that a block or a move has; the serial is 0 where it is not live. At most 16 accesses. */
oag_ticket oag_ticket_of(const oag_allocator *space, oa_allocation allocation);

/* A word of yours beside each of some tickets: an index, or a pointer by way of uintptr_t. Put one where a range is granted,
 * and take it where the range is freed: what is there in the end was never freed. Use one for each space. It has a cell of
 * 32 bytes for each name up to the largest that was given, and each call but oab_put, oab_from, oab_clear and oab_drop takes
 * constant time. Any ticket may be given, and one of another grant has no word here.
 *
 *     oab_words *meshes = oab_new();
 *     oab_put(meshes, space, ticket, (uintptr_t) mesh);
 *     const uint64_t *word = oab_get(meshes, ticket);      // null: it has none
 *     oab_take(meshes, ticket);
 *     oab_drop(meshes); */
typedef struct oab_words oab_words;

/* A word and its ticket. found: whether there is one; if not, the word is 0, and so is the serial. */
typedef struct oab_entry {
    oag_ticket ticket;
    uint64_t word;
    bool found;
} oab_entry;

/* No words. Null where memory is out. */
oab_words *oab_new(void);

/* Frees the memory. A null pointer is allowed. */
void oab_drop(oab_words *words);

/* Puts a word beside a ticket that is live in its space. What was under its name is replaced: a word of the ticket, or of an
 * earlier grant: ask oab_from for it first. False, and all is as it was, where the ticket is not live, where the name has no cell
 * yet and memory is out, or for null. Where the name is larger than any before, it takes time for the cells up to it. */
bool oab_put(oab_words *words, const oag_allocator *space, oag_ticket ticket, uint64_t word);

/* The word beside a ticket, to be read, or to be changed in place; null where it has none, or for null. The pointer is good until the next
 * call that may change the words. */
const uint64_t *oab_get(const oab_words *words, oag_ticket ticket);
uint64_t *oab_get_mut(oab_words *words, oag_ticket ticket);

/* Takes out the word beside a ticket. Not found, and nothing changes, where it has none, or for null. */
oab_entry oab_take(oab_words *words, oag_ticket ticket);

/* The word of the smallest name that is at least `name`. It reads the cells up to that. Of a range that moves, by its `metadata`:
 * where the ticket has that name, and each grant gets a word, it is that of the range. All words, by name:
 *     for (oab_entry it = oab_from(words, 0); it.found; it = oab_from(words, it.ticket.name + 1)) */
oab_entry oab_from(const oab_words *words, uint32_t name);

/* How many words there are; 0 for null. */
size_t oab_len(const oab_words *words);

/* Whether there is no word; true for null. */
bool oab_is_empty(const oab_words *words);

/* Takes out all words, in time that grows with the cells, which it keeps. */
void oab_clear(oab_words *words);

#ifdef __cplusplus
}
#endif

#endif
