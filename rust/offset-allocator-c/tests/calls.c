/* Each function of the C interface, with values computed by hand. */
#include "offset_allocator.h"

#include <stdio.h>
#include <stdlib.h>
#include <string.h>

static int checks;

#define CHECK(condition) do { \
    checks++; \
    if (!(condition)) { fprintf(stderr, "%s:%d: %s\n", __FILE__, __LINE__, #condition); exit(1); } \
} while (0)

#define ASK(name, in_cpp) oa_##name(space)
#include "questions.h"

static bool is_nothing(oa_allocation a) { return a.offset == OA_NO_SPACE && a.metadata == OA_NO_SPACE; }

static oa_allocation made(uint32_t offset, uint32_t metadata) {
    oa_allocation a;
    a.offset = offset;
    a.metadata = metadata;
    return a;
}

static void constructors(void) {
    static const uint32_t refused[] = {0, 1, 4294967294u, 4294967295u};
    for (size_t i = 0; i < sizeof refused / sizeof *refused; i++) CHECK(!oa_new(100, refused[i]));
    /* at the smallest limit there is one block, and no room for another */
    oa_allocator *least = oa_new(100, 2);
    CHECK(least && oa_max_allocs(least) == 2 && oa_block_count(least) == 1 && oa_is_full(least));
    CHECK(is_nothing(oa_allocate(least, 1)) && oa_refusal(least, 1) == OA_NODES);
    oa_drop(least);
    oa_drop(NULL);
    oa_blocks_drop(NULL);
}

static void grants(void) {
    oa_allocator *space = oa_new(100, 16);
    CHECK(space && oa_size(space) == 100 && oa_max_allocs(space) == 16 && !oa_is_full(space));
    oa_allocation a = oa_allocate(space, 10), b = oa_allocate(space, 20);
    CHECK(a.offset == 0 && b.offset == 10 && a.metadata != b.metadata);
    CHECK(oa_is_live(space, a) && oa_allocation_size(space, b) == 20 && oa_allocation_offset(space, b) == 10);
    /* only the name counts */
    CHECK(oa_allocation_offset(space, made(77, b.metadata)) == 10);
    oa_report report = oa_storage_report(space);
    CHECK(report.total_free_space == 70 && report.largest_free_region == 64);
    CHECK(oa_block_count(space) == 3);
    CHECK(oa_free(space, a) && !oa_free(space, a) && !oa_is_live(space, a));
    CHECK(oa_allocation_size(space, a) == 0 && oa_allocation_offset(space, a) == OA_NO_SPACE);
    oa_report_full full = oa_storage_report_full(space);
    /* 10 units are of class 10, and 70 of class 32, whose value is 64 */
    for (int c = 0; c < 256; c++) CHECK(full.free_regions[c].count == (c == 10 || c == 32));
    CHECK(full.free_regions[10].size == 10 && full.free_regions[32].size == 64);
    oa_reset(space);
    CHECK(!oa_is_live(space, b) && oa_block_count(space) == 1);
    CHECK(is_nothing(oa_allocate(space, 97)) && oa_allocate(space, 96).offset == 0);
    oa_drop(space);
}

/* A copy, and a space that was stored and read, give the same handles. */
static void states(void) {
    static const uint8_t fresh[44] = {'O', 'A', 'S', 'T', 1, 0, 0, 0, 100, 0, 0, 0, 5, 0, 0, 0, 1, 0, 0, 0, 1, 0, 0, 0,
        0, 0, 0, 0, 0, 0, 0, 0, 100, 0, 0, 0, 0, 0, 0, 0, 71, 235, 117, 192};
    oa_allocator *space = oa_new(100, 5);
    oa_state *state = oa_write_state(space);
    CHECK(oa_state_size(state) == 44 && memcmp(oa_state_bytes(state), fresh, 44) == 0);
    oa_allocation a = oa_allocate(space, 30), b = oa_allocate(space, 20);
    oa_free(space, a);
    oa_state_drop(state);
    state = oa_write_state(space);
    oa_state *stored = oa_state_new(oa_state_size(state));
    memcpy(oa_state_bytes(stored), oa_state_bytes(state), oa_state_size(state));
    oa_read read = oa_read_state(stored, 5);
    oa_allocator *copy = oa_clone(space);
    CHECK(read.found == OA_SPACE_READ && read.at == oa_state_size(state) && copy);
    oa_allocation next = oa_allocate(space, 10);
    oa_allocation from_copy = oa_allocate(copy, 10), from_read = oa_allocate(read.space, 10);
    CHECK(next.metadata == from_copy.metadata && next.offset == from_copy.offset);
    CHECK(next.metadata == from_read.metadata && next.offset == from_read.offset && next.offset == 0);
    CHECK(oa_is_live(copy, b) && oa_is_live(read.space, b) && oa_allocation_size(read.space, b) == 20);
    oa_drop(read.space);
    oa_drop(copy);
    /* a smaller limit is admitted, a bit is wrong, there are no bytes */
    read = oa_read_state(stored, 4);
    CHECK(!read.space && read.found == OA_BAD_LIMIT && read.at == 12);
    oa_state_bytes(stored)[0] ^= 1;
    read = oa_read_state(stored, 5);
    CHECK(!read.space && read.found == OA_BAD_FORM && read.at == 0);
    oa_state_drop(stored);
    stored = oa_state_new(0);
    read = oa_read_state(stored, 5);
    CHECK(!read.space && read.found == OA_BAD_LENGTH && read.at == 0 && oa_state_size(stored) == 0);
    oa_state_drop(stored);
    oa_state_drop(state);
    oa_drop(space);
    CHECK(!oa_clone(NULL) && !oa_write_state(NULL) && !oa_state_bytes(NULL) && oa_state_size(NULL) == 0);
    CHECK(oa_read_state(NULL, 5).found == OA_BAD_LENGTH);
    oa_state_drop(NULL);
}

/* At most 3 blocks: the second range leaves 70 units behind it, and what the first one leaves is a block too. So a third
 * range is refused for nodes, until there may be one block more. Then it takes the first 5 units of those that the first range
 * left, which are the smallest block that is large enough. */
static void raised(void) {
    oa_allocator *space = oa_new(100, 4);
    oa_allocation a = oa_allocate(space, 10), b = oa_allocate(space, 20);
    oa_free(space, a);
    CHECK(oa_refusal(space, 5) == OA_NODES && oa_is_full(space));
    CHECK(!oa_raise_limit(space, 3) && !oa_raise_limit(space, 4294967294u) && !oa_raise_limit(space, 4294967295u));
    CHECK(oa_max_allocs(space) == 4 && oa_raise_limit(space, 4) && oa_refusal(space, 5) == OA_NODES);
    CHECK(oa_raise_limit(space, 5) && oa_max_allocs(space) == 5 && oa_size(space) == 100 && oa_block_count(space) == 3);
    CHECK(oa_is_live(space, b) && oa_allocation_offset(space, b) == 10 && oa_allocation_size(space, b) == 20 && !oa_is_live(space, a));
    oa_allocation c = oa_allocate(space, 5);
    CHECK(c.offset == 0 && c.metadata == a.metadata && oa_refusal(space, 5) == OA_NODES);
    CHECK(oa_free(space, b) && oa_free(space, c) && oa_free_units(space) == 100 && oa_is_empty(space));
    oa_drop(space);
    CHECK(!oa_raise_limit(NULL, 100));
}

static bool are(oa_totals t, uint32_t ranges, uint32_t live, uint32_t blocks, uint32_t units, uint32_t block, uint32_t region, uint32_t nodes) {
    return t.live_ranges == ranges && t.live_units == live && t.free_blocks == blocks && t.free_units == units
        && t.largest_free_block == block && t.largest_free_region == region && t.unused_nodes == nodes;
}

/* at the node limit too, where a report has 0 and 0 */
static void statistics(void) {
    oa_allocator *space = oa_new(100, 4);
    CHECK(oa_is_empty(space) && are(oa_statistics(space), 0, 0, 1, 100, 100, 96, 3));
    oa_allocation a = oa_allocate(space, 10);
    oa_allocate(space, 20);
    CHECK(oa_is_full(space) && !oa_storage_report(space).total_free_space && !oa_is_empty(space));
    CHECK(oa_free_units(space) == 70 && oa_live_units(space) == 30 && are(oa_statistics(space), 2, 30, 1, 70, 70, 64, 1));
    oa_free(space, a);
    CHECK(oa_free_units(space) == 80 && oa_live_units(space) == 20 && are(oa_statistics(space), 1, 20, 2, 80, 70, 64, 1));
    oa_reset(space);
    CHECK(oa_is_empty(space) && oa_free_units(space) == 100 && !oa_live_units(space));
    oa_drop(space);
    /* a range of no units is live */
    space = oa_new(0, 3);
    oa_allocate(space, 0);
    CHECK(!oa_is_empty(space) && are(oa_statistics(space), 1, 0, 0, 0, 0, 0, 2));
    oa_drop(space);
}

/* any free block serves that holds the request */
static void tight(void) {
    oa_allocator *space = oa_new(100, 16);
    CHECK(is_nothing(oa_allocate(space, 97)) && oa_refusal_tight(space, 101) == OA_TOO_LARGE);
    CHECK(oa_refusal_tight(space, 100) == OA_GRANTED);
    oa_allocation all = oa_allocate_tight(space, 100);
    CHECK(all.offset == 0 && oa_allocation_size(space, all) == 100 && oa_refusal_tight(space, 1) == OA_SPACE);
    CHECK(is_nothing(oa_allocate_tight(space, 0)) && oa_free(space, all));
    oa_allocation first = oa_allocate(space, 30);
    oa_allocate_tight(space, 34);
    oa_allocation last = oa_allocate_tight(space, 36);
    CHECK(last.offset == 64 && oa_free(space, first) && oa_free(space, last));
    /* 30 units from 0 on, and 36 from 64 on */
    CHECK(oa_refusal_tight(space, 37) == OA_FRAGMENTED && oa_refusal_tight(space, 67) == OA_SPACE);
    CHECK(is_nothing(oa_allocate_aligned(space, 36, 64)) && oa_refusal_tight_aligned(space, 36, 64) == OA_GRANTED);
    /* 31 units at a multiple of 7 would begin at 70, where 30 are left */
    CHECK(oa_refusal_tight(space, 31) == OA_GRANTED && oa_refusal_tight_aligned(space, 31, 7) == OA_FRAGMENTED);
    CHECK(oa_refusal_tight_aligned(space, 30, 7) == OA_GRANTED && oa_refusal_tight_aligned(space, 31, 8) == OA_GRANTED);
    CHECK(oa_allocate_tight_aligned(space, 36, 64).offset == 64);
    CHECK(oa_refusal_tight_aligned(space, 31, 2) == OA_SPACE && oa_refusal_tight_aligned(space, 1, 0) == OA_BAD_CALL);
    CHECK(is_nothing(oa_allocate_tight_aligned(space, 1, 0)) && oa_allocate_tight(space, 30).offset == 0);
    oa_drop(space);
}

static void aligned(void) {
    oa_allocator *space = oa_new(1000, 16);
    oa_allocate(space, 3);
    CHECK(oa_allocate_aligned(space, 10, 64).offset == 64);
    CHECK(is_nothing(oa_allocate_aligned(space, 10, 0)) && is_nothing(oa_allocate_aligned(space, 1, 0x80000000u)));
    CHECK(oa_refusal_aligned(space, 10, 0) == OA_BAD_CALL && oa_refusal_aligned(space, 10, 48) == OA_GRANTED);
    /* 61 units from 3 on are free, and 926 from 74 on: 10 at a multiple of 12 need 21, which the first have, from 12 on; then
     * 42 of them are left, and 8 at a multiple of 48 need 55, which only the others have, from 96 on */
    CHECK(oa_allocate_aligned(space, 10, 12).offset == 12 && oa_allocate_aligned(space, 8, 48).offset == 96);
    oa_drop(space);
}

static void resizes(void) {
    oa_allocator *space = oa_new(100, 16);
    oa_allocation a = oa_allocate(space, 10), b = oa_allocate(space, 10);
    CHECK(!oa_grow_in_place(space, a, 11) && oa_shrink(space, a, 4) && oa_allocation_size(space, a) == 4);
    CHECK(!oa_shrink(space, a, 5) && oa_grow_in_place(space, a, 10) && !oa_grow_in_place(space, a, 9));
    CHECK(oa_grow_in_place(space, b, 90) && !oa_extend(space, 0xffffffffu) && oa_extend(space, 28));
    CHECK(oa_size(space) == 128 && oa_grow_in_place(space, b, 118));
    oa_free(space, b);
    CHECK(!oa_shrink(space, b, 1) && !oa_grow_in_place(space, b, 1));
    oa_drop(space);
}

static void reasons(void) {
    oa_allocator *space = oa_new(96, 6);
    CHECK(oa_refusal(space, 96) == OA_GRANTED && oa_refusal(space, 97) == OA_TOO_LARGE);
    oa_allocation a = oa_allocate(space, 24);
    oa_allocate(space, 48);
    oa_free(space, a);
    /* 24 and 24 units are free, in two pieces */
    CHECK(oa_refusal(space, 48) == OA_FRAGMENTED && oa_refusal(space, 49) == OA_SPACE);
    oa_compact(space, NULL, NULL);
    CHECK(oa_refusal(space, 48) == OA_GRANTED);
    oa_allocate(space, 1);
    oa_allocate(space, 1);
    oa_allocate(space, 1);
    CHECK(oa_is_full(space) && oa_refusal(space, 1) == OA_NODES);
    CHECK(oa_min_allocator_size(118) == 120 && oa_min_allocator_size(4026531840u) == 4026531840u);
    CHECK(oa_min_allocator_size(4026531841u) == 0);
    oa_drop(space);
}

static bool is(oa_scaled found, uint64_t value) { return found.fits && found.value == value; }

static bool is_none(oa_scaled found) { return !found.fits && found.value == 0; }

/* units of 256 bytes from an address of 64 bits on, each number by hand */
static void scales(void) {
    oa_scale scale = {UINT64_C(1) << 40, 256}, all = {0, 1}, none = {16, 0}, stride = {4800, 12};
    CHECK(is(oa_scale_units(scale, 0), 0) && is(oa_scale_units(scale, 1), 1) && is(oa_scale_units(scale, 256), 1));
    CHECK(is(oa_scale_units(scale, 257), 2) && is(oa_scale_units(scale, UINT64_C(1099511627520)), 4294967295u));
    CHECK(is_none(oa_scale_units(scale, UINT64_C(1099511627521))) && is_none(oa_scale_units(none, 0)));
    CHECK(is(oa_scale_bytes(scale, 4294967295u), UINT64_C(1099511627520)) && is(oa_scale_bytes(none, 7), 0));
    scale.unit = UINT64_C(1) << 60;
    CHECK(is(oa_scale_bytes(scale, 15), UINT64_C(15) << 60) && is_none(oa_scale_bytes(scale, 16)));
    scale.unit = 256;
    CHECK(is(oa_scale_address(scale, 3), (UINT64_C(1) << 40) + 768) && is(oa_scale_address(none, 9), 16));
    scale.base = UINT64_MAX - 255;
    CHECK(is(oa_scale_address(scale, 0), UINT64_MAX - 255) && is_none(oa_scale_address(scale, 1)));
    scale.base = 4096;
    CHECK(is(oa_scale_offset(scale, 4096), 0) && is(oa_scale_offset(scale, 5119), 3) && is(oa_scale_offset(scale, 5120), 4));
    CHECK(is_none(oa_scale_offset(scale, 4095)) && is_none(oa_scale_offset(none, 16)));
    CHECK(is(oa_scale_offset(all, 4294967295u), 4294967295u) && is_none(oa_scale_offset(all, UINT64_C(4294967296))));
    CHECK(is(oa_scale_align(scale, 16), 1) && is(oa_scale_align(scale, 256), 1) && is(oa_scale_align(scale, 4096), 16));
    CHECK(is_none(oa_scale_align(scale, 0)) && is_none(oa_scale_align(scale, 8192)) && is_none(oa_scale_align(none, 16)));
    /* 48 is 4 of 12, 16 is no multiple of 12, and of 4800 bytes 36 is none */
    CHECK(is(oa_scale_align(stride, 48), 4) && is_none(oa_scale_align(stride, 16)) && is_none(oa_scale_align(stride, 36)));
}

struct copied { unsigned char bytes[100]; int moves; oa_allocation last; };

static void copy(void *user, oa_move range) {
    struct copied *to = user;
    memmove(to->bytes + range.to, to->bytes + range.from, range.size);
    to->last = range.allocation;
    to->moves++;
}

static void compacts(void) {
    oa_allocator *space = oa_new(100, 16);
    struct copied data = {{0}, 0, {0, 0}};
    oa_allocation a[5];
    for (int i = 0; i < 5; i++) {
        a[i] = oa_allocate(space, 10);
        memset(data.bytes + a[i].offset, 'a' + i, 10);
    }
    oa_free(space, a[0]);
    oa_free(space, a[2]);
    oa_compact(space, copy, &data);
    CHECK(data.moves == 3 && data.last.offset == 20 && data.last.metadata == a[4].metadata);
    CHECK(!memcmp(data.bytes, "bbbbbbbbbbddddddddddeeeeeeeeee", 30));
    CHECK(oa_allocation_offset(space, a[1]) == 0 && oa_allocation_offset(space, a[4]) == 20);
    CHECK(oa_storage_report(space).total_free_space == 70 && oa_block_count(space) == 4);
    oa_compact(space, copy, &data);
    CHECK(data.moves == 3);

    oa_blocks *blocks = oa_blocks_new(space);
    /* the list is of the space as it was */
    oa_reset(space);
    static const uint32_t sizes[] = {10, 10, 10, 70};
    uint32_t offset = 0;
    for (int i = 0; i < 4; i++) {
        oa_block block = oa_blocks_next(blocks);
        CHECK(block.kind == (i < 3 ? OA_USED : OA_FREE) && block.offset == offset && block.size == sizes[i]);
        CHECK(i < 3 ? block.allocation.offset == offset : is_nothing(block.allocation));
        offset += block.size;
    }
    CHECK(oa_blocks_next(blocks).kind == OA_END && oa_blocks_next(blocks).kind == OA_END);
    oa_blocks_drop(blocks);
    oa_drop(space);
}

/* 30 units are three steps of 8, and 6 */
static void compacts_by_steps(void) {
    oa_allocator *space = oa_new(100, 16);
    struct copied data = {{0}, 0, {0, 0}};
    oa_allocation hole = oa_allocate(space, 30), a = oa_allocate(space, 10), b = oa_allocate_aligned(space, 8, 8);
    CHECK(a.offset == 30 && b.offset == 40);
    memset(data.bytes + 30, 'a', 10);
    memset(data.bytes + 40, 'b', 8);
    CHECK(oa_compact_by(space, 1, copy, &data) && oa_free(space, hole) && !oa_compact_by(space, 0, copy, &data));
    CHECK(oa_compact_by(space, 31, copy, &data) && oa_compact_by(space, 4294967295u, copy, &data) && data.moves == 0);
    CHECK(oa_compact_by(space, 8, copy, &data) && data.moves == 2);
    CHECK(data.last.metadata == b.metadata && data.last.offset == 16);
    CHECK(!memcmp(data.bytes + 6, "aaaaaaaaaabbbbbbbb", 18) && oa_is_live(space, a) && oa_is_live(space, b));
    CHECK(oa_allocation_offset(space, a) == 6 && oa_allocation_offset(space, b) == 16 && oa_allocation_size(space, a) == 10);
    CHECK(oa_block_count(space) == 4 && oa_storage_report(space).total_free_space == 82);
    CHECK(oa_compact_by(space, 8, copy, &data) && data.moves == 2 && oa_compact_by(space, 1, NULL, NULL));
    CHECK(oa_allocation_offset(space, a) == 0 && oa_allocation_offset(space, b) == 10 && oa_block_count(space) == 3);
    oa_drop(space);
    /* no node is left for a free block at the end */
    space = oa_new(20, 4);
    hole = oa_allocate(space, 12);
    a = oa_allocate(space, 8);
    oa_free(space, hole);
    b = oa_allocate(space, 5);
    CHECK(oa_is_full(space) && !oa_compact_by(space, 4, copy, &data) && data.moves == 2);
    CHECK(oa_allocation_offset(space, a) == 12 && oa_block_count(space) == 3 && oa_compact_by(space, 8, copy, &data));
    CHECK(oa_free(space, b) && oa_compact_by(space, 4, NULL, NULL) && oa_allocation_offset(space, a) == 0);
    oa_drop(space);
}

/* 30 free units, 10 live at 30, 8 at 40, 52 free: by steps of 8 the first goes to 6 in one call, and the second to 16 in the next,
 * behind what was granted in the hole between them */
static void compacts_within(void) {
    oa_allocator *space = oa_new(100, 16);
    struct copied data = {{0}, 0, {0, 0}};
    oa_allocation hole = oa_allocate(space, 30), a = oa_allocate(space, 10), b = oa_allocate_aligned(space, 8, 8);
    CHECK(a.offset == 30 && b.offset == 40 && oa_free(space, hole) && !oa_compact_within(space, 0, 0, 10, 10, copy, &data).done);
    oa_progress far = oa_compact_within(space, 8, 41, 10, 10, copy, &data);
    CHECK(far.done && !far.more && !far.units && !far.ranges && !far.next && data.moves == 0);
    far = oa_compact_within(space, 8, 0, 10, 10, copy, &data);
    CHECK(far.done && far.more && far.units == 10 && far.ranges == 1 && far.next == 40 && data.moves == 1);
    CHECK(oa_allocation_offset(space, a) == 6 && oa_allocation_offset(space, b) == 40 && oa_block_count(space) == 5);
    oa_allocation c = oa_allocate(space, 7);
    CHECK(c.offset == 16);
    far = oa_compact_within(space, 8, far.next, 0, 0, copy, &data);
    CHECK(far.done && !far.more && far.units == 8 && far.ranges == 1 && far.next == 0 && data.last.offset == 24);
    CHECK(oa_allocation_offset(space, b) == 24 && oa_allocation_offset(space, c) == 16 && oa_block_count(space) == 6);
    CHECK(!oa_compact_within(space, 8, 0, 100, 100, copy, &data).ranges && oa_compact_within(space, 1, 0, 100, 100, NULL, NULL).ranges == 3);
    oa_drop(space);
    /* 10 and 8 units are two ranges: either budget alone stops before the second */
    static const uint32_t budgets[][3] = {{18, 2, 2}, {17, 2, 1}, {18, 1, 1}, {2, 18, 1}};
    for (int i = 0; i < 4; i++) {
        space = oa_new(100, 16);
        hole = oa_allocate(space, 30), oa_allocate(space, 10), oa_allocate(space, 8);
        CHECK(oa_free(space, hole) && oa_compact_within(space, 1, 0, budgets[i][0], budgets[i][1], NULL, NULL).ranges == budgets[i][2]);
        oa_drop(space);
    }
    /* a free block behind the first range that moves has no node, unless the hole is used up or the last block is free */
    space = oa_new(20, 5);
    hole = oa_allocate(space, 6);
    a = oa_allocate(space, 5);
    b = oa_allocate(space, 4);
    CHECK(oa_free(space, hole) && oa_is_full(space) && !oa_compact_within(space, 4, 0, 5, 8, copy, &data).done && data.moves == 2);
    far = oa_compact_within(space, 3, 0, 5, 8, NULL, NULL);
    CHECK(far.done && far.more && far.ranges == 1 && far.next == 11 && oa_allocation_offset(space, a) == 0 && oa_is_full(space));
    CHECK(oa_compact_within(space, 4, 0, 9, 8, NULL, NULL).ranges == 1 && oa_allocation_offset(space, b) == 7 && oa_is_full(space));
    oa_drop(space);
}

/* the pieces of 20 units from 10 to 4: six at a time, so that no copy overlaps, and the two that are left */
struct pieces {
    char bytes[40];
    uint32_t count;
};

static void piece(void *user, uint32_t from, uint32_t to, uint32_t size) {
    struct pieces *all = user;
    CHECK(from == 10 + 6 * all->count && to == from - 6 && size == (all->count < 3 ? 6u : 2u));
    memcpy(all->bytes + to, all->bytes + from, size);
    all->count++;
}

static void in_pieces(void) {
    struct pieces all = {"0123456789abcdefghijklmnopqrstuvwxyz", 0};
    CHECK(oa_copy_in_pieces(10, 4, 20, 100, piece, &all) && all.count == 4);
    CHECK(!memcmp(all.bytes, "0123abcdefghijklmnopqrst", 24));
    CHECK(oa_copy_in_pieces(10, 4, 20, 1, NULL, NULL) && oa_copy_in_pieces(10, 4, 0, 1, piece, &all) && all.count == 4);
    CHECK(!oa_copy_in_pieces(10, 4, 20, 0, piece, &all) && !oa_copy_in_pieces(4, 4, 20, 1, piece, &all));
    CHECK(!oa_copy_in_pieces(4, 10, 20, 1, piece, &all) && !oa_copy_in_pieces(4294967295u, 0, 1, 1, piece, &all) && all.count == 4);
}

static bool same(oa_allocation a, oa_allocation b) { return a.offset == b.offset && a.metadata == b.metadata; }

/* the middle of a free block, its start and its end, all of one, and what is in the way; then the node limit of three blocks */
static void places(void) {
    oa_allocator *space = oa_new(100, 8);
    CHECK(oa_is_free_at(space, 0, 100) && !oa_is_free_at(space, 0, 101) && is_nothing(oa_live_at(space, 0)));
    oa_allocation middle = oa_allocate_at(space, 40, 20);
    CHECK(middle.offset == 40 && oa_allocation_size(space, middle) == 20 && oa_block_count(space) == 3);
    CHECK(same(oa_live_at(space, 40), middle) && same(oa_live_at(space, 59), middle));
    CHECK(is_nothing(oa_live_at(space, 39)) && is_nothing(oa_live_at(space, 60)) && is_nothing(oa_live_at(space, 100)));
    CHECK(oa_is_free_at(space, 0, 40) && !oa_is_free_at(space, 0, 41) && !oa_is_free_at(space, 59, 1) && oa_is_free_at(space, 60, 40));
    /* no units are free from the start of a free block to its end, and nowhere else */
    CHECK(oa_is_free_at(space, 0, 0) && oa_is_free_at(space, 40, 0) && !oa_is_free_at(space, 41, 0) && !oa_is_free_at(space, 59, 0));
    CHECK(oa_is_free_at(space, 60, 0) && oa_is_free_at(space, 100, 0) && !oa_is_free_at(space, 101, 0));
    CHECK(is_nothing(oa_allocate_at(space, 30, 20)) && same(oa_in_the_way(space, 30, 20), middle));
    CHECK(is_nothing(oa_in_the_way(space, 0, 40)) && is_nothing(oa_in_the_way(space, 60, 4294967295u)));
    /* behind the end there is no unit, and nothing in the way */
    CHECK(is_nothing(oa_allocate_at(space, 90, 11)) && is_nothing(oa_in_the_way(space, 90, 11)) && oa_block_count(space) == 3);
    oa_allocation start = oa_allocate_at(space, 0, 10), end = oa_allocate_at(space, 90, 10);
    CHECK(start.offset == 0 && end.offset == 90 && same(oa_in_the_way(space, 0, 100), end) && same(oa_in_the_way(space, 5, 80), middle));
    CHECK(same(oa_live_at(space, 9), start) && is_nothing(oa_live_at(space, 10)) && same(oa_live_at(space, 50), middle) && same(oa_live_at(space, 90), end));
    CHECK(oa_free(space, oa_live_at(space, 50)) && is_nothing(oa_in_the_way(space, 10, 80)));
    CHECK(oa_allocate_at(space, 10, 80).offset == 10 && oa_free_units(space) == 0 && oa_block_count(space) == 3);
    CHECK(is_nothing(oa_allocate_at(space, 50, 0)) && !oa_is_free_at(space, 50, 0) && !oa_is_free_at(space, 0, 0) && !oa_is_free_at(space, 100, 0));
    oa_drop(space);
    space = oa_new(100, 4);
    middle = oa_allocate_at(space, 25, 50);
    CHECK(middle.offset == 25 && oa_is_full(space) && oa_is_free_at(space, 0, 25) && is_nothing(oa_allocate_at(space, 0, 25)));
    CHECK(oa_free(space, middle) && oa_allocate_at(space, 0, 50).offset == 0 && is_nothing(oa_allocate_at(space, 60, 20)));
    CHECK(oa_allocate_at(space, 50, 50).offset == 50 && oa_block_count(space) == 2);
    oa_drop(space);
}

/* a range of 64 units finds 320 free ones before it, of which those from 256 on are aligned */
static void to_a_multiple(void) {
    oa_allocator *space = oa_new(1000, 12);
    oa_allocate(space, 10);
    oa_allocation hole = oa_allocate(space, 320), mesh = oa_allocate(space, 64);
    CHECK(is_nothing(oa_relocate_aligned(space, mesh, 256)) && oa_free(space, hole));
    CHECK(is_nothing(oa_relocate_aligned(space, mesh, 0)) && is_nothing(oa_relocate_aligned(space, hole, 256)));
    CHECK(is_nothing(oa_relocate_aligned(space, mesh, 2147483648u)));
    oa_allocation moved = oa_relocate_aligned(space, mesh, 256);
    CHECK(moved.offset == 256 && oa_is_live(space, mesh) && oa_allocation_size(space, moved) == 64 && oa_block_count(space) == 6);
    /* 64 at a multiple of 12 need 75, and 246 are free from 10 on */
    CHECK(oa_relocate_aligned(space, mesh, 12).offset == 12);
    oa_drop(space);
}

/* three ranges of 10 units, of which the second is freed: the third finds room there, and then the end can go */
static void from_the_end(void) {
    oa_allocator *space = oa_new(100, 8);
    CHECK(is_nothing(oa_last_live(space)) && is_nothing(oa_first_live(space)));
    oa_allocation a = oa_allocate(space, 10), b = oa_allocate(space, 10), c = oa_allocate(space, 10);
    CHECK(same(oa_last_live(space), c) && same(oa_live_before(space, c), b) && same(oa_live_after(space, a), b));
    CHECK(is_nothing(oa_live_before(space, a)) && is_nothing(oa_live_after(space, c)) && same(oa_first_live(space), a));
    CHECK(is_nothing(oa_relocate(space, c)) && oa_free(space, b));
    CHECK(same(oa_live_before(space, c), a) && same(oa_live_after(space, a), c) && is_nothing(oa_live_before(space, b)));
    CHECK(is_nothing(oa_live_after(space, b)) && is_nothing(oa_relocate(space, b)) && is_nothing(oa_relocate(space, a)));
    oa_allocation d = oa_relocate(space, c);
    CHECK(d.offset == 10 && oa_is_live(space, c) && oa_allocation_size(space, d) == 10 && oa_free(space, c));
    CHECK(same(oa_last_live(space), d) && is_nothing(oa_relocate(space, d)) && oa_free(space, a) && same(oa_first_live(space), d));
    CHECK(oa_allocate(space, 10).offset == 0);
    CHECK(!oa_retract(space, 81) && oa_retract(space, 0) && oa_retract(space, 30) && oa_size(space) == 70);
    CHECK(oa_block_count(space) == 3 && oa_retract(space, 50) && oa_block_count(space) == 2 && oa_size(space) == 20);
    CHECK(!oa_retract(space, 1) && oa_extend(space, 5) && oa_allocate(space, 5).offset == 20);
    oa_drop(space);
}

/* a walk shows the blocks from the end to the start, in memory of the caller, and can be left */
static void walks(void) {
    oa_allocator *space = oa_new(100, 16);
    oa_allocation a = oa_allocate(space, 10), b = oa_allocate(space, 20);
    oa_free(space, a);
    static const uint32_t offsets[] = {30, 10, 0}, sizes[] = {70, 20, 10};
    oa_walk walk, left;
    memset(&walk, 0xaa, sizeof walk);
    oa_walk_start(space, &walk);
    for (int i = 0; i < 3; i++) {
        left = walk;
        oa_block block = oa_walk_next(&walk);
        CHECK(block.kind == (i == 1 ? OA_USED : OA_FREE) && block.offset == offsets[i] && block.size == sizes[i]);
        CHECK(i == 1 ? block.allocation.metadata == b.metadata && block.allocation.offset == 10 : is_nothing(block.allocation));
    }
    CHECK(oa_walk_next(&walk).kind == OA_END && oa_walk_next(&walk).kind == OA_END);
    /* a copy goes its own way */
    CHECK(oa_walk_next(&left).offset == 0 && oa_walk_next(&left).kind == OA_END);
    oa_walk zero = {{0}};
    CHECK(oa_walk_next(&zero).kind == OA_END && oa_walk_next(NULL).kind == OA_END);
    oa_walk_start(NULL, &left);
    CHECK(oa_walk_next(&left).kind == OA_END);
    oa_walk_start(space, NULL);
    oa_drop(space);
}

static void classes(void) {
    static const uint32_t sizes[] = {0, 7, 8, 17, 118, 4026531840u, 4026531841u, 4294967295u};
    static const uint32_t up[] = {0, 7, 8, 17, 39, 239, 240, 240}, down[] = {0, 7, 8, 16, 38, 239, 239, 239};
    for (int i = 0; i < 8; i++) {
        CHECK(oa_uint_to_float_round_up(sizes[i]) == up[i] && oa_uint_to_float_round_down(sizes[i]) == down[i]);
    }
    CHECK(oa_float_to_uint(39) == 120 && oa_float_to_uint(38) == 112 && oa_float_to_uint(239) == 4026531840u);
    CHECK(oa_float_to_uint(255) == 0xc0000000u && !oa_float_to_uint(256) && !oa_float_to_uint(4294967295u));
}

static bool costs(oa_room room, uint32_t units, uint32_t ranges) {
    return room.possible && room.units == units && room.ranges == ranges;
}

/* 10 free units, 20 live, 8 free, 12 live, 50 free: the class of 50 units begins at 48, and those above at 52, 60, 64, 72 */
static void room(void) {
    oa_allocator *space = oa_new(100, 16);
    oa_allocation first = oa_allocate(space, 10);
    oa_allocate(space, 20);
    oa_allocation second = oa_allocate(space, 8);
    oa_allocate(space, 12);
    CHECK(oa_free(space, first) && oa_free(space, second) && oa_block_count(space) == 5);
    CHECK(costs(oa_room_cost(space, 48), 0, 0) && costs(oa_room_cost(space, 49), 12, 1) && costs(oa_room_cost(space, 52), 12, 1));
    CHECK(costs(oa_room_cost(space, 57), 32, 2) && costs(oa_room_cost(space, 64), 32, 2) && costs(oa_room_cost(space, 0), 0, 0));
    struct copied data = {{0}, 0, {0, 0}};
    memset(data.bytes + 10, 'a', 20);
    memset(data.bytes + 38, 'b', 12);
    CHECK(!oa_make_room(space, 65, copy, &data).possible && costs(oa_make_room(space, 48, copy, &data), 0, 0) && !data.moves);
    /* the 12 units go to 30, and 58 free ones are after them; then the 20 go to the front */
    CHECK(costs(oa_make_room(space, 49, copy, &data), 12, 1) && data.moves == 1 && data.last.offset == 30);
    CHECK(!memcmp(data.bytes + 30, "bbbbbbbbbbbb", 12) && oa_block_count(space) == 4 && oa_refusal(space, 49) == OA_GRANTED);
    CHECK(costs(oa_make_room(space, 64, copy, &data), 32, 2) && data.moves == 3 && data.last.offset == 20);
    CHECK(!memcmp(data.bytes, "aaaaaaaaaaaaaaaaaaaabbbbbbbbbbbb", 32) && oa_allocate(space, 64).offset == 32);
    oa_drop(space);
    space = oa_new(100, 16);
    oa_allocate(space, 36);
    oa_allocate(space, 1);
    CHECK(!oa_room_cost(space, 65).possible && !oa_room_cost(space, 4294967295u).possible && !oa_room_cost(space, 65).units);
    oa_drop(space);
}

static bool begins(oa_beginning found, uint32_t offset) { return found.granted && found.offset == offset; }

static bool begins_nowhere(oa_beginning found) { return !found.granted && !found.offset; }

/* In the largest space a range of no units may begin behind all units, at the number that a refused request has for its offset:
 * a live one there is walked over, and where one is free a request for no units would begin there. */
static void at_the_last_number(void) {
    oa_allocator *space = oa_new(OA_NO_SPACE, 8);
    oa_allocation end = oa_allocate_at(space, OA_NO_SPACE, 0), all = oa_allocate_tight(space, OA_NO_SPACE);
    CHECK(end.offset == OA_NO_SPACE && end.metadata != OA_NO_SPACE && oa_is_live(space, end) && all.offset == 0);
    CHECK(same(oa_last_live(space), end) && same(oa_live_after(space, all), end) && same(oa_live_before(space, end), all));
    CHECK(oa_allocation_offset(space, end) == OA_NO_SPACE && begins_nowhere(oa_would_begin(space, 0, 1)));
    CHECK(oa_free(space, end) && begins(oa_would_begin(space, 0, 1), OA_NO_SPACE) && begins_nowhere(oa_would_begin(space, 1, 1)));
    CHECK(oa_allocate(space, 0).offset == OA_NO_SPACE && oa_statistics(space).live_ranges == 2);
    oa_drop(space);
}

static bool brings(oa_compaction it, uint32_t units, uint32_t ranges, uint32_t largest) {
    return it.possible && it.units == units && it.ranges == ranges && it.largest == largest;
}

/* 30 free units, 10 live at 30, 8 live at 40, 52 free: steps of 8 give up 24 of the 30, so 76 are together */
static void room_by_steps(void) {
    oa_allocator *space = oa_new(100, 16);
    struct copied data = {{0}, 0, {0, 0}};
    oa_allocation hole = oa_allocate(space, 30), a = oa_allocate(space, 10), b = oa_allocate_aligned(space, 8, 8);
    CHECK(a.offset == 30 && b.offset == 40 && oa_free(space, hole));
    memset(data.bytes + 30, 'a', 10);
    memset(data.bytes + 40, 'b', 8);
    CHECK(costs(oa_room_cost_by(space, 52, 1, 8), 0, 0) && costs(oa_room_cost_by(space, 72, 1, 8), 18, 2));
    CHECK(costs(oa_room_cost(space, 73), 18, 2) && costs(oa_room_cost_by(space, 73, 1, 1), 18, 2));
    CHECK(!oa_room_cost_by(space, 73, 1, 8).possible && !oa_room_cost_by(space, 72, 1, 31).possible);
    /* the class of 76 is 72, that of all 82 is 80 */
    CHECK(brings(oa_compact_cost_by(space, 8), 18, 2, 72) && brings(oa_compact_cost_by(space, 1), 18, 2, 80));
    CHECK(brings(oa_compact_cost_by(space, 31), 0, 0, 52) && !oa_compact_cost_by(space, 0).possible && !oa_compact_cost_by(NULL, 1).possible);
    CHECK(costs(oa_room_cost_by(space, 57, 16, 8), 18, 2) && !oa_room_cost_by(space, 58, 16, 8).possible);
    CHECK(!oa_room_cost_by(space, 4294967295u, 2, 8).possible && !oa_room_cost_by(space, 1, 2147483648u, 8).possible);
    CHECK(!oa_room_cost_by(space, 1, 1, 0).possible && !oa_room_cost_by(space, 1, 0, 1).possible);
    CHECK(costs(oa_room_cost_by(space, 61, 12, 8), 18, 2) && !oa_room_cost_by(space, 62, 12, 8).possible);
    CHECK(!oa_make_room_by(space, 1, 1, 0, copy, &data).possible && !oa_make_room_by(space, 1, 0, 1, copy, &data).possible);
    CHECK(!oa_make_room_by(space, 73, 1, 8, copy, &data).possible && costs(oa_make_room_by(space, 37, 16, 8, copy, &data), 0, 0));
    CHECK(!data.moves && oa_refusal_aligned(space, 57, 16) == OA_FRAGMENTED);
    CHECK(costs(oa_make_room_by(space, 57, 16, 8, copy, &data), 18, 2) && data.moves == 2 && data.last.offset == 16);
    CHECK(!memcmp(data.bytes + 6, "aaaaaaaaaabbbbbbbb", 18) && oa_allocation_offset(space, a) == 6 && oa_allocation_offset(space, b) == 16);
    CHECK(oa_block_count(space) == 4 && begins(oa_would_begin(space, 57, 16), 32) && oa_allocate_aligned(space, 57, 16).offset == 32);
    /* 57 units at a multiple of 16 are taken, from 32 on: 11 are free behind them, and 8 before */
    CHECK(begins(oa_would_begin(space, 11, 1), 89) && begins(oa_would_begin(space, 8, 1), 24) && begins(oa_would_begin(space, 4, 4), 24));
    CHECK(begins_nowhere(oa_would_begin(space, 12, 1)) && begins_nowhere(oa_would_begin(space, 1, 0)));
    /* 12 units are in no free block, and 7 in the one from 24 on */
    CHECK(begins_nowhere(oa_would_begin(space, 1, 12)) && begins(oa_would_begin(space, 1, 7), 28));
    CHECK(begins(oa_would_begin(space, 5, 4), 24) && begins(oa_would_begin(space, 6, 4), 92) && oa_allocate_aligned(space, 6, 4).offset == 92);
    oa_drop(space);
    /* 12 free units, 8 live, 20 free, at the node limit: a run that leaves one block gives back a node; one of the two that an
     * alignment may need is still missing, and by steps of 5 two units stay before the range */
    space = oa_new(40, 4);
    hole = oa_allocate(space, 12);
    a = oa_allocate(space, 8);
    CHECK(oa_free(space, hole) && oa_is_full(space) && oa_refusal(space, 8) == OA_NODES && costs(oa_room_cost(space, 8), 0, 0));
    CHECK(!oa_room_cost_by(space, 8, 4, 4).possible && !oa_room_cost_by(space, 8, 1, 5).possible);
    CHECK(costs(oa_make_room_by(space, 8, 1, 4, NULL, NULL), 8, 1) && oa_allocation_offset(space, a) == 0);
    CHECK(oa_allocate(space, 8).offset == 8);
    oa_drop(space);
}

/* the table of questions.h, which says what the states are */
static void questions(void) {
    oa_allocator *space = oa_new(100, 7);
    QUESTIONS(FRESH)
    oa_allocation first = oa_allocate(space, 10);
    oa_allocate(space, 20);
    CHECK(oa_free(space, first));
    QUESTIONS(USED)
    for (int i = 0; i < 3; i++) oa_allocate(space, 1);
    QUESTIONS(FULL)
    oa_drop(space);
    space = NULL;
    QUESTIONS(NONE)
}

static void nulls(void) {
    oa_allocation a = made(0, 0);
    oa_reset(NULL);
    oa_compact(NULL, copy, NULL);
    CHECK(!oa_compact_by(NULL, 1, copy, NULL) && !oa_compact_by(NULL, 0, copy, NULL) && !oa_compact_within(NULL, 1, 0, 1, 1, copy, NULL).done);
    CHECK(is_nothing(oa_allocate(NULL, 1)) && is_nothing(oa_allocate_aligned(NULL, 1, 1)));
    CHECK(is_nothing(oa_allocate_at(NULL, 0, 1)) && !oa_is_free_at(NULL, 0, 0) && is_nothing(oa_live_at(NULL, 0)) && is_nothing(oa_in_the_way(NULL, 0, 1)));
    CHECK(is_nothing(oa_allocate_tight(NULL, 1)) && is_nothing(oa_allocate_tight_aligned(NULL, 1, 1)));
    CHECK(oa_refusal_tight(NULL, 0) == OA_BAD_CALL && oa_refusal_tight_aligned(NULL, 0, 1) == OA_BAD_CALL);
    CHECK(!oa_room_cost(NULL, 0).possible && !oa_make_room(NULL, 0, copy, NULL).possible);
    CHECK(begins_nowhere(oa_would_begin(NULL, 0, 1)) && !oa_room_cost_by(NULL, 0, 1, 1).possible && !oa_make_room_by(NULL, 0, 1, 1, copy, NULL).possible);
    CHECK(is_nothing(oa_relocate_aligned(NULL, a, 1)));
    CHECK(!oa_retract(NULL, 0) && is_nothing(oa_relocate(NULL, a)) && is_nothing(oa_last_live(NULL)) && is_nothing(oa_first_live(NULL)));
    CHECK(is_nothing(oa_live_before(NULL, a)) && is_nothing(oa_live_after(NULL, a)));
    CHECK(!oa_free(NULL, a) && !oa_is_live(NULL, a) && !oa_allocation_size(NULL, a));
    CHECK(oa_allocation_offset(NULL, a) == OA_NO_SPACE && !oa_shrink(NULL, a, 0) && !oa_grow_in_place(NULL, a, 0));
    CHECK(!oa_extend(NULL, 0) && !oa_storage_report(NULL).total_free_space && !oa_storage_report(NULL).largest_free_region);
    CHECK(are(oa_statistics(NULL), 0, 0, 0, 0, 0, 0, 0));
    CHECK(!oa_storage_report_full(NULL).free_regions[255].count && oa_refusal(NULL, 0) == OA_BAD_CALL);
    CHECK(oa_refusal_aligned(NULL, 0, 1) == OA_BAD_CALL && !oa_blocks_new(NULL) && oa_blocks_next(NULL).kind == OA_END);
}

static bool is_text(oa_text *text, const char *wanted) {
    bool same = text && strcmp(oa_text_bytes(text), wanted) == 0 && oa_text_size(text) == strlen(wanted);
    oa_text_drop(text);
    return same;
}

/* Spaces as JSON: between two live ranges of 40 and 100 units are 7 free ones, and behind them 153, which are filed as 144. */
static void dumps(void) {
    oa_allocator *space = oa_new(300, 10);
    oa_allocation a = oa_allocate(space, 40), b = oa_allocate(space, 7), c = oa_allocate(space, 100);
    CHECK(oa_free(space, b));
    char wanted[500];
    snprintf(wanted, sizeof wanted,
             "{\"size\":300,\"max_allocs\":10,\"live_ranges\":2,\"live_units\":140,\"free_blocks\":2,\"free_units\":160,"
             "\"largest_free_block\":153,\"largest_free_region\":144,\"unused_nodes\":6,\"blocks\":["
             "{\"offset\":0,\"size\":40,\"name\":%u},{\"offset\":40,\"size\":7},{\"offset\":47,\"size\":100,\"name\":%u},"
             "{\"offset\":147,\"size\":153}]}", (unsigned) a.metadata, (unsigned) c.metadata);
    oa_text *kept = oa_json(space);
    CHECK(is_text(oa_json(space), wanted));
    CHECK(is_text(oa_vma_json(space),
                  "{\"General\":{\"API\":\"Vulkan\"},\"DefaultPools\":{\"Type 0\":{\"PreferredBlockSize\":300,\"Blocks\":{\"0\":{"
                  "\"TotalBytes\":300,\"UnusedBytes\":160,\"Allocations\":2,\"UnusedRanges\":2,\"Suballocations\":["
                  "{\"Offset\":0,\"Type\":\"UNKNOWN\",\"Size\":40},{\"Offset\":40,\"Type\":\"FREE\",\"Size\":7},"
                  "{\"Offset\":47,\"Type\":\"UNKNOWN\",\"Size\":100},{\"Offset\":147,\"Type\":\"FREE\",\"Size\":153}]}},\"DedicatedAllocations\":[]}}}"));
    oa_reset(space);
    oa_drop(space);
    /* a text stays when its space is gone */
    CHECK(is_text(kept, wanted));
    space = oa_new(0, 2);
    CHECK(is_text(oa_json(space),
                  "{\"size\":0,\"max_allocs\":2,\"live_ranges\":0,\"live_units\":0,\"free_blocks\":1,\"free_units\":0,"
                  "\"largest_free_block\":0,\"largest_free_region\":0,\"unused_nodes\":1,\"blocks\":[{\"offset\":0,\"size\":0}]}"));
    oa_drop(space);
    CHECK(!oa_json(NULL) && !oa_vma_json(NULL) && !oa_text_bytes(NULL) && oa_text_size(NULL) == 0);
    oa_text_drop(NULL);
}

static uint64_t state = 88172645463325252u;
static uint32_t any(void) {
    state ^= state << 13;
    state ^= state >> 7;
    state ^= state << 17;
    return (uint32_t)(state >> 32);
}

/* Handles that are no handles: each call keeps a count of live ranges, which the blocks have to show. */
static void garbage(void) {
    for (int round = 0; round < 100; round++) {
        uint32_t limit = 2 + any() % 60;
        oa_allocator *space = oa_new(any() >> any() % 32, limit);
        CHECK(space);
        uint32_t live = 0;
        for (int i = 0; i < 10000; i++) {
            oa_allocation h = made(any(), any() % 3 ? any() % 64 : any());
            bool was = oa_is_live(space, h);
            CHECK(!was || h.metadata < limit);
            switch (any() % 11) {
            case 10: {
                uint32_t offset = any() >> any() % 32, size = any() >> any() % 32;
                bool fits = oa_is_free_at(space, offset, size);
                CHECK(!fits || is_nothing(oa_in_the_way(space, offset, size)));
                oa_allocation at = oa_allocate_at(space, offset, size), there = oa_live_at(space, offset);
                CHECK(is_nothing(at) || (fits && at.offset == offset && (!size || same(at, there))));
                CHECK(is_nothing(there) || oa_is_live(space, there));
                live += !is_nothing(at);
                break;
            }
            case 8: {
                uint32_t size = any() >> any() % 32;
                bool fits = oa_refusal_tight(space, size) == OA_GRANTED;
                bool is_there = !oa_is_full(space) && size <= oa_statistics(space).largest_free_block && (size || oa_statistics(space).free_blocks);
                CHECK(fits == is_there);
                CHECK((oa_allocate_tight(space, size).metadata != OA_NO_SPACE) == fits);
                live += fits;
                break;
            }
            case 9: {
                uint32_t size = any() >> any() % 32, align = any() % 2 ? 1u << any() % 32 : any() | 1;
                bool fits = oa_refusal_tight_aligned(space, size, align) == OA_GRANTED;
                oa_allocation made = oa_allocate_tight_aligned(space, size, align);
                CHECK((made.metadata != OA_NO_SPACE) == fits && (!fits || made.offset % align == 0));
                live += fits;
                break;
            }
            case 0: case 1: live += oa_allocate(space, any() >> any() % 32).metadata != OA_NO_SPACE; break;
            case 2: live += oa_allocate_aligned(space, any() >> any() % 32, any() % 2 ? 1u << any() % 32 : any()).metadata != OA_NO_SPACE; break;
            case 3: CHECK(oa_free(space, h) == was); live -= was; break;
            case 4: CHECK(!oa_shrink(space, h, any() >> any() % 32) || was); break;
            case 5: CHECK(!oa_grow_in_place(space, h, any() >> any() % 32) || was); break;
            case 6: CHECK((oa_allocation_offset(space, h) != OA_NO_SPACE || oa_size(space) == OA_NO_SPACE) || !was); break;
            default:
                if (any() % 50 == 0) { oa_reset(space); live = 0; }
                else if (any() % 10 == 0) oa_compact(space, NULL, NULL);
                else oa_extend(space, any() >> any() % 32);
            }
            if (i % 1000 == 0) {
                oa_blocks *blocks = oa_blocks_new(space);
                uint32_t used = 0, end = 0;
                for (;;) {
                    oa_block block = oa_blocks_next(blocks);
                    if (block.kind == OA_END) break;
                    CHECK(block.offset == end);
                    end += block.size;
                    if (block.kind == OA_USED) { used++; CHECK(oa_allocation_size(space, block.allocation) == block.size); }
                }
                CHECK(used == live && end == oa_size(space));
                oa_totals sums = oa_statistics(space);
                CHECK(sums.live_ranges == live && sums.live_ranges + sums.free_blocks == oa_block_count(space));
                CHECK(sums.live_units + sums.free_units == end && oa_is_empty(space) == (live == 0));
                CHECK(sums.largest_free_block <= sums.free_units && sums.largest_free_region <= sums.largest_free_block);
                oa_blocks_drop(blocks);
                oa_walk walk;
                oa_walk_start(space, &walk);
                for (;;) {
                    oa_block block = oa_walk_next(&walk);
                    if (block.kind == OA_END) break;
                    CHECK(block.offset + block.size == end);
                    end = block.offset;
                    used -= block.kind == OA_USED;
                }
                CHECK(used == 0 && end == 0);
                oa_text *text = oa_json(space);
                CHECK(text && oa_text_size(text) <= 58 * (size_t) oa_block_count(space) + 244);
                oa_text_drop(text);
            }
        }
        oa_drop(space);
    }
}

int main(void) {
    constructors();
    grants();
    statistics();
    room();
    room_by_steps();
    at_the_last_number();
    tight();
    aligned();
    places();
    scales();
    resizes();
    reasons();
    compacts();
    compacts_by_steps();
    compacts_within();
    in_pieces();
    to_a_multiple();
    from_the_end();
    states();
    raised();
    walks();
    classes();
    questions();
    nulls();
    dumps();
    garbage();
    printf("C: %d checks pass\n", checks);
    return 0;
}
