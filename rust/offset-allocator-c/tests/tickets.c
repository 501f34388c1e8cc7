/* Tickets that are stale, altered, foreign or random, with values computed by hand. */
#include "offset_allocator.h"

#include <stdio.h>
#include <stdlib.h>
#include <string.h>

static int checks;

#define CHECK(condition) do { \
    checks++; \
    if (!(condition)) { fprintf(stderr, "%s:%d: %s\n", __FILE__, __LINE__, #condition); exit(1); } \
} while (0)

#define ASK(name, in_cpp) oag_##name(space)
#include "questions.h"

static uint64_t seed = 88172645463325252u;

static uint64_t next(void) {
    seed ^= seed << 13;
    seed ^= seed >> 7;
    seed ^= seed << 17;
    return seed;
}

static void stale(void) {
    oag_allocator *space = oag_with_realm(100, 16, 7), *other = oag_with_realm(100, 16, 8);
    CHECK(space && other && sizeof(oag_ticket) == 16);
    CHECK(!oag_with_realm(100, 1, 7) && !oag_with_realm(100, 4294967295u, 7));
    oag_ticket a = oag_allocate(space, 10), foreign = oag_allocate(other, 10);
    CHECK(a.serial == 1 && a.realm == 7 && oag_offset_of(space, a) == 0 && oag_size_of(space, a) == 10);
    CHECK(oag_free(space, a) && !oag_free(space, a) && !oag_is_live(space, a));
    /* the name is granted again, and the first ticket stays dead */
    oag_ticket b = oag_allocate(space, 20);
    CHECK(b.serial == 2 && b.name == a.name && !oag_free(space, a) && oag_is_live(space, b));
    /* the same name and serial in another realm */
    CHECK(foreign.serial == 1 && foreign.name == a.name && !oag_free(space, foreign) && oag_is_live(other, foreign));
    oag_ticket altered = b;
    altered.name++;
    CHECK(!oag_free(space, altered) && oag_size_of(space, altered) == 0 && oag_offset_of(space, altered) == OA_NO_SPACE);
    CHECK(!oag_shrink(space, a, 1) && !oag_grow_in_place(space, a, 30));
    CHECK(oag_shrink(space, b, 15) && oag_size_of(space, b) == 15 && oag_grow_in_place(space, b, 25));
    CHECK(oag_storage_report(space).total_free_space == 75);
    oag_reset(space);
    CHECK(!oag_is_live(space, b) && oag_refusal(space, 96) == OA_GRANTED && oag_refusal(space, 100) == OA_TOO_LARGE);
    CHECK(oag_allocate_aligned(space, 10, 0).serial == 0);
    oag_ticket c = oag_allocate_aligned(space, 10, 16);
    CHECK(c.serial == 3 && oag_offset_of(space, c) % 16 == 0 && oag_extend(space, 10));
    oag_compact(space, NULL, NULL);
    CHECK(oag_is_live(space, c));
    /* a copy has the same tickets, and goes on with the same serial */
    oag_allocator *copy = oag_clone(space);
    CHECK(copy && oag_is_live(copy, c) && oag_free(copy, c) && oag_is_live(space, c) && oag_realm(copy) == 7);
    CHECK(oag_allocate(copy, 5).serial == 4 && oag_allocate(space, 5).serial == 4 && !oag_clone(NULL));
    oag_drop(copy);
    /* and under a larger limit: 2 blocks, and with another range 3 */
    CHECK(!oag_raise_limit(NULL, 100));
    oag_allocator *small = oag_with_realm(100, 3, 7);
    oag_ticket first = oag_allocate(small, 10);
    CHECK(first.serial == 1 && oag_refusal(small, 5) == OA_NODES && !oag_raise_limit(small, 2) && !oag_raise_limit(small, 4294967294u));
    CHECK(oag_max_allocs(small) == 3 && oag_raise_limit(small, 4) && oag_max_allocs(small) == 4 && oag_realm(small) == 7);
    oag_ticket second = oag_allocate(small, 5);
    CHECK(second.serial == 2 && oag_offset_of(small, second) == 10 && oag_is_live(small, first) && oag_size_of(small, first) == 10);
    CHECK(oag_free(small, first) && !oag_free(small, first) && oag_free(small, second) && oag_is_empty(small));
    oag_drop(small);
    oag_drop(other);
    oag_drop(space);
    oag_drop(NULL);
}

static bool same(oag_ticket a, oag_ticket b) { return a.serial == b.serial && a.name == b.name && a.realm == b.realm; }

/* Of spaces that are made without a realm no ticket is taken for another's. */
static void realms(void) {
    oag_allocator *vertices = oag_new(100, 16), *indices = oag_new(100, 16);
    CHECK(vertices && indices && !oag_new(100, 1) && !oag_new(100, 4294967295u));
    CHECK(oag_realm(vertices) != 0 && oag_realm(indices) != 0 && oag_realm(vertices) != oag_realm(indices));
    oag_ticket vertex = oag_allocate(vertices, 10), index = oag_allocate(indices, 10);
    CHECK(vertex.serial == index.serial && vertex.name == index.name);
    CHECK(!oag_free(indices, vertex) && oag_is_live(indices, index) && oag_is_live(vertices, vertex));
    oag_drop(vertices);
    oag_drop(indices);
}

/* a range finds a multiple of 256 before it */
static void to_a_multiple(void) {
    oag_allocator *space = oag_with_realm(1000, 16, 9);
    oag_allocate(space, 10);
    oag_ticket hole = oag_allocate(space, 320), mesh = oag_allocate(space, 64);
    CHECK(!oag_relocate_aligned(space, mesh, 256).serial && oag_free(space, hole) && !oag_relocate_aligned(space, hole, 1).serial);
    CHECK(!oag_relocate_aligned(space, mesh, 0).serial && !oag_relocate_aligned(NULL, mesh, 1).serial);
    oag_ticket moved = oag_relocate_aligned(space, mesh, 256);
    CHECK(moved.serial == 4 && oag_offset_of(space, moved) == 256 && oag_is_live(space, mesh) && oag_size_of(space, moved) == 64);
    /* 246 units from 10 on are free: 64 at a multiple of 12 need 75; of the 180 from 76 on that are left then, 100 at a
     * multiple of 48 need 147 */
    CHECK(oag_offset_of(space, oag_relocate_aligned(space, mesh, 12)) == 12);
    CHECK(oag_offset_of(space, oag_allocate_aligned(space, 100, 48)) == 96);
    oag_drop(space);
}

static void count(void *user, oa_move range) {
    CHECK(range.from == 300 && range.to == 44 && range.size == 100 && range.allocation.offset == 44);
    ++*(int *) user;
}

/* 300 units are one step of 256, and 44 */
static void by_steps(void) {
    oag_allocator *space = oag_with_realm(1000, 16, 9);
    int moves = 0;
    oag_ticket hole = oag_allocate(space, 300), mesh = oag_allocate(space, 100);
    CHECK(oag_free(space, hole) && !oag_compact_by(space, 0, count, &moves) && oag_compact_by(space, 301, count, &moves) && !moves);
    CHECK(oag_compact_by(space, 256, count, &moves) && moves == 1 && oag_is_live(space, mesh) && !oag_is_live(space, hole));
    CHECK(oag_offset_of(space, mesh) == 44 && oag_size_of(space, mesh) == 100 && oag_allocate(space, 44).serial == 3);
    CHECK(!oag_compact_by(NULL, 1, count, &moves) && moves == 1);
    oag_drop(space);
    /* the same within a budget */
    space = oag_with_realm(1000, 16, 9);
    hole = oag_allocate(space, 300), mesh = oag_allocate(space, 100);
    oag_ticket next = oag_allocate(space, 50);
    CHECK(oag_free(space, hole) && !oag_compact_within_by(space, 0, 0, 100, 1, count, &moves).done && !oag_compact_within_by(NULL, 1, 0, 1, 1, count, &moves).done);
    oa_progress far = oag_compact_within_by(space, 256, 0, 149, 8, count, &moves);
    CHECK(far.done && far.more && far.units == 100 && far.ranges == 1 && far.next == 400 && moves == 2);
    CHECK(oag_offset_of(space, mesh) == 44 && oag_offset_of(space, next) == 400);
    far = oag_compact_within_by(space, 256, far.next, 49, 0, NULL, NULL);
    CHECK(far.done && !far.more && far.units == 50 && far.next == 0 && oag_offset_of(space, next) == 144);
    oag_drop(space);
    /* 100 and 50 units are two ranges: either budget alone stops before the second */
    static const uint32_t budgets[][3] = {{150, 2, 2}, {149, 2, 1}, {150, 1, 1}, {2, 150, 1}};
    for (int i = 0; i < 4; i++) {
        space = oag_with_realm(1000, 16, 9);
        hole = oag_allocate(space, 300), oag_allocate(space, 100), oag_allocate(space, 50);
        CHECK(oag_free(space, hole) && oag_compact_within_by(space, 256, 0, budgets[i][0], budgets[i][1], NULL, NULL).ranges == budgets[i][2]);
        oag_drop(space);
    }
    /* no node is left for a free block at the end */
    space = oag_with_realm(20, 4, 9);
    hole = oag_allocate(space, 12);
    mesh = oag_allocate(space, 8);
    oag_free(space, hole);
    oag_allocate(space, 5);
    CHECK(!oag_compact_cost_by(space, 4).possible && oag_compact_cost_by(space, 8).possible);
    CHECK(!oag_compact_by(space, 4, count, &moves) && oag_offset_of(space, mesh) == 12 && oag_compact_by(space, 8, NULL, NULL));
    oag_drop(space);
}

/* what goes by the step of the space: 300 live, 212 free, 140 live from 512 on, 348 free, and then 512 free before it */
static void by_the_step(void) {
    oag_allocator *space = oag_with_realm(1000, 16, 9);
    int moves = 0;
    oag_ticket first = oag_allocate(space, 300), hole = oag_allocate(space, 20), mesh = oag_allocate_aligned(space, 140, 256);
    CHECK(oag_step(space) == 256 && oag_offset_of(space, mesh) == 512 && oag_free(space, hole));
    /* no step of 256 is free before it */
    CHECK(oag_compact(space, count, &moves) && !moves && !oag_room_cost(space, 500).possible && !oag_make_room(space, 500, count, &moves).possible);
    CHECK(oag_room_cost_unaligned(space, 500).units == 140 && oag_refusal(space, 500) == OA_FRAGMENTED && !oag_relocate(space, mesh).serial);
    CHECK(oag_make_room_aligned(space, 300, 2, count, &moves).possible && oag_room_cost_aligned(space, 300, 2).ranges == 0 && !moves);
    CHECK(!oag_room_cost_aligned(space, 300, 0).possible && !oag_make_room_aligned(space, 300, 0, count, &moves).possible);
    CHECK(oag_compact_cost(space).possible && !oag_compact_cost(space).ranges && oag_compact_cost(space).largest == 320);
    /* two steps, and 860 units together, the class of 832 */
    CHECK(oag_free(space, first));
    oa_compaction cost = oag_compact_cost(space);
    CHECK(cost.possible && cost.units == 140 && cost.ranges == 1 && cost.largest == 832 && !oag_compact_cost(NULL).possible);
    oa_room room = oag_room_cost_aligned(space, 800, 32);
    CHECK(room.possible && room.units == 140 && room.ranges == 1 && oag_room_cost(space, 832).units == 140 && !oag_room_cost(space, 833).possible);
    oag_allocator *other = oag_clone(space), *third = oag_clone(space);
    room = oag_make_room_aligned(other, 800, 32, NULL, NULL);
    CHECK(room.possible && room.ranges == 1 && oag_offset_of(other, mesh) == 0 && oag_allocate_aligned(other, 800, 32).serial);
    CHECK(oag_make_room(third, 832, NULL, NULL).units == 140 && oag_offset_of(third, mesh) == 0 && oag_allocate(third, 832).serial);
    /* the offset 512 and the step have 256 in common: 140 + 255 units are in the first block alone */
    oag_ticket second = oag_relocate(space, mesh);
    CHECK(second.serial == 4 && oag_offset_of(space, second) == 0 && oag_step(space) == 256 && oag_free(space, mesh) && !oag_relocate(space, mesh).serial);
    /* 560 free units are two steps and 48: from 700 to 188, which has 4 in common with the step */
    oag_ticket given = oag_allocate_at(space, 700, 8);
    oa_progress far = oag_compact_within(space, 0, 8, 1, NULL, NULL);
    CHECK(far.done && far.ranges == 1 && far.units == 8 && oag_offset_of(space, given) == 188);
    CHECK(oag_offset_of(space, oag_relocate(space, given)) == 140 && !oag_compact_within(NULL, 0, 8, 1, NULL, NULL).done);
    /* those that keep none */
    oag_ticket any = oag_relocate_unaligned(space, given);
    CHECK(oag_offset_of(space, any) == 148 && !oag_relocate_unaligned(NULL, given).serial && oag_step(space) == 256);
    CHECK(oag_make_room_unaligned(space, 800, NULL, NULL).ranges == 1 && oag_offset_of(space, given) == 156);
    CHECK(oag_free(space, second));
    oag_compact_unaligned(space, NULL, NULL);
    CHECK(oag_offset_of(space, given) == 16 && !oag_make_room_unaligned(NULL, 0, NULL, NULL).possible && !oag_room_cost_unaligned(NULL, 0).possible);
    oag_compact_unaligned(NULL, NULL, NULL);
    /* without a step nothing moves */
    CHECK(oag_free(space, oag_live_at(space, 0)) && oag_raise_step(space, 4294967291u) && oag_step(space) == 0);
    CHECK(!oag_compact(space, count, &moves) && !oag_compact_within(space, 0, 9, 9, count, &moves).done && !oag_relocate(space, given).serial);
    CHECK(!oag_make_room(space, 1, count, &moves).possible && !oag_make_room_aligned(space, 1, 1, count, &moves).possible && !moves);
    CHECK(!oag_room_cost(space, 1).possible && !oag_room_cost_aligned(space, 1, 1).possible && oag_offset_of(space, given) == 16);
    CHECK(!oag_compact(NULL, count, &moves) && !oag_make_room_aligned(NULL, 1, 1, count, &moves).possible && !oag_room_cost_aligned(NULL, 1, 1).possible);
    oag_drop(third);
    oag_drop(other);
    oag_drop(space);
}

/* 300 free units, 100 live, 600 free: a step of 256 leaves 44, and 856 are together, the class of 832 */
static void room_by_steps(void) {
    oag_allocator *space = oag_with_realm(1000, 16, 9);
    int moves = 0;
    oag_ticket hole = oag_allocate(space, 300), mesh = oag_allocate(space, 100);
    CHECK(oag_free(space, hole) && !oag_room_cost_by(space, 833, 1, 256).possible && !oag_room_cost_by(space, 700, 256, 256).possible);
    oa_room room = oag_room_cost_by(space, 700, 64, 256);
    CHECK(room.possible && room.units == 100 && room.ranges == 1 && !oag_room_cost_by(space, 700, 64, 0).possible);
    CHECK(oag_room_cost_by(space, 821, 12, 256).units == 100 && !oag_room_cost_by(space, 822, 12, 256).possible);
    CHECK(!oag_make_room_by(space, 700, 0, 256, count, &moves).possible && !oag_make_room_by(space, 700, 64, 0, count, &moves).possible);
    room = oag_make_room_by(space, 700, 64, 256, count, &moves);
    CHECK(room.possible && room.ranges == 1 && moves == 1 && oag_offset_of(space, mesh) == 44);
    CHECK(oag_would_begin(space, 700, 64).offset == 192 && oag_offset_of(space, oag_allocate_aligned(space, 700, 64)) == 192);
    CHECK(!oag_would_begin(space, 700, 64).granted && !oag_would_begin(space, 1, 0).granted && !oag_would_begin(NULL, 1, 1).granted);
    /* 89 units are rounded up to 96, which the 108 from 892 on have */
    CHECK(oag_would_begin(space, 40, 50).offset == 900);
    CHECK(!oag_room_cost_by(NULL, 0, 1, 1).possible && !oag_make_room_by(NULL, 0, 1, 1, count, &moves).possible && moves == 1);
    oag_drop(space);
}

/* in the largest space a range of no units may begin behind all units, at the number of a missing offset */
static void at_the_last_number(void) {
    oag_allocator *space = oag_with_realm(OA_NO_SPACE, 8, 9);
    oag_ticket end = oag_allocate_at(space, OA_NO_SPACE, 0), all = oag_allocate_tight(space, OA_NO_SPACE);
    CHECK(end.serial == 1 && oag_is_live(space, end) && oag_offset_of(space, end) == OA_NO_SPACE);
    CHECK(same(oag_last_live(space), end) && same(oag_live_after(space, all), end) && same(oag_live_before(space, end), all));
    oa_beginning begins = oag_would_begin(space, 0, 1);
    CHECK(!begins.granted && !begins.offset && oag_free(space, end));
    begins = oag_would_begin(space, 0, 1);
    CHECK(begins.granted && begins.offset == OA_NO_SPACE && !oag_would_begin(space, 1, 1).granted && !oag_would_begin(space, 0, 0).granted);
    oag_drop(space);
}

/* the third range finds a place where the second one was, and the end can go */
static void from_the_end(void) {
    oag_allocator *space = oag_with_realm(64, 16, 9);
    CHECK(!oag_last_live(space).serial && !oag_first_live(space).serial);
    oag_ticket a = oag_allocate(space, 8), b = oag_allocate(space, 8), c = oag_allocate(space, 8);
    CHECK(same(oag_last_live(space), c) && same(oag_live_before(space, c), b) && same(oag_live_after(space, a), b));
    CHECK(!oag_live_before(space, a).serial && !oag_live_after(space, c).serial && !oag_relocate(space, c).serial);
    CHECK(oag_free(space, b) && !oag_relocate(space, b).serial && !oag_live_before(space, b).serial);
    oag_ticket d = oag_relocate(space, c);
    CHECK(d.serial == 4 && d.realm == 9 && oag_offset_of(space, d) == 8 && oag_is_live(space, c) && oag_free(space, c));
    CHECK(!oag_retract(space, 49) && oag_retract(space, 48) && !oag_retract(space, 1) && oag_size(space) == 16);
    CHECK(same(oag_last_live(space), d) && same(oag_live_before(space, d), a) && same(oag_first_live(space), a));
    CHECK(!oag_retract(NULL, 0) && !oag_relocate(NULL, d).serial && !oag_last_live(NULL).serial && !oag_first_live(NULL).serial);
    CHECK(!oag_live_before(NULL, d).serial && !oag_live_after(NULL, d).serial);
    oag_drop(space);
}

/* what is written is read back, with the same tickets */
static void states(void) {
    /* the tickets of a space of 100 units and a limit of 5 with one grant of 40 units in realm 7: the form, the version,
     * two serials, one grant, the realm, the step, 1 for the name 0 and 0 for the name 1; the checksum is worked out below */
    static const uint8_t first[] = {
        'O', 'A', 'T', 'K', 0, 0, 0, 0, 2, 0, 0, 0, 0, 0, 0, 0, 2, 0, 0, 0, 0, 0, 0, 0, 1, 0, 0, 0, 0, 0, 0, 0,
        7, 0, 0, 0, 0, 0, 0, 0, 1, 0, 0, 0, 0, 0, 0, 0, 1, 0, 0, 0, 0, 0, 0, 0, 0, 0, 0, 0, 0, 0, 0, 0};
    static const uint64_t numbers[] = {1263812943, 2, 2, 1, 7, 1, 1, 0};
    oag_allocator *space = oag_with_realm(100, 5, 7);
    oag_ticket a = oag_allocate(space, 40);
    oa_state *state = oag_write_state(space);
    /* 56 and 8 a serial, then 32, two blocks and a free one */
    CHECK(oa_state_size(state) == 56 + 2 * 8 + 32 + 2 * 8 + 4 && memcmp(oa_state_bytes(state), first, 64) == 0);
    uint64_t sum = 0;
    for (int i = 0; i < 8; i++) sum = sum * 1099511628211u + numbers[i];
    for (int i = 0; i < 8; i++) CHECK(oa_state_bytes(state)[64 + i] == (uint8_t) (sum >> 8 * i));
    CHECK(memcmp(oa_state_bytes(state) + 72, "OAST", 4) == 0);
    CHECK(oag_free(space, a));
    oag_read read = oag_read_state(state, 5);
    CHECK(read.found == OA_SPACE_READ && read.at == oa_state_size(state) && oag_realm(read.space) == 7);
    /* a ticket that was freed after the state was written is live there */
    CHECK(oag_is_live(read.space, a) && !oag_is_live(space, a) && oag_size_of(read.space, a) == 40);
    oag_ticket b = oag_allocate(read.space, 10);
    CHECK(b.serial == 2 && oag_offset_of(read.space, b) == 40 && oag_free(read.space, a) && !oag_free(read.space, a));
    oag_drop(read.space);
    read = oag_read_state(state, 4);
    CHECK(!read.space && read.found == OA_BAD_LIMIT && read.at == 72 + 12);
    /* each byte of the tickets, changed alone */
    static const oa_found found[] = {OA_BAD_FORM, OA_BAD_FORM, OA_BAD_LENGTH, OA_BAD_CHECKSUM, OA_BAD_CHECKSUM};
    for (int i = 0; i < 72; i++) {
        oa_state_bytes(state)[i] ^= 128;
        read = oag_read_state(state, 5);
        oa_found wanted = i >= 36 && i < 40 ? OA_BAD_REALM : i >= 44 && i < 48 ? OA_BAD_STEP : i >= 40 ? OA_BAD_CHECKSUM : found[i / 8];
        CHECK(!read.space && read.found == wanted);
        CHECK(read.at == (wanted == OA_BAD_FORM ? 0u : wanted == OA_BAD_REALM ? 32u : wanted == OA_BAD_STEP ? 40u : wanted == OA_BAD_LENGTH ? 124u : 64u));
        oa_state_bytes(state)[i] ^= 128;
    }
    oa_state_bytes(state)[72] ^= 1;
    read = oag_read_state(state, 5);
    CHECK(!read.space && read.found == OA_BAD_FORM && read.at == 72);
    oa_state_bytes(state)[72] ^= 1;
    /* a serial above the number of grants, none for a live range, and a state of another version; the checksum is right again */
    static const struct { int place; uint64_t number; oa_found found; size_t at; } wrong[] = {
        {6, 2, OA_BAD_SERIAL, 48}, {7, 2, OA_BAD_SERIAL, 56}, {3, 0, OA_BAD_SERIAL, 48}, {6, 0, OA_BAD_SERIAL, 48},
        {4, 4294967296u, OA_BAD_REALM, 32}, {5, 4294967296u, OA_BAD_STEP, 40}, {1, 1, OA_BAD_FORM, 0}, {3, 2, OA_SPACE_READ, 124}};
    for (int k = 0; k < 8; k++) {
        oa_state *changed = oa_state_new(124);
        memcpy(oa_state_bytes(changed), oa_state_bytes(state), 124);
        sum = 0;
        for (int i = 0; i < 9; i++) {
            uint64_t number = i == 8 ? sum : i == wrong[k].place ? wrong[k].number : numbers[i];
            for (int j = 0; j < 8; j++) oa_state_bytes(changed)[8 * i + j] = (uint8_t) (number >> 8 * j);
            sum = sum * 1099511628211u + number;
        }
        read = oag_read_state(changed, 5);
        CHECK(read.found == wrong[k].found && read.at == wrong[k].at);
        if (read.space) CHECK(oag_allocate(read.space, 1).serial == 3);
        oag_drop(read.space);
        oa_state_drop(changed);
    }
    CHECK(!oag_write_state(NULL) && oag_read_state(NULL, 5).found == OA_BAD_LENGTH);
    /* a state of handles is none of tickets, and the other way round */
    CHECK(oa_read_state(state, 5).found == OA_BAD_FORM);
    oa_state_drop(state);
    oa_allocator *plain = oa_new(100, 5);
    state = oa_write_state(plain);
    CHECK(oag_read_state(state, 5).found == OA_BAD_LENGTH);
    oa_state_drop(state);
    oa_drop(plain);
    oag_drop(space);
}

/* 40 units free, 20 live, 40 free */
static void places(void) {
    oag_allocator *space = oag_with_realm(100, 8, 9);
    oag_ticket mesh = oag_allocate_at(space, 40, 20);
    CHECK(mesh.serial == 1 && mesh.realm == 9 && oag_offset_of(space, mesh) == 40 && oag_size_of(space, mesh) == 20);
    CHECK(same(oag_live_at(space, 40), mesh) && same(oag_live_at(space, 59), mesh) && !oag_live_at(space, 60).serial);
    CHECK(oag_is_free_at(space, 0, 40) && !oag_is_free_at(space, 0, 41) && same(oag_in_the_way(space, 0, 41), mesh));
    CHECK(!oag_in_the_way(space, 0, 40).serial && !oag_allocate_at(space, 30, 20).serial && oag_block_count(space) == 3);
    CHECK(oag_is_free_at(space, 40, 0) && !oag_is_free_at(space, 41, 0) && oag_is_free_at(space, 100, 0) && !oag_is_free_at(space, 101, 0));
    /* with a range before it and one behind, each unit has its own, and what is between none */
    oag_ticket start = oag_allocate_at(space, 0, 10), end = oag_allocate_at(space, 90, 10);
    CHECK(same(oag_live_at(space, 9), start) && !oag_live_at(space, 10).serial && !oag_live_at(space, 39).serial && same(oag_live_at(space, 50), mesh));
    CHECK(same(oag_live_at(space, 90), end) && !oag_live_at(space, 100).serial && same(oag_in_the_way(space, 0, 100), end));
    CHECK(oag_free(space, start) && oag_free(space, end));
    CHECK(oag_free(space, oag_live_at(space, 50)) && !oag_free(space, mesh) && oag_is_free_at(space, 0, 100));
    CHECK(oag_allocate_at(space, 30, 20).serial == 4 && !oag_is_live(space, mesh));
    CHECK(!oag_allocate_at(NULL, 0, 1).serial && !oag_is_free_at(NULL, 0, 0) && !oag_live_at(NULL, 0).serial && !oag_in_the_way(NULL, 0, 1).serial);
    oag_drop(space);
}

/* any free block serves that holds the request */
static void tight(void) {
    oag_allocator *space = oag_with_realm(100, 16, 9);
    CHECK(!oag_allocate(space, 100).serial && oag_refusal_tight(space, 100) == OA_GRANTED);
    oag_ticket all = oag_allocate_tight(space, 100);
    CHECK(all.serial == 1 && oag_size_of(space, all) == 100 && oag_refusal_tight(space, 1) == OA_SPACE);
    CHECK(!oag_allocate_tight(space, 1).serial && oag_free(space, all));
    oag_allocate_tight(space, 32);
    CHECK(oag_refusal_aligned(space, 68, 32) == OA_TOO_LARGE && oag_refusal_tight_aligned(space, 68, 32) == OA_GRANTED);
    oag_ticket rest = oag_allocate_tight_aligned(space, 68, 32);
    CHECK(oag_offset_of(space, rest) == 32 && !oag_allocate_tight_aligned(space, 1, 0).serial);
    CHECK(oag_refusal_tight_aligned(space, 1, 0) == OA_BAD_CALL);
    /* 50 units from 32 on: 40 begin at 40, and 40 at a multiple of 48 at 48, where 34 are left */
    CHECK(oag_free(space, rest) && oag_allocate_at(space, 82, 18).serial);
    CHECK(oag_refusal_tight(space, 40) == OA_GRANTED && oag_refusal_tight_aligned(space, 40, 20) == OA_GRANTED && oag_refusal_tight_aligned(space, 40, 48) == OA_FRAGMENTED);
    oag_drop(space);
}

/* the step of grants, of a copy and of a state */
static void steps(void) {
    oag_allocator *space = oag_with_realm(4294967295u, 16, 5);
    CHECK(oag_step(space) == 1 && oag_step(NULL) == 0 && !oag_raise_step(NULL, 2) && !oag_raise_step(space, 0));
    CHECK(oag_allocate(space, 10).serial && oag_step(space) == 1);
    CHECK(oag_allocate_aligned(space, 10, 12).serial && oag_step(space) == 12);
    oag_ticket last = oag_allocate_tight_aligned(space, 10, 32);
    CHECK(last.serial && oag_step(space) == 96 && oag_allocate_aligned(space, 10, 48).serial && oag_step(space) == 96);
    CHECK(!oag_allocate_aligned(space, 4294967295u, 5).serial && oag_step(space) == 96);
    CHECK(oag_raise_step(space, 20) && oag_step(space) == 480);
    oag_allocator *copy = oag_clone(space);
    oa_state *state = oag_write_state(space);
    CHECK(oag_step(copy) == 480 && oag_raise_step(space, 4294967291u) && oag_step(space) == 0 && oag_raise_step(space, 2) && oag_step(space) == 0);
    oag_read read = oag_read_state(state, 16);
    CHECK(oag_step(read.space) == 480 && oag_raise_limit(read.space, 32) && oag_step(read.space) == 480);
    oag_reset(space);
    CHECK(oag_step(space) == 1);
    oa_state_drop(state);
    oag_drop(read.space);
    oag_drop(copy);
    oag_drop(space);
}

/* what is read of the space, and blocks, whose handles become tickets */
static void reads(void) {
    oag_allocator *space = oag_with_realm(100, 7, 5);
    oag_ticket a = oag_allocate(space, 10), b = oag_allocate(space, 20);
    CHECK(oag_size(space) == 100 && oag_max_allocs(space) == 7 && oag_realm(space) == 5 && !oag_is_spent(space));
    CHECK(oag_free(space, a));
    oa_totals sums = oag_statistics(space);
    CHECK(sums.live_ranges == 1 && sums.free_blocks == 2 && sums.largest_free_block == 70 && sums.unused_nodes == 4);
    oa_report_full full = oag_storage_report_full(space);
    for (int c = 0; c < 256; c++) CHECK(full.free_regions[c].count == (c == 10 || c == 32));
    /* 10 free units, 20 live, 70 free: the class from 72 on needs both */
    oa_room room = oag_room_cost(space, 72);
    CHECK(room.possible && room.units == 20 && room.ranges == 1 && !oag_room_cost(space, 81).possible);
    CHECK(oag_refusal(space, 97) == OA_TOO_LARGE && oag_refusal(space, 80) == OA_FRAGMENTED);
    /* 71 units are filed as 72, which 70 are not */
    CHECK(oag_refusal_aligned(space, 10, 12) == OA_GRANTED && oag_refusal_aligned(space, 60, 12) == OA_FRAGMENTED);
    CHECK(oag_refusal_aligned(space, 60, 64) == OA_TOO_LARGE && oag_refusal_aligned(space, 10, 0) == OA_BAD_CALL);
    static const uint32_t offsets[] = {30, 10, 0};
    oa_walk walk;
    oag_walk_start(space, &walk);
    for (int i = 0; i < 3; i++) {
        oa_block block = oa_walk_next(&walk);
        oag_ticket of = oag_ticket_of(space, block.allocation);
        CHECK(block.offset == offsets[i] && (i == 1 ? of.serial == b.serial && of.name == b.name && of.realm == 5 : of.serial == 0));
    }
    CHECK(oa_walk_next(&walk).kind == OA_END);
    oa_blocks *blocks = oag_blocks_new(space);
    for (int i = 3; i-- > 0;) CHECK(oa_blocks_next(blocks).offset == offsets[i]);
    CHECK(oa_blocks_next(blocks).kind == OA_END);
    oa_blocks_drop(blocks);
    for (int i = 0; i < 3; i++) oag_allocate(space, 1);
    oag_allocate(space, 1);
    CHECK(oag_is_full(space) && oag_refusal(space, 1) == OA_NODES && oag_refusal_aligned(space, 1, 1) == OA_NODES);
    oag_drop(space);
}

/* Behind 12 live units are 38 free ones, which are filed as 36. */
static void dumps(void) {
    oag_allocator *space = oag_with_realm(50, 4, 7);
    oag_ticket t = oag_allocate(space, 12);
    char wanted[500];
    snprintf(wanted, sizeof wanted,
             "{\"size\":50,\"max_allocs\":4,\"live_ranges\":1,\"live_units\":12,\"free_blocks\":1,\"free_units\":38,"
             "\"largest_free_block\":38,\"largest_free_region\":36,\"unused_nodes\":2,\"blocks\":["
             "{\"offset\":0,\"size\":12,\"name\":%u},{\"offset\":12,\"size\":38}]}", (unsigned) t.name);
    oa_text *text = oag_json(space), *vma = oag_vma_json(space);
    CHECK(text && strcmp(oa_text_bytes(text), wanted) == 0 && oa_text_size(text) == strlen(wanted));
    CHECK(vma && strcmp(oa_text_bytes(vma),
                        "{\"General\":{\"API\":\"Vulkan\"},\"DefaultPools\":{\"Type 0\":{\"PreferredBlockSize\":50,\"Blocks\":{\"0\":{"
                        "\"TotalBytes\":50,\"UnusedBytes\":38,\"Allocations\":1,\"UnusedRanges\":1,\"Suballocations\":["
                        "{\"Offset\":0,\"Type\":\"UNKNOWN\",\"Size\":12},{\"Offset\":12,\"Type\":\"FREE\",\"Size\":38}]}},\"DedicatedAllocations\":[]}}}") == 0);
    oa_text_drop(text);
    oa_text_drop(vma);
    oag_drop(space);
    CHECK(!oag_json(NULL) && !oag_vma_json(NULL));
}

/* the table of questions.h, which says what the states are */
static void questions(void) {
    oag_allocator *space = oag_with_realm(100, 7, 5);
    QUESTIONS(FRESH)
    QUESTIONS_OF_TICKETS(FRESH)
    oag_ticket first = oag_allocate(space, 10);
    oag_allocate(space, 20);
    CHECK(oag_free(space, first));
    QUESTIONS(USED)
    QUESTIONS_OF_TICKETS(USED)
    for (int i = 0; i < 3; i++) oag_allocate(space, 1);
    QUESTIONS(FULL)
    QUESTIONS_OF_TICKETS(FULL)
    oag_drop(space);
    space = NULL;
    QUESTIONS(NONE)
    QUESTIONS_OF_TICKETS(NONE)
}

static void nulls(void) {
    oa_allocation handle = {0, 0};
    oa_walk walk;
    CHECK(!oag_blocks_new(NULL) && !oag_ticket_of(NULL, handle).serial);
    CHECK(oag_refusal_aligned(NULL, 1, 1) == OA_BAD_CALL && !oag_storage_report_full(NULL).free_regions[0].count);
    CHECK(!oag_statistics(NULL).unused_nodes);
    CHECK(!oag_room_cost(NULL, 0).possible && !oag_make_room(NULL, 0, NULL, NULL).possible && !oag_compact(NULL, NULL, NULL));
    oag_walk_start(NULL, &walk);
    CHECK(oa_walk_next(&walk).kind == OA_END);
    CHECK(oag_refusal_tight(NULL, 1) == OA_BAD_CALL && oag_refusal_tight_aligned(NULL, 1, 1) == OA_BAD_CALL);
    CHECK(!oag_allocate_tight(NULL, 1).serial && !oag_allocate_tight_aligned(NULL, 1, 1).serial);
    oag_ticket none = oag_allocate(NULL, 1);
    CHECK(none.serial == 0 && !oag_free(NULL, none) && !oag_is_live(NULL, none) && !oag_extend(NULL, 1));
    CHECK(oag_refusal(NULL, 1) == OA_BAD_CALL && oag_offset_of(NULL, none) == OA_NO_SPACE);
    oag_reset(NULL);
    CHECK(!oab_get(NULL, none) && !oab_get_mut(NULL, none) && !oab_take(NULL, none).found && !oab_from(NULL, 0).found);
    CHECK(oab_len(NULL) == 0 && oab_is_empty(NULL));
    oab_clear(NULL);
    oab_drop(NULL);
}

/* words beside tickets: of the ticket alone, changed in place, walked by name, taken and cleared */
static void words(void) {
    oag_allocator *space = oag_with_realm(1000, 100, 7), *other = oag_with_realm(1000, 100, 8);
    oab_words *kept = oab_new();
    CHECK(space && other && kept && oab_is_empty(kept) && oab_len(kept) == 0 && !oab_from(kept, 0).found);
    oag_ticket a = oag_allocate(space, 10), b = oag_allocate(space, 20), c = oag_allocate(space, 30);
    CHECK(!oab_get(kept, a) && !oab_get_mut(kept, a) && !oab_take(kept, a).found && oab_take(kept, a).ticket.serial == 0);
    CHECK(oab_put(kept, space, c, 3) && oab_put(kept, space, a, UINT64_MAX) && oab_len(kept) == 2 && !oab_is_empty(kept));
    CHECK(*oab_get(kept, a) == UINT64_MAX && *oab_get(kept, c) == 3 && !oab_get(kept, b));
    ++*oab_get_mut(kept, c);
    CHECK(*oab_get(kept, c) == 4 && *oab_get(kept, a) == UINT64_MAX);
    /* by name */
    oag_ticket low = a.name < c.name ? a : c, high = a.name < c.name ? c : a;
    oab_entry first = oab_from(kept, 0), second = oab_from(kept, low.name + 1);
    CHECK(first.found && first.ticket.serial == low.serial && first.ticket.name == low.name && first.ticket.realm == 7);
    CHECK(second.found && second.ticket.serial == high.serial && second.word == *oab_get(kept, high));
    CHECK(!oab_from(kept, high.name + 1).found && !oab_from(kept, OA_NO_SPACE).found);
    /* a stale ticket, one of another realm and one that was altered have no word, and get none */
    CHECK(oag_free(space, a) && !oab_put(kept, space, a, 1) && *oab_get(kept, a) == UINT64_MAX);
    oag_ticket d = oag_allocate(space, 5), foreign = d, altered = d;
    foreign.realm = 8;
    altered.name = OA_NO_SPACE;
    CHECK(d.name == a.name && !oab_get(kept, d) && !oab_put(kept, other, d, 1) && !oab_put(kept, space, altered, 1));
    CHECK(oab_from(kept, d.name).ticket.serial == a.serial && oab_put(kept, space, d, 5) && oab_len(kept) == 2);
    CHECK(!oab_get(kept, a) && *oab_get(kept, d) == 5 && !oab_get(kept, foreign) && !oab_get(kept, altered));
    oab_entry taken = oab_take(kept, d);
    CHECK(taken.found && taken.word == 5 && taken.ticket.serial == d.serial && !oab_take(kept, d).found && oab_len(kept) == 1);
    oab_clear(kept);
    CHECK(oab_is_empty(kept) && !oab_get(kept, c) && !oab_from(kept, 0).found && oab_put(kept, space, c, 6) && *oab_get(kept, c) == 6);
    CHECK(!oab_put(NULL, space, c, 1) && !oab_put(kept, NULL, c, 1) && *oab_get(kept, c) == 6);
    oab_drop(kept);
    oag_drop(space);
    oag_drop(other);
}

/* a million tickets of random numbers, between real ones: none touches a live range */
static void random_tickets(void) {
    enum { SLOTS = 64 };
    static oag_ticket kept[SLOTS];
    static uint32_t sizes[SLOTS];
    oag_allocator *space = oag_with_realm(4096, 256, 1);
    CHECK(space);
    for (long i = 0; i < 1000000; i++) {
        oag_ticket any;
        any.serial = next() % 1000000;
        any.name = (uint32_t) (next() % 300);
        any.realm = (uint32_t) (next() % 2);
        int slot = (int) (next() % SLOTS);
        /* only one that is a kept ticket is live */
        bool known = false;
        for (int k = 0; k < SLOTS && !known; k++)
            known = kept[k].serial && kept[k].serial == any.serial && kept[k].name == any.name && any.realm == 1;
        if (oag_is_live(space, any) != known) CHECK(0);
        if (!known && (oag_free(space, any) || oag_shrink(space, any, 0) || oag_size_of(space, any))) CHECK(0);
        if (kept[slot].serial) {
            if (oag_size_of(space, kept[slot]) != sizes[slot] || !oag_free(space, kept[slot])) CHECK(0);
            kept[slot].serial = 0;
        } else {
            sizes[slot] = (uint32_t) (next() % 100) + 1;
            kept[slot] = oag_allocate(space, sizes[slot]);
        }
    }
    for (int k = 0; k < SLOTS; k++) if (kept[k].serial) CHECK(oag_free(space, kept[k]));
    CHECK(oag_storage_report(space).total_free_space == 4096);
    oag_drop(space);
}

/* Random calls, and whatever moves, is copied, stored and read: each range that was granted at a multiple of an alignment begins
 * at one as long as it lives. The step is the least common multiple, of which a multiple is looked for here. */
static void every_alignment(void) {
    static const uint32_t families[4][4] = {{1, 16, 256, 4096}, {12, 20, 32, 48}, {1, 3, 5, 8}, {7, 101, 4093, 8191}};
    enum { MOST = 80 };
    static oag_ticket held[MOST];
    static uint32_t aligns[MOST];
    long moves = 0, ends = 0;
    for (int i = 0; i < 600; i++) {
        oag_allocator *space = oag_with_realm((uint32_t) (next() % 20000), 2 + (uint32_t) (next() % 80), 1);
        uint32_t step = 1;
        int live = 0;
        CHECK(space);
        for (int call = 0; call < 400; call++) {
            uint32_t align = families[i % 4][next() % 4], size = (uint32_t) (next() % (1u << (next() % 11)));
            uint32_t before = OA_NO_SPACE, place = live ? (uint32_t) (next() % (unsigned) live) : 0;
            uint64_t kind = next() % 24;
            oag_ticket found = {0, 0, 0};
            for (int k = 0; k < live; k++) before = before * 31 + oag_offset_of(space, held[k]);
            if (kind < 3) {
                align = 1;
                found = oag_allocate(space, size);
            } else if (kind < 9) {
                found = oag_allocate_aligned(space, size, align);
            } else if (kind < 10) {
                found = oag_allocate_tight_aligned(space, size, align);
            } else if (kind < 15 && live) {
                if (!oag_free(space, held[place])) CHECK(0);
                held[place] = held[--live];
                aligns[place] = aligns[live];
            } else if (kind == 15 && live) {
                oag_ticket second = oag_relocate(space, held[place]);
                if (second.serial) {
                    if (!step || !oag_free(space, held[place])) CHECK(0);
                    held[place] = second;
                }
            } else if (kind == 16) {
                if (oag_compact(space, NULL, NULL) && !step) CHECK(0);
            } else if (kind == 17) {
                if (oag_compact_within(space, (uint32_t) (next() % 20000), size, 1 + (uint32_t) (next() % 4), NULL, NULL).done && !step) CHECK(0);
            } else if (kind == 18) {
                oa_room room = oag_room_cost(space, size), made = oag_make_room(space, size, NULL, NULL);
                if (room.possible != made.possible || room.units != made.units || room.ranges != made.ranges) CHECK(0);
                if (made.possible && oag_refusal(space, size) != OA_GRANTED) CHECK(0);
            } else if (kind == 19) {
                oa_room room = oag_room_cost_aligned(space, size, align), made = oag_make_room_aligned(space, size, align, NULL, NULL);
                if (room.possible != made.possible || room.units != made.units || room.ranges != made.ranges) CHECK(0);
                if (made.possible && oag_refusal_aligned(space, size, align) != OA_GRANTED) CHECK(0);
            } else if (kind == 20) {
                oag_allocator *copy = oag_clone(space);
                oag_drop(space);
                space = copy;
            } else if (kind == 21) {
                oa_state *state = oag_write_state(space);
                oag_read read = oag_read_state(state, 1000);
                oag_drop(space);
                oa_state_drop(state);
                space = read.space;
            } else if (kind == 22 && next() % 8 == 0) {
                oag_reset(space);
                live = 0;
                step = 1;
            } else {
                oag_extend(space, (uint32_t) (next() % 4));
            }
            if (found.serial) {
                uint64_t all = step;
                while (all % align) all += step;
                step = all > 4294967295u ? 0 : (uint32_t) all;
                held[live] = found;
                aligns[live++] = align;
            }
            if (!space || live > MOST || oag_step(space) != step) CHECK(0);
            uint32_t after = OA_NO_SPACE;
            for (int k = 0; k < live; k++) {
                if (oag_offset_of(space, held[k]) % aligns[k]) CHECK(0);
                after = after * 31 + oag_offset_of(space, held[k]);
            }
            moves += kind >= 15 && kind < 20 && after != before;
        }
        ends += step == 0;
        oag_drop(space);
    }
    CHECK(moves > 2000 && ends > 0);
}

int main(void) {
    stale();
    realms();
    to_a_multiple();
    by_steps();
    by_the_step();
    room_by_steps();
    at_the_last_number();
    from_the_end();
    states();
    tight();
    places();
    reads();
    steps();
    questions();
    nulls();
    words();
    dumps();
    random_tickets();
    every_alignment();
    printf("C: %d checks of tickets pass\n", checks);
    return 0;
}
