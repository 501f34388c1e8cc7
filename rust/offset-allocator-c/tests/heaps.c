/* The calls of offset_allocator_heaps.h: growth, a larger heap, dropping, places that are not live, and null. */
#include "offset_allocator_heaps.h"

#include <stdio.h>
#include <stdlib.h>
#include <string.h>

static int checks;
#define CHECK(x) do { checks++; if (!(x)) { fprintf(stderr, "%s:%d: not so: %s\n", __FILE__, __LINE__, #x); exit(1); } } while (0)

static void grows_and_drops(void) {
    /* 100 units are filed as 96, so of each page 96 units are granted at first, and then the other 4 */
    oah_limits limits = {.size = 100, .max_allocs = 8, .most = 2, .most_larger = 2};
    oah_heaps *heaps = oah_with_realm(limits, 9);
    CHECK(heaps && !oah_has(heaps, 0) && oah_totals(heaps).heaps == 0);
    oah_granted a = oah_allocate(heaps, 60), b = oah_allocate(heaps, 60), c = oah_allocate(heaps, 36);
    CHECK(a.refusal == OAH_GRANTED && a.is_new && a.place.heap == 0 && a.place.realm == 9 && a.place.ticket.serial == 1);
    CHECK(b.refusal == OAH_GRANTED && b.is_new && b.place.heap == 1 && b.place.ticket.realm == 2);
    /* 36 units remain of the first page's 40, which are filed as 40 */
    CHECK(c.refusal == OAH_GRANTED && !c.is_new && c.place.heap == 0 && oah_offset_of(heaps, c.place) == 60);
    CHECK(oah_allocate(heaps, 60).refusal == OAH_FULL && oah_allocate(heaps, 0).refusal == OAH_EMPTY);
    oah_granted large = oah_allocate(heaps, 1000), odd = oah_allocate_aligned(heaps, 97, 64);
    CHECK(large.is_new && large.place.heap == 2 && oah_size_of(heaps, large.place) == 1000);
    /* 97 units are more than a fresh page grants */
    CHECK(odd.is_new && odd.place.heap == 3 && oah_offset_of(heaps, odd.place) == 0);
    CHECK(oah_allocate(heaps, 1000).refusal == OAH_FULL);
    CHECK(oah_allocate_aligned(heaps, 8, 0).refusal == OAH_BAD_CALL);
    oah_all all = oah_totals(heaps);
    CHECK(all.heaps == 4 && all.units == 1297 && all.live_units == 60 + 60 + 36 + 1000 + 97 && all.free_units == 44);
    CHECK(all.largest_free_region == 40 && oah_storage_report(heaps, 1).largest_free_region == 40);
    CHECK(oah_statistics(heaps, 0).live_ranges == 2 && oah_statistics(heaps, 9).live_ranges == 0);
    /* nothing is empty yet */
    CHECK(oah_drop_empty(heaps, 0) == OA_NO_SPACE);
    CHECK(oah_free(heaps, large.place) && !oah_free(heaps, large.place) && oah_free(heaps, b.place));
    /* the last of the two empty ones goes first, and one is kept */
    CHECK(oah_drop_empty(heaps, 1) == 2 && oah_drop_empty(heaps, 1) == OA_NO_SPACE && oah_drop_empty(heaps, 0) == 1);
    CHECK(!oah_has(heaps, 1) && !oah_has(heaps, 2) && oah_is_live(heaps, a.place) && oah_is_live(heaps, c.place));
    /* their numbers are used again, and the old places stay dead */
    oah_granted again = oah_allocate(heaps, 60);
    CHECK(again.is_new && again.place.heap == 1 && again.place.ticket.realm == 5);
    CHECK(!oah_is_live(heaps, b.place) && !oah_free(heaps, b.place) && oah_is_live(heaps, again.place));
    /* parts of a place that are changed */
    oah_place other = again.place;
    other.realm = 8;
    CHECK(!oah_is_live(heaps, other) && oah_offset_of(heaps, other) == OA_NO_SPACE && oah_size_of(heaps, other) == 0);
    other = again.place;
    other.heap = 4000000000u;
    CHECK(!oah_free(heaps, other));
    other = again.place;
    other.heap = 0;
    CHECK(!oah_free(heaps, other));
    CHECK(oah_give_up(heaps, 1) && !oah_give_up(heaps, 1) && !oah_is_live(heaps, again.place) && oah_is_live(heaps, a.place));
    /* heap 0 has live ranges, heap 3 is emptied, and heap 1 is not there */
    CHECK(!oah_drop_heap(heaps, 0) && !oah_drop_heap(heaps, 1) && !oah_drop_heap(heaps, 3));
    CHECK(oah_free(heaps, odd.place) && oah_drop_heap(heaps, 3) && !oah_drop_heap(heaps, 3) && !oah_is_live(heaps, odd.place));
    oah_reset(heaps);
    CHECK(!oah_is_live(heaps, a.place) && oah_totals(heaps).live_units == 0 && oah_totals(heaps).heaps == 1);
    oah_drop(heaps);
}

/* The first range of a heap begins at 0, a multiple of every alignment: a page at an alignment fits a page. */
static void aligned_pages(void) {
    oah_limits limits = {.size = 1024, .max_allocs = 8, .most = 2, .most_larger = 1};
    oah_heaps *heaps = oah_with_realm(limits, 9);
    oah_granted a = oah_allocate_aligned(heaps, 1024, 256), b = oah_allocate_aligned(heaps, 1024, 1u << 31);
    CHECK(a.is_new && a.place.heap == 0 && oah_offset_of(heaps, a.place) == 0);
    CHECK(b.is_new && b.place.heap == 1 && oah_offset_of(heaps, b.place) == 0);
    CHECK(oah_allocate_aligned(heaps, 1024, 256).refusal == OAH_FULL && !oah_has(heaps, 2));
    CHECK(oah_allocate_aligned(heaps, 1025, 256).place.heap == 2);
    oah_drop(heaps);
}

static int same(oah_place a, oah_place b) {
    return a.ticket.serial == b.ticket.serial && a.ticket.name == b.ticket.name && a.ticket.realm == b.ticket.realm
        && a.heap == b.heap && a.realm == b.realm;
}

/* Three heaps of 96 units, of which live ranges of 70, 30 and 50 stay: the second is emptied into the others. */
static void relocates(void) {
    oah_limits limits = {.size = 96, .max_allocs = 8, .most = 3, .most_larger = 0};
    oah_heaps *heaps = oah_with_realm(limits, 9);
    CHECK(oah_emptiest(heaps) == OA_NO_SPACE && !oah_last_live(heaps, 0).ticket.serial);
    oah_place a = oah_allocate(heaps, 70).place, gone = oah_allocate(heaps, 26).place;
    oah_place c = oah_allocate(heaps, 20).place, d = oah_allocate(heaps, 10).place, also = oah_allocate(heaps, 64).place;
    oah_place e = oah_allocate(heaps, 50).place;
    CHECK(a.heap == 0 && c.heap == 1 && also.heap == 1 && e.heap == 2 && oah_free(heaps, gone) && oah_free(heaps, also));
    CHECK(oah_emptiest(heaps) == 1 && same(oah_last_live(heaps, 1), d) && same(oah_live_before(heaps, d), c));
    CHECK(!oah_live_before(heaps, c).ticket.serial && !oah_last_live(heaps, 3).ticket.serial);
    /* 10 units fit behind the 70 of heap 0, which has 16 left then; so 20 go behind the 50 of heap 2 */
    oah_place d2 = oah_relocate(heaps, d), c2 = oah_relocate(heaps, c);
    CHECK(d2.heap == 0 && oah_offset_of(heaps, d2) == 70 && oah_size_of(heaps, d2) == 10 && d2.realm == 9);
    CHECK(c2.heap == 2 && oah_offset_of(heaps, c2) == 50 && oah_size_of(heaps, c2) == 20 && oah_is_live(heaps, c));
    CHECK(oah_free(heaps, c) && oah_free(heaps, d) && oah_drop_empty(heaps, 0) == 1);
    CHECK(!oah_relocate(heaps, d).ticket.serial && !oah_live_before(heaps, d).ticket.serial);
    /* 80 and 70 live units; heap 2 has room for 26, but fewer are live there, and heap 0 has none for 50 */
    CHECK(oah_emptiest(heaps) == 2 && !oah_relocate(heaps, d2).ticket.serial && !oah_relocate(heaps, e).ticket.serial);
    CHECK(!oah_relocate(NULL, e).ticket.serial && oah_emptiest(NULL) == OA_NO_SPACE);
    CHECK(!oah_last_live(NULL, 0).ticket.serial && !oah_live_before(NULL, e).ticket.serial);
    oah_drop(heaps);
}

/* Two heaps of 96 units: behind 41 live ones a second range of 20 begins at 64, at a multiple of 32, and another at 41. */
static void relocates_aligned(void) {
    oah_limits limits = {.size = 96, .max_allocs = 8, .most = 2, .most_larger = 0};
    oah_heaps *heaps = oah_with_realm(limits, 9);
    oah_place first = oah_allocate(heaps, 41).place, gone = oah_allocate(heaps, 52).place, c = oah_allocate(heaps, 20).place;
    CHECK(first.heap == 0 && gone.heap == 0 && c.heap == 1 && oah_free(heaps, gone));
    /* 55 units from 41 on are filed as 52: 20 + 31 units fit, and 20 + 23; 20 + 63 do not, nor do 20 + 33 */
    CHECK(!oah_relocate_aligned(heaps, c, 64).ticket.serial && !oah_relocate_aligned(heaps, c, 34).ticket.serial);
    oah_place odd = oah_relocate_aligned(heaps, c, 24);
    CHECK(odd.heap == 0 && oah_offset_of(heaps, odd) == 48 && oah_free(heaps, odd));
    oah_place second = oah_relocate_aligned(heaps, c, 32);
    CHECK(second.heap == 0 && oah_offset_of(heaps, second) == 64 && oah_size_of(heaps, second) == 20 && oah_is_live(heaps, c));
    CHECK(!oah_relocate_aligned(heaps, c, 8).ticket.serial && oah_offset_of(heaps, oah_relocate_aligned(heaps, c, 1)) == 41);
    CHECK(!oah_relocate_aligned(NULL, c, 1).ticket.serial && !oah_relocate_aligned(heaps, c, 0).ticket.serial);
    oah_drop(heaps);
    /* behind 5 units, 10 at a multiple of 12, and then 10 at a multiple of 48 */
    heaps = oah_with_realm((oah_limits){.size = 100, .max_allocs = 8, .most = 1, .most_larger = 0}, 9);
    oah_allocate(heaps, 5);
    CHECK(oah_offset_of(heaps, oah_allocate_aligned(heaps, 10, 12).place) == 12);
    CHECK(oah_offset_of(heaps, oah_allocate_aligned(heaps, 10, 48).place) == 48);
    oah_drop(heaps);
}

/* Two heaps of 100 units and room for a larger one, of which number 1 was given up: written by hand. */
static void states(void) {
    oah_limits limits = {.size = 100, .max_allocs = 4, .most = 2, .most_larger = 1};
    oah_heaps *heaps = oah_with_realm(limits, 9);
    oah_place a = oah_allocate(heaps, 60).place;
    CHECK(oah_allocate(heaps, 60).is_new && oah_give_up(heaps, 1));
    oa_state *state = oah_write_state(heaps);
    /* one block is live and one is free, and each of 2 nodes was granted or may be: 56 and at most 16, and 32, 16 and 4 */
    size_t own = oa_state_size(state) - 96 - 3 * 8;
    CHECK(own == 56 + 8 * 2 + 32 + 2 * 8 + 4);
    uint64_t numbers[] = {1397244239, 3, 100, 100, 4, 4, 2, 1, 2, 9, 0, own, own, own}, sum = 0;
    for (int i = 0; i < 14; i++) {
        sum = sum * 1099511628211u + numbers[i];
        for (int j = 0; j < 8; j++) CHECK(oa_state_bytes(state)[8 * i + j] == (uint8_t) (numbers[i] >> 8 * j));
    }
    for (int j = 0; j < 8; j++) CHECK(oa_state_bytes(state)[112 + j] == (uint8_t) (sum >> 8 * j));
    CHECK(memcmp(oa_state_bytes(state) + 120, "OATK", 4) == 0);
    oah_heaps *copy = oah_clone(heaps);
    CHECK(copy && oah_is_live(copy, a) && oah_free(heaps, a) && oah_is_live(copy, a));
    oah_drop(heaps);
    oah_drop(copy);
    oah_read read = oah_read_state(state, 3, 4);
    CHECK(read.found == OA_SPACE_READ && read.at == oa_state_size(state) && oah_has(read.heaps, 0) && !oah_has(read.heaps, 1));
    /* a place that was freed after the state was written is live there, and the third heap has the third realm */
    CHECK(oah_size_of(read.heaps, a) == 60 && oah_offset_of(read.heaps, a) == 0);
    oah_granted next = oah_allocate(read.heaps, 60);
    CHECK(next.is_new && next.place.heap == 1 && next.place.ticket.realm == 3 && next.place.realm == 9);
    CHECK(oah_free(read.heaps, a) && !oah_free(read.heaps, a));
    oah_drop(read.heaps);
    read = oah_read_state(state, 2, 4);
    CHECK(!read.heaps && read.found == OA_BAD_LIMIT && read.at == 56);
    read = oah_read_state(state, 3, 3);
    CHECK(!read.heaps && read.found == OA_BAD_LIMIT && read.at == 32);
    for (size_t i = 0; i < oa_state_size(state); i++) {
        oa_state_bytes(state)[i] ^= 128;
        read = oah_read_state(state, 1000, 1000);
        CHECK(!read.heaps && read.found != OA_SPACE_READ && read.found != OA_OUT_OF_MEMORY && read.at <= oa_state_size(state));
        oa_state_bytes(state)[i] ^= 128;
    }
    /* numbers that are wrong, with the checksum of them; the first size is that of all heaps */
    static const struct { int place; uint64_t number; oa_found found; size_t at; } wrong[] = {
        {0, 1397244240, OA_BAD_FORM, 0}, {1, 1, OA_BAD_FORM, 0}, {2, 1ull << 32, OA_BAD_LIMIT, 16},
        {2, 101, OA_BAD_SIZE, 120}, {3, 0, OA_BAD_LIMIT, 24}, {3, 101, OA_BAD_LIMIT, 24}, {4, 5, OA_BAD_LIMIT, 40}, {4, 3, OA_BAD_LIMIT, 32},
        {5, 5, OA_BAD_LIMIT, 40}, {5, 3, OA_BAD_LIMIT, 40}, {6, 1ull << 63, OA_BAD_LIMIT, 48}, {7, 1001, OA_BAD_LIMIT, 56},
        {8, 1ull << 32, OA_BAD_COUNTS, 64}, {8, 0, OA_BAD_REALM, 120 + 32}, {9, 1ull << 32, OA_BAD_COUNTS, 72},
        {10, 1, OA_BAD_PLACE, 80}, {11, 1000, OA_BAD_PLACE, 88}, {11, 0, OA_BAD_PLACE, 0}, {13, 0, OA_BAD_PLACE, 104},
    };
    for (size_t n = 0; n < sizeof wrong / sizeof *wrong; n++) {
        oa_state *changed = oa_state_new(oa_state_size(state));
        memcpy(oa_state_bytes(changed), oa_state_bytes(state), oa_state_size(state));
        sum = 0;
        for (int i = 0; i < 15; i++) {
            int is_changed = i == wrong[n].place || (i == 3 && wrong[n].place == 2);
            uint64_t number = i == 14 ? sum : is_changed ? wrong[n].number : numbers[i];
            sum = sum * 1099511628211u + number;
            for (int j = 0; j < 8; j++) oa_state_bytes(changed)[8 * i + j] = (uint8_t) (number >> 8 * j);
        }
        read = oah_read_state(changed, 1000, 1000);
        if (wrong[n].place == 11 && wrong[n].number == 0) {
            /* the bytes are those of heap 1 then */
            CHECK(read.found == OA_SPACE_READ && !oah_has(read.heaps, 0) && oah_has(read.heaps, 1) && !oah_is_live(read.heaps, a));
            oah_drop(read.heaps);
        } else {
            CHECK(!read.heaps && read.found == wrong[n].found && read.at == wrong[n].at);
        }
        oa_state_drop(changed);
    }
    CHECK(!oah_write_state(NULL) && !oah_clone(NULL) && oah_read_state(NULL, 1, 4).found == OA_BAD_LENGTH);
    /* a state of tickets is none of many heaps */
    oa_state_drop(state);
    oag_allocator *one = oag_with_realm(100, 4, 9);
    CHECK(oag_allocate(one, 60).serial);
    state = oag_write_state(one);
    CHECK(oah_read_state(state, 3, 4).found == OA_BAD_FORM);
    oa_state_drop(state);
    oag_drop(one);
}

/* Nor of heaps and spaces that are made without a realm, not even the ticket of a place alone. */
static void realms(void) {
    oah_limits limits = {.size = 100, .max_allocs = 8, .most = 2, .most_larger = 1};
    oah_heaps *meshes = oah_new(limits), *textures = oah_new(limits);
    oah_place mesh = oah_allocate(meshes, 10).place, texture = oah_allocate(textures, 10).place;
    oah_place second = oah_allocate(meshes, 95).place;
    CHECK(mesh.realm != texture.realm && mesh.ticket.realm != texture.ticket.realm && second.ticket.realm == mesh.ticket.realm + 1);
    CHECK(!oah_is_live(textures, mesh) && !oah_free(meshes, texture) && oah_is_live(textures, texture));
    for (int n = 0; n < 4; n++) {
        oag_allocator *space = oag_new(100, 8);
        oag_ticket own = oag_allocate(space, 10);
        CHECK(own.serial == mesh.ticket.serial && !oag_is_live(space, mesh.ticket) && !oag_free(space, texture.ticket));
        oag_drop(space);
    }
    oah_drop(meshes);
    oah_drop(textures);
}

static uint32_t units_moved;

static void note_move(void *user, oa_move range) {
    (void) user;
    units_moved += range.size;
}

/* Sizes of ranges, walks, what would be refused, and heaps that are compacted. */
static void in_place(void) {
    oah_limits limits = {.size = 100, .max_allocs = 8, .most = 2, .most_larger = 2};
    oah_heaps *heaps = oah_with_realm(limits, 9);
    CHECK(oah_first_heap(heaps) == OA_NO_SPACE && !oah_first_place(heaps).ticket.serial);
    oah_place a = oah_allocate(heaps, 60).place, b = oah_allocate(heaps, 30).place;
    oah_place gone = oah_allocate(heaps, 150).place, large = oah_allocate(heaps, 120).place;
    CHECK(oah_units_of_heap(heaps, 0) == 100 && oah_units_of_heap(heaps, 3) == 120 && oah_units_of_heap(heaps, 1) == 0);
    CHECK(oah_refusal(heaps, 121) == OAH_FULL && oah_refusal(heaps, 60) == OAH_GRANTED && oah_refusal(heaps, 0) == OAH_EMPTY);
    CHECK(oah_refusal_aligned(heaps, 60, 256) == OAH_GRANTED && oah_refusal_aligned(heaps, 60, 0) == OAH_BAD_CALL);
    CHECK(oah_give_up(heaps, gone.heap) && oah_refusal(heaps, 121) == OAH_GRANTED);
    CHECK(oah_first_heap(heaps) == 0 && oah_heap_after(heaps, 0) == 3 && oah_heap_after(heaps, 3) == OA_NO_SPACE);
    oah_place first = oah_first_place(heaps), next = oah_place_after(heaps, first), last = oah_place_after(heaps, next);
    CHECK(first.ticket.serial == a.ticket.serial && next.ticket.serial == b.ticket.serial && last.heap == large.heap);
    CHECK(!oah_place_after(heaps, last).ticket.serial && oah_first_live(heaps, 3).heap == 3 && !oah_live_after(heaps, b).ticket.serial);
    CHECK(oah_live_after(heaps, a).ticket.serial == b.ticket.serial);
    CHECK(oah_grow_in_place(heaps, b, 40) && !oah_grow_in_place(heaps, b, 41) && oah_shrink(heaps, a, 40) && !oah_shrink(heaps, a, 41));
    CHECK(!oah_shrink(heaps, gone, 1) && oah_size_of(heaps, a) == 40 && oah_size_of(heaps, b) == 40);
    CHECK(!oah_compact_heap(heaps, 1, note_move, NULL) && oah_compact_heap(heaps, 0, note_move, NULL) && units_moved == 40);
    CHECK(oah_offset_of(heaps, b) == 40 && oah_free(heaps, a));
    CHECK(oah_make_room(heaps, 0, 56, note_move, NULL).possible && units_moved == 80 && oah_offset_of(heaps, b) == 0);
    CHECK(!oah_make_room(heaps, 0, 101, NULL, NULL).possible && !oah_make_room(heaps, 9, 1, NULL, NULL).possible);
    oah_limits same = oah_limits_of(heaps);
    CHECK(same.size == 100 && same.max_allocs == 8 && same.most == 2 && same.most_larger == 2);
    CHECK(same.first_size == 100 && same.first_allocs == 8);
    oah_drop(heaps);
}

static uint32_t moved_in[2];

static void note_move_in(void *user, uint32_t heap, oa_move range) {
    (void) user;
    moved_in[heap] += range.size;
}

/* Ranges at 64 and 48 of two heaps keep their alignments wherever they go; with one more alignment a heap has no step. */
static void steps(void) {
    oah_limits limits = {.size = 512, .max_allocs = 16, .most = 2, .most_larger = 0};
    oah_heaps *heaps = oah_with_realm(limits, 9);
    oah_place hole = oah_allocate(heaps, 100).place, a = oah_allocate_aligned(heaps, 50, 64).place, b = oah_allocate_aligned(heaps, 50, 48).place;
    CHECK(oah_offset_of(heaps, a) == 128 && oah_offset_of(heaps, b) == 192 && oah_step(heaps, 0) == 192 && oah_step(heaps, 1) == 0);
    oah_place page = oah_allocate_aligned(heaps, 512, 512).place;
    CHECK(page.heap == 1 && oah_step(heaps, 1) == 512 && oah_free(heaps, page) && oah_free(heaps, hole));
    /* nothing moves by 192 units: 128 are free before the first, and 14 between them */
    units_moved = 0;
    CHECK(oah_compact_heap(heaps, 0, note_move, NULL) && oah_compact(heaps, NULL, NULL) && units_moved == 0);
    /* once the first is freed, the second goes from 192 to 0 */
    CHECK(oah_free(heaps, a) && !oah_make_room_aligned(heaps, 0, 300, 0, note_move, NULL).possible && units_moved == 0);
    CHECK(oah_make_room_aligned(heaps, 0, 300, 32, note_move, NULL).units == 50 && units_moved == 50 && oah_offset_of(heaps, b) == 0);
    CHECK(oah_allocate_aligned(heaps, 300, 32).place.heap == 0 && oah_step(heaps, 0) == 192);
    /* a range of the other heap, at 96 with the step 96, goes to a multiple of 96, which the step takes in */
    oah_drop(heaps);
    heaps = oah_with_realm(limits, 9);
    oah_place first = oah_allocate(heaps, 90).place, rest = oah_allocate(heaps, 400).place, second = oah_allocate(heaps, 30).place;
    oah_place third = oah_allocate_aligned(heaps, 20, 96).place;
    CHECK(first.heap == 0 && second.heap == 1 && third.heap == 1 && oah_offset_of(heaps, third) == 96 && oah_step(heaps, 0) == 1 && oah_free(heaps, rest));
    oah_place to = oah_relocate(heaps, third);
    CHECK(to.heap == 0 && oah_offset_of(heaps, to) == 96 && oah_step(heaps, 0) == 96 && oah_free(heaps, third));
    /* 96 and 101 have 9696; a request that is refused leaves the step */
    CHECK(oah_allocate_aligned(heaps, 1, 101).place.heap == 0 && oah_step(heaps, 0) == 9696);
    CHECK(oah_allocate_aligned(heaps, 1, 4294967291u).refusal != OAH_GRANTED && oah_step(heaps, 0) == 9696);
    oah_drop(heaps);
    /* 4294967295 and 16 have no multiple of 32 bits: nothing moves, but where an alignment is given */
    heaps = oah_with_realm(limits, 9);
    oah_place whole = oah_allocate_aligned(heaps, 300, 4294967295u).place;
    oah_place other = oah_allocate_aligned(heaps, 40, 16).place, lone = oah_allocate(heaps, 200).place;
    CHECK(whole.heap == 0 && other.heap == 0 && lone.heap == 1 && oah_step(heaps, 0) == 0 && oah_step(heaps, 1) == 1);
    CHECK(!oah_compact_heap(heaps, 0, NULL, NULL) && !oah_compact(heaps, NULL, NULL) && !oah_make_room(heaps, 0, 1, NULL, NULL).possible);
    CHECK(oah_free(heaps, whole) && oah_offset_of(heaps, other) == 304 && !oah_relocate(heaps, other).ticket.serial);
    CHECK(oah_relocate_aligned(heaps, other, 16).heap == 1);
    oah_drop(heaps);
}

/* Heaps that become larger, tight requests, and all heaps compacted. */
static void filled(void) {
    oah_limits limits = {.size = 100, .max_allocs = 8, .most = 2, .most_larger = 0};
    oah_heaps *heaps = oah_with_realm(limits, 9);
    oah_place hole = oah_allocate(heaps, 21).place, rest = oah_allocate(heaps, 70).place;
    /* a request of 21 units is rounded up to 22, and of the last 9 units 4 begin at a multiple of 16 */
    CHECK(oah_free(heaps, hole) && oah_refusal_tight(heaps, 21) == OAH_GRANTED && oah_allocate_tight(heaps, 21).place.heap == 0);
    oah_place last = oah_allocate_tight_aligned(heaps, 4, 16).place;
    CHECK(last.heap == 0 && oah_offset_of(heaps, last) == 96 && oah_storage_report(heaps, 0).total_free_space == 5);
    oah_granted other = oah_allocate_tight(heaps, 90);
    CHECK(other.is_new && other.place.heap == 1 && oah_refusal_tight(heaps, 11) == OAH_FULL && oah_refusal_tight_aligned(heaps, 97, 8) == OAH_TOO_LARGE);
    CHECK(oah_allocate_tight(heaps, 11).refusal == OAH_FULL && oah_allocate_tight_aligned(heaps, 1, 0).refusal == OAH_BAD_CALL);
    CHECK(oah_extend_heap(heaps, 1, 30) && oah_units_of_heap(heaps, 1) == 130 && !oah_extend_heap(heaps, 2, 1) && !oah_extend_heap(heaps, 1, 4294967295u));
    CHECK(oah_refusal_tight_aligned(heaps, 1, 0) == OAH_BAD_CALL && oah_allocate_tight(heaps, 40).place.heap == 1);
    CHECK(oah_free(heaps, rest) && oah_free(heaps, other.place));
    CHECK(oah_compact(heaps, note_move_in, NULL));
    /* 4 units go from 96 to 32, since they were asked for at a multiple of 16 */
    CHECK(moved_in[0] == 4 && moved_in[1] == 40 && oah_offset_of(heaps, last) == 32);
    /* 64 units from 36 on are free in the first heap, and 90 from 40 on in the second, of which 62 are from 68 on */
    CHECK(oah_refusal_tight(heaps, 62) == OAH_GRANTED && oah_refusal_tight_aligned(heaps, 62, 17) == OAH_GRANTED);
    CHECK(oah_refusal_tight_aligned(heaps, 63, 68) == OAH_FULL && oah_refusal_tight_aligned(heaps, 62, 68) == OAH_GRANTED);
    /* a heap that is larger than the limits say is read again */
    oa_state *state = oah_write_state(heaps);
    oah_read read = oah_read_state(state, 2, 8);
    CHECK(read.heaps && oah_units_of_heap(read.heaps, 1) == 130 && oah_offset_of(read.heaps, last) == 32 && oah_step(read.heaps, 0) == 16);
    oa_state_drop(state);
    oah_drop(read.heaps);
    /* once it is dropped, its number has the units of the limits again */
    CHECK(oah_give_up(heaps, 1) && oah_allocate(heaps, 90).place.heap == 1 && oah_units_of_heap(heaps, 1) == 100);
    oah_drop(heaps);
}

/* A heap begins with 8 nodes, which are doubled as a part of the grant that has too few, up to 40; a larger heap has 4. */
static void heaps_grow(void) {
    oah_limits limits = {.size = 200, .max_allocs = 40, .most = 2, .most_larger = 1};
    oah_limits small = limits, all = limits, less = limits, more = limits, six = {.size = 200, .max_allocs = 7, .most = 2, .first_allocs = 6};
    small.first_allocs = 8, all.first_allocs = 40, less.first_allocs = 7, more.first_allocs = 41;
    oah_heaps *heaps = oah_with_realm(small, 9), *whole = oah_with_realm(all, 9), *plain = oah_with_realm(limits, 9);
    CHECK(heaps && whole && plain && oah_limits_of(heaps).first_allocs == 8 && oah_limits_of(plain).first_allocs == 40);
    CHECK(!oah_with_realm(less, 9) && !oah_with_realm(more, 9) && !oah_with_realm(six, 9));
    uint32_t limit = 8, grown = 0;
    for (uint32_t live = 1; live <= 38; live++) {
        oah_granted one = oah_allocate(heaps, 1), same = oah_allocate(plain, 1);
        CHECK(one.refusal == OAH_GRANTED && one.place.heap == 0 && one.is_new == (live == 1));
        CHECK(!memcmp(&one.place, &same.place, sizeof one.place));
        oa_totals found = oah_statistics(heaps, 0);
        uint32_t now = found.live_ranges + found.free_blocks + found.unused_nodes;
        if (now != limit) {
            /* with one live range less and the free block at the end one node was unused, as one always is */
            CHECK(now == (limit == 32 ? 40 : 2 * limit) && live == limit - 1);
            limit = now;
            grown++;
        }
    }
    CHECK(limit == 40 && grown == 3);
    oah_granted next = oah_allocate(heaps, 1), large = oah_allocate(heaps, 201);
    CHECK(next.is_new && next.place.heap == 1 && large.is_new && large.place.heap == 2);
    CHECK(oah_statistics(heaps, 1).unused_nodes == 6 && oah_statistics(heaps, 2).unused_nodes == 3);
    oah_drop(heaps);
    oah_drop(whole);
    oah_drop(plain);
}

/* The heaps of numbers 0 to 4 have 256, 512 and thrice 1024 units. A heap is made at the first number that has none and whose
 * heap has room. */
static void heaps_double(void) {
    oah_limits limits = {.size = 1024, .max_allocs = 8, .most = 5, .most_larger = 1, .first_size = 256};
    oah_heaps *heaps = oah_with_realm(limits, 9);
    static const uint32_t sizes[] = {256, 512, 1024, 1024, 1024};
    oah_granted all[5];
    for (uint32_t number = 0; number < 5; number++) {
        all[number] = oah_allocate(heaps, sizes[number]);
        CHECK(all[number].is_new && all[number].place.heap == number && oah_units_of_heap(heaps, number) == sizes[number]);
    }
    CHECK(oah_allocate(heaps, 1).refusal == OAH_FULL && oah_allocate(heaps, 1025).place.heap == 5);
    /* a dropped heap is made again with its size, and is passed over where it has too few units */
    CHECK(oah_free(heaps, all[0].place) && oah_drop_heap(heaps, 0) && oah_free(heaps, all[1].place) && oah_drop_heap(heaps, 1));
    CHECK(oah_refusal(heaps, 513) == OAH_FULL);
    oah_granted large = oah_allocate(heaps, 300), small = oah_allocate(heaps, 256);
    CHECK(large.is_new && large.place.heap == 1 && oah_units_of_heap(heaps, 1) == 512);
    CHECK(small.is_new && small.place.heap == 0 && oah_units_of_heap(heaps, 0) == 256);
    /* heaps with the limits that are said are alike */
    oah_limits said = oah_limits_of(heaps);
    oah_heaps *alike = oah_with_realm(said, 9);
    CHECK(said.first_size == 256 && said.first_allocs == 8 && oah_allocate(alike, 257).place.heap == 1);
    oah_drop(alike);
    oah_drop(heaps);
    /* with two numbers none has 1024 units, so a request for more than 512 is for a larger heap */
    limits.most = 2;
    heaps = oah_with_realm(limits, 9);
    large = oah_allocate(heaps, 513);
    CHECK(large.is_new && large.place.heap == 2 && oah_units_of_heap(heaps, 2) == 513 && oah_refusal(heaps, 1024) == OAH_FULL);
    oah_drop(heaps);
    limits.first_size = 1025;
    CHECK(!oah_with_realm(limits, 9));
}

static bool is_text(oa_text *text, const char *wanted) {
    bool same = text && strcmp(oa_text_bytes(text), wanted) == 0 && oa_text_size(text) == strlen(wanted);
    oa_text_drop(text);
    return same;
}

/* Three heaps, of which the second is dropped; the third is a larger one, with 4 nodes. */
static void dumps(void) {
    oah_limits limits = {.size = 100, .max_allocs = 8, .most = 2, .most_larger = 1};
    oah_heaps *heaps = oah_with_realm(limits, 9);
    CHECK(is_text(oah_json(heaps), "{\"totals\":{\"heaps\":0,\"units\":0,\"live_units\":0,\"free_units\":0,"
                                   "\"largest_free_region\":0},\"heaps\":[]}"));
    oah_place a = oah_allocate(heaps, 60).place, b = oah_allocate(heaps, 60).place, large = oah_allocate(heaps, 1000).place;
    CHECK(a.heap == 0 && b.heap == 1 && large.heap == 2 && oah_free(heaps, b) && oah_drop_heap(heaps, 1));
    char wanted[1000];
    snprintf(wanted, sizeof wanted,
             "{\"totals\":{\"heaps\":2,\"units\":1100,\"live_units\":1060,\"free_units\":40,\"largest_free_region\":40},\"heaps\":["
             "{\"number\":0,\"space\":{\"size\":100,\"max_allocs\":8,\"live_ranges\":1,\"live_units\":60,\"free_blocks\":1,"
             "\"free_units\":40,\"largest_free_block\":40,\"largest_free_region\":40,\"unused_nodes\":6,\"blocks\":["
             "{\"offset\":0,\"size\":60,\"name\":%u},{\"offset\":60,\"size\":40}]}},"
             "{\"number\":2,\"space\":{\"size\":1000,\"max_allocs\":4,\"live_ranges\":1,\"live_units\":1000,\"free_blocks\":0,"
             "\"free_units\":0,\"largest_free_block\":0,\"largest_free_region\":0,\"unused_nodes\":3,\"blocks\":["
             "{\"offset\":0,\"size\":1000,\"name\":%u}]}}]}", (unsigned) a.ticket.name, (unsigned) large.ticket.name);
    CHECK(is_text(oah_json(heaps), wanted) && !oah_json(NULL));
    oah_drop(heaps);
}

static void nulls(void) {
    oah_limits few = {.size = 100, .max_allocs = 3, .most = 1, .most_larger = 0}, many = {.size = 100, .max_allocs = 4, .most = 4294967295u, .most_larger = 1};
    CHECK(!oah_with_realm(few, 0) && !oah_with_realm(many, 0));
    oah_granted none = oah_allocate(NULL, 1);
    CHECK(none.refusal == OAH_BAD_CALL && none.place.ticket.serial == 0 && oah_allocate_aligned(NULL, 1, 1).refusal == OAH_BAD_CALL);
    CHECK(!oah_free(NULL, none.place) && !oah_is_live(NULL, none.place) && !oah_size_of(NULL, none.place));
    CHECK(oah_offset_of(NULL, none.place) == OA_NO_SPACE && !oah_give_up(NULL, 0) && !oah_drop_heap(NULL, 0) && oah_drop_empty(NULL, 0) == OA_NO_SPACE);
    CHECK(!oah_has(NULL, 0) && !oah_storage_report(NULL, 0).total_free_space && !oah_statistics(NULL, 0).free_units);
    CHECK(oah_totals(NULL).heaps == 0);
    CHECK(oah_first_heap(NULL) == OA_NO_SPACE && oah_heap_after(NULL, 0) == OA_NO_SPACE && oah_units_of_heap(NULL, 0) == 0);
    CHECK(!oah_first_place(NULL).ticket.serial && !oah_place_after(NULL, none.place).ticket.serial && !oah_first_live(NULL, 0).ticket.serial);
    CHECK(!oah_live_after(NULL, none.place).ticket.serial && oah_limits_of(NULL).size == 0 && oah_refusal(NULL, 1) == OAH_BAD_CALL);
    CHECK(oah_refusal_aligned(NULL, 1, 1) == OAH_BAD_CALL && !oah_shrink(NULL, none.place, 0) && !oah_grow_in_place(NULL, none.place, 0));
    CHECK(oah_allocate_tight(NULL, 1).refusal == OAH_BAD_CALL && oah_allocate_tight_aligned(NULL, 1, 1).refusal == OAH_BAD_CALL);
    CHECK(oah_refusal_tight(NULL, 1) == OAH_BAD_CALL && oah_refusal_tight_aligned(NULL, 1, 1) == OAH_BAD_CALL && !oah_extend_heap(NULL, 0, 1));
    CHECK(!oah_compact(NULL, NULL, NULL) && oah_step(NULL, 0) == 0);
    CHECK(!oah_compact_heap(NULL, 0, NULL, NULL) && !oah_make_room(NULL, 0, 0, NULL, NULL).possible);
    CHECK(!oah_make_room_aligned(NULL, 0, 1, 1, NULL, NULL).possible);
    oah_reset(NULL);
    oah_drop(NULL);
}

/* What a closure was called with, added up. */
static uint64_t seen;
static void sees(void *user, oa_move range) {
    (void)user;
    seen = seen * 31 + range.from + 7 * (uint64_t)range.to + 11 * (uint64_t)range.size;
}

static uint32_t state = 1;
static uint32_t below(uint32_t n) {
    state = state * 1664525u + 1013904223u;
    return (state >> 8) % n;
}

static int alike(oag_ticket a, oag_ticket b) { return a.serial == b.serial && a.name == b.name && a.realm == b.realm; }

/* The same call of tickets on both. */
#define BOTH(call, ...) do { \
    bool one = oag_##call(space, __VA_ARGS__), other = oah_heap_##call(heaps, 1, __VA_ARGS__); CHECK(one == other); } while (0)
#define GRANT(call, ...) do { a = oag_##call(space, __VA_ARGS__); b = oah_heap_##call(heaps, 1, __VA_ARGS__); CHECK(alike(a, b)); } while (0)
#define ROOM(call, ...) do { \
    r = oag_##call(space, __VA_ARGS__, sees, NULL); uint64_t was = seen; seen = 0; \
    q = oah_heap_##call(heaps, 1, __VA_ARGS__, sees, NULL); \
    CHECK(was == seen && r.possible == q.possible && r.units == q.units && r.ranges == q.ranges); } while (0)
#define WITHIN(call, ...) do { \
    p = oag_##call(space, __VA_ARGS__, sees, NULL); uint64_t was = seen; seen = 0; \
    o = oah_heap_##call(heaps, 1, __VA_ARGS__, sees, NULL); \
    CHECK(was == seen && p.done == o.done && p.units == o.units && p.ranges == o.ranges && p.next == o.next); } while (0)

/* Each call on a heap returns what it returns of a space with tickets, and leaves the same; no other heap changes. */
static void one_heap(void) {
    oah_limits limits = {.size = 1024, .max_allocs = 64, .most = 2, .most_larger = 0};
    oah_heaps *heaps = oah_with_realm(limits, 9);
    oah_granted first = oah_allocate(heaps, 1000), second = oah_allocate(heaps, 1000);
    CHECK(first.place.heap == 0 && second.place.heap == 1 && oah_realm(heaps) == 9);
    oag_allocator *space = oag_with_realm(1024, 64, second.place.ticket.realm);
    oag_ticket tickets[64] = {oag_allocate(space, 1000)};
    CHECK(alike(tickets[0], second.place.ticket));
    for (uint32_t count = 1, turn = 0; turn < 20000; turn++) {
        uint32_t size = 1 + below(200), align = 1u << below(8), step = 1u << below(9), at = below(1024);
        oag_ticket t = tickets[below(count)], a = {0, 0, 0}, b = {0, 0, 0};
        oa_room r, q;
        oa_progress p, o;
        seen = 0;
        switch (below(26)) {
        case 0: case 1: case 2: GRANT(allocate, size); break;
        case 3: GRANT(allocate_aligned, size, align); break;
        case 4: GRANT(allocate_tight, size); break;
        case 5: GRANT(allocate_tight_aligned, size, align); break;
        case 6: GRANT(allocate_at, at, size); break;
        case 7: GRANT(relocate, t); break;
        case 8: GRANT(relocate_aligned, t, align); break;
        case 9: GRANT(relocate_unaligned, t); break;
        case 10: BOTH(shrink, t, size); break;
        case 11: BOTH(grow_in_place, t, size); break;
        case 12: {
            bool was = oag_compact(space, sees, NULL);
            uint64_t moves = seen;
            seen = 0;
            CHECK(was == oah_heap_compact(heaps, 1, sees, NULL) && moves == seen);
            break;
        }
        case 13: {
            bool was = oag_compact_by(space, step, sees, NULL);
            uint64_t moves = seen;
            seen = 0;
            CHECK(was == oah_heap_compact_by(heaps, 1, step, sees, NULL) && moves == seen);
            break;
        }
        case 14: {
            oag_compact_unaligned(space, sees, NULL);
            uint64_t moves = seen;
            seen = 0;
            oah_heap_compact_unaligned(heaps, 1, sees, NULL);
            CHECK(moves == seen);
            break;
        }
        case 15: WITHIN(compact_within, at, size, 3); break;
        case 16: WITHIN(compact_within_by, step, at, size, 3); break;
        case 17: ROOM(make_room, size); break;
        case 18: ROOM(make_room_aligned, size, align); break;
        case 19: ROOM(make_room_by, size, align, step); break;
        case 20: ROOM(make_room_unaligned, size); break;
        case 21:
            if (below(50) == 0) {
                oag_reset(space);
                oah_heap_reset(heaps, 1);
            } else {
                BOTH(raise_step, align);
            }
            break;
        case 22:
            /* a heap keeps the units that the limits give it */
            if (below(50) == 0) BOTH(extend, size);
            else if (oag_size(space) >= 1024 + size) BOTH(retract, size);
            else CHECK(!oah_heap_retract(heaps, 1, size));
            break;
        default: BOTH(free, t); break;
        }
        if (a.serial != 0) {
            if (count == 64) count = 1;
            tickets[count++] = a;
        }
        /* the questions of a space are asked of the heap */
        const oag_allocator *heap = oah_heap(heaps, 1);
        CHECK(heap && oag_step(heap) == oag_step(space) && oag_size(heap) == oag_size(space) && oag_block_count(heap) == oag_block_count(space));
        CHECK(oag_free_units(heap) == oag_free_units(space) && oag_is_live(heap, t) == oag_is_live(space, t));
        CHECK(oag_offset_of(heap, t) == oag_offset_of(space, t) && oag_refusal_aligned(heap, size, align) == oag_refusal_aligned(space, size, align));
        CHECK(oag_would_begin(heap, size, align).offset == oag_would_begin(space, size, align).offset);
        CHECK(oag_room_cost(heap, size).units == oag_room_cost(space, size).units);
        oah_place place = {t, 1, oah_realm(heaps)};
        CHECK(oah_is_live(heaps, place) == oag_is_live(space, t) && oah_offset_of(heaps, place) == oag_offset_of(space, t));
        CHECK(oah_totals(heaps).live_units == 1000 + oag_live_units(space));
    }
    CHECK(oah_offset_of(heaps, first.place) == 0 && oag_block_count(oah_heap(heaps, 0)) == 2);
    /* a number without a heap, and no heaps */
    oag_ticket none = {0, 0, 0};
    CHECK(!oah_heap(heaps, 2) && !oah_heap(NULL, 0) && oah_realm(NULL) == 0);
    CHECK(oah_heap_allocate(heaps, 2, 1).serial == 0 && oah_heap_allocate(NULL, 0, 1).serial == 0 && !oah_heap_free(heaps, 2, none));
    CHECK(!oah_heap_compact(heaps, 2, sees, NULL) && !oah_heap_make_room(heaps, 2, 1, sees, NULL).possible && !oah_heap_extend(heaps, 7, 1));
    CHECK(oah_heap_allocate_aligned(heaps, 1, 1, 0).serial == 0 && !oah_heap_compact_by(heaps, 1, 0, sees, NULL) && !oah_heap_raise_step(heaps, 1, 0));
    oag_drop(space);
    oah_drop(heaps);
}

int main(void) {
    one_heap();
    grows_and_drops();
    aligned_pages();
    relocates();
    relocates_aligned();
    states();
    realms();
    nulls();
    in_place();
    steps();
    filled();
    heaps_grow();
    heaps_double();
    dumps();
    printf("C: %d checks of heaps pass\n", checks);
    return 0;
}
