/* Each allocation of memory fails in turn: the constructors return null, and keep nothing. */
#include "offset_allocator_heaps.h"

#include <stdio.h>
#include <stdlib.h>

void *__libc_malloc(size_t);
void *__libc_calloc(size_t, size_t);
void *__libc_realloc(void *, size_t);
void __libc_free(void *);

static long left = -1, held;

static void *kept(void *p) {
    held += p != NULL;
    return p;
}

/* whether this one fails */
static int fails(void) { return left >= 0 && left-- == 0; }

void *malloc(size_t n) { return fails() ? NULL : kept(__libc_malloc(n)); }
void *calloc(size_t n, size_t m) { return fails() ? NULL : kept(__libc_calloc(n, m)); }
void *realloc(void *p, size_t n) { return fails() ? NULL : p ? __libc_realloc(p, n) : kept(__libc_malloc(n)); }
void free(void *p) {
    held -= p != NULL;
    __libc_free(p);
}

/* Each request of a call that makes a text fails in turn. */
#define CHECK_TEXT(call) do { \
    oa_text *text = NULL; \
    int tries = 0; \
    for (left = 0; !text; tries++) { \
        long before = held, next = left; \
        text = call; \
        if (!text && held != before) return printf("%s keeps memory\n", #call), 1; \
        left = text ? -1 : next + 1; \
    } \
    oa_text_drop(text); \
    if (tries < 4) return printf("no request of %s failed\n", #call), 1; \
} while (0)

int main(void) {
    int made = 0, listed = 0;
    oa_allocator *space = NULL;
    for (left = 0; !space; made++) {
        long before = held, next = left;
        space = oa_new(1000, 100);
        if (!space && held != before) return printf("oa_new keeps memory\n"), 1;
        left = space ? -1 : next + 1;
    }
    oa_allocate(space, 10);
    oa_blocks *blocks = NULL;
    for (left = 0; !blocks; listed++) {
        long before = held, next = left;
        blocks = oa_blocks_new(space);
        if (!blocks && held != before) return printf("oa_blocks_new keeps memory\n"), 1;
        left = blocks ? -1 : next + 1;
    }
    /* a limit that is not raised stays, with what is held */
    int raised = 0;
    for (left = 0; oa_max_allocs(space) == 100; raised++) {
        long before = held, next = left;
        bool done = oa_raise_limit(space, 200);
        if (held != before) return printf("oa_raise_limit keeps memory\n"), 1;
        if (done != (oa_max_allocs(space) == 200)) return printf("oa_raise_limit says otherwise\n"), 1;
        left = done ? -1 : next + 1;
    }
    int copied = 0, stored = 0, read = 0;
    oa_allocator *copy = NULL;
    for (left = 0; !copy; copied++) {
        long before = held, next = left;
        copy = oa_clone(space);
        if (!copy && held != before) return printf("oa_clone keeps memory\n"), 1;
        left = copy ? -1 : next + 1;
    }
    oa_drop(copy);
    oa_state *state = NULL;
    for (left = 0; !state; stored++) {
        long before = held, next = left;
        state = oa_write_state(space);
        if (!state && held != before) return printf("oa_write_state keeps memory\n"), 1;
        left = state ? -1 : next + 1;
    }
    copy = NULL;
    for (left = 0; !copy; read++) {
        long before = held, next = left;
        oa_read found = oa_read_state(state, 200);
        copy = found.space;
        if (!copy && (held != before || found.found != OA_OUT_OF_MEMORY)) return printf("oa_read_state keeps memory\n"), 1;
        left = copy ? -1 : next + 1;
    }
    oa_drop(copy);
    oa_state_drop(state);
    if (raised < 2 || copied < 3 || stored < 3 || read < 3) return printf("no request failed\n"), 1;
    /* the same with tickets */
    left = -1;
    oag_allocator *with_tickets = oag_with_realm(1000, 100, 7), *again = NULL;
    oag_allocate(with_tickets, 10);
    state = NULL;
    for (left = 0, stored = 0; !state; stored++) {
        long before = held, next = left;
        state = oag_write_state(with_tickets);
        if (!state && held != before) return printf("oag_write_state keeps memory\n"), 1;
        left = state ? -1 : next + 1;
    }
    for (left = 0, read = 0; !again; read++) {
        long before = held, next = left;
        oag_read found = oag_read_state(state, 100);
        again = found.space;
        if (!again && (held != before || found.found != OA_OUT_OF_MEMORY)) return printf("oag_read_state keeps memory\n"), 1;
        left = again ? -1 : next + 1;
    }
    for (left = 0, raised = 0; oag_max_allocs(with_tickets) == 100; raised++) {
        long before = held, next = left;
        bool done = oag_raise_limit(with_tickets, 200);
        if (held != before) return printf("oag_raise_limit keeps memory\n"), 1;
        left = done ? -1 : next + 1;
    }
    oag_drop(again);
    oag_drop(with_tickets);
    oa_state_drop(state);
    if (raised < 3 || stored < 4 || read < 4) return printf("no request with tickets failed\n"), 1;
    oah_limits limits = {.size = 100, .max_allocs = 8, .most = 2, .most_larger = 0};
    oah_heaps *heaps = oah_with_realm(limits, 1);
    oah_allocate(heaps, 60);
    oah_allocate(heaps, 60);
    CHECK_TEXT(oa_json(space));
    CHECK_TEXT(oa_vma_json(space));
    CHECK_TEXT(oah_json(heaps));
    oah_drop(heaps);
    /* of a heap with two unused nodes a request needs no memory; with one it does, and where that is refused, all is as it was */
    oah_heaps *growing = oah_with_realm((oah_limits){.size = 200, .max_allocs = 100, .most = 1, .first_allocs = 8}, 1);
    for (int i = 0; i < 5; i++) oah_allocate(growing, 10);
    left = 0;
    if (oah_allocate(growing, 10).refusal != OAH_GRANTED) return printf("memory was asked for that no request needs\n"), 1;
    left = -1;
    for (left = 0, raised = 0; oah_totals(growing).live_units == 60; raised++) {
        long before = held, next = left;
        oah_reason found = oah_allocate(growing, 10).refusal;
        if (found != OAH_GRANTED && (found != OAH_MEMORY || held != before || oah_statistics(growing, 0).unused_nodes != 1)) return printf("a heap that grows keeps memory\n"), 1;
        left = found == OAH_GRANTED ? -1 : next + 1;
    }
    if (raised < 3 || oah_statistics(growing, 0).unused_nodes != 8) return printf("no heap grew\n"), 1;
    oah_drop(growing);
    /* units are added to a heap of few nodes, whose last block is free, or live behind six others, so that the units need a
     * node more: it says so, or nothing has changed */
    int unextended = 0;
    for (int i = 0; i < 2; i++) {
        growing = oah_with_realm((oah_limits){.size = i ? 8 : 200, .max_allocs = 100, .most = 1, .first_allocs = 8}, 1);
        oah_place front = oah_allocate(growing, i ? 2 : 10).place;
        for (int k = 0; k < (i ? 4 : 2); k++) oah_allocate(growing, i ? 1 : 10);
        if (i) {
            oah_allocate(growing, 2);
            oah_free(growing, front);
            oah_allocate(growing, 1);
            if (oah_statistics(growing, 0).unused_nodes != 1) return printf("the heap has other blocks\n"), 1;
        }
        for (int k = 0; k < 20; k++) {
            bool done = false;
            for (left = 0; !done; unextended += !done) {
                long before = held, next = left;
                uint32_t units = oah_units_of_heap(growing, 0);
                done = oah_extend_heap(growing, 0, 1);
                if (oah_units_of_heap(growing, 0) != units + done || oah_totals(growing).units != units + done) return printf("oah_extend_heap says otherwise\n"), 1;
                if (!done && held != before) return printf("oah_extend_heap keeps memory\n"), 1;
                left = done ? -1 : next + 1;
            }
            /* without memory this may be refused, and then the next units find fewer nodes */
            left = i ? 0 : -1;
            oah_allocate(growing, 1);
            left = -1;
        }
        oah_drop(growing);
    }
    if (!unextended) return printf("no heap was refused units\n"), 1;
    /* no other call takes memory */
    left = 0;
    oa_allocation a = oa_allocate(space, 20);
    oa_allocate(space, 20);
    oa_free(space, a);
    oa_extend(space, 50);
    oa_make_room_by(space, 900, 1, 8, NULL, NULL);
    oa_compact_within(space, 8, 0, 20, 1, NULL, NULL);
    oa_compact_by(space, 8, NULL, NULL);
    oa_compact(space, NULL, NULL);
    oa_storage_report_full(space);
    oa_walk walk;
    oa_walk_start(space, &walk);
    while (oa_walk_next(&walk).kind != OA_END) {}
    oa_reset(space);
    if (left != 0) return printf("a call takes memory\n"), 1;
    left = -1;
    oa_blocks_drop(blocks);
    oa_drop(space);
    int guarded = 0;
    oag_allocator *tickets = NULL;
    for (left = 0; !tickets; guarded++) {
        long before = held, next = left;
        tickets = oag_with_realm(1000, 100, 1);
        if (!tickets && held != before) return printf("oag_new keeps memory\n"), 1;
        left = tickets ? -1 : next + 1;
    }
    /* words beside tickets: no table, and none where a cell that is needed finds no memory, at the first growth and behind it */
    oab_words *words = NULL;
    int tables = 0, grown = 0;
    for (left = 0; !words; tables++) {
        long before = held, next = left;
        words = oab_new();
        if (!words && held != before) return printf("oab_new keeps memory\n"), 1;
        left = words ? -1 : next + 1;
    }
    for (uint32_t i = 0; i < 64; i++) {
        oag_ticket word = oag_allocate(tickets, 1);
        bool done = false;
        for (left = 0; !done; grown += !done) {
            long before = held, next = left;
            done = oab_put(words, tickets, word, i);
            if (!done && (held != before || oab_len(words) != i || oab_get(words, word))) return printf("oab_put keeps memory\n"), 1;
            left = done ? -1 : next + 1;
        }
        if (*oab_get(words, word) != i) return printf("a word is another\n"), 1;
    }
    left = 0;
    ++*oab_get_mut(words, oab_from(words, 9).ticket);
    oab_take(words, oab_from(words, 8).ticket);
    oab_clear(words);
    if (left != 0 || oab_len(words) != 0) return printf("a call of words takes memory\n"), 1;
    left = -1;
    oab_drop(words);
    if (tables < 2 || grown < 3) return printf("no request of words failed\n"), 1;
    oag_reset(tickets);
    left = 0;
    oag_ticket t = oag_allocate(tickets, 20);
    oag_allocate_aligned(tickets, 20, 8);
    oag_free(tickets, t);
    oag_make_room_by(tickets, 900, 1, 8, NULL, NULL);
    oag_make_room_aligned(tickets, 900, 2, NULL, NULL);
    oag_make_room_unaligned(tickets, 900, NULL, NULL);
    oag_compact_within_by(tickets, 8, 0, 20, 1, NULL, NULL);
    oag_compact_within(tickets, 0, 20, 1, NULL, NULL);
    oag_compact_by(tickets, 8, NULL, NULL);
    oag_compact(tickets, NULL, NULL);
    oag_compact_unaligned(tickets, NULL, NULL);
    oag_storage_report_full(tickets);
    oag_walk_start(tickets, &walk);
    while (oa_walk_next(&walk).kind != OA_END) {}
    oag_reset(tickets);
    if (left != 0) return printf("a call with tickets takes memory\n"), 1;
    if (oag_blocks_new(tickets)) return printf("oag_blocks_new has no memory\n"), 1;
    CHECK_TEXT(oag_json(tickets));
    CHECK_TEXT(oag_vma_json(tickets));
    left = -1;
    oag_drop(tickets);
    if (held != 0) return printf("%ld pieces are kept\n", held), 1;
    if (made < 3 || listed < 2 || guarded < 4) return printf("%d, %d and %d tries\n", made, listed, guarded), 1;
    printf("memory: %d refused in oa_new, %d in oa_blocks_new, %d in oag_new\n", made - 1, listed - 1, guarded - 1);
    return 0;
}
