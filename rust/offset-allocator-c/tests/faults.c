/* Each kind of fault of a state and its place, with handles, with tickets, and in the second of two heaps. */
#include "offset_allocator_heaps.h"

#include <stdio.h>
#include <stdlib.h>
#include <string.h>

static int checks;
#define CHECK(x) do { checks++; if (!(x)) { fprintf(stderr, "%s:%d: not so: %s\n", __FILE__, __LINE__, #x); exit(1); } } while (0)

/* A space of 100 units with at most 5 blocks: 30 live under the name 0, 20 live under 1, 50 free under 2; the name 3 is unused. */
#define WORDS 15
static const uint32_t state[WORDS] = {1414742351, 1, 100, 6, 3, 1, 1, 2, 50, 1, 20, 0, 30, 2, 3};

/* The same, but that 20 and 50 are free side by side, and no name is unused. */
static const uint32_t two_free[WORDS] = {1414742351, 1, 100, 6, 3, 2, 0, 2, 50, 1, 20, 0, 30, 1, 2};

/* Another number at a place, and what is found then; the checksum is right, but for its own fault. */
static const struct { int place; uint32_t number; oa_found found; size_t at; } faults[] = {
    {0, 1414742350, OA_BAD_FORM, 0}, {1, 2, OA_BAD_FORM, 0}, {3, 7, OA_BAD_LIMIT, 12},
    {4, 0, OA_BAD_COUNTS, 16}, {6, 4, OA_BAD_COUNTS, 16}, {5, 2, OA_BAD_LENGTH, 64}, {15, 1, OA_BAD_CHECKSUM, 60},
    {7, 4, OA_BAD_BLOCK, 28}, {9, 2, OA_BAD_BLOCK, 36}, {11, 1, OA_BAD_BLOCK, 44},
    {14, 4, OA_BAD_UNUSED, 56}, {14, 1, OA_BAD_UNUSED, 56}, {13, 3, OA_BAD_FREE, 52}, {13, 9, OA_BAD_FREE, 52},
    {-1, 0, OA_BAD_NEIGHBOURS, 36}, {-2, 0, OA_SPACE_READ, 64},
};
#define FAULTS (sizeof faults / sizeof *faults)

static void put32(uint8_t *at, uint32_t number) {
    for (int i = 0; i < 4; i++) at[i] = (uint8_t) (number >> 8 * i);
}

static uint8_t *put64(uint8_t *at, uint64_t number) {
    for (int i = 0; i < 8; i++) at[i] = (uint8_t) (number >> 8 * i);
    return at + 8;
}

/* The numbers and their checksum. */
static uint8_t *put_all(uint8_t *at, const uint64_t *numbers, int count) {
    uint64_t sum = 0;
    for (int i = 0; i < count; i++) {
        sum = sum * 1099511628211u + numbers[i];
        at = put64(at, numbers[i]);
    }
    return put64(at, sum);
}

/* The 64 bytes of a space with a fault; without one where the fault is that of no row. */
static uint8_t *put_space(uint8_t *at, size_t fault) {
    const uint32_t *words = fault < FAULTS && faults[fault].place == -1 ? two_free : state;
    uint32_t sum = 0;
    for (int i = 0; i < WORDS; i++) {
        uint32_t word = fault < FAULTS && faults[fault].place == i ? faults[fault].number : words[i];
        sum = sum * 16777619u + word;
        put32(at + 4 * i, word);
    }
    put32(at + 4 * WORDS, fault < FAULTS && faults[fault].place == WORDS ? sum + faults[fault].number : sum);
    return at + 4 * WORDS + 4;
}

/* The serials of the four names, and the space. */
static uint8_t *put_tickets(uint8_t *at, uint64_t realm, size_t fault) {
    const uint64_t numbers[] = {1263812943, 2, 4, 4, realm, 1, 1, 2, 0, 3};
    return put_space(put_all(at, numbers, 10), fault);
}

int main(void) {
    const size_t own = 56 + 8 * 4 + 64, before = 96 + 8 * 2;
    for (size_t n = 0; n < FAULTS; n++) {
        oa_state *bytes = oa_state_new(64);
        put_space(oa_state_bytes(bytes), n);
        oa_read space = oa_read_state(bytes, 6);
        CHECK(space.found == faults[n].found && space.at == faults[n].at && !space.space == (space.found != OA_SPACE_READ));
        oa_drop(space.space);
        oa_state_drop(bytes);

        bytes = oa_state_new(own);
        put_tickets(oa_state_bytes(bytes), 7, n);
        oag_read guarded = oag_read_state(bytes, 6);
        CHECK(guarded.found == faults[n].found && guarded.at == own - 64 + faults[n].at);
        oag_drop(guarded.space);
        oa_state_drop(bytes);

        bytes = oa_state_new(before + 2 * own);
        const uint64_t numbers[] = {1397244239, 3, 100, 100, 6, 6, 2, 0, 2, 9, 0, own, 2 * own};
        uint8_t *at = put_all(oa_state_bytes(bytes), numbers, 13);
        put_tickets(put_tickets(at, 1, FAULTS), 2, n);
        oah_read heaps = oah_read_state(bytes, 2, 6);
        CHECK(heaps.found == faults[n].found && heaps.at == before + own + own - 64 + faults[n].at);
        oah_drop(heaps.heaps);
        /* a serial that was not given, in the second heap */
        if (faults[n].place == -2) {
            put64(oa_state_bytes(bytes) + before + own + 48, 5);
            CHECK(oah_read_state(bytes, 2, 6).found == OA_BAD_CHECKSUM);
            const uint64_t wrong[] = {1263812943, 2, 4, 4, 2, 1, 1, 5, 0, 3};
            put_all(oa_state_bytes(bytes) + before + own, wrong, 10);
            heaps = oah_read_state(bytes, 2, 6);
            CHECK(!heaps.heaps && heaps.found == OA_BAD_SERIAL && heaps.at == before + own + 56);
        }
        oa_state_drop(bytes);
    }
    /* a byte more, and one fewer */
    for (size_t size = 63; size < 66; size += 2) {
        oa_state *bytes = oa_state_new(65);
        put_space(oa_state_bytes(bytes), FAULTS);
        oa_state *cut = oa_state_new(size);
        memcpy(oa_state_bytes(cut), oa_state_bytes(bytes), size);
        oa_read space = oa_read_state(cut, 6);
        CHECK(!space.space && space.found == OA_BAD_LENGTH && space.at == size);
        oa_state_drop(cut);
        oa_state_drop(bytes);
    }
    printf("faults: %d checks\n", checks);
    return 0;
}
