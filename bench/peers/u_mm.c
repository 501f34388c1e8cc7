// u_mm of Mesa: first fit over a list of free blocks, the last freed first, with alignment 1. Its sizes are `int`.
#include <stdint.h>
#include <stdlib.h>
#include "util/u_mm.c"

struct space { struct mem_block *heap; };
struct slot { struct mem_block *range; };

static bool make(struct space *space, uint32_t size) {
    space->heap = size <= INT32_MAX ? u_mmInit(0, (int)size) : NULL;
    return space->heap != NULL;
}

static void drop(struct space *space) { u_mmDestroy(space->heap); }

static inline bool is_live(const struct slot *slot) { return slot->range != NULL; }

static inline uint64_t allocate(struct space *space, struct slot *slot, uint32_t size) {
    slot->range = u_mmAllocMem(space->heap, (int)size, 0, 0);
    return slot->range ? (uint64_t)slot->range->ofs : 1ull << 32;
}

static inline void release(struct space *space, struct slot *slot) {
    u_mmFreeMem(slot->range);
    slot->range = NULL;
}

#include "player.h"
