// util_vma_heap of Mesa: first fit over a sorted list of holes, from the top of the space, as is its default, with
// alignment 1. Its address 0 means a refusal, so the space begins at 1. The caller keeps the size of a range.
#include <stdint.h>
#include <stdlib.h>
#include "util/vma.c"

struct space { struct util_vma_heap heap; };
struct slot { uint64_t address, size; };

static bool make(struct space *space, uint32_t size) {
    util_vma_heap_init(&space->heap, 1, size);
    return true;
}

static void drop(struct space *space) { util_vma_heap_finish(&space->heap); }

static inline bool is_live(const struct slot *slot) { return slot->address != 0; }

static inline uint64_t allocate(struct space *space, struct slot *slot, uint32_t size) {
    *slot = (struct slot){util_vma_heap_alloc(&space->heap, size, 1), size};
    return slot->address ? slot->address - 1 : 1ull << 32;
}

static inline void release(struct space *space, struct slot *slot) {
    util_vma_heap_free(&space->heap, slot->address, slot->size);
    slot->address = 0;
}

#include "player.h"
