// VmaVirtualBlock of the Vulkan Memory Allocator: a two-level segregated fit, with alignment 1. STRATEGY is 0, for its
// usual strategy, or one of its flags.
#include <cstdint>
#include <cstdlib>
#define VMA_IMPLEMENTATION
// nothing of Vulkan is called
#define VMA_STATIC_VULKAN_FUNCTIONS 0
#define VMA_DYNAMIC_VULKAN_FUNCTIONS 0
#include "vk_mem_alloc.h"

struct space { VmaVirtualBlock block; };
struct slot { VmaVirtualAllocation range; };

static bool make(struct space *space, uint32_t size) {
    VmaVirtualBlockCreateInfo info = {};
    info.size = size;
    return vmaCreateVirtualBlock(&info, &space->block) == VK_SUCCESS;
}

static void drop(struct space *space) {
    vmaClearVirtualBlock(space->block);
    vmaDestroyVirtualBlock(space->block);
}

static inline bool is_live(const struct slot *slot) { return slot->range != VK_NULL_HANDLE; }

static inline uint64_t allocate(struct space *space, struct slot *slot, uint32_t size) {
    VmaVirtualAllocationCreateInfo request = {};
    request.size = size;
    request.flags = STRATEGY;
    VkDeviceSize offset;
    if (vmaVirtualAllocate(space->block, &request, &slot->range, &offset) == VK_SUCCESS) return offset;
    return 1ull << 32;
}

static inline void release(struct space *space, struct slot *slot) {
    vmaVirtualFree(space->block, slot->range);
    slot->range = VK_NULL_HANDLE;
}

extern "C" {
#include "player.h"
}
