// Runs one of VMA's own tests, without a window, on the driver that Vulkan finds first.
//     tests               prints the names of all tests
//     tests NAME          runs one: status 0 if it passes, 77 if it needs what the driver has not
//     tests memory COUNT  prints the bytes that COUNT live ranges of a virtual block take, by the pages of the process
#include "Tests.cpp" // VMA's, as `run` has patched it

#include <malloc.h>
#include <unistd.h>

VkInstance g_hVulkanInstance;
VkPhysicalDevice g_hPhysicalDevice;
VkDevice g_hDevice;
VmaAllocator g_hAllocator;
VkCommandBuffer g_hTemporaryCommandBuffer;
bool VK_KHR_buffer_device_address_enabled = true; // of Vulkan 1.2
bool VK_EXT_memory_priority_enabled, VK_AMD_device_coherent_memory_enabled, VK_KHR_maintenance5_enabled;
bool VK_KHR_external_memory_win32_enabled;
PFN_vkGetBufferDeviceAddressKHR g_vkGetBufferDeviceAddressKHR = vkGetBufferDeviceAddress;

static VkQueue queue;
static bool budgets;
static std::atomic<int> taken; // requests of memory that were not freed

static void *take(void *, size_t size, size_t align, VkSystemAllocationScope) {
    void *at = nullptr;
    if (posix_memalign(&at, std::max(align, sizeof(void *)), size)) return nullptr;
    taken++;
    return at;
}
static void give(void *, void *at) {
    if (at) taken--;
    std::free(at);
}
static void *retake(void *user, void *from, size_t size, size_t align, VkSystemAllocationScope scope) {
    void *at = size ? take(user, size, align, scope) : nullptr;
    if (at && from) std::memcpy(at, from, std::min(size, malloc_usable_size(from)));
    if (at || !size) give(user, from);
    return at;
}
static const VkAllocationCallbacks callbacks = {nullptr, take, retake, give, nullptr, nullptr};
const VkAllocationCallbacks *g_Allocs = &callbacks;

void SetDebugUtilsObjectName(VkObjectType, uint64_t, const std::string &) {}
void SaveFile(const wchar_t *, const void *, size_t) {}
void PrintMessage(CONSOLE_COLOR, const wchar_t *) {}

void BeginSingleTimeCommands() {
    VkCommandBufferBeginInfo info = {VK_STRUCTURE_TYPE_COMMAND_BUFFER_BEGIN_INFO};
    info.flags = VK_COMMAND_BUFFER_USAGE_ONE_TIME_SUBMIT_BIT;
    TEST(vkBeginCommandBuffer(g_hTemporaryCommandBuffer, &info) == VK_SUCCESS);
}

void EndSingleTimeCommands() {
    TEST(vkEndCommandBuffer(g_hTemporaryCommandBuffer) == VK_SUCCESS);
    VkSubmitInfo info = {VK_STRUCTURE_TYPE_SUBMIT_INFO};
    info.commandBufferCount = 1;
    info.pCommandBuffers = &g_hTemporaryCommandBuffer;
    TEST(vkQueueSubmit(queue, 1, &info, VK_NULL_HANDLE) == VK_SUCCESS);
    TEST(vkQueueWaitIdle(queue) == VK_SUCCESS);
}

void SetAllocatorCreateInfo(VmaAllocatorCreateInfo &info) {
    info = {};
    info.physicalDevice = g_hPhysicalDevice;
    info.device = g_hDevice;
    info.instance = g_hVulkanInstance;
    info.vulkanApiVersion = VK_API_VERSION_1_3;
    info.pAllocationCallbacks = g_Allocs;
    info.flags = VMA_ALLOCATOR_CREATE_BUFFER_DEVICE_ADDRESS_BIT;
    if (budgets) info.flags |= VMA_ALLOCATOR_CREATE_EXT_MEMORY_BUDGET_BIT;
    if (VK_EXT_memory_priority_enabled) info.flags |= VMA_ALLOCATOR_CREATE_EXT_MEMORY_PRIORITY_BIT;
}

// The driver, with what the tests use and it has.
static VkCommandPool start() {
    VkApplicationInfo application = {VK_STRUCTURE_TYPE_APPLICATION_INFO};
    application.apiVersion = VK_API_VERSION_1_3;
    VkInstanceCreateInfo instance = {VK_STRUCTURE_TYPE_INSTANCE_CREATE_INFO};
    instance.pApplicationInfo = &application;
    TEST(vkCreateInstance(&instance, g_Allocs, &g_hVulkanInstance) == VK_SUCCESS);
    uint32_t count = 1;
    TEST(vkEnumeratePhysicalDevices(g_hVulkanInstance, &count, &g_hPhysicalDevice) >= 0 && count == 1);

    std::vector<VkExtensionProperties> found;
    TEST(vkEnumerateDeviceExtensionProperties(g_hPhysicalDevice, nullptr, &count, nullptr) == VK_SUCCESS);
    found.resize(count);
    TEST(vkEnumerateDeviceExtensionProperties(g_hPhysicalDevice, nullptr, &count, found.data()) == VK_SUCCESS);
    std::vector<const char *> extensions;
    const auto has = [&](const char *name) {
        for (const VkExtensionProperties &one : found)
            if (!std::strcmp(one.extensionName, name)) return extensions.push_back(name), true;
        return false;
    };
    budgets = has(VK_EXT_MEMORY_BUDGET_EXTENSION_NAME);
    VK_EXT_memory_priority_enabled = has(VK_EXT_MEMORY_PRIORITY_EXTENSION_NAME);

    VkPhysicalDeviceMemoryPriorityFeaturesEXT priority = {VK_STRUCTURE_TYPE_PHYSICAL_DEVICE_MEMORY_PRIORITY_FEATURES_EXT};
    priority.memoryPriority = VK_TRUE;
    VkPhysicalDeviceBufferDeviceAddressFeatures address = {
        VK_STRUCTURE_TYPE_PHYSICAL_DEVICE_BUFFER_DEVICE_ADDRESS_FEATURES};
    address.bufferDeviceAddress = VK_TRUE;
    if (VK_EXT_memory_priority_enabled) address.pNext = &priority;
    const float first = 1;
    VkDeviceQueueCreateInfo queues = {VK_STRUCTURE_TYPE_DEVICE_QUEUE_CREATE_INFO}; // lavapipe has one family
    queues.queueCount = 1;
    queues.pQueuePriorities = &first;
    VkDeviceCreateInfo device = {VK_STRUCTURE_TYPE_DEVICE_CREATE_INFO};
    device.pNext = &address;
    device.queueCreateInfoCount = 1;
    device.pQueueCreateInfos = &queues;
    device.enabledExtensionCount = uint32_t(extensions.size());
    device.ppEnabledExtensionNames = extensions.data();
    TEST(vkCreateDevice(g_hPhysicalDevice, &device, g_Allocs, &g_hDevice) == VK_SUCCESS);
    vkGetDeviceQueue(g_hDevice, 0, 0, &queue);

    VkCommandPoolCreateInfo pool = {VK_STRUCTURE_TYPE_COMMAND_POOL_CREATE_INFO};
    pool.flags = VK_COMMAND_POOL_CREATE_RESET_COMMAND_BUFFER_BIT;
    VkCommandPool commands;
    TEST(vkCreateCommandPool(g_hDevice, &pool, g_Allocs, &commands) == VK_SUCCESS);
    VkCommandBufferAllocateInfo buffer = {VK_STRUCTURE_TYPE_COMMAND_BUFFER_ALLOCATE_INFO};
    buffer.commandPool = commands;
    buffer.commandBufferCount = 1;
    TEST(vkAllocateCommandBuffers(g_hDevice, &buffer, &g_hTemporaryCommandBuffer) == VK_SUCCESS);
    VmaAllocatorCreateInfo info;
    SetAllocatorCreateInfo(info);
    TEST(vmaCreateAllocator(&info, &g_hAllocator) == VK_SUCCESS);
    return commands;
}

static void stop(VkCommandPool commands) {
    vmaDestroyAllocator(g_hAllocator);
    vkDestroyCommandPool(g_hDevice, commands, g_Allocs);
    vkDestroyDevice(g_hDevice, g_Allocs);
    vkDestroyInstance(g_hVulkanInstance, g_Allocs);
}

// Ours: a block of more than 32 bits, which no test of VMA's has. No two ranges may overlap.
static void LargeVirtualBlock() {
    VmaVirtualBlockCreateInfo info = {VkDeviceSize(1) << 40};
    VmaVirtualBlock block;
    TEST(vmaCreateVirtualBlock(&info, &block) == VK_SUCCESS);
    RandomNumberGenerator random(1);
    std::vector<VmaVirtualAllocation> live;
    for (int step = 0; step < 20000; step++) {
        if (random.Generate() % 3 == 0 && !live.empty()) {
            std::swap(live[random.Generate() % live.size()], live.back());
            vmaVirtualFree(block, live.back());
            live.pop_back();
            continue;
        }
        VmaVirtualAllocationCreateInfo request = {};
        request.size = random.Generate() % (100 * MEGABYTE) + 1;
        request.alignment = VkDeviceSize(1) << random.Generate() % 20;
        VmaVirtualAllocation range;
        VkDeviceSize offset;
        TEST(vmaVirtualAllocate(block, &request, &range, &offset) == VK_SUCCESS);
        TEST(offset % request.alignment == 0);
        VmaVirtualAllocationInfo now;
        vmaGetVirtualAllocationInfo(block, range, &now);
        TEST(now.offset == offset && now.size == request.size);
        live.push_back(range);
    }
    std::vector<VmaVirtualAllocationInfo> ranges(live.size());
    VkDeviceSize bytes = 0, end = 0;
    for (size_t i = 0; i < live.size(); i++) {
        vmaGetVirtualAllocationInfo(block, live[i], &ranges[i]);
        bytes += ranges[i].size;
    }
    std::sort(ranges.begin(), ranges.end(), [](const auto &a, const auto &b) { return a.offset < b.offset; });
    for (const VmaVirtualAllocationInfo &range : ranges) {
        TEST(range.offset >= end);
        end = range.offset + range.size;
    }
    TEST(end <= info.size);
    VmaDetailedStatistics found;
    vmaCalculateVirtualBlockStatistics(block, &found);
    TEST(found.statistics.allocationCount == live.size() && found.statistics.allocationBytes == bytes);
    for (VmaVirtualAllocation range : live) vmaVirtualFree(block, range);
    TEST(vmaIsVirtualBlockEmpty(block));
    vmaDestroyVirtualBlock(block);
}

// Ours: a block of elements, each of which is a range.
static void SmallVirtualBlock() {
    VmaVirtualBlockCreateInfo info = {10000};
    VmaVirtualBlock block;
    TEST(vmaCreateVirtualBlock(&info, &block) == VK_SUCCESS);
    std::vector<VmaVirtualAllocation> at(info.size, VK_NULL_HANDLE);
    const auto fill = [&](VkDeviceSize align) {
        VmaVirtualAllocationCreateInfo request = {1, align};
        VmaVirtualAllocation range;
        VkDeviceSize offset;
        TEST(vmaVirtualAllocate(block, &request, &range, &offset) == VK_SUCCESS);
        TEST(offset < info.size && offset % align == 0 && !at[offset]);
        at[offset] = range;
    };
    for (VkDeviceSize i = 0; i < info.size; i++) fill(1);
    for (VkDeviceSize i = 0; i < info.size; i += 2) vmaVirtualFree(block, std::exchange(at[i], VK_NULL_HANDLE));
    for (VkDeviceSize i = 0; i < info.size; i += 2) fill(2);
    for (VmaVirtualAllocation range : at) vmaVirtualFree(block, range);
    TEST(vmaIsVirtualBlockEmpty(block));
    vmaDestroyVirtualBlock(block);
}

// The bytes of the pages that this process has, without those that malloc has for later.
static long pages() {
    malloc_trim(0);
    long all = 0, resident = 0;
    FILE *file = std::fopen("/proc/self/statm", "r");
    TEST(file && std::fscanf(file, "%ld %ld", &all, &resident) == 2);
    std::fclose(file);
    return resident * sysconf(_SC_PAGESIZE);
}

static void memory(size_t count) {
    std::vector<VmaVirtualAllocation> live(count);
    RandomNumberGenerator random(1);
    VmaVirtualBlockCreateInfo info = {VkDeviceSize(count) * 2048};
    const long before = pages();
    VmaVirtualBlock block;
    TEST(vmaCreateVirtualBlock(&info, &block) == VK_SUCCESS);
    const auto grant = [&](VmaVirtualAllocation &range) {
        VmaVirtualAllocationCreateInfo request = {};
        request.size = random.Generate() % 1024 + 1;
        TEST(vmaVirtualAllocate(block, &request, &range, nullptr) == VK_SUCCESS);
    };
    for (VmaVirtualAllocation &range : live) grant(range);
    for (size_t step = 0; step < 4 * count; step++) {
        VmaVirtualAllocation &range = live[random.Generate() % count];
        vmaVirtualFree(block, range);
        grant(range);
    }
    std::printf("%ld\n", pages() - before);
    vmaClearVirtualBlock(block);
    vmaDestroyVirtualBlock(block);
}

static const struct {
    const char *name;
    const bool &has;
} needs[] = {{"TestDeviceCoherentMemory", VK_AMD_device_coherent_memory_enabled},
             {"TestMaintenance5", VK_KHR_maintenance5_enabled},
             {"TestMemoryPriority", VK_EXT_memory_priority_enabled},
             {"TestWin32Handles", VK_KHR_external_memory_win32_enabled}};

static void call(void (*test)()) { test(); }
static void call(void (*test)(FILE *)) { test(stderr); } // its table of times is not read
struct Named {
    const char *name;
    void (*test)();
};
static const Named tests[] = {
#define X(name) {#name, [] { call(name); }},
#include "names.inc" // of those that VMA's Test calls
    X(LargeVirtualBlock) X(SmallVirtualBlock)};

int main(int count, char **words) try {
    std::setvbuf(stdout, nullptr, _IOLBF, 0);
    if (count < 2)
        for (const Named &one : tests) std::puts(one.name);
    else if (count == 3 && !std::strcmp(words[1], "memory"))
        memory(std::strtoul(words[2], nullptr, 10));
    else
        for (const Named &one : tests)
            if (!std::strcmp(one.name, words[1])) {
                const VkCommandPool commands = start();
                for (const auto &need : needs)
                    if (!need.has && !std::strcmp(need.name, one.name)) return 77;
                one.test();
                stop(commands);
                TEST(taken == 0);
                return 0;
            }
    return count < 3 && count > 1 ? 2 : 0;
} catch (const std::exception &why) {
    std::fprintf(stderr, "%s\n", why.what());
    return 1;
}
