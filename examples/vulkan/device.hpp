// What an engine has anyway: a device of Vulkan with one queue, buffers, images, fences and barriers. The
// validation layer is on, with synchronization validation; its messages are counted, and the first ones
// printed.
#pragma once

#include <vulkan/vulkan.h>

#include <cstdint>
#include <cstdio>
#include <cstdlib>

#define MUST(call) must((call) == VK_SUCCESS, #call)
inline void must(bool done, const char *what) {
    if (done) return;
    std::fprintf(stderr, "failed: %s\n", what);
    std::exit(1);
}

struct Buffer {
    VkBuffer buffer;
    VkDeviceMemory memory;
    VkDeviceSize size;
    uint8_t *bytes; // where the host sees them; null if it does not
};

class Device {
public:
    static const VkMemoryPropertyFlags LOCAL = VK_MEMORY_PROPERTY_DEVICE_LOCAL_BIT;
    static const VkMemoryPropertyFlags HOST =
        VK_MEMORY_PROPERTY_HOST_VISIBLE_BIT | VK_MEMORY_PROPERTY_HOST_COHERENT_BIT;
    static const uint32_t PRINTED = 3; // messages

    VkPhysicalDeviceProperties properties;

    explicit Device(uint32_t &messages) {
        const VkDebugUtilsMessengerCreateInfoEXT listener{
            .sType = VK_STRUCTURE_TYPE_DEBUG_UTILS_MESSENGER_CREATE_INFO_EXT,
            .messageSeverity = VK_DEBUG_UTILS_MESSAGE_SEVERITY_WARNING_BIT_EXT |
                               VK_DEBUG_UTILS_MESSAGE_SEVERITY_ERROR_BIT_EXT,
            .messageType = VK_DEBUG_UTILS_MESSAGE_TYPE_GENERAL_BIT_EXT |
                           VK_DEBUG_UTILS_MESSAGE_TYPE_VALIDATION_BIT_EXT |
                           VK_DEBUG_UTILS_MESSAGE_TYPE_PERFORMANCE_BIT_EXT,
            .pfnUserCallback = heard, .pUserData = &messages};
        const VkValidationFeatureEnableEXT on = VK_VALIDATION_FEATURE_ENABLE_SYNCHRONIZATION_VALIDATION_EXT;
        const VkValidationFeaturesEXT validation{
            .sType = VK_STRUCTURE_TYPE_VALIDATION_FEATURES_EXT, .pNext = &listener,
            .enabledValidationFeatureCount = 1, .pEnabledValidationFeatures = &on};
        const char *layer = "VK_LAYER_KHRONOS_validation";
        const char *extensions[] = {VK_EXT_DEBUG_UTILS_EXTENSION_NAME,
                                    VK_EXT_VALIDATION_FEATURES_EXTENSION_NAME};
        const VkApplicationInfo application{
            .sType = VK_STRUCTURE_TYPE_APPLICATION_INFO, .apiVersion = VK_API_VERSION_1_1};
        const VkInstanceCreateInfo of_instance{
            .sType = VK_STRUCTURE_TYPE_INSTANCE_CREATE_INFO, .pNext = &validation,
            .pApplicationInfo = &application, .enabledLayerCount = 1, .ppEnabledLayerNames = &layer,
            .enabledExtensionCount = 2, .ppEnabledExtensionNames = extensions};
        MUST(vkCreateInstance(&of_instance, nullptr, &instance));
        const auto listen = PFN_vkCreateDebugUtilsMessengerEXT(at("vkCreateDebugUtilsMessengerEXT"));
        MUST(listen(instance, &listener, nullptr, &messenger));

        uint32_t count = 1; // the first device, and its first queue: each that draws or computes also copies
        const VkResult found = vkEnumeratePhysicalDevices(instance, &count, &physical);
        must((found == VK_SUCCESS || found == VK_INCOMPLETE) && count == 1, "to find a device");
        vkGetPhysicalDeviceProperties(physical, &properties);
        const float priority = 1;
        const VkDeviceQueueCreateInfo of_queue{
            .sType = VK_STRUCTURE_TYPE_DEVICE_QUEUE_CREATE_INFO,
            .queueCount = 1, .pQueuePriorities = &priority};
        const VkDeviceCreateInfo of_device{
            .sType = VK_STRUCTURE_TYPE_DEVICE_CREATE_INFO,
            .queueCreateInfoCount = 1, .pQueueCreateInfos = &of_queue};
        MUST(vkCreateDevice(physical, &of_device, nullptr, &device));
        vkGetDeviceQueue(device, 0, 0, &queue);
        const VkCommandPoolCreateInfo of_pool{
            .sType = VK_STRUCTURE_TYPE_COMMAND_POOL_CREATE_INFO,
            .flags = VK_COMMAND_POOL_CREATE_RESET_COMMAND_BUFFER_BIT};
        MUST(vkCreateCommandPool(device, &of_pool, nullptr, &pool));
    }

    ~Device() {
        vkDestroyCommandPool(device, pool, nullptr);
        vkDestroyDevice(device, nullptr);
        const auto unlisten = PFN_vkDestroyDebugUtilsMessengerEXT(at("vkDestroyDebugUtilsMessengerEXT"));
        unlisten(instance, messenger, nullptr);
        vkDestroyInstance(instance, nullptr);
    }

    Buffer make(VkDeviceSize size, VkMemoryPropertyFlags wanted) {
        Buffer made{.buffer = {}, .memory = {}, .size = size, .bytes = nullptr};
        const VkBufferCreateInfo of_buffer{
            .sType = VK_STRUCTURE_TYPE_BUFFER_CREATE_INFO, .size = size,
            .usage = VK_BUFFER_USAGE_TRANSFER_SRC_BIT | VK_BUFFER_USAGE_TRANSFER_DST_BIT};
        MUST(vkCreateBuffer(device, &of_buffer, nullptr, &made.buffer));
        VkMemoryRequirements needs;
        vkGetBufferMemoryRequirements(device, made.buffer, &needs);
        made.memory = memory(needs.size, needs.memoryTypeBits, wanted);
        MUST(vkBindBufferMemory(device, made.buffer, made.memory, 0));
        void *bytes = nullptr;
        if (wanted == HOST) MUST(vkMapMemory(device, made.memory, 0, VK_WHOLE_SIZE, 0, &bytes));
        made.bytes = static_cast<uint8_t *>(bytes);
        return made;
    }

    // Of the first of `types`, one bit each, that has what is wanted.
    VkDeviceMemory memory(VkDeviceSize size, uint32_t types, VkMemoryPropertyFlags wanted) {
        VkPhysicalDeviceMemoryProperties has;
        vkGetPhysicalDeviceMemoryProperties(physical, &has);
        const auto fits = [&](uint32_t type) {
            const VkMemoryPropertyFlags flags = has.memoryTypes[type].propertyFlags;
            return (types >> type & 1) && (flags & wanted) == wanted;
        };
        uint32_t type = 0;
        while (type < has.memoryTypeCount && !fits(type)) type++;
        must(type < has.memoryTypeCount, "to find a type of memory");
        const VkMemoryAllocateInfo of_memory{
            .sType = VK_STRUCTURE_TYPE_MEMORY_ALLOCATE_INFO,
            .allocationSize = size, .memoryTypeIndex = type};
        VkDeviceMemory made;
        MUST(vkAllocateMemory(device, &of_memory, nullptr, &made));
        return made;
    }

    // Of four bytes a texel. It has no memory until it is bound.
    VkImage image(VkExtent2D extent) {
        const VkImageCreateInfo of_image{
            .sType = VK_STRUCTURE_TYPE_IMAGE_CREATE_INFO, .imageType = VK_IMAGE_TYPE_2D,
            .format = VK_FORMAT_R8G8B8A8_UNORM, .extent = {extent.width, extent.height, 1},
            .mipLevels = 1, .arrayLayers = 1, .samples = VK_SAMPLE_COUNT_1_BIT,
            .tiling = VK_IMAGE_TILING_OPTIMAL,
            .usage = VK_IMAGE_USAGE_TRANSFER_SRC_BIT | VK_IMAGE_USAGE_TRANSFER_DST_BIT};
        VkImage made;
        MUST(vkCreateImage(device, &of_image, nullptr, &made));
        return made;
    }

    VkMemoryRequirements needs(VkImage image) {
        VkMemoryRequirements asked;
        vkGetImageMemoryRequirements(device, image, &asked);
        return asked;
    }

    VkMemoryRequirements needs(VkExtent2D extent) {
        const VkImage made = image(extent);
        const VkMemoryRequirements asked = needs(made);
        drop(made);
        return asked;
    }

    void bind(VkImage image, VkDeviceMemory memory, VkDeviceSize offset) {
        MUST(vkBindImageMemory(device, image, memory, offset));
    }

    VkCommandBuffer commands() {
        const VkCommandBufferAllocateInfo one{
            .sType = VK_STRUCTURE_TYPE_COMMAND_BUFFER_ALLOCATE_INFO, .commandPool = pool,
            .level = VK_COMMAND_BUFFER_LEVEL_PRIMARY, .commandBufferCount = 1};
        VkCommandBuffer made;
        MUST(vkAllocateCommandBuffers(device, &one, &made));
        return made;
    }

    VkFence fence() {
        const VkFenceCreateInfo of_fence{.sType = VK_STRUCTURE_TYPE_FENCE_CREATE_INFO};
        VkFence made;
        MUST(vkCreateFence(device, &of_fence, nullptr, &made));
        return made;
    }

    void drop(VkFence made) { vkDestroyFence(device, made, nullptr); }
    void drop(VkImage made) { vkDestroyImage(device, made, nullptr); }
    void drop(VkDeviceMemory made) { vkFreeMemory(device, made, nullptr); }
    void drop(const Buffer &made) {
        vkDestroyBuffer(device, made.buffer, nullptr);
        drop(made.memory);
    }

    void begin(VkCommandBuffer commands) {
        const VkCommandBufferBeginInfo once{
            .sType = VK_STRUCTURE_TYPE_COMMAND_BUFFER_BEGIN_INFO,
            .flags = VK_COMMAND_BUFFER_USAGE_ONE_TIME_SUBMIT_BIT};
        MUST(vkBeginCommandBuffer(commands, &once));
    }

    void submit(VkCommandBuffer commands, VkFence fence) {
        MUST(vkEndCommandBuffer(commands));
        const VkSubmitInfo submitted{
            .sType = VK_STRUCTURE_TYPE_SUBMIT_INFO, .commandBufferCount = 1, .pCommandBuffers = &commands};
        MUST(vkQueueSubmit(queue, 1, &submitted, fence));
    }

    void wait(VkFence fence) {
        MUST(vkWaitForFences(device, 1, &fence, VK_TRUE, UINT64_MAX));
        MUST(vkResetFences(device, 1, &fence));
    }

private:
    VkInstance instance;
    VkDebugUtilsMessengerEXT messenger;
    VkPhysicalDevice physical;
    VkDevice device;
    VkQueue queue;
    VkCommandPool pool;

    PFN_vkVoidFunction at(const char *name) { return vkGetInstanceProcAddr(instance, name); }

    static VKAPI_ATTR VkBool32 VKAPI_CALL heard(
        VkDebugUtilsMessageSeverityFlagBitsEXT, VkDebugUtilsMessageTypeFlagsEXT,
        const VkDebugUtilsMessengerCallbackDataEXT *said, void *count) {
        if (++*static_cast<uint32_t *>(count) <= PRINTED) std::fprintf(stderr, "%s\n", said->pMessage);
        return VK_FALSE;
    }
};

inline void copy(VkCommandBuffer commands, const Buffer &from, VkDeviceSize at, const Buffer &to,
                 VkDeviceSize place, VkDeviceSize size) {
    const VkBufferCopy region{at, place, size};
    vkCmdCopyBuffer(commands, from.buffer, to.buffer, 1, &region);
}

// All copies before it end, and what they wrote is seen, before `stage` does `access`.
inline void barrier(VkCommandBuffer commands, VkPipelineStageFlags stage = VK_PIPELINE_STAGE_TRANSFER_BIT,
                    VkAccessFlags access = VK_ACCESS_TRANSFER_READ_BIT | VK_ACCESS_TRANSFER_WRITE_BIT) {
    const VkMemoryBarrier written{.sType = VK_STRUCTURE_TYPE_MEMORY_BARRIER,
                                  .srcAccessMask = VK_ACCESS_TRANSFER_WRITE_BIT, .dstAccessMask = access};
    const VkPipelineStageFlags copies = VK_PIPELINE_STAGE_TRANSFER_BIT;
    vkCmdPipelineBarrier(commands, copies, stage, 0, 1, &written, 0, nullptr, 0, nullptr);
}

const VkImageLayout NEW = VK_IMAGE_LAYOUT_UNDEFINED;
const VkImageLayout WRITTEN = VK_IMAGE_LAYOUT_TRANSFER_DST_OPTIMAL;
const VkImageLayout READ = VK_IMAGE_LAYOUT_TRANSFER_SRC_OPTIMAL;

// Between copies, and the image goes from one layout to the other.
inline void barrier(VkCommandBuffer commands, VkImage image, VkImageLayout before, VkImageLayout after) {
    const VkAccessFlags any = VK_ACCESS_TRANSFER_READ_BIT | VK_ACCESS_TRANSFER_WRITE_BIT;
    const VkMemoryBarrier written{.sType = VK_STRUCTURE_TYPE_MEMORY_BARRIER,
                                  .srcAccessMask = VK_ACCESS_TRANSFER_WRITE_BIT, .dstAccessMask = any};
    const VkImageMemoryBarrier turned{
        .sType = VK_STRUCTURE_TYPE_IMAGE_MEMORY_BARRIER,
        .srcAccessMask = VK_ACCESS_TRANSFER_WRITE_BIT, .dstAccessMask = any,
        .oldLayout = before, .newLayout = after,
        .srcQueueFamilyIndex = VK_QUEUE_FAMILY_IGNORED, .dstQueueFamilyIndex = VK_QUEUE_FAMILY_IGNORED,
        .image = image, .subresourceRange = {VK_IMAGE_ASPECT_COLOR_BIT, 0, 1, 0, 1}};
    const VkPipelineStageFlags copies = VK_PIPELINE_STAGE_TRANSFER_BIT;
    vkCmdPipelineBarrier(commands, copies, copies, 0, 1, &written, 0, nullptr, 1, &turned);
}

// The bytes of a whole image, row by row, at a place of a buffer.
inline VkBufferImageCopy whole(VkDeviceSize place, VkExtent2D extent) {
    return {.bufferOffset = place, .imageSubresource = {VK_IMAGE_ASPECT_COLOR_BIT, 0, 0, 1},
            .imageExtent = {extent.width, extent.height, 1}};
}

inline void copy(VkCommandBuffer commands, VkImage image, VkExtent2D extent, const Buffer &to,
                 VkDeviceSize place) {
    const VkBufferImageCopy region = whole(place, extent);
    vkCmdCopyImageToBuffer(commands, image, READ, to.buffer, 1, &region);
}

inline void copy(VkCommandBuffer commands, const Buffer &from, VkDeviceSize place, VkImage image,
                 VkExtent2D extent) {
    const VkBufferImageCopy region = whole(place, extent);
    vkCmdCopyBufferToImage(commands, from.buffer, image, WRITTEN, 1, &region);
}

// Whether the layer tells of a race, by one that is recorded and not submitted.
inline bool listens() {
    uint32_t messages = Device::PRINTED; // so that this one is not printed
    {
        Device gpu(messages);
        const Buffer buffer = gpu.make(128, Device::LOCAL);
        const VkCommandBuffer commands = gpu.commands();
        gpu.begin(commands);
        copy(commands, buffer, 0, buffer, 64, 64);
        copy(commands, buffer, 64, buffer, 0, 64);
        gpu.drop(buffer);
    }
    return messages > Device::PRINTED;
}

// The byte at place `i` of what has this number.
inline uint8_t pattern(uint32_t number, uint32_t i) {
    return uint8_t((number * 2654435761u ^ i * 2246822519u) >> 24);
}
