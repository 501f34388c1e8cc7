// Our allocator in the place of VMA's own class of block metadata: this file is included by VMA's header between
// VmaBlockMetadata and what uses it, and the class has the name of the one that it replaces.
#include "offset_allocator.h"

class VmaBlockMetadata_TLSF : public VmaBlockMetadata {
public:
    VmaBlockMetadata_TLSF(const VkAllocationCallbacks *callbacks, VkDeviceSize granularity, bool isVirtual)
        : VmaBlockMetadata(callbacks, granularity, isVirtual) {}
    VmaBlockMetadata_TLSF(const VmaBlockMetadata_TLSF &) = delete;
    VmaBlockMetadata_TLSF &operator=(const VmaBlockMetadata_TLSF &) = delete;
    ~VmaBlockMetadata_TLSF() override {
        oa_drop(m_Space);
        for (size_t i = 0; i < m_ChunkCount; i++) vma_delete_array(GetAllocationCallbacks(), m_Chunks[i], CHUNK);
        vma_delete_array(GetAllocationCallbacks(), m_Chunks, m_ChunkCount);
    }

    // Units are bytes as long as 32 bits count them. VMA does not say how many ranges there will be: up to 2^16 units there
    // are nodes for all that fit, above that it is a guess. The memory of a node is touched when it is first used.
    void Init(VkDeviceSize size) override {
        VmaBlockMetadata::Init(size);
        while (size / m_Unit > LARGEST) m_Unit *= 2;
        const VkDeviceSize units = size / m_Unit, guess = VMA_MAX(units / 256, VkDeviceSize(1) << 16);
        const VkDeviceSize nodes = VMA_MIN(VMA_MIN(guess, VkDeviceSize(1) << 22), units + 3);
        m_Space = oa_new(uint32_t(units), uint32_t(nodes));
        m_ChunkCount = size_t(VmaDivideRoundingUp(nodes, VkDeviceSize(CHUNK)));
        m_Chunks = vma_new_array(GetAllocationCallbacks(), Range *, m_ChunkCount);
        memset(m_Chunks, 0, m_ChunkCount * sizeof(Range *));
    }

    size_t GetAllocationCount() const override { return m_Count; }
    size_t GetFreeRegionsCount() const override { return oa_block_count(m_Space) - m_Count + 1; } // VMA divides by it
    VkDeviceSize GetSumFreeSize() const override { return GetSize() - m_Bytes; }
    bool IsEmpty() const override { return m_Count == 0; }
    // VMA calls this one without its lock, beside requests of other threads.
    VkDeviceSize GetAllocationOffset(VmaAllocHandle handle) const override { return At(handle).offset; }
    void *GetAllocationUserData(VmaAllocHandle handle) const override { return At(handle).user; }
    void SetAllocationUserData(VmaAllocHandle handle, void *user) override { At(handle).user = user; }
    void GetAllocationInfo(VmaAllocHandle handle, VmaVirtualAllocationInfo &info) override {
        info.offset = At(handle).offset;
        info.size = At(handle).size;
        info.pUserData = At(handle).user;
    }

    // VMA walks from the end of a block to its start.
    VmaAllocHandle GetAllocationListBegin() const override { return Back(oa_last_live(m_Space)); }
    VmaAllocHandle GetNextAllocation(VmaAllocHandle handle) const override {
        return Back(oa_live_before(m_Space, Of(handle)));
    }
    VkDeviceSize GetNextFreeRegionSize(VmaAllocHandle handle) const override {
        const VmaAllocHandle before = GetNextAllocation(handle);
        return At(handle).offset - (before ? At(before).offset + At(before).size : 0);
    }

    // VMA asks for the handle before it says that it takes the range, and may take none: it is granted here, and freed at
    // the next change if it was not taken. The strategies are the same to us.
    bool CreateAllocationRequest(VkDeviceSize size, VkDeviceSize align, bool upper, VmaSuballocationType type, uint32_t,
                                 VmaAllocationRequest *request) override {
        GiveBack();
        if (upper) return false; // that is for the linear algorithm alone
        // an image has whole pages of the granularity, so that no buffer shares one with it
        if (!IsVirtual() && (type == VMA_SUBALLOCATION_TYPE_UNKNOWN || type == VMA_SUBALLOCATION_TYPE_IMAGE_UNKNOWN ||
                             type == VMA_SUBALLOCATION_TYPE_IMAGE_OPTIMAL)) {
            align = VMA_MAX(align, GetBufferImageGranularity());
            size = VmaAlignUp(size, GetBufferImageGranularity());
        }
        const VkDeviceSize units = VmaDivideRoundingUp(size + GetDebugMargin(), m_Unit);
        const VkDeviceSize step = VMA_MAX(align / m_Unit, VkDeviceSize(1));
        if (units > LARGEST || step > LARGEST) return false;
        const oa_allocation range = oa_allocate_tight_aligned(m_Space, uint32_t(units), uint32_t(step));
        if (range.metadata == OA_NO_SPACE) return false;
        Range *&chunk = m_Chunks[range.metadata / CHUNK];
        if (!chunk) chunk = vma_new_array(GetAllocationCallbacks(), Range, CHUNK);
        chunk[range.metadata % CHUNK] = {range.offset * m_Unit, size, nullptr};
        m_Pending = range.metadata;
        request->type = VmaAllocationRequestType::TLSF;
        request->allocHandle = Handle(range);
        request->size = size;
        return true;
    }

    void Alloc(const VmaAllocationRequest &request, VmaSuballocationType, void *user) override {
        VMA_ASSERT(Of(request.allocHandle).metadata == m_Pending);
        m_Pending = OA_NO_SPACE;
        At(request.allocHandle).user = user;
        m_Bytes += request.size;
        m_Count++;
    }

    void Free(VmaAllocHandle handle) override {
        GiveBack();
        const VkDeviceSize size = At(handle).size;
        const bool live = oa_free(m_Space, Of(handle));
        VMA_ASSERT(live && "it is not live");
        if (!live) return;
        m_Bytes -= size;
        m_Count--;
    }

    void Clear() override {
        oa_reset(m_Space);
        m_Pending = OA_NO_SPACE;
        m_Bytes = m_Count = 0;
    }

    bool Validate() const override {
        VkDeviceSize bytes = 0, end = 0;
        size_t count = 0;
        Each(
            [&](const Range &range) {
                VMA_ASSERT(range.offset >= end);
                end = range.offset + range.size;
                bytes += range.size;
                count++;
            },
            [](VkDeviceSize, VkDeviceSize) {});
        return end <= GetSize() && bytes == m_Bytes && count == m_Count;
    }

    void AddStatistics(VmaStatistics &sum) const override {
        sum.blockCount++;
        sum.blockBytes += GetSize();
        sum.allocationCount += uint32_t(m_Count);
        sum.allocationBytes += m_Bytes;
    }

    void AddDetailedStatistics(VmaDetailedStatistics &sum) const override {
        sum.statistics.blockCount++;
        sum.statistics.blockBytes += GetSize();
        Each([&](const Range &range) { VmaAddDetailedStatisticsAllocation(sum, range.size); },
             [&](VkDeviceSize, VkDeviceSize size) { VmaAddDetailedStatisticsUnusedRange(sum, size); });
    }

#if VMA_STATS_STRING_ENABLED
    void PrintDetailedMap(VmaJsonWriter &json) const override {
        size_t unused = 0;
        Each([](const Range &) {}, [&](VkDeviceSize, VkDeviceSize) { unused++; });
        PrintDetailedMap_Begin(json, GetSumFreeSize(), m_Count, unused);
        Each([&](const Range &range) { PrintDetailedMap_Allocation(json, range.offset, range.size, range.user); },
             [&](VkDeviceSize offset, VkDeviceSize size) { PrintDetailedMap_UnusedRange(json, offset, size); });
        PrintDetailedMap_End(json);
    }
#endif

    VkResult CheckCorruption(const void *data) override {
        bool whole = true;
        Each([&](const Range &range) { whole &= VmaValidateMagicValue(data, range.offset + range.size); },
             [](VkDeviceSize, VkDeviceSize) {});
        VMA_ASSERT(whole && "written after the end of a range");
        return whole ? VK_SUCCESS : VK_ERROR_UNKNOWN_COPY;
    }

    void DebugLogAllAllocations() const override {
        Each([&](const Range &range) { DebugLogAllocation(range.offset, range.size, range.user); },
             [](VkDeviceSize, VkDeviceSize) {});
    }

private:
    // What VMA asks of a range: in bytes, exactly, and a word of its own.
    struct Range {
        VkDeviceSize offset;
        VkDeviceSize size;
        void *user;
    };
    static constexpr VkDeviceSize LARGEST = UINT32_MAX;
    static constexpr uint32_t CHUNK = 4096;

    oa_allocator *m_Space = nullptr;
    Range **m_Chunks = nullptr; // by names, CHUNK in each; they stay where they are, for GetAllocationOffset
    size_t m_ChunkCount = 0;
    VkDeviceSize m_Unit = 1;
    VkDeviceSize m_Bytes = 0; // of the ranges that VMA has taken
    size_t m_Count = 0;
    uint32_t m_Pending = OA_NO_SPACE; // the name of a range that VMA has not taken yet

    // A handle of VMA is a word that is not 0: a name and 1.
    static VmaAllocHandle Handle(oa_allocation range) { return (VmaAllocHandle)(uintptr_t(range.metadata) + 1); }
    static oa_allocation Of(VmaAllocHandle handle) { return {0, uint32_t((uintptr_t)handle - 1)}; }
    Range &At(oa_allocation range) const { return m_Chunks[range.metadata / CHUNK][range.metadata % CHUNK]; }
    Range &At(VmaAllocHandle handle) const { return At(Of(handle)); }

    VmaAllocHandle Back(oa_allocation range) const {
        if (range.metadata == m_Pending && m_Pending != OA_NO_SPACE) range = oa_live_before(m_Space, range);
        return range.metadata == OA_NO_SPACE ? VK_NULL_HANDLE : Handle(range);
    }

    void GiveBack() {
        if (m_Pending != OA_NO_SPACE) oa_free(m_Space, {0, m_Pending});
        m_Pending = OA_NO_SPACE;
    }

    // Each taken range and each run of bytes between them, in order.
    template <class Used, class Unused> void Each(Used used, Unused unused) const {
        VkDeviceSize end = 0;
        for (oa_allocation at = oa_first_live(m_Space); at.metadata != OA_NO_SPACE; at = oa_live_after(m_Space, at)) {
            if (at.metadata == m_Pending) continue;
            const Range &range = At(at);
            if (range.offset > end) unused(end, range.offset - end);
            used(range);
            end = range.offset + range.size;
        }
        if (end < GetSize()) unused(end, GetSize() - end);
    }
};
