// A vertex buffer of an engine, over an installed offset_allocator.
#include <offsetAllocator.hpp>

#include <cstdio>
#include <unordered_map>

int main() {
    OffsetAllocator::Allocator vertices(1 << 20, 4096);
    if (!vertices) return 1;
    std::unordered_map<int, OffsetAllocator::Allocation> meshes;
    for (int id = 0; id < 300; id++) {
        OffsetAllocator::Allocation range = vertices.allocate(4000 + id);
        if (range.metadata == OffsetAllocator::Allocation::NO_SPACE) {
            std::printf("mesh %d does not fit, reason %d\n", id, int(vertices.refusal(4000 + id)));
            break;
        }
        meshes[id] = range;
    }
    for (int id = 0; id < 200; id += 2) {
        vertices.free(meshes[id]);
        meshes.erase(id);
    }
    if (vertices.refusal(50000) == OffsetAllocator::Refusal::fragmented) {
        vertices.compact([](OffsetAllocator::Move) { /* copy move.size vertices from move.from to move.to */ });
    }
    OffsetAllocator::Allocation large = vertices.allocate(50000);
    std::printf("%zu meshes, and one of 50000 vertices at %u\n", meshes.size(), large.offset);
    return large.metadata == OffsetAllocator::Allocation::NO_SPACE;
}
