// Images of a device in one memory, made and destroyed over frames: what an engine does with the moves of
// `makeRoomAligned` and of `compactWithin`, after which each image still begins at a multiple of its alignment.
// README.md beside it says what is shown and checked.
#include "device.hpp"

#include <offsetAllocator.hpp>

#include <algorithm>
#include <cinttypes>
#include <numeric>
#include <random>
#include <vector>

using OffsetAllocator::GuardedAllocator;
using OffsetAllocator::Move;
using OffsetAllocator::Progress;
using OffsetAllocator::Refusal;
using OffsetAllocator::Ticket;

static const uint32_t FRAMES_A_CHECK = 10;
static const uint32_t FRAMES = 12 * FRAMES_A_CHECK;
static const uint32_t IMAGES_A_FRAME = 4;
static const uint32_t MOST_FRAMES = 40;  // that an image lives
static const uint32_t MOST_TEXELS = 256; // of an image, each way
static const uint32_t MOST_BYTES = MOST_TEXELS * MOST_TEXELS * 4;
static const uint32_t MOST_A_FRAME = 512 << 10; // to be moved between frames, in bytes

// Images in the order in which they are made, IMAGES_A_FRAME a frame.
struct Program {
    struct Image {
        VkExtent2D extent;
        uint32_t size, align; // of its place in the memory, in bytes
        uint32_t until;       // the frame that destroys it
    };
    std::vector<Image> images;
    uint32_t peak = 0;    // the most live bytes
    uint32_t largest = 0; // size of an image
    uint32_t divisor = 0; // of all sizes
    uint32_t asked = 0;   // the largest alignment that the driver asks for
    uint32_t types = ~0u; // of memory, one bit each

    explicit Program(Device &gpu) {
        std::mt19937 random(1);
        uint32_t live = 0;
        for (uint32_t frame = 0; frame < FRAMES; frame++) {
            for (const Image &image : images)
                if (image.until == frame) live -= image.size;
            for (uint32_t i = 0; i < IMAGES_A_FRAME; i++) {
                const uint32_t width = random() % MOST_TEXELS + 1, height = random() % MOST_TEXELS + 1;
                const VkMemoryRequirements needs = gpu.needs(VkExtent2D{width, height});
                const uint32_t size = uint32_t(needs.size), least = uint32_t(needs.alignment);
                const uint32_t align = std::max(least, random() % 2 ? 256u : 4096u);
                const uint32_t until = frame + 1 + random() % MOST_FRAMES;
                images.push_back({{width, height}, size, align, until});
                types &= needs.memoryTypeBits;
                asked = std::max(asked, least);
                largest = std::max(largest, size);
                divisor = std::gcd(divisor, size);
                live += size;
            }
            peak = std::max(peak, live);
        }
    }
};

struct Counts {
    uint32_t step, rooms, forRoom, overFrames, bound, wrong, refused;
    uint64_t moved, mostAFrame, compact, compared, differing; // bytes
};

class Heap {
public:
    Counts counts = {};

    Heap(Device &device, const Program &program, uint32_t size)
        : gpu(device), program(program), space(size), numbers(space.maxAllocs()),
          images(program.images.size()), memory(gpu.memory(size, program.types, Device::LOCAL)),
          staging(gpu.make(IMAGES_A_FRAME * MOST_BYTES, Device::HOST)),
          passing(gpu.make(MOST_BYTES, Device::LOCAL)), seen(gpu.make(size, Device::HOST)),
          commands(gpu.commands()), checking(gpu.commands()), done(gpu.fence()) {
        must(bool(space), "to make the allocator");
    }

    ~Heap() {
        for (const Image &each : images)
            if (each.ticket) gpu.drop(each.image);
        gpu.drop(done);
        gpu.drop(seen);
        gpu.drop(passing);
        gpu.drop(staging);
        gpu.drop(memory);
    }

    void begin() {
        staged = 0;
        before = counts.moved;
        gpu.begin(commands);
    }

    // Submits the frame, and waits for it: the images that it has left can be destroyed then.
    void end() {
        gpu.submit(commands, done);
        gpu.wait(done);
        for (VkImage each : left) gpu.drop(each);
        left.clear();
        counts.mostAFrame = std::max(counts.mostAFrame, counts.moved - before);
    }

    void make(uint32_t number) {
        const Program::Image &wanted = program.images[number];
        Ticket ticket = space.allocateAligned(wanted.size, wanted.align);
        if (!ticket && space.refusalAligned(wanted.size, wanted.align) == Refusal::fragmented) {
            makeRoom(wanted.size, wanted.align);
            ticket = space.allocateAligned(wanted.size, wanted.align);
        }
        if (!ticket) {
            counts.refused++;
            return;
        }
        numbers[ticket.name] = number;
        images[number].ticket = ticket;
        for (uint32_t i = 0; i < bytes(number); i++) staging.bytes[staged + i] = pattern(number, i);
        place(number, space.offsetOf(ticket), staging, staged);
        staged += bytes(number);
    }

    void destroy(uint32_t number) {
        if (!images[number].ticket) return; // it was refused
        left.push_back(images[number].image);
        space.free(images[number].ticket);
        images[number].ticket = Ticket();
    }

    // As long as the largest image would be refused, moves images, at most MOST_A_FRAME bytes, and the next
    // time goes on behind them.
    void compact() {
        if (space.refusalAligned(program.largest, space.step()) == Refusal::granted) return;
        const auto moved = [&](Move range) {
            counts.overFrames++;
            move(range);
        };
        const Progress progress = space.compactWithin(next, MOST_A_FRAME, UINT32_MAX, moved);
        must(progress.done, "to compact");
        next = progress.more ? progress.next : 0;
    }

    // Reads all live images back, and compares each byte.
    void check() {
        std::vector<uint32_t> live;
        for (uint32_t number = 0; number < images.size(); number++)
            if (images[number].ticket) live.push_back(number);
        uint32_t at = 0;
        gpu.begin(checking);
        for (uint32_t number : live) {
            copy(checking, images[number].image, program.images[number].extent, seen, at);
            at += bytes(number);
        }
        barrier(checking, VK_PIPELINE_STAGE_HOST_BIT, VK_ACCESS_HOST_READ_BIT);
        gpu.submit(checking, done);
        gpu.wait(done);
        counts.compared += at;
        const uint8_t *read = seen.bytes;
        for (uint32_t number : live) {
            for (uint32_t i = 0; i < bytes(number); i++) counts.differing += read[i] != pattern(number, i);
            read += bytes(number);
        }
    }

private:
    struct Image {
        Ticket ticket; // false where the image is not live
        VkImage image;
    };

    Device &gpu;
    const Program &program;
    GuardedAllocator space;
    std::vector<uint32_t> numbers; // of images, by the names of their ranges
    std::vector<Image> images;     // by number
    VkDeviceMemory memory;
    Buffer staging; // what the frame's new images hold
    Buffer passing; // what an image that moves holds
    Buffer seen;
    VkCommandBuffer commands, checking;
    VkFence done;
    std::vector<VkImage> left; // that no later frame uses
    uint32_t staged = 0;       // bytes, in this frame
    uint64_t before = 0;       // bytes moved before this frame
    uint32_t next = 0;         // where the compaction goes on

    uint32_t bytes(uint32_t number) const {
        return program.images[number].extent.width * program.images[number].extent.height * 4;
    }

    // Makes an image at an offset of the memory, and fills it from a buffer.
    void place(uint32_t number, uint32_t offset, const Buffer &from, uint32_t at) {
        const Program::Image &wanted = program.images[number];
        const VkImage image = gpu.image(wanted.extent);
        must(gpu.needs(image).size <= wanted.size, "to need what was asked before");
        gpu.bind(image, memory, offset);
        counts.bound++;
        counts.wrong += offset % wanted.align != 0;
        barrier(commands, image, NEW, WRITTEN); // what copies before read and wrote is done
        copy(commands, from, at, image, wanted.extent);
        barrier(commands, image, WRITTEN, READ);
        images[number].image = image;
    }

    // An image is bound once, and its new place may overlap the old one: what it holds is copied out, and
    // back into an image that is made anew.
    void move(Move range) {
        const uint32_t number = numbers[range.allocation.metadata];
        copy(commands, images[number].image, program.images[number].extent, passing, 0);
        left.push_back(images[number].image); // its bytes are read in this frame
        place(number, range.to, passing, 0);
        counts.moved += range.size;
    }

    // Moves as few bytes as make one free block for the image.
    void makeRoom(uint32_t size, uint32_t align) {
        counts.rooms++;
        space.clone().compact([&](Move range) { counts.compact += range.size; });
        space.makeRoomAligned(size, align, [&](Move range) {
            counts.forRoom++;
            move(range);
        });
        counts.step = space.step();
    }
};

// Plays the program in `size` bytes of memory. If it is to compact, each frame also moves within its budget.
static Counts play(Device &gpu, const Program &program, uint32_t size, bool compacting) {
    Heap heap(gpu, program, size);
    for (uint32_t frame = 0; frame < FRAMES; frame++) {
        const uint32_t first = frame * IMAGES_A_FRAME;
        heap.begin();
        for (uint32_t number = 0; number < first; number++)
            if (program.images[number].until == frame) heap.destroy(number);
        if (compacting) heap.compact();
        for (uint32_t i = 0; i < IMAGES_A_FRAME; i++) heap.make(first + i);
        heap.end();
        if ((frame + 1) % FRAMES_A_CHECK == 0) heap.check();
    }
    return heap.counts;
}

int main() {
    must(listens(), "to hear of a race: the validation layer checks no synchronization");
    uint32_t messages[2] = {}, size = 0;
    Counts parts[2];
    uint32_t divisor = 0, asked = 0;
    for (int part = 0; part < 2; part++) {
        Device gpu(messages[part]);
        const Program program(gpu);
        size = program.peak + program.peak / 16;
        divisor = program.divisor, asked = program.asked;
        parts[part] = play(gpu, program, size, part == 1);
    }
    const auto row = [](const char *name, uint64_t first, uint64_t second) {
        std::printf("%-32s %14" PRIu64 " %14" PRIu64 "\n", name, first, second);
    };
    const Counts &a = parts[0], &b = parts[1];
    std::printf("%-32s %14s %14s\n", "", "room alone", "over frames");
    row("bytes of the memory", size, size);
    row("divisor of all sizes", divisor, divisor);
    row("alignment the driver asks for", asked, asked);
    row("step", a.step, b.step);
    row("frames", FRAMES, FRAMES);
    row("images", FRAMES * IMAGES_A_FRAME, FRAMES * IMAGES_A_FRAME);
    row("times room was made", a.rooms, b.rooms);
    row("moves for room", a.forRoom, b.forRoom);
    row("moves between frames", a.overFrames, b.overFrames);
    row("bytes moved", a.moved, b.moved);
    row("most bytes moved in a frame", a.mostAFrame, b.mostAFrame);
    row("bytes compact would have moved", a.compact, b.compact);
    row("alignments checked", a.bound, b.bound);
    row("offsets that are no multiple", a.wrong, b.wrong);
    row("refusals left", a.refused, b.refused);
    row("validation messages", messages[0], messages[1]);
    row("bytes compared", a.compared, b.compared);
    row("differing bytes", a.differing, b.differing);
    const uint64_t wrong = a.wrong + b.wrong + a.refused + b.refused + messages[0] + messages[1];
    return wrong + a.differing + b.differing == 0 && a.forRoom && b.overFrames ? 0 : 1;
}
