// A buffer of a device that a recorded program sub-allocates, with two frames in flight: what an engine does
// with the moves of `makeRoom` and of `relocate`. README.md beside it says what is shown and checked.
//     heap PROGRAM [FRAMES]    FRAMES: a file for a line of numbers a frame
#include "device.hpp"

#include <offsetAllocator.hpp>

#include <algorithm>
#include <cinttypes>
#include <fstream>
#include <sstream>
#include <string>
#include <vector>

using OffsetAllocator::GuardedAllocator;
using OffsetAllocator::Move;
using OffsetAllocator::Piece;
using OffsetAllocator::Refusal;
using OffsetAllocator::Ticket;

static const uint32_t CALLS_A_FRAME = 16;
static const uint32_t FRAMES_A_CHECK = 100;
static const uint32_t MOST_A_COPY = 1 << 20;  // in bytes
static const uint32_t MOST_A_FRAME = 1 << 20; // to be relocated, in bytes

// A recorded program: requests, numbered from 1, and which of them it frees when. Other lines are skipped.
struct Program {
    struct Call {
        uint32_t size;  // of a request
        uint32_t freed; // or, where it is not 0, the number of the grant that is freed
    };
    std::vector<Call> calls;
    uint32_t requests = 0;
    uint32_t peak = 0;       // the most live bytes
    size_t peakAt = 0;       // the number of calls up to it
    uint32_t mostAFrame = 0; // bytes that one frame requests

    explicit Program(std::istream &script) {
        std::vector<uint32_t> sizes(1);
        uint32_t live = 0, requested = 0, n = 0;
        std::string line, word;
        while (std::getline(script, line)) {
            std::istringstream words(line);
            if (!(words >> word >> n) || (word != "alloc" && word != "free")) continue;
            if (calls.size() % CALLS_A_FRAME == 0) requested = 0;
            if (word == "alloc") {
                calls.push_back({n, 0});
                sizes.push_back(n);
                live += n;
                requested += n;
            } else {
                calls.push_back({0, n});
                live -= sizes.at(n);
            }
            if (live > peak) peak = live, peakAt = calls.size();
            mostAFrame = std::max(mostAFrame, requested);
        }
        requests = uint32_t(sizes.size() - 1);
    }
};

struct Counts {
    uint32_t frames, waits, rooms, moves, copies, barriers, refused;
    uint64_t copied, compact, retracted, compared, differing; // bytes
};

class Heap {
public:
    Counts counts = {};

    Heap(Device &device, const Program &program, uint32_t size)
        : gpu(device), space(size), ranges(space.maxAllocs()), grants(program.requests + 1),
          buffer(gpu.make(size, Device::LOCAL)), seen(gpu.make(size, Device::HOST)), checking(gpu.commands()),
          checked(gpu.fence()) {
        must(bool(space), "to make the allocator");
        for (Frame &each : frames) {
            each.commands = gpu.commands();
            each.fence = gpu.fence();
            each.staging = gpu.make(program.mostAFrame, Device::HOST);
        }
    }

    ~Heap() {
        for (Frame &each : frames) {
            finish(each);
            gpu.drop(each.fence);
            gpu.drop(each.staging);
        }
        gpu.drop(checked);
        gpu.drop(seen);
        gpu.drop(buffer);
    }

    // Begins the next frame. Two are in flight, so the one before the last has to be done.
    void begin() {
        frame = &frames[counts.frames++ % 2];
        finish(*frame);
        gpu.begin(frame->commands);
    }

    void submit() {
        gpu.submit(frame->commands, frame->fence);
        frame->inFlight = true;
    }

    // Grants `size` bytes for the program's request `number`, and fills them.
    void request(uint32_t number, uint32_t size) {
        Ticket ticket = space.allocate(size);
        if (!ticket && space.size() < buffer.size) { // its end was taken off
            space.extend(uint32_t(buffer.size) - space.size());
            ticket = space.allocate(size);
        }
        if (!ticket) {
            wait(); // what frames in flight have left is free then
            ticket = space.allocate(size);
        }
        if (!ticket && space.refusal(size) == Refusal::fragmented) {
            makeRoom(size);
            ticket = space.allocate(size);
        }
        if (!ticket) {
            counts.refused++;
            return;
        }
        note(ticket, number, size);
        for (uint32_t i = 0; i < size; i++) frame->staging.bytes[frame->staged + i] = pattern(number, i);
        copy(frame->commands, frame->staging, frame->staged, buffer, ranges[ticket.name].offset, size);
        frame->staged += size;
    }

    void free(uint32_t number) {
        if (grants[number]) leave(grants[number]);
        grants[number] = Ticket();
    }

    // Copies ranges that end above `keep` to free blocks before them, at most MOST_A_FRAME bytes. Nothing
    // waits: the old ranges stay until the frames in flight are done. True once all above `keep` is free, and
    // taken off.
    bool emptyEnd(uint32_t keep) {
        if (counts.compact == 0) counts.compact = compacted(); // in place of all moves from here on
        const uint32_t above = space.size() - keep;
        if (space.retract(above)) {
            counts.retracted += above;
            vkCmdFillBuffer(frame->commands, buffer.buffer, keep, VK_WHOLE_SIZE, 0xdeadbeef);
            order(); // once the space is extended, it is written again
            return true;
        }
        order(); // what frames before have written is read
        uint32_t left = MOST_A_FRAME;
        for (Ticket old = space.lastLive(); old && space.offsetOf(old) + space.sizeOf(old) > keep;) {
            const Range range = ranges[old.name];
            const Ticket before = space.liveBefore(old);
            if (range.size > left) break;
            const Ticket ticket = range.left ? Ticket() : space.relocate(old);
            if (ticket && space.offsetOf(ticket) + range.size > keep) {
                space.free(ticket); // it would have to move again
            } else if (ticket) {
                note(ticket, range.number, range.size);
                move(range.offset, ranges[ticket.name].offset, range.size);
                leave(old);
                left -= range.size;
                counts.moves++;
            }
            old = before;
        }
        return false;
    }

    // Reads all live ranges back, and those that frames in flight have left, and compares each byte.
    void check() {
        gpu.begin(checking);
        barrier(checking);
        copy(checking, buffer, 0, seen, 0, buffer.size);
        barrier(checking, VK_PIPELINE_STAGE_HOST_BIT, VK_ACCESS_HOST_READ_BIT);
        gpu.submit(checking, checked);
        gpu.wait(checked);
        const auto compare = [&](Ticket ticket) {
            const Range &range = ranges[ticket.name];
            const uint8_t *bytes = seen.bytes + range.offset;
            for (uint32_t i = 0; i < range.size; i++)
                counts.differing += bytes[i] != pattern(range.number, i);
            counts.compared += range.size;
            must(range.offset == space.offsetOf(ticket), "to keep the table of ranges");
        };
        for (Ticket ticket : grants)
            if (ticket) compare(ticket);
        for (const Frame &each : frames)
            for (Ticket ticket : each.leaves) compare(ticket);
    }

    // A line for a picture: live bytes, the end of the last range, bytes of the space, all bytes copied.
    void write(std::ostream &lines) const {
        const Ticket last = space.lastLive();
        lines << space.liveUnits() << ' ' << (last ? space.offsetOf(last) + space.sizeOf(last) : 0) << ' '
              << space.size() << ' ' << counts.copied << '\n';
    }

private:
    // What the engine keeps of a live range, in a table that is indexed by the range's name.
    struct Range {
        uint32_t number, offset, size;
        bool left; // by the program, or for another range
    };

    struct Frame {
        VkCommandBuffer commands;
        VkFence fence;
        bool inFlight;
        Buffer staging;
        uint32_t staged;
        std::vector<Ticket> leaves; // ranges that no later frame uses
    };

    Device &gpu;
    GuardedAllocator space;
    std::vector<Range> ranges;  // by name
    std::vector<Ticket> grants; // by number in the program
    Buffer buffer, seen;
    VkCommandBuffer checking;
    VkFence checked;
    Frame frames[2] = {};
    Frame *frame = nullptr;

    void note(Ticket ticket, uint32_t number, uint32_t size) {
        ranges[ticket.name] = {number, space.offsetOf(ticket), size, false};
        grants[number] = ticket;
    }

    // Leaves a range, which is freed once this frame is done.
    void leave(Ticket ticket) {
        ranges[ticket.name].left = true;
        frame->leaves.push_back(ticket);
    }

    void order() {
        barrier(frame->commands);
        counts.barriers++;
    }

    void move(uint32_t from, uint32_t to, uint32_t size) {
        copy(frame->commands, buffer, from, buffer, to, size);
        counts.copies++;
        counts.copied += size;
    }

    void finish(Frame &done) {
        if (!done.inFlight) return;
        gpu.wait(done.fence);
        done.inFlight = false;
        done.staged = 0;
        for (Ticket ticket : done.leaves) space.free(ticket);
        done.leaves.clear();
    }

    // Submits what the frame has recorded, waits for it and for the one before, and goes on with it.
    void wait() {
        counts.waits++;
        submit();
        for (Frame &each : frames) finish(each);
        gpu.begin(frame->commands);
    }

    // Slides as few bytes as make one free block for the request. All frames are done, so no barrier is
    // needed before the first copy.
    void makeRoom(uint32_t size) {
        const uint32_t none = UINT32_MAX;
        uint32_t read = none; // the lowest byte that was read since the last barrier
        counts.rooms++;
        counts.compact += compacted();
        space.makeRoom(size, [&](Move range) {
            ranges[range.allocation.metadata].offset = range.to;
            counts.moves++;
            copyInPieces(range, MOST_A_COPY, [&](Piece piece) {
                if (piece.to + piece.size > read) {
                    order(); // what a copy before reads is written
                    read = none;
                }
                move(piece.from, piece.to, piece.size);
                read = std::min(read, piece.from);
            });
        });
        order(); // what was read is written by later copies
    }

    // The bytes that `compact` would copy now.
    uint64_t compacted() const {
        uint64_t bytes = 0;
        space.clone().compact([&](Move range) { bytes += range.size; });
        return bytes;
    }
};

// Plays a program in a buffer of `size` bytes. After its peak, all above `keep` is emptied.
static Counts play(Device &gpu, const Program &program, uint32_t size, uint32_t keep, std::ostream &lines) {
    Heap heap(gpu, program, size);
    bool emptied = keep == size;
    uint32_t number = 0;
    lines << "buffer " << size << '\n';
    for (size_t at = 0; at < program.calls.size(); at += CALLS_A_FRAME) {
        heap.begin();
        const bool emptying = !emptied && at > program.peakAt;
        if (emptying) emptied = heap.emptyEnd(keep);
        for (size_t i = at; i < std::min(at + CALLS_A_FRAME, program.calls.size()); i++) {
            const Program::Call &call = program.calls[i];
            if (call.freed)
                heap.free(call.freed);
            else
                heap.request(++number, call.size);
        }
        heap.submit();
        if (heap.counts.frames % FRAMES_A_CHECK == 0 || (emptying && emptied)) heap.check();
        heap.write(lines);
    }
    heap.check();
    return heap.counts;
}

int main(int count, char **arguments) {
    if (count < 2) return 2;
    std::ifstream script(arguments[1]);
    const Program program(script);
    must(!program.calls.empty(), "to read a program");
    must(listens(), "to hear of a race: the validation layer checks no synchronization");
    std::ofstream lines(count > 2 ? arguments[2] : "/dev/null");
    const uint32_t peak = program.peak, sizes[] = {peak + peak / 400, peak / 2 * 3};
    const uint32_t keeps[] = {sizes[0], peak / 8 * 7};
    uint32_t messages[2] = {};
    Counts parts[2];
    for (int part = 0; part < 2; part++) {
        Device gpu(messages[part]);
        if (part == 0) std::printf("on %s\n", gpu.properties.deviceName);
        parts[part] = play(gpu, program, sizes[part], keeps[part], lines);
    }
    const auto row = [](const char *name, uint64_t first, uint64_t second) {
        std::printf("%-32s %14" PRIu64 " %14" PRIu64 "\n", name, first, second);
    };
    const Counts &a = parts[0], &b = parts[1];
    std::printf("%-32s %14s %14s\n", "", "at the peak", "end emptied");
    row("bytes of the buffer", sizes[0], sizes[1]);
    row("frames", a.frames, b.frames);
    row("waits for frames in flight", a.waits, b.waits);
    row("times room was made", a.rooms, b.rooms);
    row("moves", a.moves, b.moves);
    row("copies", a.copies, b.copies);
    row("barriers", a.barriers, b.barriers);
    row("bytes copied", a.copied, b.copied);
    row("bytes compact would have copied", a.compact, b.compact);
    row("bytes taken off the end", a.retracted, b.retracted);
    row("refusals left", a.refused, b.refused);
    row("validation messages", messages[0], messages[1]);
    row("bytes compared", a.compared, b.compared);
    row("differing bytes", a.differing, b.differing);
    const bool fine = a.refused + b.refused + messages[0] + messages[1] + a.differing + b.differing == 0;
    return fine && a.moves && b.waits == 0 && b.retracted ? 0 : 1;
}
