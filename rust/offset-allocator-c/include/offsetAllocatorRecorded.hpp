// An allocator whose calls are written to a file, line by line as they happen: a recording, which the page of the repository
// draws and steps through, and play-recording plays again.
//
//     std::FILE *file = std::fopen("heap.script", "wb");    // "w" would write CR LF on Windows, which no reader takes
//     OffsetAllocator::Recorded<OffsetAllocator::GuardedAllocator> heap(file, 1 << 20, 4096);
//     heap.name("texture: rock_albedo");
//     OffsetAllocator::Ticket rock = heap.allocate(4096);
//
// The calls that change the space are those of A, an Allocator or a GuardedAllocator; its questions are asked by
// heap->storageReport(), and are not written. A line is flushed before its call is made: so a crash, of the call too, keeps
// it. Where the file fails or memory is out, the recording ends, and not the program: isFailed says so. No call throws.
//
// Several allocators have one file by a Recording, and Heaps by RecordedHeaps, each heap by its `at`. docs/RECORDINGS.md has the form.
#pragma once

#include "offsetAllocator.hpp"
#include "offsetAllocatorHeaps.hpp"

#include <algorithm>
#include <atomic>
#include <cstddef>
#include <cstdio>
#include <cstdlib>
#include <cstring>
#include <new>
#include <utility>

namespace OffsetAllocator {

namespace detail {

inline uint32 nameOf(const Allocation &allocation) { return allocation.metadata; }
inline uint32 nameOf(const Ticket &ticket) { return ticket.name; }
inline bool isGranted(const Allocation &allocation) { return allocation.metadata != Allocation::NO_SPACE; }
inline bool isGranted(const Ticket &ticket) { return bool(ticket); }

// Whether a text has blanks alone: it is no name.
inline bool isBlank(const char *text) { return text[std::strspn(text, " \t\n\f\r")] == 0; }

// The greatest common divisor.
inline uint32 commonDivisor(uint32 a, uint32 b) {
    while (b) {
        const uint32 rest = a % b;
        a = b;
        b = rest;
    }
    return a;
}

// Bytes that are assigned, as a vector has them, without exceptions.
class Bytes {
public:
    Bytes() : held(nullptr), count(0) {}
    Bytes(const Bytes &) = delete;
    Bytes &operator=(const Bytes &) = delete;
    ~Bytes() { std::free(held); }
    void assign(const uint8_t *first, const uint8_t *last) {
        count = 0;
        void *found = std::realloc(held, size_t(last - first) + 1);
        if (!found) return;
        held = static_cast<uint8_t *>(found);
        count = size_t(last - first);
        if (count) std::memcpy(held, first, count);
    }
    size_t size() const { return count; }
    // A number of so many bytes, the lowest first.
    uint64_t number(size_t at, size_t bytes) const {
        uint64_t found = 0;
        for (size_t i = 0; i < bytes; i++) found |= uint64_t(held[at + i]) << 8 * i;
        return found;
    }

private:
    uint8_t *held;
    size_t count;
};

// Where the state of the space begins in that of an Allocator, and in that with tickets.
inline size_t spaceIn(const Bytes &, const Allocator &) { return 0; }
template <class T> size_t spaceIn(const Bytes &bytes, const TicketQuestions<T> &) { return 8 * (7 + size_t(bytes.number(16, 8))); }

// An array that grows, without exceptions; the items are zero at first.
template <class T> class Items {
public:
    Items() : held(nullptr), room(0) {}
    Items(Items &&other) noexcept : held(other.held), room(other.room) {
        other.held = nullptr;
        other.room = 0;
    }
    Items(const Items &) = delete;
    Items &operator=(const Items &) = delete;
    ~Items() { std::free(held); }
    // Whether there are so many.
    bool reserve(size_t count) {
        if (count <= room) return true;
        size_t more = count + room;
        void *found = std::realloc(held, more * sizeof(T));
        if (!found) return false;
        held = static_cast<T *>(found);
        std::memset(static_cast<void *>(held + room), 0, (more - room) * sizeof(T));
        room = more;
        return true;
    }
    size_t size() const { return room; }
    T &operator[](size_t i) { return held[i]; }
    const T &operator[](size_t i) const { return held[i]; }
    T *begin() { return held; }

private:
    T *held;
    size_t room;
};

// The numbers of grants, by the names of their blocks: a name is below the number of blocks that there were at once.
class Numbers {
public:
    Numbers() : grants(0) {}
    Numbers(Numbers &&) = default;
    bool grant(uint32 name) {
        if (!numbers.reserve(size_t(name) + 1)) return false;
        numbers[name] = ++grants;
        return true;
    }
    uint32 number(uint32 name) const { return name < numbers.size() ? numbers[name] : 0; }
    void skip() { grants++; }
    void clear() {
        for (size_t i = 0; i < numbers.size(); i++) numbers[i] = 0;
        grants = 0;
    }

private:
    Items<uint32> numbers;
    uint32 grants;
};

const uint32 NO_HEAP = 0xffffffff;

// The thread that was written last to a file that several heaps have. It lives as long as one of them.
class LastThread {
public:
    LastThread() noexcept : held(new (std::nothrow) Said()) {}
    explicit LastThread(std::nullptr_t) noexcept : held(nullptr) {}
    LastThread(const LastThread &other) noexcept : held(other.held) {
        if (held) held->uses++;
    }
    LastThread &operator=(const LastThread &) = delete;
    ~LastThread() {
        if (held && --held->uses == 0) delete held;
    }
    // Where memory is out it is never known to be this one.
    bool is(uint64_t number) const { return held && held->isKnown && held->number == number; }
    void set(uint64_t number) {
        if (!held) return;
        held->isKnown = true;
        held->number = number;
    }

private:
    struct Said {
        std::atomic<unsigned> uses;
        bool isKnown;
        uint64_t number;
        Said() noexcept : uses(1), isKnown(false), number(0) {}
    };
    Said *held;
};

// Writes the lines, of one heap of many after its number, and knows the numbers of grants.
class Tape {
public:
    explicit Tape(std::FILE *file, uint32 number = NO_HEAP) noexcept : Tape(file, number, LastThread(nullptr)) {}
    Tape(std::FILE *file, uint32 number, const LastThread &of) noexcept
        : out(file), heap(number), last(of), own(0), hasThread(false), isNew(false), held(nullptr), named(false), failed(file == nullptr) {}
    Tape(Tape &&other) noexcept
        : numbers(std::move(other.numbers)), out(other.out), heap(other.heap), last(other.last), own(other.own), hasThread(other.hasThread), isNew(other.isNew),
          held(other.held), named(other.named), failed(other.failed) {
        other.held = nullptr;
        other.failed = true;
    }
    Tape(const Tape &) = delete;
    Tape &operator=(const Tape &) = delete;
    ~Tape() { std::free(held); }

    template <class... Of> void write(const char *format, Of... of) {
        if (failed) return;
        prefix();
        failed = failed || std::fprintf(out, format, static_cast<unsigned>(of)...) < 0 || std::fflush(out) != 0;
    }
    void write(const char *line) {
        if (failed) return;
        prefix();
        failed = failed || std::fputs(line, out) == EOF || std::fflush(out) != 0;
    }
    // A line of one heap, by the tape of all.
    template <class... Of> void writeOf(uint32 number, const char *format, Of... of) {
        if (failed) return;
        failed = std::fprintf(out, "heap %u ", static_cast<unsigned>(number)) < 0;
        write(format, of...);
    }
    // A name; that of one heap of many is held until its request comes.
    void comment(const char *text) {
        if (failed || !text) return;
        named = !isBlank(text);
        if (heap == NO_HEAP) {
            put("# ", text);
            failed = failed || std::fflush(out) != 0;
            return;
        }
        std::free(held);
        size_t size = std::strlen(text) + 1;
        held = static_cast<char *>(std::malloc(size));
        if (held) std::memcpy(held, text, size);
        else failed = true;
    }
    // The next request has no name: an empty line is between.
    void unname() {
        if (!named || failed) return;
        putThread();
        putHeld();
        named = false;
        failed = failed || std::fputs("\n", out) == EOF || std::fflush(out) != 0;
    }
    // A mark: a name before it stays that of the next request.
    void mark(const char *text) {
        if (failed || !text) return;
        putThread();
        put("#! ", text);
        failed = failed || std::fflush(out) != 0;
    }
    void markText(const char *text) {
        if (failed || !text) return;
        putThread();
        put("#! mark ", text);
        failed = failed || std::fflush(out) != 0;
    }
    void mark(const char *what, uint64_t number) {
        if (failed) return;
        putThread();
        failed = failed || std::fprintf(out, "#! %s %llu\n", what, static_cast<unsigned long long>(number)) < 0 || std::fflush(out) != 0;
    }
    // How many bytes a unit has: of one heap of many that is of this heap.
    void unit(uint32 bytes) {
        if (heap == NO_HEAP) return mark("unit", bytes);
        if (failed) return;
        putThread();
        failed = failed || std::fprintf(out, "#! unit %u heap %u\n", static_cast<unsigned>(bytes), static_cast<unsigned>(heap)) < 0 || std::fflush(out) != 0;
    }
    // The grant of a number has a name: a mark.
    void nameGrant(uint32 number, const char *text) {
        if (failed || !number || !text || isBlank(text)) return;
        putThread();
        if (heap == NO_HEAP) failed = failed || std::fprintf(out, "#! name %u ", static_cast<unsigned>(number)) < 0;
        else failed = failed || std::fprintf(out, "#! heap %u name %u ", static_cast<unsigned>(heap), static_cast<unsigned>(number)) < 0;
        if (failed) return;
        put("", text);
        failed = failed || std::fflush(out) != 0;
    }
    // The thread of the calls from here on. That of one heap of many is held until its next line, and comes again where a line of
    // another thread is between.
    void thread(uint64_t number) {
        if (heap == NO_HEAP) return mark("thread", number);
        own = number;
        hasThread = isNew = true;
    }
    void grant(uint32 name) {
        if (!failed && !numbers.grant(name)) failed = true;
    }
    uint32 number(uint32 name) const { return numbers.number(name); }
    void fail() { failed = true; }
    std::FILE *file() const { return failed ? nullptr : out; }
    bool isFailed() const { return failed; }

    // Writes a header, of at least so many nodes, and the lines after which its space is as the one whose state begins at a place of bytes, as
    // docs/STATES.md has it: its live ranges are granted at their places, each with the free block behind it, and then give that
    // back, the oldest free block of a bin first. Returns whether there are such lines.
    bool begin(const Bytes &bytes, size_t at, uint32 nodes = 0) {
        struct Block {
            uint32 name, offset, size, given;
            size_t place;
            bool isFree, isOwn;
        };
        if (failed) return false;
        auto word = [&](size_t i) { return uint32(bytes.number(at + 4 * i, 4)); };
        uint32 size = word(2), limit = std::max(word(3), nodes);
        size_t count = word(4), free = word(5);
        struct Place {
            uint32 name;
            size_t place;
        };
        Items<Block> blocks;
        Items<Place> places;
        numbers.clear();
        if (!blocks.reserve(count) || !places.reserve(free + 1)) {
            failed = true;
            return false;
        }
        for (size_t i = 0; i < free; i++) places[i] = Place{word(7 + 2 * count + i), i};
        std::sort(places.begin(), places.begin() + free, [](const Place &a, const Place &b) { return a.name < b.name; });
        uint32 offset = 0;
        for (size_t i = 0; i < count; i++) {
            size_t from = 7 + 2 * (count - 1 - i);
            Block block = {word(from), offset, word(from + 1), 0, 0, false, true};
            offset += block.size;
            Place *end = places.begin() + free;
            Place *found = std::lower_bound(places.begin(), end, block.name, [](const Place &a, uint32 name) { return a.name < name; });
            block.isFree = found != end && found->name == block.name;
            if (block.isFree) block.place = found->place;
            blocks[i] = block;
        }
        bool isLonger = blocks[count - 1].size == 0 && count != free, isFromTheEnd = free == 1 && blocks[0].isFree && blocks[0].size > 0 && !isLonger;
        // what is granted: the units of a free block come with the range before it
        size_t granted = 0;
        if (count != free)
            for (size_t i = 0; i < count; i++) {
                Block &block = blocks[i];
                block.isOwn = !(block.isFree && (isFromTheEnd || (i > 0 && !blocks[i - 1].isFree && block.size > 0)));
                block.given = block.isOwn ? uint32(++granted) : uint32(granted);
            }
        if ((isLonger && size == 0xffffffff) || (!isFromTheEnd && granted != 0 && granted + 2 > limit)) {
            failed = true;
            return false;
        }
        write("space %u nodes %u index 32\n", size + isLonger, limit);
        if (granted == 0) return false;
        for (size_t i = 0; i < count; i++) {
            // from the end on, each range leaves the units before it, and no further node is lacking
            const size_t j = isFromTheEnd ? count - 1 - i : i;
            const Block &block = blocks[j];
            if (!block.isOwn) continue;
            bool hasMore = !isFromTheEnd && j + 1 < count && !blocks[j + 1].isOwn;
            write("at %u %u\n", block.offset, hasMore ? block.size + blocks[j + 1].size : block.size);
            if (block.isFree) numbers.skip();
            else grant(block.name);
        }
        if (isLonger) write("retract 1\n");
        if (isFromTheEnd) return true;
        // the newest free block of a class is the first in its list
        for (size_t i = 0; i < free; i++) places[i].place = 0;
        for (size_t i = 0; i < count; i++)
            if (blocks[i].isFree) places[blocks[i].place].place = i;
        for (size_t i = free; i-- > 0;) {
            const Block &block = blocks[places[i].place];
            if (block.isOwn) write("free %u\n", block.given);
            else write("shrink %u %u\n", block.given, (&block)[-1].size);
        }
        return true;
    }
    template <class A> void begin(const A &space) {
        if (failed) return;
        Bytes bytes;
        if (!space || !space.save(bytes) || bytes.size() == 0) failed = true;
        else if (begin(bytes, spaceIn(bytes, space))) mark("begun");
    }

protected:
    Numbers numbers;

private:
    std::FILE *out;
    uint32 heap;
    LastThread last;
    // the thread of this heap's calls
    uint64_t own;
    bool hasThread, isNew;
    char *held;
    bool named;
    bool failed;

    void put(const char *before, const char *text) {
        std::fputs(before, out);
        for (; *text; text++) std::fputc(*text == '\n' || *text == '\r' ? ' ' : *text, out);
        failed = std::fputc('\n', out) == EOF;
    }
    void putThread() {
        if (!hasThread || (!isNew && last.is(own))) return;
        failed = failed || std::fprintf(out, "#! thread %llu\n", static_cast<unsigned long long>(own)) < 0;
        last.set(own);
        isNew = false;
    }
    void putHeld() {
        if (held) put("# ", held);
        std::free(held);
        held = nullptr;
    }
    void prefix() {
        named = false;
        putThread();
        putHeld();
        if (heap != NO_HEAP) failed = failed || std::fprintf(out, "heap %u ", static_cast<unsigned>(heap)) < 0;
    }
};

} // namespace detail

// One recording of several allocators, each of which is a heap with a number, from 0 on: Recorded<A> textures(recording, 1 << 20).
// The file is not closed. Calls of several threads need a lock of the program's. thread of a heap is of its own calls: where a line of
// another thread has come between, the mark is written again.
class Recording {
public:
    explicit Recording(std::FILE *file) noexcept : out(file), heaps(0) {}
    // The name of the next heap, which has to be made next: a comment before its first line.
    void name(const char *text) {
        if (out && text) detail::Tape(out).comment(text);
    }
    // Marks of the whole file, as those of one of its heaps: call them once, not for each heap.
    void frameEnd() { detail::Tape(out).mark("frame"); }
    void time(uint64_t nanoseconds) { detail::Tape(out).mark("time", nanoseconds); }
    void mark(const char *text) { detail::Tape(out).markText(text); }
    Recording(const Recording &) = delete;
    Recording &operator=(const Recording &) = delete;

private:
    template <class A> friend class Recorded;
    std::FILE *out;
    uint32 heaps;
    detail::LastThread last;
};

namespace detail {

// The calls of one space, each of which writes its line: of an Allocator, a GuardedAllocator, or the heap of a number, A. The type Of has
// `calls`, what makes them; `ready`, before a call whose answer the node limit may decide; `line` and `request`, which write, of a request
// with its name; `take`, which gets what a request is granted; `numberOf`, the number of the grant of a name; and `unname`, where a
// name is that of no call.
template <class Of, class A> class RecordedCalls {
public:
    typedef decltype(std::declval<A &>().allocate(0)) Handle;

    // The allocator, for its questions.
    const A *operator->() const { return &self().calls(); }
    const A &operator*() const { return self().calls(); }

    Handle allocate(uint32 size) {
        request("alloc %u\n", size);
        return granted(self().calls().allocate(size));
    }
    // An alignment of 0 is refused, as by A, and not written: align is at least 1.
    Handle allocateAligned(uint32 size, uint32 align) {
        if (isValid(align != 0)) request("align %u %u\n", size, align);
        return granted(self().calls().allocateAligned(size, align));
    }
    Handle allocateAt(uint32 offset, uint32 size) {
        request("at %u %u\n", offset, size);
        return granted(self().calls().allocateAt(offset, size));
    }
    Handle allocateTight(uint32 size) {
        request("tight %u\n", size);
        return granted(self().calls().allocateTight(size));
    }
    Handle allocateTightAligned(uint32 size, uint32 align) {
        if (isValid(align != 0)) request("tight %u %u\n", size, align);
        return granted(self().calls().allocateTightAligned(size, align));
    }
    // A handle that is not live is written as 0, the number of no grant.
    bool free(Handle handle) {
        self().line("free %u\n", grantOf(handle));
        return self().calls().free(handle);
    }
    bool shrink(Handle handle, uint32 size) {
        self().ready();
        self().line("shrink %u %u\n", grantOf(handle), size);
        return self().calls().shrink(handle, size);
    }
    bool growInPlace(Handle handle, uint32 size) {
        self().line("grow %u %u\n", grantOf(handle), size);
        return self().calls().growInPlace(handle, size);
    }
    // Of tickets it goes by the step of the space: its line has the alignment that the range keeps by that.
    Handle relocate(Handle handle) {
        self().ready();
        writeRelocate(self().calls(), handle);
        return granted(self().calls().relocate(handle));
    }
    // Of tickets alone.
    Handle relocateUnaligned(Handle handle) {
        self().ready();
        self().request("relocate %u\n", grantOf(handle));
        return granted(self().calls().relocateUnaligned(handle));
    }
    // As allocateAligned, for an alignment of 0.
    Handle relocateAligned(Handle handle, uint32 align) {
        if (isValid(align != 0)) {
            self().ready();
            self().request("relocate %u %u\n", grantOf(handle), align);
        }
        return granted(self().calls().relocateAligned(handle, align));
    }
    bool extend(uint32 more) {
        decided("extend %u\n", more);
        return self().calls().extend(more);
    }
    // Of tickets compact, compactWithin, makeRoom and makeRoomAligned go by the step of the space, which is in their lines; where
    // it has none nothing changes, and nothing is written.
    template <class F> auto compact(F &&moved) -> decltype(std::declval<A &>().compact(std::forward<F>(moved))) {
        writeCompact(self().calls());
        return self().calls().compact(std::forward<F>(moved));
    }
    template <class F> Progress compactWithin(uint32 from, uint32 mostUnits, uint32 mostRanges, F &&moved) {
        const uint32 step = self().calls().step();
        if (isValid(step != 0)) decided("compact %u %u %u %u\n", step, from, mostUnits, mostRanges);
        return self().calls().compactWithin(from, mostUnits, mostRanges, std::forward<F>(moved));
    }
    template <class F> RoomCost makeRoom(uint32 size, F &&moved) {
        writeRoom(self().calls(), size);
        return self().calls().makeRoom(size, std::forward<F>(moved));
    }
    // An alignment of 0 is refused, as by A, and not written.
    template <class F> RoomCost makeRoomAligned(uint32 size, uint32 align, F &&moved) {
        const uint32 step = self().calls().step();
        if (isValid(align != 0 && step != 0)) decided("room %u %u %u\n", size, align, step);
        return self().calls().makeRoomAligned(size, align, std::forward<F>(moved));
    }
    // A step of 0 is refused, as by A, and not written. Within a budget it is compactWithin of handles, compactWithinBy of tickets.
    template <class F> bool compactBy(uint32 step, F &&moved) {
        if (isValid(step != 0)) decided("compact %u\n", step);
        return self().calls().compactBy(step, std::forward<F>(moved));
    }
    template <class F> Progress compactWithin(uint32 step, uint32 from, uint32 mostUnits, uint32 mostRanges, F &&moved) {
        if (isValid(step != 0)) decided("compact %u %u %u %u\n", step, from, mostUnits, mostRanges);
        return self().calls().compactWithin(step, from, mostUnits, mostRanges, std::forward<F>(moved));
    }
    template <class F> Progress compactWithinBy(uint32 step, uint32 from, uint32 mostUnits, uint32 mostRanges, F &&moved) {
        if (isValid(step != 0)) decided("compact %u %u %u %u\n", step, from, mostUnits, mostRanges);
        return self().calls().compactWithinBy(step, from, mostUnits, mostRanges, std::forward<F>(moved));
    }
    // Of tickets alone.
    template <class F> void compactUnaligned(F &&moved) {
        self().line("compact\n");
        self().calls().compactUnaligned(std::forward<F>(moved));
    }
    template <class F> RoomCost makeRoomUnaligned(uint32 size, F &&moved) {
        decided("room %u\n", size);
        return self().calls().makeRoomUnaligned(size, std::forward<F>(moved));
    }
    // An alignment or a step of 0 is refused, as by A, and not written.
    template <class F> RoomCost makeRoomBy(uint32 size, uint32 align, uint32 step, F &&moved) {
        if (isValid(align != 0 && step != 0)) decided("room %u %u %u\n", size, align, step);
        return self().calls().makeRoomBy(size, align, step, std::forward<F>(moved));
    }
    void reset() {
        self().line("reset\n");
        self().calls().reset();
    }
    // No line is written, since each move by the step has it in its line.
    bool raiseStep(uint32 align) { return self().calls().raiseStep(align); }

protected:
    // The number of the grant of a handle: 0, which no grant has, where it is not live.
    uint32 grantOf(Handle handle) const { return self().calls().isLive(handle) ? self().numberOf(nameOf(handle)) : 0; }

private:
    Of &self() { return static_cast<Of &>(*this); }
    const Of &self() const { return static_cast<const Of &>(*this); }

    // A call that could not be read again is not written, and a name that was given to it is that of no other call.
    bool isValid(bool valid) {
        if (!valid) self().unname();
        return valid;
    }
    // The lines of a request and of another call whose answer the node limit may decide.
    template <class... Parts> void request(const char *format, Parts... parts) {
        self().ready();
        self().request(format, parts...);
    }
    template <class... Parts> void decided(const char *format, Parts... parts) {
        self().ready();
        self().line(format, parts...);
    }
    // The lines of what goes by the step of tickets, and by none of handles.
    void writeCompact(const Allocator &) { decided("compact\n"); }
    template <class T> void writeCompact(const TicketQuestions<T> &of) {
        if (isValid(of.step() != 0)) decided("compact %u\n", of.step());
    }
    void writeRoom(const Allocator &, uint32 size) { decided("room %u\n", size); }
    template <class T> void writeRoom(const TicketQuestions<T> &of, uint32 size) {
        if (isValid(of.step() != 0)) decided("room %u 1 %u\n", size, of.step());
    }
    void writeRelocate(const Allocator &, Handle handle) { self().request("relocate %u\n", grantOf(handle)); }
    template <class T> void writeRelocate(const TicketQuestions<T> &of, Handle handle) {
        if (!of.isLive(handle)) self().request("relocate 0\n");
        else if (isValid(of.step() != 0)) self().request("relocate %u %u\n", grantOf(handle), commonDivisor(of.offsetOf(handle), of.step()));
    }
    Handle granted(Handle handle) {
        self().take(handle);
        return handle;
    }
};

} // namespace detail

template <class A> class Recorded : public detail::RecordedCalls<Recorded<A>, A> {
public:
    typedef decltype(std::declval<A &>().allocate(0)) Handle;

    // An allocator made of the other arguments, as A is. The file is not closed; it may be closed when the recording ends.
    explicit Recorded(std::FILE *file, uint32 size, uint32 maxAllocs = 128 * 1024) noexcept
        : Recorded(file, A(size, maxAllocs)) {}
    // An allocator that there is, from now on: live ranges that it has, as one of load or clone, come first, as the grants from
    // 1 on. No recording begins with one that has ranges of no units, and lacks a node, or a unit, for one more.
    Recorded(std::FILE *file, A &&made) noexcept : space(std::move(made)), tape(file) { tape.begin(space); }
    // The next heap of a recording of several.
    Recorded(Recording &of, A &&made) noexcept : space(std::move(made)), tape(of.out, of.heaps++, of.last) { tape.begin(space); }
    Recorded(Recording &of, uint32 size, uint32 maxAllocs = 128 * 1024) noexcept : Recorded(of, A(size, maxAllocs)) {}
    Recorded(Recorded &&other) noexcept : space(std::move(other.space)), tape(std::move(other.tape)) {}
    Recorded(const Recorded &) = delete;
    Recorded &operator=(const Recorded &) = delete;

    // The name of the next request, for who reads the recording: a comment before it. Line ends become spaces; no text is no
    // name.
    void name(const char *text) { tape.comment(text); }
    // The name of a live range, given after its grant, in place of one that it had: a mark. So one line, where the program puts a
    // handle into a table of its own, names each range. For a handle that is not live, or without text, nothing is written.
    void nameLive(Handle handle, const char *text) { tape.nameGrant(this->grantOf(handle), text); }
    // Marks, which change no answer, and between which the page shows what lives: a frame's end, a time in nanoseconds from a
    // begin of the program's, the number of the thread of the calls from here on, and a text of the program's. And how many bytes a
    // unit has; of a heap of a Recording it is of that heap alone. frameEnd, time and mark are of the whole file: call them on one
    // heap of a Recording alone, or on that.
    void frameEnd() { tape.mark("frame"); }
    void unit(uint32 bytes) { tape.unit(bytes); }
    void time(uint64_t nanoseconds) { tape.mark("time", nanoseconds); }
    void thread(uint64_t number) { tape.thread(number); }
    void mark(const char *text) {
        tape.markText(text);
    }
    // Whether the recording has ended.
    bool isFailed() const { return tape.isFailed(); }

    bool retract(uint32 less) {
        tape.write("retract %u\n", less);
        return space.retract(less);
    }
    // After it a line with the larger limit follows, and those after which its space is as this one, whose grants are numbered
    // from 1 again.
    bool raiseLimit(uint32 maxAllocs) {
        bool raised = space.raiseLimit(maxAllocs);
        if (raised) tape.begin(space);
        return raised;
    }

private:
    friend class detail::RecordedCalls<Recorded<A>, A>;
    A space;
    detail::Tape tape;

    A &calls() { return space; }
    const A &calls() const { return space; }
    // who plays it has the limit of the space
    void ready() {}
    template <class... Parts> void line(const char *format, Parts... parts) { tape.write(format, parts...); }
    template <class... Parts> void request(const char *format, Parts... parts) { tape.write(format, parts...); }
    void take(Handle handle) {
        if (detail::isGranted(handle)) tape.grant(detail::nameOf(handle));
    }
    uint32 numberOf(uint32 name) const { return tape.number(name); }
    void unname() { tape.unname(); }
};

class RecordedHeap;

// Heaps, whose calls are written to a file as they happen. The line of a call, but of free, is written after it, as its heap is known
// only then; of calls on one heap, by `at`, before it.
class RecordedHeaps {
public:
    explicit RecordedHeaps(std::FILE *file, const HeapLimits &limits) noexcept : RecordedHeaps(file, Heaps(limits)) {}
    // Heaps that there are, from now on: as Recorded with one allocator.
    RecordedHeaps(std::FILE *file, Heaps &&made) noexcept : heaps(std::move(made)), tape(file), next(nullptr), maxAllocs(0), most(0), all(0) {
        if (!heaps) {
            tape.fail();
            return;
        }
        const HeapLimits limits = heaps.limits();
        maxAllocs = limits.maxAllocs;
        most = limits.most;
        all = most + limits.mostLarger;
        for (uint32 number = heaps.firstHeap(); number != Allocation::NO_SPACE; number = heaps.heapAfter(number)) begin(number, 0);
        if (heaps.totals().heaps) tape.mark("begun");
    }
    RecordedHeaps(const RecordedHeaps &) = delete;
    RecordedHeaps &operator=(const RecordedHeaps &) = delete;
    ~RecordedHeaps() {
        for (size_t i = 0; i < held.size(); i++) delete held[i];
        std::free(next);
    }

    // The name of the next request, and marks: as those of Recorded.
    void name(const char *text) {
        std::free(next);
        next = copied(text);
    }
    // As nameLive of Recorded.
    void nameLive(const Place &place, const char *text) {
        uint32 number = numberOf(place);
        Grants *of = number && text && !detail::isBlank(text) ? grants(place.heap) : nullptr;
        if (!of) return;
        of->nameGrant(number, text);
        if (of->isFailed() || !of->named(place.ticket.name, copied(text))) tape.fail();
    }
    void frameEnd() { tape.mark("frame"); }
    void unit(uint32 bytes) { tape.unit(bytes); }
    void time(uint64_t nanoseconds) { tape.mark("time", nanoseconds); }
    void thread(uint64_t number) { tape.thread(number); }
    void mark(const char *text) {
        tape.markText(text);
    }
    bool isFailed() const { return tape.isFailed(); }
    // The heaps, for their questions.
    const Heaps *operator->() const { return &heaps; }
    const Heaps &operator*() const { return heaps; }

    // The heap of a number, for the calls of one space.
    RecordedHeap at(uint32 number);

    Granted allocate(uint32 size) { return request(heaps.allocate(size), size, 1); }
    // An alignment of 0 is refused, and not written.
    Granted allocateAligned(uint32 size, uint32 align) { return request(heaps.allocateAligned(size, align), size, align); }
    Granted allocateTight(uint32 size) { return request(heaps.allocateTight(size), size, 1, true); }
    Granted allocateTightAligned(uint32 size, uint32 align) { return request(heaps.allocateTightAligned(size, align), size, align, true); }
    // For a place that is not live "none free" is written.
    bool free(const Place &place) {
        uint32 number = numberOf(place);
        if (number) tape.write("heap %u free %u\n", place.heap, number);
        else tape.write("none free\n");
        return heaps.free(place);
    }
    // The second range is a request of the heap that takes it, with the name of the first, and where that was.
    // The first is at what the offset of the range and the step of its heap have in common; of a heap without a step none is taken, and
    // nothing is written.
    Place relocate(const Place &place) {
        const uint32 step = heaps.step(place.heap);
        if (!heaps.isLive(place)) return relocated(place, 1);
        if (step == 0) return heaps.relocate(place);
        return relocated(place, detail::commonDivisor(heaps.offsetOf(place), step));
    }
    Place relocateAligned(const Place &place, uint32 align) { return relocated(place, align); }
    // Written where it is done: who plays it has the most nodes that the heap may grow to.
    bool shrink(const Place &place, uint32 size) {
        uint32 number = numberOf(place);
        bool isDone = heaps.shrink(place, size);
        if (isDone) tape.write("heap %u shrink %u %u\n", place.heap, number, size);
        return isDone;
    }
    bool growInPlace(const Place &place, uint32 size) {
        uint32 number = numberOf(place);
        bool isDone = heaps.growInPlace(place, size);
        if (isDone) tape.write("heap %u grow %u %u\n", place.heap, number, size);
        return isDone;
    }
    // Where it is not done nothing is written.
    bool extendHeap(uint32 number, uint32 more) {
        bool isDone = heaps.extendHeap(number, more);
        if (isDone && raised(number)) {
            tape.writeOf(number, "retract %u\n", more);
            tape.mark("begun");
        }
        if (isDone) tape.write("heap %u extend %u\n", number, more);
        return isDone;
    }
    // Each heap that there is, one after another.
    template <class F> bool compact(F &&moved) {
        bool isDone = true;
        for (uint32 number = heaps.firstHeap(); number != Allocation::NO_SPACE; number = heaps.heapAfter(number))
            if (!compactHeap(number, [&](Move range) { moved(number, range); })) isDone = false;
        return isDone;
    }
    // By the step of the heap. Where it is not done nothing is written.
    template <class F> bool compactHeap(uint32 number, F &&moved) {
        const uint32 step = heaps.step(number);
        bool isDone = heaps.compactHeap(number, std::forward<F>(moved));
        if (isDone) tape.write("heap %u compact %u\n", number, step);
        return isDone;
    }
    template <class F> RoomCost makeRoom(uint32 number, uint32 size, F &&moved) {
        return makeRoomAligned(number, size, 1, std::forward<F>(moved));
    }
    // Where none is made nothing is written.
    template <class F> RoomCost makeRoomAligned(uint32 number, uint32 size, uint32 align, F &&moved) {
        const uint32 step = heaps.step(number);
        // with other nodes it may be other room
        if (align != 0) ready(number);
        RoomCost cost = heaps.makeRoomAligned(number, size, align, std::forward<F>(moved));
        if (cost.possible) tape.write("heap %u room %u %u %u\n", number, size, align, step);
        return cost;
    }
    template <class F> void dropEmpty(uint32 keep, F &&dropped) {
        heaps.dropEmpty(keep, [&](uint32 number) {
            tape.write("heap %u drop\n", number);
            dropped(number);
        });
    }
    // Of a number that has no heap nothing is written.
    bool dropHeap(uint32 number) {
        bool has = heaps.has(number), isDropped = heaps.dropHeap(number);
        if (has) tape.write("heap %u drop\n", number);
        return isDropped;
    }
    bool giveUp(uint32 number) {
        bool isGivenUp = heaps.giveUp(number);
        if (isGivenUp) tape.write("heap %u give up\n", number);
        return isGivenUp;
    }
    // A line for each heap that there is.
    void reset() {
        heaps.reset();
        each("reset");
    }

private:
    friend class RecordedHeap;

    // Writes a line for each heap that there is.
    void each(const char *call) {
        uint32 left = heaps.totals().heaps;
        for (uint32 number = 0; number < all && left; number++)
            if (heaps.has(number)) {
                char line[64];
                std::snprintf(line, sizeof line, "heap %u %s\n", static_cast<unsigned>(number), call);
                tape.write(static_cast<const char *>(line));
                left--;
            }
    }

    // The numbers of the grants of one heap, and their names; and its node limit where it began anew with that, in place of the
    // largest, or 0.
    struct Grants : detail::Tape {
        detail::Items<char *> names;
        uint32 ownLimit;

        explicit Grants(std::FILE *file, uint32 number) : detail::Tape(file, number), ownLimit(0) {}
        ~Grants() {
            for (size_t i = 0; i < names.size(); i++) std::free(names[i]);
        }
        void forget() {
            numbers.clear();
            ownLimit = 0;
            for (size_t i = 0; i < names.size(); i++) {
                std::free(names[i]);
                names[i] = nullptr;
            }
        }
        bool granted(uint32 name, char *text) {
            if (numbers.grant(name)) return named(name, text);
            std::free(text);
            return false;
        }
        bool named(uint32 name, char *text) {
            if (!names.reserve(size_t(name) + 1)) {
                std::free(text);
                return false;
            }
            const bool isName = text && !detail::isBlank(text);
            std::free(names[name]);
            names[name] = isName ? text : nullptr;
            if (!isName) std::free(text);
            return true;
        }
    };

    Heaps heaps;
    detail::Tape tape;
    detail::Items<Grants *> held;
    // the name of the next request
    char *next;
    // the limit of usual heaps, and how many of these and of all there may be
    uint32 maxAllocs, most, all;

    static char *copied(const char *text, const char *more = "") {
        if (!text) return nullptr;
        size_t size = std::strlen(text), rest = std::strlen(more) + 1;
        char *found = static_cast<char *>(std::malloc(size + rest));
        if (found) {
            std::memcpy(found, text, size);
            std::memcpy(found + size, more, rest);
        }
        return found;
    }
    // With so many unused nodes no call is answered by the node limit: it adds two blocks at most, and a request leaves one node.
    static constexpr uint32 ENOUGH = 4;

    // Writes the lines with which a heap begins, with a node limit of its own, or, for 0, the largest.
    void begin(uint32 number, uint32 ownLimit) {
        Grants *of = grants(number);
        if (!of) return;
        detail::Bytes bytes;
        const Heap heap = heaps.at(number);
        if (!heap.save(bytes) || bytes.size() == 0) return tape.fail();
        // who plays it needs the largest limit that a usual heap may grow to
        of->begin(bytes, detail::spaceIn(bytes, heap), ownLimit == 0 && number < most ? maxAllocs : 0);
        of->ownLimit = ownLimit;
        if (of->isFailed()) tape.fail();
    }
    // Before a call that the nodes of its heap may decide: where who plays it has more than there are, it begins anew.
    void ready(uint32 number) {
        const Heap heap = heaps.at(number);
        Grants *of = heap ? grants(number) : nullptr;
        if (!of) return;
        const uint32 limit = heap.maxAllocs(), played = of->ownLimit ? of->ownLimit : number < most ? maxAllocs : limit;
        if (played == limit || limit - heap.blockCount() >= ENOUGH) return;
        begin(number, limit);
        tape.mark("begun");
    }
    // After a call that raised the limit of a heap that had begun anew with that: it begins anew with the largest, and the line that
    // makes it what it was before the call is written next. Returns whether that is so.
    bool raised(uint32 number) {
        const Grants *of = number < held.size() ? held[number] : nullptr;
        if (!of || of->ownLimit == 0 || of->ownLimit == heaps.at(number).maxAllocs()) return false;
        begin(number, 0);
        return true;
    }

    Grants *grants(uint32 number) {
        if (tape.isFailed()) return nullptr;
        if (!held.reserve(size_t(number) + 1)) tape.fail();
        else if (!held[number]) held[number] = new (std::nothrow) Grants(tape.file(), number);
        Grants *found = number < held.size() ? held[number] : nullptr;
        if (!found) tape.fail();
        return found;
    }
    uint32 numberOf(const Place &place) const {
        return heaps.isLive(place) && place.heap < held.size() && held[place.heap] ? held[place.heap]->number(place.ticket.name) : 0;
    }
    void grant(const Place &place, char *text) {
        Grants *of = grants(place.heap);
        if (!of) std::free(text);
        else if (!of->granted(place.ticket.name, text)) tape.fail();
    }
    // The next request has no name.
    void unname() {
        std::free(next);
        next = nullptr;
    }
    Granted request(const Granted &found, uint32 units, uint32 align, bool isTight = false) {
        if (found.refusal == HeapRefusal::badCall) {
            unname();
            return found;
        }
        uint32 heap = found.place.heap;
        if (!found) {
            tape.comment(next);
            static const char *const words[] = {"", "empty", "larger", "full", "memory"};
            char line[64];
            const char *word = isTight ? "tight" : align == 1 ? "alloc" : "align";
            if (align == 1) std::snprintf(line, sizeof line, "none %s %u %s\n", word, static_cast<unsigned>(units), words[int(found.refusal)]);
            else std::snprintf(line, sizeof line, "none %s %u %u %s\n", word, static_cast<unsigned>(units), static_cast<unsigned>(align), words[int(found.refusal)]);
            tape.write(static_cast<const char *>(line));
            unname();
            return found;
        }
        bool isLarger = found.isNew && heap >= most;
        if (found.isNew) {
            if (Grants *of = grants(heap)) of->forget();
            // a larger heap may have three blocks
            tape.write("heap %u space %u nodes %u index 32\n", heap, heaps.unitsOfHeap(heap), isLarger ? 4 : maxAllocs);
        } else if (raised(heap)) {
            tape.writeOf(heap, "free %u\n", numberOf(found.place));
            tape.mark("begun");
        }
        tape.comment(next);
        if (isLarger || (isTight && !found.isNew && align == 1)) tape.write("heap %u tight %u\n", heap, units);
        else if (isTight && !found.isNew) tape.write("heap %u tight %u %u\n", heap, units, align);
        else if (align == 1 || found.isNew) tape.write("heap %u alloc %u\n", heap, units);
        else tape.write("heap %u align %u %u\n", heap, units, align);
        grant(found.place, next);
        next = nullptr;
        return found;
    }
    Place relocated(const Place &place, uint32 align) {
        uint32 number = numberOf(place), units = heaps.sizeOf(place);
        Place second = heaps.relocateAligned(place, align);
        if (align == 0) return second;
        if (!number) tape.write("none relocate\n");
        else if (!second.ticket) tape.write("none relocate %u %u\n", units, align);
        else {
            const Grants *of = held[place.heap];
            const char *first = place.ticket.name < of->names.size() ? of->names[place.ticket.name] : nullptr;
            char where[64];
            std::snprintf(where, sizeof where, "%s(of grant %u, heap %u)", first ? " " : "", static_cast<unsigned>(number), static_cast<unsigned>(place.heap));
            char *named = copied(first ? first : "", where);
            tape.comment(named);
            if (align == 1) tape.write("heap %u alloc %u\n", second.heap, units);
            else tape.write("heap %u align %u %u\n", second.heap, units, align);
            // where a range comes from is no name of its own
            if (!first) {
                std::free(named);
                named = nullptr;
            }
            grant(second, named);
        }
        return second;
    }
};

// The heap of a number of RecordedHeaps, for all calls of one space: the line of each is that of Recorded, behind the number of the heap,
// and is written before the call, but of retract. Where the number has no heap it converts to false, every call is refused, and
// nothing is written. Its questions are asked by heap->offsetOf(ticket). It must not be used once the RecordedHeaps are gone.
//
// Who plays the recording has the most nodes that a heap may get. Where the heap has fewer, of which a call may need the last,
// it first begins anew, with the node limit that it has, and again with the largest once a call of heaps has raised that.
class RecordedHeap : public detail::RecordedCalls<RecordedHeap, Heap> {
public:
    explicit operator bool() const { return bool(heap); }
    uint32 number() const { return heap.number(); }
    Place place(Ticket ticket) const { return heap.place(ticket); }

    // As those of RecordedHeaps: the name of the next request, on this heap or another, and that of a live range.
    void name(const char *text) { all->name(text); }
    void nameLive(Ticket ticket, const char *text) { all->nameLive(place(ticket), text); }

    // Where it is not done nothing is written, since a space may give up what a heap keeps.
    bool retract(uint32 less) {
        bool isDone = heap.retract(less);
        if (isDone) line("retract %u\n", less);
        return isDone;
    }

private:
    friend class RecordedHeaps;
    friend class detail::RecordedCalls<RecordedHeap, Heap>;
    RecordedHeap(RecordedHeaps &of, const Heap &at) noexcept : all(&of), heap(at) {}
    RecordedHeaps *all;
    Heap heap;

    Heap &calls() { return heap; }
    const Heap &calls() const { return heap; }
    void ready() { all->ready(number()); }
    template <class... Parts> void line(const char *format, Parts... parts) {
        if (heap) all->tape.writeOf(number(), format, parts...);
    }
    template <class... Parts> void request(const char *format, Parts... parts) {
        if (!heap) return;
        all->tape.comment(all->next);
        all->tape.writeOf(number(), format, parts...);
    }
    // It has the name that was written with the request.
    void take(Ticket ticket) {
        if (ticket) all->grant(place(ticket), all->next);
        else std::free(all->next);
        all->next = nullptr;
    }
    uint32 numberOf(uint32 name) const {
        return number() < all->held.size() && all->held[number()] ? all->held[number()]->number(name) : 0;
    }
    void unname() { all->unname(); }
};

inline RecordedHeap RecordedHeaps::at(uint32 number) { return RecordedHeap(*this, heaps.at(number)); }

} // namespace OffsetAllocator
