// Plays steps on a peer, as the other sides do. The file that includes this one defines `struct space` and `struct
// slot`, `make`, `drop`, `is_live`, `allocate` and `release`. It is compiled with NAME as the peer's name.
#define PASTE_(a, b) a##b
#define PASTE(a, b) PASTE_(a, b)
#define REFUSED (1ull << 32)
#define RELEASED (1ull << 33)

struct step { uint32_t slot, size; };

// After a refused request a workload has a release, as a step of size 0 on an empty slot: it does nothing.
static inline uint64_t take(struct space *space, struct slot *slot, uint32_t size) {
    if (!is_live(slot)) return size == 0 ? REFUSED : allocate(space, slot, size);
    release(space, slot);
    return RELEASED;
}

// The measured function. With ANSWERS it also stores each answer, in a separate object file: a second use of the peer
// in one file would change the code of the first.
#ifdef ANSWERS
#define PLAY PASTE(NAME, _answers)
#define AND_ANSWERS , uint64_t *answers
#define STORED(i, answer) (answers[i] = (answer))
#else
#define PLAY PASTE(NAME, _play)
#define AND_ANSWERS
#define STORED(i, answer) (answer)
#endif

uint64_t PLAY(uint32_t size, uint32_t nodes, size_t slot_count, const struct step *steps, size_t count AND_ANSWERS) {
    (void)nodes; // a peer has no node limit
    struct space space;
    struct slot *slots = (struct slot *)calloc(slot_count + 1, sizeof(struct slot));
    if (!slots || !make(&space, size)) abort();
    uint64_t sum = 0;
    for (size_t i = 0; i < count; i++)
        if (steps[i].slot < slot_count) sum = sum * 31 + STORED(i, take(&space, &slots[steps[i].slot], steps[i].size));
    drop(&space);
    free(slots);
    return sum;
}
