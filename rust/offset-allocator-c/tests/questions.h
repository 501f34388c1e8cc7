/* The questions without an argument whose answer is a number or a bool, each with its answers in four states. calls.c asks
 * them of handles, tickets.c of tickets, and surface.cpp of both by the classes of C++. A question is added here by a row:
 * `surface` refuses one of offset_allocator.h that has none.
 *
 * fresh: 100 units, at most 7 - 1 = 6 blocks, and for tickets the realm 5. All units are one free block.
 * used:  10 units were granted, then 20, and the 10 freed. Blocks: 10 free, 20 live, 70 free.
 * full:  1 unit was granted three times more. Each took the first unit of a free block that has others, so there are three
 *        blocks more, which are 6. 20 + 3 = 23 units are live, 80 - 3 = 77 free.
 * none:  there is no space. In C a null pointer, in C++ what is moved from. */
#ifndef QUESTIONS_H
#define QUESTIONS_H

/* by its name in C and in C++, and the answers: fresh, used, full, none */
#define QUESTIONS(row) \
    row(size, size, 100, 100, 100, 0) \
    row(max_allocs, maxAllocs, 7, 7, 7, 0) \
    row(block_count, blockCount, 1, 3, 6, 0) \
    row(is_full, isFull, false, false, true, true) \
    row(is_empty, isEmpty, true, false, false, true) \
    row(free_units, freeUnits, 100, 80, 77, 0) \
    row(live_units, liveUnits, 0, 20, 23, 0)

/* those of tickets alone: no serial but the first few is given, and no alignment was asked for */
#define QUESTIONS_OF_TICKETS(row) \
    row(is_spent, isSpent, false, false, false, true) \
    row(realm, realm, 5, 5, 5, 0) \
    row(step, step, 1, 1, 1, 0)

/* What a row says of a state, for a file that says how it asks: ASK. */
#define FRESH(name, in_cpp, fresh, used, full, none) CHECK(ASK(name, in_cpp) == (fresh));
#define USED(name, in_cpp, fresh, used, full, none) CHECK(ASK(name, in_cpp) == (used));
#define FULL(name, in_cpp, fresh, used, full, none) CHECK(ASK(name, in_cpp) == (full));
#define NONE(name, in_cpp, fresh, used, full, none) CHECK(ASK(name, in_cpp) == (none));

#endif
