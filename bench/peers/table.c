// The table of the linked peers. LINKED(each) is `each(NAME)` for each of them.
#include <stddef.h>
#include <stdint.h>

struct step;
typedef uint64_t play(uint32_t size, uint32_t nodes, size_t slots, const struct step *steps, size_t count);
typedef uint64_t answers(uint32_t size, uint32_t nodes, size_t slots, const struct step *steps, size_t count, uint64_t *to);

#define DECLARED(name) play name##_play; answers name##_answers;
#define ROW(name) {#name, name##_play, name##_answers},

LINKED(DECLARED)

const struct { const char *name; play *play; answers *answers; } PEERS[] = {LINKED(ROW) {NULL, NULL, NULL}};
