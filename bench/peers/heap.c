// A wrapper of malloc, preloaded into the measuring program: it counts the most bytes that malloc has held since
// `heap_mark`, the header of each block included, and takes the same number from the C library.
#include <malloc.h>
#include <stddef.h>
#include <stdlib.h>

extern void *__libc_malloc(size_t), *__libc_calloc(size_t, size_t), *__libc_realloc(void *, size_t);
extern void *__libc_memalign(size_t, size_t);
extern void __libc_free(void *);

static size_t held, base[2], most[2];

static size_t block_bytes(void *p) { return p ? malloc_usable_size(p) + sizeof(size_t) : 0; }

static size_t library_bytes(void) {
    struct mallinfo2 all = mallinfo2();
    return all.uordblks + all.hblkhd;
}

static void *count_block(void *p) {
    held += block_bytes(p);
    if (held > most[0]) {
        most[0] = held;
        most[1] = library_bytes();
    }
    return p;
}

void heap_mark(void) {
    base[0] = most[0] = held;
    base[1] = most[1] = library_bytes();
}

void heap_most(size_t *counted, size_t *library) {
    *counted = most[0] - base[0];
    *library = most[1] - base[1];
}

void *malloc(size_t size) { return count_block(__libc_malloc(size)); }
void *calloc(size_t count, size_t size) { return count_block(__libc_calloc(count, size)); }
void *memalign(size_t align, size_t size) { return count_block(__libc_memalign(align, size)); }
void *aligned_alloc(size_t align, size_t size) { return memalign(align, size); }

int posix_memalign(void **to, size_t align, size_t size) {
    void *p = memalign(align, size);
    if (!p) return 12;
    *to = p;
    return 0;
}

void *realloc(void *p, size_t size) {
    held -= block_bytes(p);
    return count_block(__libc_realloc(p, size));
}

void free(void *p) {
    held -= block_bytes(p);
    __libc_free(p);
}
