// Records the calls of malloc and its kin, preloaded into a program: a line each in the file that MALLOC_TRACE_TO names,
// `+ ADDRESS SIZE`, `- ADDRESS`, and `= ADDRESS SIZE` where a block gets another size in place. A block that moves is first
// requested anew, and then freed.
#include <fcntl.h>
#include <stddef.h>
#include <stdlib.h>
#include <unistd.h>

extern void *__libc_malloc(size_t), *__libc_calloc(size_t, size_t), *__libc_realloc(void *, size_t);
extern void *__libc_memalign(size_t, size_t);
extern void __libc_free(void *);

static int file = -2;
static char text[1 << 16];
static size_t used;

static void number(size_t n) {
    char digits[20];
    int count = 0;
    do digits[count++] = '0' + n % 10; while (n /= 10);
    while (count) text[used++] = digits[--count];
}

static void flush(void) {
    if (file >= 0 && write(file, text, used) != (ssize_t)used) _exit(9);
    used = 0;
}

// Only a program of one thread is recorded.
static void *note(char what, void *at, size_t size) {
    if (file == -2) {
        const char *to = getenv("MALLOC_TRACE_TO");
        file = to ? open(to, O_WRONLY | O_CREAT | O_TRUNC, 0666) : -1;
    }
    if (file < 0 || !at) return at;
    if (used > sizeof text - 64) flush();
    text[used++] = what;
    text[used++] = ' ';
    number((size_t)at);
    if (what != '-') {
        text[used++] = ' ';
        number(size);
    }
    text[used++] = '\n';
    return at;
}

__attribute__((destructor)) static void end(void) {
    flush();
    file = -1;
}

void *malloc(size_t size) { return note('+', __libc_malloc(size), size); }
void *calloc(size_t count, size_t size) { return note('+', __libc_calloc(count, size), count * size); }
void *memalign(size_t align, size_t size) { return note('+', __libc_memalign(align, size), size); }
void *aligned_alloc(size_t align, size_t size) { return memalign(align, size); }

int posix_memalign(void **to, size_t align, size_t size) {
    void *at = memalign(align, size);
    if (!at) return 12;
    *to = at;
    return 0;
}

void *realloc(void *at, size_t size) {
    void *to = __libc_realloc(at, size);
    note(to == at ? '=' : '+', to, size);
    if (to != at && (to || size == 0)) note('-', at, 0);
    return to;
}

void free(void *at) {
    note('-', at, 0);
    __libc_free(at);
}
