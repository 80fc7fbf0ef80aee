// A library to be preloaded: the allocation whose number is in REFUSE fails, and then a byte is written to descriptor 9.
#include <errno.h>
#include <stddef.h>
#include <stdlib.h>
#include <unistd.h>

void *__libc_malloc(size_t), *__libc_calloc(size_t, size_t), *__libc_realloc(void *, size_t), *__libc_memalign(size_t, size_t);
static long left = -1;

static int refused(void) {
    if (left < 0) left = getenv("REFUSE") ? atol(getenv("REFUSE")) : 0;
    if (left == 0 || --left) return 0;
    if (write(9, "x", 1) < 0) _exit(99);
    errno = ENOMEM;
    return 1;
}
void *malloc(size_t n) { return refused() ? NULL : __libc_malloc(n); }
void *calloc(size_t n, size_t size) { return refused() ? NULL : __libc_calloc(n, size); }
void *realloc(void *old, size_t n) { return refused() ? NULL : __libc_realloc(old, n); }
void *memalign(size_t align, size_t n) { return refused() ? NULL : __libc_memalign(align, n); }
void *aligned_alloc(size_t align, size_t n) { return memalign(align, n); }
int posix_memalign(void **to, size_t align, size_t n) { return (*to = memalign(align, n)) ? 0 : ENOMEM; }
