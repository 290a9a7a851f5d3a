// Loaded into a program before its other libraries, this refuses one of its allocations: that whose number, from 1 on,
// REFUSED_ALLOCATION has. A new one counts, and one that grows or shrinks.
#include <errno.h>
#include <stddef.h>
#include <stdlib.h>

extern void *__libc_malloc(size_t);
extern void *__libc_realloc(void *, size_t);

static long left;

__attribute__((constructor)) static void begin(void) {
    const char *number = getenv("REFUSED_ALLOCATION");
    left = number ? atol(number) : 0;
}

static int is_refused(void) {
    if (left <= 0 || --left > 0)
        return 0;
    errno = ENOMEM;
    return 1;
}

void *malloc(size_t size) {
    return is_refused() ? NULL : __libc_malloc(size);
}

void *realloc(void *old, size_t size) {
    return is_refused() ? NULL : __libc_realloc(old, size);
}
