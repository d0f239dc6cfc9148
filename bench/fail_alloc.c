// Lets one allocation of a program fail, the one whose number FAIL_ALLOC says, from 1 on. It is loaded
// in front of the C library (LD_PRELOAD).
#include <errno.h>
#include <stddef.h>
#include <stdlib.h>

void *__libc_malloc(size_t size);
void *__libc_calloc(size_t count, size_t size);
void *__libc_realloc(void *old, size_t size);
void *__libc_memalign(size_t align, size_t size);

// How many allocations there are up to the one that fails, itself included. 0 is none.
static unsigned long left;

__attribute__((constructor)) static void start(void) {
    const char *number = getenv("FAIL_ALLOC");
    left = number ? strtoul(number, NULL, 10) : 0;
}

static int fails(void) {
    if (left == 0 || --left > 0) {
        return 0;
    }
    errno = ENOMEM;
    return 1;
}

void *malloc(size_t size) { return fails() ? NULL : __libc_malloc(size); }

void *calloc(size_t count, size_t size) { return fails() ? NULL : __libc_calloc(count, size); }

void *realloc(void *old, size_t size) { return fails() ? NULL : __libc_realloc(old, size); }

void *memalign(size_t align, size_t size) { return fails() ? NULL : __libc_memalign(align, size); }

void *aligned_alloc(size_t align, size_t size) { return memalign(align, size); }

int posix_memalign(void **place, size_t align, size_t size) {
    void *made = memalign(align, size);
    if (made == NULL) {
        return ENOMEM;
    }
    *place = made;
    return 0;
}
