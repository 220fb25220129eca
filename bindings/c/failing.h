/* A malloc and a realloc of which one call fails, with glibc: all calls of the process come here, the library's too. */
#include <stddef.h>

/* The calls that are left until one fails; none does while this is below 0. */
static long left = -1;

void *__libc_malloc(size_t size);
void *__libc_realloc(void *block, size_t size);

void *malloc(size_t size) {
    return left >= 0 && left-- == 0 ? NULL : __libc_malloc(size);
}

void *realloc(void *block, size_t size) {
    return left >= 0 && left-- == 0 ? NULL : __libc_realloc(block, size);
}
