/*
 * The three functions that the library wants, for firmware that has no C library. Compile this file with
 * -ffreestanding -fno-builtin, and with GCC also with -fno-tree-loop-distribute-patterns: a compiler may
 * turn a loop that copies or fills into a call of memcpy, memmove or memset, and each of these would then
 * call itself.
 */
#include <stddef.h>

void *memcpy(void *to, const void *from, size_t n) {
    char *t = to;
    const char *f = from;
    while (n-- > 0) *t++ = *f++;
    return to;
}

void *memmove(void *to, const void *from, size_t n) {
    char *t = to;
    const char *f = from;
    if (t < f) {
        while (n-- > 0) *t++ = *f++;
    } else {
        while (n-- > 0) t[n] = f[n];
    }
    return to;
}

void *memset(void *to, int byte, size_t n) {
    char *t = to;
    while (n-- > 0) *t++ = (char)byte;
    return to;
}
