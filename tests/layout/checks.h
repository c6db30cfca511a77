/* What the layout tests of both libraries count and compare by. */
#include <stddef.h>
#include <stdint.h>
#include <stdio.h>

static unsigned checks, failures;

static void check(int holds, const char *what) {
    checks++;
    if (!holds) {
        failures++;
        fprintf(stderr, "failed: %s\n", what);
    }
}

/* What is lent to be filled lies between strips of bytes that nothing may touch. */
enum { STRIP = 0xA5, BEFORE = 0xEE };

static int all(const void *bytes, uint8_t byte, size_t n) {
    const uint8_t *b = (const uint8_t *)bytes;
    while (n > 0)
        if (b[--n] != byte) return 0;
    return 1;
}
