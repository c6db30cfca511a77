/*
 * What call.c wants of a C library beside the memory functions, where there is none: for the kit's compiler
 * alone, and qemu's user mode, which takes Linux's calls from Cortex-M and RISC-V code too.
 */
#include <string.h>
#include <unistd.h>

int main(int argc, char **argv);

#if defined __riscv
enum { READ = 63, WRITE = 64, EXIT = 93 };
__asm__(".globl _start\n_start: mv a0, sp\n call begin\n");
static long call(long number, long a, long b, long c) {
    register long r0 __asm__("a0") = a, r1 __asm__("a1") = b, r2 __asm__("a2") = c, r7 __asm__("a7") = number;
    __asm__ volatile("ecall" : "+r"(r0) : "r"(r1), "r"(r2), "r"(r7) : "memory");
    return r0;
}
#else
enum { READ = 3, WRITE = 4, EXIT = 1 };
__asm__(".thumb_func\n.globl _start\n_start: mov r0, sp\n bl begin\n");
static long call(long number, long a, long b, long c) {
    register long r0 __asm__("r0") = a, r1 __asm__("r1") = b, r2 __asm__("r2") = c, r7 __asm__("r7") = number;
    __asm__ volatile("svc 0" : "+r"(r0) : "r"(r1), "r"(r2), "r"(r7) : "memory");
    return r0;
}
#endif

long read(int file, void *to, size_t n) { return call(READ, file, (long)to, (long)n); }

long write(int file, const void *from, size_t n) { return call(WRITE, file, (long)from, (long)n); }

void _exit(int status) {
    for (;;) call(EXIT, status, 0, 0);
}

/* The number of arguments is at the stack's end, and they follow it. */
void begin(long *end) { _exit(main((int)end[0], (char **)(end + 1))); }

size_t strlen(const char *text) {
    size_t n = 0;
    while (text[n]) n++;
    return n;
}

int strcmp(const char *a, const char *b) {
    while (*a && *a == *b) a++, b++;
    return *a - *b;
}
