/* As stdint.h: what start.c has. */
#ifndef UNISTD_H
#define UNISTD_H

#include <stddef.h>

long read(int file, void *to, size_t n);
long write(int file, const void *from, size_t n);
void _exit(int status) __attribute__((noreturn));

#endif
