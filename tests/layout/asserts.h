/*
 * Asserts a LAYOUT when it is compiled, OF(type) being a type of it: each size and each offset, and that
 * a type has no padding, by its size equal to the sum of its fields' sizes, which with the offsets also
 * fixes how wide each field is. Lengths have 64 bits.
 */
#include <stddef.h>

#define NOTHING()

#define SIZE_HOLDS(type, n) typedef char size_of_##type[sizeof(OF(type)) == (n) ? 1 : -1];
#define OFFSET_HOLDS(type, field, n) \
    typedef char offset_of_##type##_##field[offsetof(OF(type), field) == (n) ? 1 : -1];
LAYOUT(SIZE_HOLDS, OFFSET_HOLDS, NOTHING)

#define FILLED(type, n) typedef char filled_##type[sizeof(OF(type)) == 0
#define BY(type, field, n) +sizeof(((OF(type) *)0)->field)
#define ALONE() ? 1 : -1];
LAYOUT(FILLED, BY, ALONE)

typedef char size_of_size[sizeof(OF(size)) == 8 ? 1 : -1];
