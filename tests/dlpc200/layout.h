/*
 * Every size and offset of include/dlpc200.h, asserted when this is compiled: also for a target on
 * which nothing can be run, by
 *     cc -std=c99 -ffreestanding -fsyntax-only -Iinclude -x c tests/dlpc200/layout.h
 */
#ifndef DLPC200_LAYOUT_H
#define DLPC200_LAYOUT_H

#include "dlpc200.h"

/* TYPE(name, size) opens a type, FIELD(type, name, offset) is one of its fields, END() closes it. */
#define LAYOUT(TYPE, FIELD, END)                                                                     \
    TYPE(states, 5) FIELD(states, park, 0) FIELD(states, sequence, 1) FIELD(states, eeprom, 2)       \
    FIELD(states, flash, 3) FIELD(states, lit, 4) END()                                              \
    TYPE(device, 20) FIELD(device, received, 0) FIELD(device, header, 4) FIELD(device, hold, 10)     \
    FIELD(device, sum, 14) FIELD(device, states, 15) END()

#define OF(type) dlpc200_##type
#include "../layout/asserts.h"

#endif
