/*
 * Every size and offset of include/imjarlet.h, and that the number for no wrong byte has 64 bits, and in a
 * judgement 16, asserted when this is compiled: also for a target on which nothing can be run, by
 *     cc -std=c99 -ffreestanding -fsyntax-only -Iinclude -x c tests/imjarlet/layout.h
 */
#ifndef IMJARLET_LAYOUT_H
#define IMJARLET_LAYOUT_H

#include "imjarlet.h"

/* TYPE(name, size) opens a type, FIELD(type, name, offset) is one of its fields, END() closes it. */
#define LAYOUT(TYPE, FIELD, END)                                                                   \
    TYPE(drive, 2) FIELD(drive, counts, 0) END()                                                   \
    TYPE(microseconds, 4) FIELD(microseconds, microseconds, 0) END()                               \
    TYPE(led_current, 6) FIELD(led_current, red, 0) FIELD(led_current, green, 2)                   \
    FIELD(led_current, blue, 4) END()                                                              \
    TYPE(static_colour, 4) FIELD(static_colour, blue, 0) FIELD(static_colour, green, 1)            \
    FIELD(static_colour, red, 2) FIELD(static_colour, last, 3) END()                               \
    TYPE(display_setting, 4) FIELD(display_setting, long_flip, 0)                                  \
    FIELD(display_setting, short_flip, 1) FIELD(display_setting, rotate, 2) END()                  \
    TYPE(video_input, 12) FIELD(video_input, x, 0) FIELD(video_input, y, 2)                        \
    FIELD(video_input, first_pixel, 4) FIELD(video_input, first_line, 6)                           \
    FIELD(video_input, width, 8) FIELD(video_input, height, 10) END()                              \
    TYPE(video_mode, 4) FIELD(video_mode, rate, 0) FIELD(video_mode, depth, 1)                     \
    FIELD(video_mode, led, 2) END()                                                                \
    TYPE(pattern_sequence, 20) FIELD(pattern_sequence, depth, 0) FIELD(pattern_sequence, count, 1) \
    FIELD(pattern_sequence, inversion, 2) FIELD(pattern_sequence, trigger, 3)                      \
    FIELD(pattern_sequence, delay, 4) FIELD(pattern_sequence, period, 8)                           \
    FIELD(pattern_sequence, exposure, 12) FIELD(pattern_sequence, led, 16) END()                   \
    TYPE(settings, 56) FIELD(settings, mode, 0) FIELD(settings, pattern, 1)                        \
    FIELD(settings, current, 2) FIELD(settings, colour, 8) FIELD(settings, setting, 12)            \
    FIELD(settings, input, 16) FIELD(settings, video, 28) FIELD(settings, sequence, 32)            \
    FIELD(settings, run, 52) END()                                                                 \
    TYPE(registers, 16) FIELD(registers, received, 0) FIELD(registers, held, 4)                    \
    FIELD(registers, active, 6) FIELD(registers, cmd1, 7) FIELD(registers, cmd2, 8)                \
    FIELD(registers, header, 9) FIELD(registers, sum, 15) END()                                    \
    TYPE(controller, 2120) FIELD(controller, settings, 0) FIELD(controller, registers, 56)         \
    FIELD(controller, buffer, 72) FIELD(controller, hold, 1096) END()                              \
    TYPE(kept, 6) FIELD(kept, held, 0) FIELD(kept, mode, 2) FIELD(kept, active, 3)                 \
    FIELD(kept, cmd1, 4) FIELD(kept, cmd2, 5) END()                                                \
    TYPE(ruling, 16) FIELD(ruling, codes, 0) FIELD(ruling, accepts, 2) FIELD(ruling, wrong, 4)     \
    FIELD(ruling, count, 6) FIELD(ruling, cmd1, 8) FIELD(ruling, cmd2, 9)                          \
    FIELD(ruling, kept, 10) END()                                                                  \
    TYPE(judgement, 1040) FIELD(judgement, ruling, 0) FIELD(judgement, joined, 16) END()           \
    TYPE(verdict, 80) FIELD(verdict, place, 0) FIELD(verdict, trial, 8) FIELD(verdict, score, 16)  \
    FIELD(verdict, settings, 24) END()

#define OF(type) imjarlet_##type
#include "../layout/asserts.h"

typedef char size_of_no_wrong_byte[sizeof(IMJARLET_NO_WRONG_BYTE) == 8 ? 1 : -1];
typedef char no_wrong_byte[IMJARLET_NO_WRONG_BYTE == 0xFFFFFFFFFFFFFFFFu ? 1 : -1];
typedef char judged_no_wrong_byte[(uint16_t)IMJARLET_JUDGED_NO_WRONG_BYTE == IMJARLET_JUDGED_NO_WRONG_BYTE ? 1 : -1];

#endif
