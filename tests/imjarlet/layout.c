/*
 * Every size, offset and constant of include/imjarlet.h, against the library. Sizes and offsets are
 * asserted when this is compiled (layout.h), and printed, as layout.rs prints those of the Rust view.
 * The run then drives the library: what it stores is found in the named fields and nowhere else, what
 * is stored in a named field is what it reads, and each constant is drawn from it. No type has
 * padding, so two are compared by all their bytes.
 */
#include <inttypes.h>
#include <stdio.h>
#include <string.h>

#include "../layout/checks.h"
#include "layout.h"

#define PRINT_SIZE(type, n) printf("%s %zu\n", #type, sizeof(imjarlet_##type));
#define PRINT_OFFSET(type, field, n) printf("%s.%s %zu\n", #type, #field, offsetof(imjarlet_##type, field));

typedef imjarlet_controller controller;
typedef imjarlet_settings settings;

static struct {
    uint8_t before[64];
    controller c;
    uint8_t between[64];
    imjarlet_verdict v;
    uint8_t beside[64];
    imjarlet_judgement j;
    uint8_t after[64];
} box;

static struct {
    imjarlet_size before, taken, between, size, beside, wrong, after;
} numbers;

static uint8_t out[64];
static uint8_t packet[70000];
static uint8_t report[70000];

static int strips_untouched(void) {
    return all(box.before, STRIP, sizeof box.before) && all(box.between, STRIP, sizeof box.between) &&
           all(box.beside, STRIP, sizeof box.beside) && all(box.after, STRIP, sizeof box.after);
}

static int same_settings(const settings *a, const settings *b) {
    return memcmp(a, b, sizeof *a) == 0;
}

static int same_controller(const controller *a, const controller *b) {
    return memcmp(a, b, sizeof *a) == 0;
}

/* The factory values, written out from document 01, field by field. */
static settings factory(void) {
    settings s;
    memset(&s, BEFORE, sizeof s);
    s.mode = s.pattern = 0;
    s.current.red.counts = s.current.green.counts = s.current.blue.counts = 274;
    s.colour.blue = s.colour.green = s.colour.red = s.colour.last = 0;
    s.setting.long_flip = 0;
    s.setting.short_flip = 1;
    s.setting.rotate = 0;
    s.input.x = s.input.width = 608;
    s.input.y = s.input.height = 684;
    s.input.first_pixel = s.input.first_line = 0;
    s.video.rate = 60;
    s.video.depth = 8;
    s.video.led = 1;
    s.sequence.depth = s.sequence.count = 1;
    s.sequence.inversion = s.sequence.trigger = 0;
    s.sequence.delay.microseconds = s.sequence.period.microseconds = s.sequence.exposure.microseconds = 0;
    s.sequence.led = 0;
    s.run = 0;
    return s;
}

static int is_fresh(const controller *c) {
    controller f;
    memset(&f, BEFORE, sizeof f);
    f.settings = factory();
    f.registers.received = 0;
    f.registers.held = 0;
    f.registers.active = f.registers.cmd1 = f.registers.cmd2 = f.registers.sum = 0;
    memset(f.registers.header, 0, sizeof f.registers.header);
    memset(f.buffer, 0, sizeof f.buffer);
    memset(f.hold, 0, sizeof f.hold);
    return same_controller(c, &f);
}

/* Whether a verdict is these numbers and settings, and nothing else. */
static int is_verdict(const imjarlet_verdict *v, imjarlet_size place, imjarlet_size trial, imjarlet_size score,
                      const settings *s) {
    imjarlet_verdict w;
    memset(&w, BEFORE, sizeof w);
    w.place = place;
    w.trial = trial;
    w.score = score;
    w.settings = *s;
    return memcmp(v, &w, sizeof w) == 0;
}

/* The calls, with the numbers that they fill set to EE before. */
typedef struct {
    uint32_t refusal;
    imjarlet_size taken, size, wrong;
} answer;

static answer filled(uint32_t refusal) {
    answer a;
    check(all(&numbers.before, BEFORE, 8) && all(&numbers.between, BEFORE, 8) && all(&numbers.beside, BEFORE, 8) &&
              all(&numbers.after, BEFORE, 8),
          "nothing beside a number is touched");
    a.refusal = refusal;
    a.taken = numbers.taken;
    a.size = numbers.size;
    a.wrong = numbers.wrong;
    return a;
}

static answer receive(const uint8_t *input, imjarlet_size n, uint8_t *output, imjarlet_size m) {
    memset(&numbers, BEFORE, sizeof numbers);
    return filled(imjarlet_receive(&box.c, input, n, output, m, &numbers.taken, &numbers.size, &numbers.wrong));
}

static answer encode(uint8_t cmd1, uint8_t cmd2, const settings *s, uint8_t *output, imjarlet_size m) {
    memset(&numbers, BEFORE, sizeof numbers);
    return filled(imjarlet_encode(cmd1, cmd2, s, output, m, &numbers.size));
}

static answer standard_list(const settings *s, uint8_t *output, imjarlet_size m) {
    memset(&numbers, BEFORE, sizeof numbers);
    return filled(imjarlet_standard_list(s, output, m, &numbers.size));
}

/* Judging the packet in `packet`: the controller stays, and with a refusal the judgement too. */
static uint32_t judge(imjarlet_size n) {
    controller was = box.c;
    uint32_t refusal;
    memset(&box.j, BEFORE, sizeof box.j);
    refusal = imjarlet_judge(&box.c, packet, n, &box.j);
    check(same_controller(&box.c, &was) && strips_untouched(), "judging touches nothing but the judgement");
    check(refusal == IMJARLET_NO_REFUSAL || all(&box.j, BEFORE, sizeof box.j),
          "a refused judging leaves the judgement");
    return refusal;
}

/* Carrying out the judgement in the box, which stays. The half-received packet stays too. */
static answer carry_out(uint8_t *output, imjarlet_size m) {
    controller was = box.c;
    imjarlet_judgement j = box.j;
    answer a;
    memset(&numbers, BEFORE, sizeof numbers);
    a = filled(imjarlet_carry_out(&box.c, &box.j, output, m, &numbers.size));
    check(memcmp(&box.j, &j, sizeof j) == 0 && strips_untouched(), "carrying out leaves the judgement");
    check(box.c.registers.received == was.registers.received && box.c.registers.sum == was.registers.sum &&
              memcmp(box.c.registers.header, was.registers.header, 6) == 0 &&
              memcmp(box.c.hold, was.hold, sizeof was.hold) == 0,
          "carrying out leaves the half-received packet");
    check(a.refusal == IMJARLET_NO_REFUSAL || same_controller(&box.c, &was), "a refused carrying out leaves the head");
    return a;
}

static void reset(void) {
    check(imjarlet_reset(&box.c) == 0, "a reset returns 0");
}

/* An answer without a refusal; a response has at least 7 bytes. No byte is named. */
static int waits(answer a, imjarlet_size taken) {
    return a.refusal == IMJARLET_NO_REFUSAL && a.taken == taken && a.size == 0 && a.wrong == IMJARLET_NO_WRONG_BYTE;
}

static int answers(answer a, imjarlet_size taken, imjarlet_size n) {
    return a.refusal == IMJARLET_NO_REFUSAL && a.taken == taken && a.size == n && a.wrong == IMJARLET_NO_WRONG_BYTE;
}

/* An error packet with code 03 alone, and this byte beside it. */
static int names(answer a, imjarlet_size taken, imjarlet_size byte) {
    return a.refusal == IMJARLET_NO_REFUSAL && a.taken == taken && a.size == 8 && out[0] == IMJARLET_ERROR &&
           out[6] == IMJARLET_CODE_VALUE && a.wrong == byte;
}

static int refuses(answer a, uint32_t refusal) {
    return a.refusal == refusal && a.taken == 0 && a.size == 0 && a.wrong == IMJARLET_NO_WRONG_BYTE;
}

/* The encoder and the list have one number. */
static int emits(answer a, uint32_t refusal, imjarlet_size n) {
    return a.refusal == refusal && a.size == n && all(&a.taken, BEFORE, sizeof a.taken) &&
           all(&a.wrong, BEFORE, sizeof a.wrong);
}

/* Puts a packet in `packet` and answers its length. */
static size_t make(uint8_t type, uint8_t cmd1, uint8_t cmd2, uint8_t flags, const void *data, size_t n) {
    size_t i;
    packet[0] = type;
    packet[1] = cmd1;
    packet[2] = cmd2;
    packet[3] = flags;
    packet[4] = (uint8_t)n;
    packet[5] = (uint8_t)(n >> 8);
    if (n > 0) memcpy(packet + 6, data, n);
    packet[6 + n] = 0;
    for (i = 0; i < 6 + n; i++) packet[6 + n] = (uint8_t)(packet[6 + n] + packet[i]);
    return 7 + n;
}

static answer send(uint8_t type, uint8_t cmd1, uint8_t cmd2, uint8_t flags, const void *data, size_t n) {
    size_t length = make(type, cmd1, cmd2, flags, data, n);
    return receive(packet, length, out, sizeof out);
}

/* The packet draws an error packet with this code and no other, and no byte is named. */
static int draws(uint8_t code, uint8_t type, uint8_t cmd1, uint8_t cmd2, uint8_t flags, const void *data, size_t n) {
    return answers(send(type, cmd1, cmd2, flags, data, n), 7 + n, 8) && out[0] == IMJARLET_ERROR &&
           out[1] == cmd1 && out[2] == cmd2 && out[6] == code;
}

static void fresh(void) {
    static const uint8_t stood[3] = {BEFORE, 0x00, 0xFF};
    int k;
    for (k = 0; k < 3; k++) {
        memset(&box, STRIP, sizeof box);
        memset(&box.c, stood[k], sizeof box.c);
        reset();
        check(is_fresh(&box.c) && strips_untouched(), "a reset makes a fresh head and touches nothing else");
    }
}

/* Each command: the write stores its values in its own fields, and the encoder and a read find them there. */
static const struct {
    uint8_t cmd1, cmd2, size, data[17];
} writes[9] = {
    {0x01, 0x01, 1, {4}},
    {0x01, 0x03, 1, {13}},
    {0x01, 0x04, 6, {0x01, 0x00, 0x02, 0x01, 0xFF, 0x03}},
    {0x01, 0x06, 4, {0x11, 0x22, 0x33, 0x00}},
    {0x01, 0x07, 3, {1, 0, 1}},
    {0x02, 0x00, 12, {240, 0, 0x40, 0x01, 0x02, 0x01, 0x04, 0x03, 0x06, 0x05, 0x08, 0x07}},
    {0x02, 0x01, 3, {15, 3, 2}},
    {0x04, 0x00, 17, {1, 96, 2, 6, 1, 2, 3, 4, 5, 6, 7, 8, 9, 10, 11, 12, 2}},
    {0x04, 0x02, 1, {1}},
};

static void set(settings *s, int k) {
    switch (k) {
    case 0: s->mode = 4; break;
    case 1: s->pattern = 13; break;
    case 2:
        s->current.red.counts = 1;
        s->current.green.counts = 0x0102;
        s->current.blue.counts = 0x03FF;
        break;
    case 3:
        s->colour.blue = 0x11;
        s->colour.green = 0x22;
        s->colour.red = 0x33;
        s->colour.last = 0;
        break;
    case 4:
        s->setting.long_flip = 1;
        s->setting.short_flip = 0;
        s->setting.rotate = 1;
        break;
    case 5:
        s->input.x = 240;
        s->input.y = 320;
        s->input.first_pixel = 0x0102;
        s->input.first_line = 0x0304;
        s->input.width = 0x0506;
        s->input.height = 0x0708;
        break;
    case 6:
        s->video.rate = 15;
        s->video.depth = 3;
        s->video.led = 2;
        break;
    case 7:
        s->sequence.depth = 1;
        s->sequence.count = 96;
        s->sequence.inversion = 2;
        s->sequence.trigger = 6;
        s->sequence.delay.microseconds = 0x04030201;
        s->sequence.period.microseconds = 0x08070605;
        s->sequence.exposure.microseconds = 0x0C0B0A09;
        s->sequence.led = 2;
        break;
    case 8: s->run = 1; break;
    }
}

static void every_setting(void) {
    settings expected = factory();
    answer a;
    uint8_t list[200], joined[200];
    size_t at = 0, i;
    int k;
    reset();
    for (k = 0; k < 9; k++) {
        uint8_t c1 = writes[k].cmd1, c2 = writes[k].cmd2;
        size_t n = writes[k].size;
        set(&expected, k);
        a = send(IMJARLET_HOST_WRITE, c1, c2, IMJARLET_WHOLE, writes[k].data, n);
        check(answers(a, 7 + n, 7), "the answer to a write");
        check(out[0] == IMJARLET_WRITE_RESPONSE && out[1] == c1 && out[2] == c2 && out[3] == IMJARLET_WHOLE,
              "a write response");
        check(same_settings(&box.c.settings, &expected), "a write stores its values in its own fields alone");
        memset(out, 0xA5, sizeof out);
        a = encode(c1, c2, &expected, out, sizeof out);
        check(emits(a, IMJARLET_NO_REFUSAL, 7 + n) && memcmp(out, packet, 7 + n) == 0 && out[7 + n] == 0xA5,
              "the encoder finds the values in the fields");
        memcpy(joined + at, packet, 7 + n);
        at += 7 + n;
        if (k == 3) {
            check(draws(IMJARLET_CODE_COMMAND, IMJARLET_HOST_READ, c1, c2, IMJARLET_WHOLE, NULL, 0), "01 06 is not read");
            continue;
        }
        a = send(IMJARLET_HOST_READ, c1, c2, IMJARLET_WHOLE, NULL, 0);
        check(answers(a, 7, 7 + n) && out[0] == IMJARLET_READ_RESPONSE && memcmp(out + 6, writes[k].data, n) == 0,
              "a read finds the values in the fields");
    }
    memset(list, 0xA5, sizeof list);
    a = standard_list(&expected, list, sizeof list);
    check(emits(a, IMJARLET_NO_REFUSAL, IMJARLET_LIST_LENGTH) && at == IMJARLET_LIST_LENGTH &&
              memcmp(list, joined, at) == 0 && list[at] == 0xA5,
          "the standard list is the nine writes");
    reset();
    for (i = 0; i < at; i += a.taken) {
        a = receive(list + i, at - i, out, sizeof out);
        if (a.size == 0) break;
    }
    check(i == at && same_settings(&box.c.settings, &expected), "the standard list plays back");
}

/* A value that the field may not have draws refusal 3, and the controller stays. */
#define OUT_OF_RULE(field, bad)                                                     \
    do {                                                                            \
        controller was;                                                             \
        reset();                                                                    \
        box.c.field = (bad);                                                        \
        was = box.c;                                                                \
        check(refuses(receive(packet, 1, out, sizeof out), IMJARLET_OUT_OF_RULE) && \
                  same_controller(&box.c, &was),                                    \
              #field " out of rule");                                               \
    } while (0)

/* A wider field: all of it is looked at, and not only the byte that its allowed values have. */
#define WIDE(field, allowed, bits, cmd1, cmd2)                                                     \
    do {                                                                                           \
        int bit;                                                                                   \
        settings wide = factory();                                                                 \
        for (bit = 8; bit < (bits); bit++) {                                                       \
            OUT_OF_RULE(settings.field, (allowed) | 1u << bit);                                    \
            wide.field = (allowed) | 1u << bit;                                                    \
            check(emits(encode(cmd1, cmd2, &wide, out, sizeof out), IMJARLET_NOT_ALLOWED, 0) &&    \
                      emits(standard_list(&wide, packet, sizeof packet), IMJARLET_OUT_OF_RULE, 0), \
                  #field " over 255");                                                             \
        }                                                                                          \
    } while (0)

static void out_of_rule(void) {
    settings s = factory();
    OUT_OF_RULE(settings.mode, 3);
    OUT_OF_RULE(settings.pattern, 14);
    OUT_OF_RULE(settings.current.red.counts, 1025);
    OUT_OF_RULE(settings.current.green.counts, 1025);
    OUT_OF_RULE(settings.current.blue.counts, 1025);
    OUT_OF_RULE(settings.colour.last, 1);
    OUT_OF_RULE(settings.setting.long_flip, 2);
    OUT_OF_RULE(settings.setting.short_flip, 2);
    OUT_OF_RULE(settings.setting.rotate, 2);
    OUT_OF_RULE(settings.input.x, 1);
    OUT_OF_RULE(settings.input.y, 1);
    OUT_OF_RULE(settings.video.rate, 0);
    OUT_OF_RULE(settings.video.depth, 0);
    OUT_OF_RULE(settings.video.led, 0);
    OUT_OF_RULE(settings.sequence.depth, 0);
    OUT_OF_RULE(settings.sequence.count, 0);
    OUT_OF_RULE(settings.sequence.inversion, 3);
    OUT_OF_RULE(settings.sequence.trigger, 7);
    OUT_OF_RULE(settings.sequence.led, 3);
    OUT_OF_RULE(settings.run, 1);
    OUT_OF_RULE(registers.held, IMJARLET_HOLD + 1);
    OUT_OF_RULE(registers.active, 1);
    OUT_OF_RULE(registers.received, 7);
    OUT_OF_RULE(registers.received, 0x10000);
    WIDE(setting.rotate, 0, 16, 0x01, 0x07);
    WIDE(video.led, 1, 16, 0x02, 0x01);
    WIDE(sequence.led, 0, 32, 0x04, 0x00);
    WIDE(run, 0, 32, 0x04, 0x02);
    s.mode = 3;
    check(emits(standard_list(&s, packet, sizeof packet), IMJARLET_OUT_OF_RULE, 0), "a list of settings out of rule");
    check(emits(encode(0x01, 0x01, &s, out, sizeof out), IMJARLET_NOT_ALLOWED, 0),
          "the encoder of a value that is not allowed");
    check(emits(encode(0x01, 0x03, &s, out, sizeof out), IMJARLET_NO_REFUSAL, 8),
          "the encoder looks at its own part alone");
    check(emits(encode(0x01, 0x02, &s, out, sizeof out), IMJARLET_NOT_ALLOWED, 0),
          "the encoder of a command that is not in the table");
}

/* The transfer and the packet that is coming in: what the library stores there, and what it reads. */
static const uint8_t six[6] = {1, 0, 2, 1, 0xFF, 3};

static void stored(void) {
    imjarlet_registers *at = &box.c.registers;
    answer a;
    size_t n;
    uint8_t sum;
    reset();
    a = send(IMJARLET_HOST_WRITE, 0x01, 0x04, IMJARLET_BEGINNING, six, 3);
    check(answers(a, 10, 7) && out[0] == IMJARLET_WRITE_RESPONSE && at->active == 1 && at->cmd1 == 0x01 &&
              at->cmd2 == 0x04 && at->held == 3,
          "a beginning opens a transfer");
    check(memcmp(at->header, packet, 6) == 0 && at->sum == 0 && at->received == 0 && memcmp(box.c.hold, six, 3) == 0,
          "its header and its payload are there");
    check(memcmp(box.c.buffer, six, 3) == 0 && box.c.buffer[3] == 0, "its payload is held");
    n = make(IMJARLET_HOST_WRITE, 0x01, 0x04, IMJARLET_INTERMEDIATE, six + 3, 2);
    sum = (uint8_t)(packet[0] + packet[1] + packet[2] + packet[3] + packet[4]);
    check(waits(receive(packet, 5, out, sizeof out), 5) && at->received == 5 && at->sum == sum,
          "half a packet is waited for");
    check(waits(receive(packet + 5, 3, out, sizeof out), 3) && memcmp(box.c.hold, six + 3, 2) == 0 &&
              memcmp(box.c.buffer, six, 3) == 0 && box.c.buffer[3] == 0,
          "a payload that is coming in leaves the held bytes");
    check(answers(receive(packet + 8, n - 8, out, sizeof out), n - 8, 7) && out[0] == IMJARLET_WRITE_RESPONSE &&
              at->held == 5 && memcmp(box.c.buffer, six, 5) == 0 && box.c.buffer[5] == 0,
          "an intermediate packet adds to the transfer");
    a = send(IMJARLET_HOST_WRITE, 0x01, 0x04, IMJARLET_LAST, six + 5, 1);
    check(answers(a, 8, 7) && out[0] == IMJARLET_WRITE_RESPONSE && at->active == 0 &&
              box.c.settings.current.blue.counts == 0x03FF && box.c.buffer[5] == 0,
          "the last packet carries the transfer out");
}

static void read_where_written(void) {
    imjarlet_registers *at = &box.c.registers;
    controller was;
    size_t n;
    /* a transfer that this program wrote */
    reset();
    at->active = 1;
    at->cmd1 = 0x01;
    at->cmd2 = 0x04;
    at->held = 5;
    memcpy(box.c.buffer, six, 5);
    send(IMJARLET_HOST_WRITE, 0x01, 0x04, IMJARLET_LAST, six + 5, 1);
    check(out[0] == IMJARLET_WRITE_RESPONSE && box.c.settings.current.red.counts == 1 &&
              box.c.settings.current.green.counts == 0x0102 && box.c.settings.current.blue.counts == 0x03FF,
          "a transfer lies where the header file says");

    /* a half-received packet that this program wrote: 01 01 with mode 2, one byte missing */
    reset();
    n = make(IMJARLET_HOST_WRITE, 0x01, 0x01, IMJARLET_WHOLE, "\2", 1);
    memcpy(at->header, packet, 6);
    at->received = (uint32_t)(n - 1);
    at->sum = packet[n - 1];
    box.c.hold[0] = 2;
    check(answers(receive(packet + n - 1, 1, out, sizeof out), 1, 7) && out[0] == IMJARLET_WRITE_RESPONSE &&
              box.c.settings.mode == 2,
          "a packet lies where the header file says");

    /* a sum that this program wrote where nothing is half received */
    reset();
    at->sum = 0x77;
    was = box.c;
    check(waits(receive(packet, 0, out, sizeof out), 0) && same_controller(&box.c, &was),
          "no bytes leave the controller as it was");
    check(answers(receive(packet, n, out, sizeof out), n, 7) && out[0] == IMJARLET_WRITE_RESPONSE &&
              box.c.settings.mode == 2 && at->sum == 0,
          "the sum begins anew with a packet's first byte");
}

/* The end of both arrays, and of the controller. */
static void full_arrays(void) {
    static uint8_t full[IMJARLET_HOLD + 1];
    memset(full, 0x5A, sizeof full);
    reset();
    send(IMJARLET_HOST_WRITE, 0x01, 0x04, IMJARLET_BEGINNING, full, IMJARLET_HOLD);
    check(out[0] == IMJARLET_WRITE_RESPONSE && box.c.registers.held == IMJARLET_HOLD &&
              memcmp(box.c.buffer, full, IMJARLET_HOLD) == 0 && memcmp(box.c.hold, full, IMJARLET_HOLD) == 0 &&
              strips_untouched(),
          "each array has 1,024 bytes");
    reset();
    check(draws(IMJARLET_CODE_LENGTH, IMJARLET_HOST_WRITE, 0x01, 0x04, IMJARLET_BEGINNING, full, IMJARLET_HOLD + 1) &&
              strips_untouched(),
          "code 04");
}

/* The longest packet: more bytes have come in than 16 bits count. */
static void longest(void) {
    static uint8_t payload[65535];
    size_t n = make(IMJARLET_HOST_WRITE, 0x01, 0x04, IMJARLET_WHOLE, payload, sizeof payload);
    reset();
    check(waits(receive(packet, n - 1, out, sizeof out), n - 1) && box.c.registers.received == 65541,
          "65,541 bytes have come in");
    check(answers(receive(packet + n - 1, 1, out, sizeof out), 1, 8) && out[6] == IMJARLET_CODE_LENGTH,
          "a payload of 65,535 bytes");
}

static void codes_and_lengths(void) {
    static uint8_t long_out[IMJARLET_LIST_OUTPUT_LEAST];
    settings s = factory();
    reset();
    check(draws(IMJARLET_CODE_COMMAND, IMJARLET_HOST_WRITE, 0x09, 0x09, IMJARLET_WHOLE, NULL, 0), "code 02");
    check(names(send(IMJARLET_HOST_WRITE, 0x01, 0x01, IMJARLET_WHOLE, "\3", 1), 8, 0), "code 03");
    check(draws(IMJARLET_CODE_MODE, IMJARLET_HOST_WRITE, 0x04, 0x02, IMJARLET_WHOLE, "\1", 1), "code 07");
    check(draws(IMJARLET_CODE_SIZE, IMJARLET_HOST_WRITE, 0x01, 0x01, IMJARLET_WHOLE, "\1\1", 2), "code 0A");
    check(draws(IMJARLET_CODE_ORDER, IMJARLET_HOST_WRITE, 0x01, 0x01, IMJARLET_LAST, "\1", 1), "code 0B");
    make(IMJARLET_HOST_WRITE, 0x01, 0x01, IMJARLET_WHOLE, "\1", 1);
    packet[7]++;
    check(answers(receive(packet, 8, out, sizeof out), 8, 8) && out[0] == IMJARLET_ERROR &&
              out[6] == IMJARLET_CODE_CHECKSUM,
          "code 09");
    check(refuses(receive(packet, 8, out, IMJARLET_OUTPUT_LEAST - 1), IMJARLET_SHORT_OUTPUT), "an output of 63 bytes");
    check(answers(receive(packet, 8, out, IMJARLET_OUTPUT_LEAST), 8, 8), "an output of 64 bytes");
    check(waits(receive(NULL, 0, out, sizeof out), 0), "no input");
    check(refuses(receive(NULL, 0, NULL, 0), IMJARLET_SHORT_OUTPUT), "no output");
    check(emits(encode(1, 1, &s, out, IMJARLET_OUTPUT_LEAST - 1), IMJARLET_SHORT_OUTPUT, 0), "encode: 63 bytes");
    check(emits(encode(1, 2, &s, out, IMJARLET_OUTPUT_LEAST - 1), IMJARLET_SHORT_OUTPUT, 0), "encode: 1 before 2");
    check(emits(encode(1, 1, &s, out, IMJARLET_OUTPUT_LEAST), IMJARLET_NO_REFUSAL, 8), "encode: 64 bytes");
    check(emits(standard_list(&s, long_out, IMJARLET_LIST_OUTPUT_LEAST - 1), IMJARLET_SHORT_OUTPUT, 0),
          "list: 127 bytes");
    check(emits(standard_list(&s, long_out, IMJARLET_LIST_OUTPUT_LEAST), IMJARLET_NO_REFUSAL, IMJARLET_LIST_LENGTH),
          "list: 128 bytes");
    s.run = 1;
    check(emits(standard_list(&s, long_out, IMJARLET_LIST_OUTPUT_LEAST - 1), IMJARLET_SHORT_OUTPUT, 0),
          "list: 1 before 3");
}

/* Data that are not allowed, and the byte that names the field: the first of the first one, in layout order. */
static const struct {
    uint8_t cmd1, cmd2, size, data[17], byte;
} bad[] = {
    {0x01, 0x01, 1, {3}, 0},
    {0x01, 0x03, 1, {14}, 0},
    {0x01, 0x04, 6, {0x01, 0x04, 0x00, 0x04, 0x00, 0x04}, 0},
    {0x01, 0x04, 6, {0x00, 0x04, 0x01, 0x04, 0x00, 0x04}, 2},
    {0x01, 0x04, 6, {0x00, 0x04, 0x00, 0x04, 0x01, 0x04}, 4},
    {0x01, 0x04, 6, {0x00, 0x04, 0xFF, 0xFF, 0xFF, 0xFF}, 2},
    {0x01, 0x06, 4, {0xFF, 0xFF, 0xFF, 1}, 3},
    {0x01, 0x07, 3, {2, 1, 1}, 0},
    {0x01, 0x07, 3, {1, 2, 2}, 1},
    {0x01, 0x07, 3, {1, 1, 2}, 2},
    {0x02, 0x00, 12, {240, 0, 0xE0, 0x01}, 2}, /* 240 and 480 are both in the list */
    {0x02, 0x00, 12, {1, 0, 0x40, 0x01}, 2},   /* X is in no pair */
    {0x02, 0x00, 12, {0}, 2},
    {0x02, 0x01, 3, {16, 9, 5}, 0},
    {0x02, 0x01, 3, {60, 0, 0}, 1},
    {0x02, 0x01, 3, {60, 8, 5}, 2},
    {0x04, 0x00, 17, {0, 97, 3, 7, 0, 0, 0, 0, 0, 0, 0, 0, 0, 0, 0, 0, 3}, 0},
    {0x04, 0x00, 17, {9, 1}, 0},
    {0x04, 0x00, 17, {1, 0, 3}, 1},
    {0x04, 0x00, 17, {4, 25, 1, 6}, 1}, /* 24 at depth 4 */
    {0x04, 0x00, 17, {1, 96, 3, 7}, 2},
    {0x04, 0x00, 17, {2, 48, 1, 6}, 2}, /* inverted only at depth 1 */
    {0x04, 0x00, 17, {8, 12, 0, 6}, 3}, /* trigger 6 only at depth 1 */
    {0x04, 0x00, 17, {1, 96, 2, 7, 0, 0, 0, 0, 0, 0, 0, 0, 0, 0, 0, 0, 3}, 3},
    {0x04, 0x00, 17, {1, 96, 2, 6, 255, 255, 255, 255, 255, 255, 255, 255, 255, 255, 255, 255, 3}, 16},
    {0x04, 0x02, 1, {2}, 0},
};

/* Each whole, in a transfer that is cut at each place, and with a fault that comes before the values. */
static void wrong_bytes(void) {
    settings before = factory();
    uint8_t more[18];
    size_t k, cut;
    reset();
    for (k = 0; k < sizeof bad / sizeof bad[0]; k++) {
        const uint8_t c1 = bad[k].cmd1, c2 = bad[k].cmd2, *data = bad[k].data;
        size_t n = bad[k].size;
        check(names(send(IMJARLET_HOST_WRITE, c1, c2, IMJARLET_WHOLE, data, n), 7 + n, bad[k].byte), "the wrong byte");
        for (cut = 0; cut <= n; cut++) {
            check(answers(send(IMJARLET_HOST_WRITE, c1, c2, IMJARLET_BEGINNING, data, cut), 7 + cut, 7) &&
                      answers(send(IMJARLET_HOST_WRITE, c1, c2, IMJARLET_INTERMEDIATE, NULL, 0), 7, 7) &&
                      names(send(IMJARLET_HOST_WRITE, c1, c2, IMJARLET_LAST, data + cut, n - cut), 7 + n - cut,
                            bad[k].byte),
                  "the wrong byte of the joined data");
        }
        memset(more, 0, sizeof more);
        memcpy(more, data, n);
        check(draws(IMJARLET_CODE_SIZE, IMJARLET_HOST_WRITE, c1, c2, IMJARLET_WHOLE, more, n + 1), "no byte with 0A");
        check(draws(IMJARLET_CODE_ORDER, IMJARLET_HOST_WRITE, c1, c2, IMJARLET_LAST, data, n), "no byte with 0B");
        make(IMJARLET_HOST_WRITE, c1, c2, IMJARLET_WHOLE, data, n);
        packet[6 + n]++;
        check(answers(receive(packet, 7 + n, out, sizeof out), 7 + n, 8) && out[6] == IMJARLET_CODE_CHECKSUM,
              "no byte with 09");
        packet[6 + n]--;
        check(waits(receive(packet, 6 + n, out, sizeof out), 6 + n), "no byte before the packet is complete");
        check(names(receive(packet + 6 + n, 1, out, sizeof out), 1, bad[k].byte), "the wrong byte with the last byte");
        check(same_settings(&box.c.settings, &before), "a value that is not allowed is not stored");
    }
    check(draws(IMJARLET_CODE_MODE, IMJARLET_HOST_WRITE, 0x04, 0x02, IMJARLET_WHOLE, "\1", 1), "no byte with 07");
}

/* Whether a ruling is this, and nothing else; the kept items are those of the controller. */
static int rules(unsigned codes, uint16_t accepts, uint16_t wrong, uint16_t count, uint8_t cmd1, uint8_t cmd2) {
    imjarlet_ruling r;
    memset(&r, BEFORE, sizeof r);
    r.codes = (uint16_t)codes;
    r.accepts = accepts;
    r.wrong = wrong;
    r.count = count;
    r.cmd1 = cmd1;
    r.cmd2 = cmd2;
    r.kept.held = box.c.registers.held;
    r.kept.mode = box.c.settings.mode;
    r.kept.active = box.c.registers.active;
    r.kept.cmd1 = box.c.registers.cmd1;
    r.kept.cmd2 = box.c.registers.cmd2;
    return memcmp(&box.j.ruling, &r, sizeof r) == 0;
}

/* The joined data are these bytes, and the array behind them is as it was. */
static int joins(const void *data, size_t n) {
    return (n == 0 || memcmp(box.j.joined, data, n) == 0) && all(box.j.joined + n, BEFORE, IMJARLET_HOLD - n);
}

/* Asks for a packet. */
static uint32_t ask(uint8_t type, uint8_t cmd1, uint8_t cmd2, uint8_t flags, const void *data, size_t n) {
    return judge(make(type, cmd1, cmd2, flags, data, n));
}

/* Asking first, and carrying out: with a packet half received, which has no say in either. */
static void asked_first(void) {
    static uint8_t full[IMJARLET_HOLD + 1];
    const uint16_t none = IMJARLET_JUDGED_NO_WRONG_BYTE;
    imjarlet_registers *at = &box.c.registers;
    controller was;
    answer a;
    size_t n;
    int k;

    /* each command, as a write and as a read */
    reset();
    make(IMJARLET_HOST_WRITE, 0x01, 0x04, IMJARLET_WHOLE, six, 6);
    check(waits(receive(packet, 9, out, sizeof out), 9), "half a packet");
    for (k = 0; k < 9; k++) {
        uint8_t c1 = writes[k].cmd1, c2 = writes[k].cmd2;
        settings expected = box.c.settings;
        n = writes[k].size;
        set(&expected, k);
        check(ask(IMJARLET_HOST_WRITE, c1, c2, IMJARLET_WHOLE, writes[k].data, n) == IMJARLET_NO_REFUSAL &&
                  rules(0, IMJARLET_ACCEPTS_WRITE, none, (uint16_t)n, c1, c2) && joins(writes[k].data, n),
              "a write is accepted");
        memset(out, 0xA5, sizeof out);
        check(emits(carry_out(out, sizeof out), IMJARLET_NO_REFUSAL, 7) && out[0] == IMJARLET_WRITE_RESPONSE &&
                  out[1] == c1 && out[2] == c2 && out[7] == 0xA5 && same_settings(&box.c.settings, &expected),
              "a write is carried out");
        ask(IMJARLET_HOST_READ, c1, c2, IMJARLET_WHOLE, NULL, 0);
        if (k == 3) {
            check(rules(IMJARLET_CODE_BIT(IMJARLET_CODE_COMMAND), IMJARLET_ACCEPTS_NOTHING, none, 0, c1, c2) &&
                      joins(NULL, 0),
                  "01 06 is not read");
            continue;
        }
        check(rules(0, IMJARLET_ACCEPTS_READ, none, 0, c1, c2) && joins(NULL, 0), "a read is accepted");
        a = carry_out(out, sizeof out);
        check(emits(a, IMJARLET_NO_REFUSAL, 7 + n) && out[0] == IMJARLET_READ_RESPONSE &&
                  memcmp(out + 6, writes[k].data, n) == 0 && same_settings(&box.c.settings, &expected),
              "a read is carried out");
    }
    check(answers(receive(packet, 0, out, sizeof out), 0, 0) && at->received == 9, "the packet is still half received");

    /* the codes: each by itself, and those that are reported together */
    reset();
    for (k = 0; k < (int)(sizeof bad / sizeof bad[0]); k++) {
        uint8_t c1 = bad[k].cmd1, c2 = bad[k].cmd2;
        ask(IMJARLET_HOST_WRITE, c1, c2, IMJARLET_WHOLE, bad[k].data, bad[k].size);
        check(rules(IMJARLET_CODE_BIT(IMJARLET_CODE_VALUE), IMJARLET_ACCEPTS_NOTHING, bad[k].byte, 0, c1, c2) &&
                  joins(NULL, 0),
              "the wrong byte of a judgement");
    }
    ask(IMJARLET_HOST_WRITE, 0x04, 0x02, IMJARLET_WHOLE, "\1", 1);
    check(rules(IMJARLET_CODE_BIT(IMJARLET_CODE_MODE), 0, none, 0, 0x04, 0x02), "code 07 of a judgement");
    ask(IMJARLET_HOST_WRITE, 0x01, 0x01, IMJARLET_WHOLE, "\1\1", 2);
    check(rules(IMJARLET_CODE_BIT(IMJARLET_CODE_SIZE), 0, none, 0, 0x01, 0x01), "code 0A of a judgement");
    ask(IMJARLET_HOST_WRITE, 0x01, 0x04, IMJARLET_BEGINNING, full, IMJARLET_HOLD + 1);
    check(rules(IMJARLET_CODE_BIT(IMJARLET_CODE_LENGTH), 0, none, 0, 0x01, 0x04) && joins(NULL, 0),
          "code 04 of a judgement");
    n = make(IMJARLET_HOST_WRITE, 0x09, 0x09, 7, NULL, 0);
    packet[n - 1]++;
    check(judge(n) == IMJARLET_NO_REFUSAL &&
              rules(IMJARLET_CODE_BIT(IMJARLET_CODE_COMMAND) | IMJARLET_CODE_BIT(IMJARLET_CODE_CHECKSUM) |
                        IMJARLET_CODE_BIT(IMJARLET_CODE_ORDER),
                    0, none, 0, 0x09, 0x09),
          "three codes of a judgement");
    check(emits(carry_out(out, sizeof out), IMJARLET_NO_REFUSAL, 10) && out[0] == IMJARLET_ERROR && out[1] == 0x09 &&
              out[6] == IMJARLET_CODE_COMMAND && out[7] == IMJARLET_CODE_CHECKSUM && out[8] == IMJARLET_CODE_ORDER,
          "an error packet is carried out");

    /* a transfer: parts are held, the last one is carried out, and an error closes it */
    reset();
    ask(IMJARLET_HOST_WRITE, 0x01, 0x04, IMJARLET_BEGINNING, six, 3);
    check(rules(0, IMJARLET_ACCEPTS_HOLD, none, 3, 0x01, 0x04) && joins(six, 3), "a beginning is accepted");
    check(emits(carry_out(out, sizeof out), IMJARLET_NO_REFUSAL, 7) && at->active == 1 && at->cmd1 == 0x01 &&
              at->cmd2 == 0x04 && at->held == 3 && memcmp(box.c.buffer, six, 3) == 0 && box.c.buffer[3] == 0,
          "a beginning is carried out");
    check(emits(carry_out(out, sizeof out), IMJARLET_STALE, 0), "a beginning is carried out once");
    ask(IMJARLET_HOST_WRITE, 0x01, 0x04, IMJARLET_INTERMEDIATE, six + 3, 2);
    check(rules(0, IMJARLET_ACCEPTS_HOLD, none, 5, 0x01, 0x04) && joins(six, 5), "an intermediate packet is accepted");
    check(emits(carry_out(out, sizeof out), IMJARLET_NO_REFUSAL, 7) && at->held == 5 &&
              memcmp(box.c.buffer, six, 5) == 0 && box.c.buffer[5] == 0,
          "an intermediate packet is carried out");
    was = box.c;
    ask(IMJARLET_HOST_WRITE, 0x01, 0x04, IMJARLET_LAST, six + 5, 1);
    check(rules(0, IMJARLET_ACCEPTS_WRITE, none, 6, 0x01, 0x04) && joins(six, 6), "a last packet is accepted");
    check(emits(carry_out(out, sizeof out), IMJARLET_NO_REFUSAL, 7) && at->active == 0 && at->held == 0 &&
              box.c.settings.current.blue.counts == 0x03FF,
          "a last packet is carried out");
    box.c = was;
    ask(IMJARLET_HOST_READ, 0x01, 0x04, IMJARLET_WHOLE, NULL, 0);
    check(rules(IMJARLET_CODE_BIT(IMJARLET_CODE_ORDER), 0, none, 5, 0x01, 0x04) && joins(six, 5),
          "a judgement with a code has the held bytes");
    was.registers.active = was.registers.cmd1 = was.registers.cmd2 = 0;
    was.registers.held = 0;
    check(emits(carry_out(out, sizeof out), IMJARLET_NO_REFUSAL, 8) && same_controller(&box.c, &was),
          "an error closes the transfer and changes nothing else");
    reset();
    memset(full, 0x5A, sizeof full);
    ask(IMJARLET_HOST_WRITE, 0x01, 0x04, IMJARLET_BEGINNING, full, IMJARLET_HOLD);
    check(rules(0, IMJARLET_ACCEPTS_HOLD, none, IMJARLET_HOLD, 0x01, 0x04) && joins(full, IMJARLET_HOLD) &&
              emits(carry_out(out, sizeof out), IMJARLET_NO_REFUSAL, 7) &&
              memcmp(box.c.buffer, full, IMJARLET_HOLD) == 0,
          "1,024 bytes are joined and held");

    /* stale: each kept item */
#define STALE_WITH(change)                                                                             \
    do {                                                                                               \
        reset();                                                                                       \
        at->active = 1;                                                                                \
        at->cmd1 = 0x01;                                                                               \
        at->cmd2 = 0x04;                                                                               \
        at->held = 5;                                                                                  \
        memcpy(box.c.buffer, six, 5);                                                                  \
        ask(IMJARLET_HOST_WRITE, 0x01, 0x04, IMJARLET_LAST, six + 5, 1);                               \
        was = box.c;                                                                                   \
        change;                                                                                        \
        check(emits(carry_out(out, sizeof out), IMJARLET_STALE, 0), "stale: " #change);                \
        box.c = was;                                                                                   \
        check(emits(carry_out(out, sizeof out), IMJARLET_NO_REFUSAL, 7), "stale no more: " #change);   \
    } while (0)
    STALE_WITH(box.c.settings.mode = 1);
    STALE_WITH(at->active = 0);
    STALE_WITH(at->cmd2 = 0x03);
    STALE_WITH(at->cmd1 = 0x04; at->cmd2 = 0x00);
    STALE_WITH(at->held = 4);
    STALE_WITH(box.c.buffer[4]++);
#undef STALE_WITH
    /* what stands beside a transfer that is not open is kept as it is, and compared with nothing */
    reset();
    at->cmd1 = 0x01;
    at->cmd2 = 0x04;
    ask(IMJARLET_HOST_WRITE, 0x01, 0x04, IMJARLET_BEGINNING, six, 3);
    at->active = 1;
    check(emits(carry_out(out, sizeof out), IMJARLET_STALE, 0), "none open is not open with nothing held");
    reset();
    at->cmd1 = 0x09;
    at->held = 7;
    box.c.buffer[0] = 0x77;
    check(emits(carry_out(out, sizeof out), IMJARLET_NO_REFUSAL, 7) && at->held == 3 && box.c.buffer[0] == six[0],
          "what no transfer has counts for nothing");
    reset();
    at->cmd1 = 0x09;
    at->held = 7;
    ask(IMJARLET_HOST_WRITE, 0x01, 0x04, IMJARLET_BEGINNING, six, 3);
    check(rules(0, IMJARLET_ACCEPTS_HOLD, none, 3, 0x01, 0x04) && joins(six, 3), "what no transfer has is kept");

    /* forged: each field by itself, in a write of 01 04 */
#define FORGED(change, number)                                                                           \
    do {                                                                                                 \
        reset();                                                                                         \
        ask(IMJARLET_HOST_WRITE, 0x01, 0x04, IMJARLET_WHOLE, six, 6);                                    \
        change;                                                                                          \
        check(emits(carry_out(out, sizeof out), number, 0), "forged: " #change);                         \
    } while (0)
    FORGED(box.j.joined[1] = 5, IMJARLET_NOT_ALLOWED);
    FORGED(box.j.ruling.count = 5, IMJARLET_NOT_ALLOWED);
    FORGED(box.j.ruling.count = 0xFFFF, IMJARLET_NOT_ALLOWED);
    FORGED(box.j.ruling.accepts = IMJARLET_ACCEPTS_NOTHING, IMJARLET_NOT_ALLOWED);
    FORGED(box.j.ruling.accepts = IMJARLET_ACCEPTS_READ, IMJARLET_NOT_ALLOWED);
    FORGED(box.j.ruling.accepts = 4, IMJARLET_NOT_ALLOWED);
    FORGED(box.j.ruling.wrong = 0, IMJARLET_NOT_ALLOWED);
    FORGED(box.j.ruling.cmd2 = 5, IMJARLET_NOT_ALLOWED);
    FORGED(box.j.ruling.codes = 1, IMJARLET_NOT_ALLOWED); /* bit 0 is no code */
    FORGED(box.j.ruling.codes = 0xF000, IMJARLET_NOT_ALLOWED);
    FORGED(box.j.ruling.kept.mode = 3, IMJARLET_NOT_ALLOWED);
    FORGED(box.j.ruling.kept.mode = 4, IMJARLET_STALE);
    FORGED(box.j.ruling.kept.held = IMJARLET_HOLD + 1, IMJARLET_NOT_ALLOWED);
    FORGED(box.j.ruling.kept.active = 1, IMJARLET_NOT_ALLOWED); /* 00 00 is not in the table */
    FORGED(box.j.ruling.accepts = IMJARLET_ACCEPTS_HOLD; box.j.ruling.count = IMJARLET_HOLD + 1, IMJARLET_NOT_ALLOWED);
    FORGED(box.j.ruling.accepts = IMJARLET_ACCEPTS_READ; box.j.ruling.count = 0; box.j.ruling.cmd2 = 6,
           IMJARLET_NOT_ALLOWED);
    FORGED(box.j.ruling.cmd1 = 4; box.j.ruling.cmd2 = 2; box.j.ruling.count = 1, IMJARLET_NOT_ALLOWED); /* run 1 */
#undef FORGED
    /* with a code nothing of this is asked: all codes, and bits that are none */
    memset(&box.j, 0xFF, sizeof box.j);
    box.j.ruling.kept.mode = 0;
    box.j.ruling.kept.active = 0;
    check(emits(carry_out(out, sizeof out), IMJARLET_NO_REFUSAL, 18) && out[0] == IMJARLET_ERROR && out[1] == 0xFF &&
              out[4] == 11 && out[6] == 0x01 && out[16] == IMJARLET_CODE_ORDER,
          "a judgement with all codes");

    /* the other refusals, and their order */
    check(emits(carry_out(out, IMJARLET_OUTPUT_LEAST - 1), IMJARLET_SHORT_OUTPUT, 0), "carrying out: 63 bytes");
    check(emits(carry_out(NULL, 0), IMJARLET_SHORT_OUTPUT, 0), "carrying out: no output");
    n = make(IMJARLET_HOST_WRITE, 0x01, 0x01, IMJARLET_WHOLE, "\1", 1);
    check(judge(n - 1) == IMJARLET_NOT_ONE_PACKET && judge(n + 1) == IMJARLET_NOT_ONE_PACKET &&
              judge(6) == IMJARLET_NOT_ONE_PACKET && judge(0) == IMJARLET_NOT_ONE_PACKET,
          "judging what is not one packet");
    check(imjarlet_judge(&box.c, NULL, 0, &box.j) == IMJARLET_NOT_ONE_PACKET, "judging nothing");
    check(judge(n) == IMJARLET_NO_REFUSAL, "judging one packet");
    box.j.joined[0] = 3;
    box.c.settings.mode = 3;
    check(emits(carry_out(out, IMJARLET_OUTPUT_LEAST - 1), IMJARLET_SHORT_OUTPUT, 0), "1 before 3");
    check(emits(carry_out(out, IMJARLET_OUTPUT_LEAST), IMJARLET_OUT_OF_RULE, 0), "3 before 2");
    check(judge(n) == IMJARLET_OUT_OF_RULE && judge(n - 1) == IMJARLET_OUT_OF_RULE, "3 before 5");
}

/* Reports of two trials: trial 0 scores 9 and sends nothing, trial 1 scores `score` and sends one packet. */
static size_t record_at(size_t at, unsigned kind, const void *body, size_t n) {
    report[at] = (uint8_t)n;
    report[at + 1] = (uint8_t)(n >> 8);
    report[at + 2] = (uint8_t)kind;
    report[at + 3] = 0;
    if (n > 0) memcpy(report + at + 4, body, n);
    return at + 4 + n;
}

static size_t make_report(uint8_t version, uint8_t count, uint8_t score, uint8_t winner, const void *ship, size_t n) {
    uint8_t head[4] = {0}, first[4] = {9, 0, 0, 0}, second[17], named[2] = {0};
    size_t at;
    head[0] = version;
    head[2] = count;
    named[0] = winner;
    memset(second, 0, 4);
    second[0] = score;
    memcpy(second + 4, "\2\1\4\0\6\0\54\1\22\1\22\1\140", 13); /* 01 04: red 300 */
    at = record_at(0, 1, head, 4);
    at = record_at(at, 2, first, 4);
    at = record_at(at, 2, second, 17);
    at = record_at(at, 3, named, 2);
    return record_at(at, 4, ship, n);
}

static uint32_t check_report(size_t length) {
    uint32_t refusal;
    memset(&box.v, BEFORE, sizeof box.v);
    refusal = imjarlet_check_report(report, length, &box.v);
    check(strips_untouched(), "nothing beside a verdict is touched");
    return refusal;
}

static int refused(size_t length, uint32_t number, size_t place) {
    settings s = factory();
    return check_report(length) == number && is_verdict(&box.v, place, 0, 0, &s);
}

static void reports(void) {
    static const uint8_t red[13] = {2, 1, 4, 0, 6, 0, 0x2C, 1, 0x12, 1, 0x12, 1, 0x60};
    static const uint8_t begun[7] = {2, 1, 3, 1, 0, 0, 7}; /* opens a transfer of 01 03 */
    uint8_t ship[33];
    settings ends = factory();
    size_t n;
    n = make_report(1, 2, 7, 1, red, 13);
    ends.current.red.counts = 300;
    check(check_report(n) == IMJARLET_NO_REFUSAL && is_verdict(&box.v, 0, 1, 7, &ends), "a report that is accepted");
    report[n] = 0;
    check(refused(n + 1, IMJARLET_REPORT_BYTES_AFTER, n), "refusal 20");
    check(refused(n - 1, IMJARLET_REPORT_CUT_SHORT, 43), "refusal 11");
    check(refused(0, IMJARLET_REPORT_CUT_SHORT, 0), "refusal 11 of the empty report");
    n = make_report(2, 2, 7, 1, red, 13);
    check(refused(n, IMJARLET_REPORT_VERSION, 0), "refusal 14");
    n = make_report(1, 0, 7, 1, red, 13);
    check(refused(n, IMJARLET_REPORT_NO_TRIALS, 0), "refusal 15");
    n = make_report(1, 3, 7, 1, red, 13);
    check(refused(n, IMJARLET_REPORT_OTHER_KIND, 37), "refusal 12");
    n = make_report(1, 2, 7, 2, red, 13);
    check(refused(n, IMJARLET_REPORT_NO_SUCH_WINNER, 37), "refusal 16");
    n = make_report(1, 2, 7, 0, red, 13);
    check(refused(n, IMJARLET_REPORT_NOT_LOWEST, 37), "refusal 17");
    n = make_report(1, 2, 7, 1, red, 12);
    check(refused(n, IMJARLET_REPORT_NOT_ACKNOWLEDGED, 47), "refusal 18: an unfinished packet");
    memcpy(ship, red, 13);
    memcpy(ship + 13, red, 13);
    memcpy(ship + 26, begun, 7);
    n = make_report(1, 2, 7, 1, ship, 33);
    check(refused(n, IMJARLET_REPORT_NOT_ACKNOWLEDGED, 47 + 26), "refusal 18: a transfer left open");
    memcpy(ship + 13, begun, 7);
    memcpy(ship + 20, red, 13);
    n = make_report(1, 2, 7, 1, ship, 32);
    check(refused(n, IMJARLET_REPORT_NOT_ACKNOWLEDGED, 47 + 13), "refusal 18: the transfer, and an unfinished packet");
    n = make_report(1, 2, 7, 1, ship, 33);
    check(refused(n, IMJARLET_REPORT_NOT_ACKNOWLEDGED, 47 + 20), "refusal 18: an error that closed the transfer");
    ship[12]++;
    n = make_report(1, 2, 7, 1, ship, 32);
    check(refused(n, IMJARLET_REPORT_NOT_ACKNOWLEDGED, 47), "refusal 18: the earliest");
    n = make_report(1, 2, 7, 1, red, 0);
    check(refused(n, IMJARLET_REPORT_OTHER_SETTINGS, 43), "refusal 19");
    record_at(0, 1, "\1\0\1", 3);
    check(refused(n, IMJARLET_REPORT_BODY_LENGTH, 0), "refusal 13");
    memset(report, 0, sizeof report);
    check(refused(IMJARLET_REPORT_MOST + 1, IMJARLET_REPORT_TOO_LONG, 0), "refusal 10");
    check(refused(IMJARLET_REPORT_MOST, IMJARLET_REPORT_OTHER_KIND, 0), "60,000 bytes");
}

int main(void) {
    LAYOUT(PRINT_SIZE, PRINT_OFFSET, NOTHING)
    printf("no_wrong_byte %" PRIu64 "\n", IMJARLET_NO_WRONG_BYTE);
    printf("judged_no_wrong_byte %u\n", (unsigned)IMJARLET_JUDGED_NO_WRONG_BYTE);
    fresh();
    every_setting();
    out_of_rule();
    stored();
    read_where_written();
    full_arrays();
    longest();
    codes_and_lengths();
    wrong_bytes();
    asked_first();
    reports();
    check(strips_untouched(), "nothing beside what is lent is touched");
    fprintf(stderr, "layout.c: %u checks, %u failed\n", checks, failures);
    return failures != 0;
}
