/*
 * Every size, offset and constant of include/dlpc200.h, against the library. Sizes and offsets are
 * asserted when this is compiled (layout.h). The run drives the library: what it stores is found in
 * the named fields and nowhere else, what is stored in a named field is what it reads, and each
 * constant is drawn from it. No type has padding, so two are compared by all their bytes.
 */
#include <stdio.h>
#include <string.h>

#include "../layout/checks.h"
#include "layout.h"

static struct {
    uint32_t before[4];
    dlpc200_device d;
    uint32_t after[4];
} box;

static struct {
    dlpc200_size before, taken, between, size, after;
} numbers;

static const dlpc200_states told = {0, 1, 0, 7, 1};
static uint8_t out[DLPC200_OUTPUT_LEAST];
static uint8_t packet[70000];

static int is_fresh(const dlpc200_device *d, dlpc200_states states) {
    dlpc200_device f;
    memset(&f, BEFORE, sizeof f);
    f.received = 0;
    memset(f.header, 0, sizeof f.header);
    memset(f.hold, 0, sizeof f.hold);
    f.sum = 0;
    f.states = states;
    return memcmp(d, &f, sizeof f) == 0;
}

/* The calls, with what they fill set to EE before. */
static void reset(dlpc200_states states) {
    memset(&box, STRIP, sizeof box);
    memset(&box.d, BEFORE, sizeof box.d);
    check(dlpc200_reset(&box.d, &states) == DLPC200_NO_REFUSAL && is_fresh(&box.d, states),
          "a device that is reset is its fields and nothing else");
}

/* Whether a call gives this refusal and these numbers, and touches nothing beside what it is lent. */
static int receives(const uint8_t *input, dlpc200_size n, dlpc200_size room, uint32_t refusal, dlpc200_size taken,
                    dlpc200_size size) {
    uint32_t r;
    memset(&numbers, BEFORE, sizeof numbers);
    memset(out, BEFORE, sizeof out);
    r = dlpc200_receive(&box.d, input, n, out, room, &numbers.taken, &numbers.size);
    check(all(&numbers.before, BEFORE, 8) && all(&numbers.between, BEFORE, 8) && all(&numbers.after, BEFORE, 8) &&
              all(box.before, STRIP, sizeof box.before) && all(box.after, STRIP, sizeof box.after) &&
              all(out + size, BEFORE, sizeof out - size),
          "nothing beside what is lent is touched");
    return r == refusal && numbers.taken == taken && numbers.size == size;
}

static int waits(const uint8_t *input, dlpc200_size n) {
    return receives(input, n, sizeof out, DLPC200_NO_REFUSAL, n, 0);
}

static int refuses(dlpc200_size room, uint32_t refusal) {
    dlpc200_device was = box.d;
    return receives(packet, 9, room, refusal, 0, 0) && memcmp(&box.d, &was, sizeof was) == 0;
}

/* A packet with n data bytes, those after the ID zero, and its size. */
static size_t make(uint8_t cmd1, uint8_t cmd2, uint8_t cmd4, unsigned id, size_t n) {
    size_t i;
    uint8_t sum = 0;
    memset(packet, 0, n + 7);
    packet[0] = cmd1;
    packet[1] = cmd2;
    packet[3] = cmd4;
    packet[6] = (uint8_t)id;
    packet[7] = (uint8_t)(id >> 8);
    packet[4] = (uint8_t)n;
    packet[5] = (uint8_t)(n >> 8);
    for (i = 4; i < n + 6; i++) sum = (uint8_t)(sum + packet[i]);
    packet[n + 6] = sum;
    return n + 7;
}

/* Whether a packet in `packet` draws a response of this CMD1 with these status bytes and no more. */
static int draws(size_t n, uint8_t kind, uint8_t data0, uint8_t data1) {
    uint8_t response[9] = {0, DLPC200_EXTENDED, 0, DLPC200_ONLY, 2, 0, 0, 0, 0};
    response[0] = kind;
    response[DLPC200_AT_DATA0] = data0;
    response[DLPC200_AT_DATA1] = data1;
    response[8] = (uint8_t)(2 + data0 + data1);
    return receives(packet, n, sizeof out, DLPC200_NO_REFUSAL, n, 9) && memcmp(out, response, 9) == 0;
}

static int reads(unsigned id, uint8_t state) {
    uint8_t response[10] = {DLPC200_READ_RESP, DLPC200_EXTENDED, 0, DLPC200_ONLY, 3, 0, 0, 0, 0, 0};
    size_t n = make(DLPC200_READ, DLPC200_EXTENDED, DLPC200_ONLY, id, 2);
    response[8] = state;
    response[9] = (uint8_t)(3 + state);
    return receives(packet, n, sizeof out, DLPC200_NO_REFUSAL, n, 10) && memcmp(out, response, 10) == 0;
}

/* Each state is read from its field, and out of its range it draws refusal 3. */
#define STATE(field, id, most)                                                     \
    do {                                                                           \
        unsigned v;                                                                \
        for (v = 0; v < 256; v++) {                                                \
            dlpc200_states s = told;                                               \
            s.field = (uint8_t)v;                                                  \
            reset(s);                                                              \
            if (v <= (most))                                                       \
                check(reads(id, (uint8_t)v), #field " is read");                   \
            else                                                                   \
                check(refuses(sizeof out, DLPC200_OUT_OF_RULE), #field " over its range"); \
        }                                                                          \
    } while (0)

static void commands(void) {
    dlpc200_device was;
    STATE(park, DLPC200_GET_DMD_SOFTWARE_PARK_STATE, 1);
    STATE(sequence, DLPC200_GET_SEQ_RUN_STATE, 1);
    STATE(eeprom, DLPC200_GET_EEPROM_FAULT, 1);
    STATE(flash, DLPC200_GET_INIT_FROM_PARALLEL_FLASH_FAIL, 7);
    STATE(lit, DLPC200_GET_OVERALL_LED_LAMP_LIT_STATE, 1);
    reset(told);
    was = box.d;
    check(draws(make(DLPC200_WRITE, DLPC200_EXTENDED, DLPC200_ONLY, DLPC200_PARK_DMD, 2), DLPC200_WRITE_RESP, 0, 0) &&
              box.d.states.park == 1,
          "park");
    was.states.park = 1;
    check(memcmp(&was.states, &box.d.states, sizeof was.states) == 0, "park leaves the other states");
    check(draws(make(DLPC200_WRITE, DLPC200_EXTENDED, DLPC200_ONLY, DLPC200_UNPARK_DMD, 2), DLPC200_WRITE_RESP, 0, 0) &&
              box.d.states.park == 0,
          "unpark");
}

static void faults(void) {
    size_t n;
    reset(told);
    n = make(DLPC200_WRITE, DLPC200_EXTENDED, DLPC200_ONLY, DLPC200_PARK_DMD, 2);
    packet[8]++;
    check(draws(n, DLPC200_WRITE_RESP, DLPC200_ERR_CMD_EXE_FAILED | DLPC200_ERR_CHK_SUM_ERROR, 0), "a wrong checksum");
    n = make(DLPC200_READ, DLPC200_EXTENDED, DLPC200_ONLY, DLPC200_PARK_DMD, 2);
    check(draws(n, DLPC200_READ_RESP, DLPC200_ERR_CMD_EXE_FAILED | DLPC200_ERR_INVALID_CMD1, 0), "a read of park");
    n = make(DLPC200_WRITE, 0xAB, DLPC200_ONLY, DLPC200_PARK_DMD, 2);
    check(draws(n, DLPC200_WRITE_RESP, DLPC200_ERR_CMD_EXE_FAILED | DLPC200_ERR_INVALID_CMD2, 0), "CMD2 not AA");
    n = make(DLPC200_WRITE, DLPC200_EXTENDED, 0x01, DLPC200_PARK_DMD, 2);
    check(draws(n, DLPC200_WRITE_RESP, DLPC200_ERR_CMD_EXE_FAILED | DLPC200_ERR_INVALID_CMD4, 0), "CMD4 not 00");
    n = make(DLPC200_WRITE, DLPC200_EXTENDED, DLPC200_ONLY, DLPC200_PARK_DMD, 3);
    check(draws(n, DLPC200_WRITE_RESP, DLPC200_ERR_CMD_EXE_FAILED, DLPC200_ERR_INSUF_CMD_DATA), "three data bytes");
    n = make(DLPC200_WRITE, DLPC200_EXTENDED, DLPC200_ONLY, 0x0007, DLPC200_DATA_MOST);
    check(draws(n, DLPC200_WRITE_RESP, DLPC200_ERR_CMD_EXE_FAILED, 0), "an unknown command with 504 data bytes");
    n = make(DLPC200_WRITE, DLPC200_EXTENDED, DLPC200_ONLY, 0x0007, DLPC200_DATA_MOST + 1);
    check(draws(n, DLPC200_WRITE_RESP, DLPC200_ERR_CMD_EXE_FAILED, DLPC200_ERR_INSUF_CMD_DATA), "505 data bytes");
    check(box.d.states.park == 0, "a failed park parks nothing");
    check(dlpc200_faults(DLPC200_ERR_CMD_EXE_FAILED, 0) == 0 && dlpc200_faults(0xFF, 0xFF) == 15 &&
              dlpc200_faults(DLPC200_ERR_CHK_SUM_ERROR, DLPC200_ERR_INSUF_CMD_DATA) == 2,
          "faults are counted beside bit 6");
}

/* The packet that is coming in: what the library stores there, and what it reads. */
static void current_packet(void) {
    size_t n, i;
    reset(told);
    n = make(DLPC200_WRITE, DLPC200_EXTENDED, DLPC200_ONLY, DLPC200_PARK_DMD, 6);
    for (i = 8; i < 12; i++) packet[i] = (uint8_t)(0x10 * i);
    check(waits(packet, 11) && box.d.received == 11 && memcmp(box.d.header, packet, 6) == 0 &&
              memcmp(box.d.hold, packet + 6, DLPC200_HOLD) == 0 &&
              box.d.sum == (uint8_t)(6 + DLPC200_PARK_DMD + 0x80 + 0x90 + 0xA0),
          "eleven bytes have come in, four of them held");
    check(receives(packet + 11, n - 11, sizeof out, DLPC200_NO_REFUSAL, n - 11, 9) && box.d.received == 0 && box.d.sum == 0 &&
              memcmp(box.d.hold, packet + 6, DLPC200_HOLD) == 0,
          "the rest completes the packet");

    /* a packet that this program wrote, but for its checksum */
    reset(told);
    n = make(DLPC200_WRITE, DLPC200_EXTENDED, DLPC200_ONLY, DLPC200_PARK_DMD, 2);
    memcpy(box.d.header, packet, 6);
    memcpy(box.d.hold, packet + 6, 2);
    box.d.received = (uint32_t)(n - 1);
    box.d.sum = packet[n - 1];
    check(receives(packet + n - 1, 1, sizeof out, DLPC200_NO_REFUSAL, 1, 9) && out[DLPC200_AT_DATA0] == 0 &&
              box.d.states.park == 1,
          "a packet lies where the header file says");

    /* one that has all its bytes is out of rule, by every bit of the count */
    for (i = 7; i < 32; i++) {
        reset(told);
        box.d.received = (uint32_t)1 << i;
        check(refuses(sizeof out, DLPC200_OUT_OF_RULE), "a half-received packet that has all its bytes");
    }

    /* the longest packet: more bytes have come in than 16 bits count */
    reset(told);
    n = make(DLPC200_WRITE, DLPC200_EXTENDED, DLPC200_ONLY, DLPC200_PARK_DMD, 65535);
    check(waits(packet, n - 1) && box.d.received == 65541, "65,541 bytes have come in");
    check(receives(packet + n - 1, 1, sizeof out, DLPC200_NO_REFUSAL, 1, 9), "the longest packet is complete");
}

static void lengths(void) {
    reset(told);
    make(DLPC200_READ, DLPC200_EXTENDED, DLPC200_ONLY, DLPC200_GET_EEPROM_FAULT, 2);
    check(refuses(DLPC200_OUTPUT_LEAST - 1, DLPC200_SHORT_OUTPUT), "an output of 63 bytes");
    check(receives(NULL, 0, sizeof out, DLPC200_NO_REFUSAL, 0, 0), "no input");
    box.d.states.park = 2;
    check(refuses(DLPC200_OUTPUT_LEAST - 1, DLPC200_SHORT_OUTPUT), "1 before 3");
    memset(&numbers, BEFORE, sizeof numbers);
    check(dlpc200_receive(&box.d, NULL, 0, NULL, 0, &numbers.taken, &numbers.size) == DLPC200_SHORT_OUTPUT &&
              numbers.taken == 0 && numbers.size == 0,
          "no output");
}

int main(void) {
    commands();
    faults();
    current_packet();
    lengths();
    printf("dlpc200: layout.c: %u checks, %u failed\n", checks, failures);
    return failures != 0;
}
