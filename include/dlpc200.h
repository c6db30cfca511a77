/*
 * The DLPC200 on its SPI port, for C: the extended packets (section 6 of its SPI slave interface
 * specification) of the commands 0005, 0006, 0015, 0016, 0017, 0029 and 002A.
 *
 * Link with target/staticlib/libdlpc200.a on the machine itself, which `scripts/built dlpc200` makes,
 * or for firmware with target/firmware/TARGET/libdlpc200.a, which `scripts/firmware TARGET dlpc200`
 * makes. Firmware supplies memcpy, memmove and memset; the library calls nothing else. C99 or later.
 *
 * Sizes and offsets are the same on every target, and no type has padding: that is why four data bytes
 * are held where the ID has two, and why a length has 64 bits also where a pointer has 32.
 *
 * Bytes are hexadecimal in the comments (02 AA), and so are command IDs (0015); numbers are decimal.
 * No call allocates, keeps a pointer or has state of its own: two calls on two devices may run at the
 * same time.
 *
 * What the caller owes a call: a pointer with a length is valid for that many bytes, and may be
 * NULL only where the length is 0; any other pointer is valid and aligned for its type; and what a
 * call may write (no const) overlaps nothing else that it is lent. Nothing is owed of the bytes
 * themselves, those of a device and of states included: the calls answer on all.
 */
#ifndef DLPC200_H
#define DLPC200_H

#include <stdint.h>

#ifdef __cplusplus
extern "C" {
#endif

/* Lengths, sizes and the other numbers that a call gives. */
typedef uint64_t dlpc200_size;

/* Sizes, in bytes. */
enum {
    DLPC200_OUTPUT_LEAST = 64, /* the shortest output that a receive call takes */
    DLPC200_DATA_MOST = 504,   /* the most data of a packet; one with more is taken to its end and fails */
    DLPC200_HOLD = 4           /* how many data bytes are held of a packet */
};

/*
 * The packet: CMD1, CMD2, CMD3, CMD4, the data's length (Len_LSB, Len_MSB), the data, which begin with
 * the command's ID (2 bytes, least significant first), and the checksum (the sum of every byte after
 * CMD4, modulo 256). CMD3 is not judged. A response has AA, 00, 00 as CMD2 to CMD4.
 */
enum {
    DLPC200_WRITE = 0x02, /* CMD1 of what the host sends */
    DLPC200_READ = 0x04,
    DLPC200_WRITE_RESP = 0x03, /* CMD1 of what the DLPC200 answers: 05 to CMD1 04, and 03 to any other */
    DLPC200_READ_RESP = 0x05
};

enum {
    DLPC200_EXTENDED = 0xAA, /* CMD2 of every packet */
    DLPC200_ONLY = 0x00      /* CMD4 of the only packet of a transfer */
};

/* The commands, by their IDs. Each has two data bytes, its ID, and no more. */
enum {
    DLPC200_PARK_DMD = 0x0005,                         /* a write; sets what 0015 reads */
    DLPC200_UNPARK_DMD = 0x0006,                       /* a write; clears it */
    DLPC200_GET_DMD_SOFTWARE_PARK_STATE = 0x0015,      /* reads; the state is Data[2] of the response */
    DLPC200_GET_SEQ_RUN_STATE = 0x0016,
    DLPC200_GET_EEPROM_FAULT = 0x0017,
    DLPC200_GET_INIT_FROM_PARALLEL_FLASH_FAIL = 0x0029,
    DLPC200_GET_OVERALL_LED_LAMP_LIT_STATE = 0x002A
};

/*
 * The two status bytes of a response, its Data[0] and Data[1]: both 00 where the command was carried
 * out. A packet that failed is answered by them alone, with the bit of every fault that holds and bit 6
 * of Data[0]; a command that is not in the list above sets bit 6 alone where there is no fault. The
 * other bits are 0. A failed packet changes no state.
 */
enum {
    DLPC200_AT_DATA0 = 6, /* their places in a response */
    DLPC200_AT_DATA1 = 7
};

enum {                                    /* Data[0] */
    DLPC200_ERR_CHK_SUM_ERROR = 0x01,     /* bit 0: the checksum is wrong */
    DLPC200_ERR_INVALID_CMD1 = 0x02,      /* bit 1: CMD1 is neither 02 nor 04, or not the one of its command */
    DLPC200_ERR_INVALID_CMD2 = 0x04,      /* bit 2: CMD2 is not AA */
    DLPC200_ERR_INVALID_CMD4 = 0x10,      /* bit 4: CMD4 is not 00 */
    DLPC200_ERR_CMD_EXE_FAILED = 0x40     /* bit 6: the packet failed */
};

enum {                                    /* Data[1] */
    DLPC200_ERR_INSUF_CMD_DATA = 0x08     /* bit 3: under 2 or over 504 data bytes, or not the command's 2 */
};

/* What a receive call refuses, tested in this order. It then takes nothing and leaves output and device as they were. */
enum {
    DLPC200_NO_REFUSAL = 0,   /* also where the answer tells that the packet failed */
    DLPC200_SHORT_OUTPUT = 1, /* the output is shorter than 64 bytes */
    DLPC200_OUT_OF_RULE = 3   /* a state out of its range, or a half-received packet that already has all its bytes */
};

/*
 * The states that the commands read. The host supplies them, and may change them between two calls;
 * the calls change none but `park`, which park sets and unpark clears. A state out of its range draws
 * refusal 3.
 */
typedef struct {
    uint8_t park;     /* 0015: 0 DMD park not requested by the software, 1 requested */
    uint8_t sequence; /* 0016: 0 PWM sequence stopped, 1 running */
    uint8_t eeprom;   /* 0017: 0 no EEPROM fault, 1 fault */
    uint8_t flash;    /* 0029: parallel flash initialization status, 0 to 7 */
    uint8_t lit;      /* 002A: 0 LEDs not lit, 1 all lit */
} dlpc200_states;

/* A device: 20 bytes that the caller owns and lends. What has come in of the current packet, and the states. */
typedef struct {
    uint32_t received;          /* how many bytes of the packet have come in */
    uint8_t header[6];          /* CMD1 to Len_MSB; between two packets, of the last one */
    uint8_t hold[DLPC200_HOLD]; /* Data[0] to Data[3], as far as there are so many */
    uint8_t sum;                /* of the bytes after CMD4, modulo 256; it begins anew with the first of them */
    dlpc200_states states;
} dlpc200_device;

/*
 * Makes *device one between two packets, with these states, whatever stood there. It takes any states;
 * a call on the device refuses those out of range. Returns 0.
 */
uint32_t dlpc200_reset(dlpc200_device *device, const dlpc200_states *states);

/*
 * Takes bytes of the input until it ends or one packet is complete, and carries that packet out. Call
 * it again with the bytes behind those that were taken. Refusals 1 and 3. It sets *taken and *size,
 * whatever stood there.
 *   0, *size is 0    waiting: the input ended before a packet did, *taken is all of it, and the output
 *                    is untouched
 *   0, otherwise     answered: *taken bytes of the input were taken, and the response is the first *size
 *                    bytes (9 or 10) of the output, the rest of which is untouched
 *   1 or 3           refused: *taken and *size are 0
 */
uint32_t dlpc200_receive(dlpc200_device *device, const uint8_t *input, dlpc200_size input_length,
                         uint8_t *out, dlpc200_size out_length, dlpc200_size *taken, dlpc200_size *size);

/* How many faults a response carries beside bit 6 of Data[0], by its Data[0] and Data[1]: the bits set in both. */
uint32_t dlpc200_faults(uint8_t data0, uint8_t data1);

#ifdef __cplusplus
}
#endif

#endif
