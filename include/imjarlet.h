/*
 * Imjarlet: the command endpoint of a projector head, and the checker of tuning reports, for C.
 *
 * Link with target/staticlib/libimjarlet.a on the machine itself, which `scripts/built imjarlet` makes,
 * or for firmware with target/firmware/TARGET/libimjarlet.a, which `scripts/firmware TARGET` makes.
 * Firmware supplies memcpy, memmove and memset; the library calls nothing else. C99 or later.
 *
 * Sizes and offsets are the same on every target, and no type has padding: that is why setting.rotate,
 * video.led, sequence.led and run are wider than their values (each takes the room up to the next field,
 * or to the end), and why a length has 64 bits also where a pointer has 32. A value over 255 in such a
 * field is refused like any other that is not allowed.
 *
 * Bytes are hexadecimal in the comments (01 04); numbers are decimal. No call allocates, keeps a
 * pointer or has state of its own: two calls on two controllers may run at the same time.
 *
 * What the caller owes a call: a pointer with a length is valid for that many bytes, and may be
 * NULL only where the length is 0; any other pointer is valid and aligned for its type; and what a
 * call may write (no const) overlaps nothing else that it is lent. Nothing is owed of the bytes
 * themselves, those of a controller, of settings and of a judgement included: the calls answer on all.
 *
 * A call returns 0 or the number of its refusal. In either case it sets all of *taken, *size, *wrong
 * and *verdict that it is lent, whatever stood there. A judgement is set where it is not refused.
 */
#ifndef IMJARLET_H
#define IMJARLET_H

#include <stdint.h>

#ifdef __cplusplus
extern "C" {
#endif

/* Lengths, sizes and the other numbers that a call gives. */
typedef uint64_t imjarlet_size;

/* Sizes, in bytes. */
enum {
    IMJARLET_OUTPUT_LEAST = 64,        /* the shortest output that a receive call, carrying out or the encoder takes */
    IMJARLET_LIST_OUTPUT_LEAST = 128,  /* the shortest output that the standard list takes */
    IMJARLET_LIST_LENGTH = 111,        /* the length of the standard list */
    IMJARLET_HOLD = 1024,              /* the most payload bytes that are held of a transfer, and of a packet */
    IMJARLET_REPORT_MOST = 60000       /* the most bytes of a report */
};

/*
 * The packet: type, CMD1, CMD2, flags, payload length (2 bytes, least significant first), payload,
 * checksum (the sum of every earlier byte, modulo 256).
 */
enum {
    IMJARLET_ERROR = 0x01,
    IMJARLET_HOST_WRITE = 0x02,
    IMJARLET_WRITE_RESPONSE = 0x03,
    IMJARLET_HOST_READ = 0x04,
    IMJARLET_READ_RESPONSE = 0x05
};

enum {
    IMJARLET_WHOLE = 0x00,
    IMJARLET_BEGINNING = 0x01,
    IMJARLET_INTERMEDIATE = 0x02,
    IMJARLET_LAST = 0x03
};

/* The payload of an error packet: one byte for each code, ascending. No packet draws the guide's codes 01, 05,
   06 and 08; a judgement that is handed in may have them, and they are sent then. */
enum {
    IMJARLET_CODE_COMMAND = 0x02,   /* type neither 02 nor 04, command not in the table, or a read of 01 06 */
    IMJARLET_CODE_VALUE = 0x03,     /* a value is not allowed */
    IMJARLET_CODE_LENGTH = 0x04,    /* over 1,024 payload bytes in the packet or in the transfer */
    IMJARLET_CODE_MODE = 0x07,      /* run 1 outside display mode 4 */
    IMJARLET_CODE_CHECKSUM = 0x09,  /* the checksum is wrong */
    IMJARLET_CODE_SIZE = 0x0A,      /* the data have not the command's size */
    IMJARLET_CODE_ORDER = 0x0B      /* the flags are out of order */
};

/* What a receive call says for the wrong byte where it names none: all bits set, which is no byte's number. */
#define IMJARLET_NO_WRONG_BYTE ((imjarlet_size)-1)

/* The codes of a judgement: the bit of each. 0 is none, and no bit but those of the codes 01 to 0B counts. */
#define IMJARLET_CODE_BIT(code) (1u << (code))

/* What a judgement says for the wrong byte where it names none: all bits set, as above, of 16. */
#define IMJARLET_JUDGED_NO_WRONG_BYTE 0xFFFF

/* What a judgement asks to be done. */
enum {
    IMJARLET_ACCEPTS_NOTHING = 0, /* the packet draws an error packet */
    IMJARLET_ACCEPTS_HOLD = 1,    /* the data are held: flags 01 and 02 */
    IMJARLET_ACCEPTS_WRITE = 2,   /* a write is carried out: flags 00 and 03 */
    IMJARLET_ACCEPTS_READ = 3
};

/* What a call refuses. It then takes nothing and leaves output, controller and judgement as they were. */
enum {
    IMJARLET_NO_REFUSAL = 0,    /* also where an error packet is the answer; of a report: it is accepted */
    IMJARLET_SHORT_OUTPUT = 1,  /* the output is shorter than 64 bytes, or 128 for the standard list */
    IMJARLET_NOT_ALLOWED = 2,   /* the encoder: a value is not allowed, or the command is not in the table;
                                   carrying out: a judgement without error codes that no packet draws from
                                   a controller that 3 lets pass and that has what the judgement keeps */
    IMJARLET_OUT_OF_RULE = 3,   /* a setting that is not allowed; run 1 outside display mode 4; over 1,024
                                   held bytes; a transfer open for a command that is not in the table; or a
                                   half-received packet that already has all its bytes */
    IMJARLET_STALE = 4,         /* carrying out: the controller has not what the judgement keeps */
    IMJARLET_NOT_ONE_PACKET = 5 /* judging: the bytes are not exactly one packet */
};

/* Why a report is refused, and where: the place is counted in bytes from 0. */
enum {
    IMJARLET_REPORT_TOO_LONG = 10,           /* over 60,000 bytes; at 0 */
    IMJARLET_REPORT_CUT_SHORT = 11,          /* a record is due and fewer bytes are left than it needs; there */
    IMJARLET_REPORT_OTHER_KIND = 12,         /* a record of another kind is due; there */
    IMJARLET_REPORT_BODY_LENGTH = 13,        /* the body's length is not 4 (kind 1), under 4 (kind 2) or not 2
                                                (kind 3); at that record */
    IMJARLET_REPORT_VERSION = 14,            /* the version is not 1; at that record */
    IMJARLET_REPORT_NO_TRIALS = 15,          /* the report counts no trials; at that record */
    IMJARLET_REPORT_NO_SUCH_WINNER = 16,     /* the winner is not below the count; at that record */
    IMJARLET_REPORT_NOT_LOWEST = 17,         /* the winner is not the first of the lowest-scored; at kind 3 */
    IMJARLET_REPORT_NOT_ACKNOWLEDGED = 18,   /* the shipping bytes are not all whole packets, one is not answered
                                                by a write response, or a transfer is left open; at the first byte
                                                of the first packet that is not so answered, of the unfinished one,
                                                or of the one that opened that transfer: of these the earliest */
    IMJARLET_REPORT_OTHER_SETTINGS = 19,     /* the shipping packets leave other settings than the winner ended
                                                with; at kind 4 */
    IMJARLET_REPORT_BYTES_AFTER = 20         /* bytes follow kind 4; at the first of them */
};

/* LED drive, in counts, and a time, in microseconds: two types, that none is taken for the other. */
typedef struct { uint16_t counts; } imjarlet_drive;
typedef struct { uint32_t microseconds; } imjarlet_microseconds;

/* 01 04: 0 to 1024 each. */
typedef struct {
    imjarlet_drive red;
    imjarlet_drive green;
    imjarlet_drive blue;
} imjarlet_led_current;

/* 01 06: any colour; the last byte is 0. */
typedef struct {
    uint8_t blue;
    uint8_t green;
    uint8_t red;
    uint8_t last;
} imjarlet_static_colour;

/* 01 07: 0 or 1 each. */
typedef struct {
    uint8_t long_flip;
    uint8_t short_flip;
    uint16_t rotate;
} imjarlet_display_setting;

/* 02 00: X and Y a listed pair, the others any. */
typedef struct {
    uint16_t x;
    uint16_t y;
    uint16_t first_pixel;
    uint16_t first_line;
    uint16_t width;
    uint16_t height;
} imjarlet_video_input;

/* 02 01: frame rate 15, 30, 40, 50 or 60; depth 1 to 8; LED 1 to 4. */
typedef struct {
    uint8_t rate;
    uint8_t depth;
    uint16_t led;
} imjarlet_video_mode;

/*
 * 04 00: depth 1 to 8; count 1 to 1 + 95 / depth, that is 96, 48, 32, 24, 20, 16, 14, 12; inversion 0
 * to 2, nonzero only at depth 1; trigger 0 to 6, 6 only at depth 1; any times; LED 0 to 2.
 */
typedef struct {
    uint8_t depth;
    uint8_t count;
    uint8_t inversion;
    uint8_t trigger;
    imjarlet_microseconds delay;
    imjarlet_microseconds period;
    imjarlet_microseconds exposure;
    uint32_t led;
} imjarlet_pattern_sequence;

/* The values of every command. */
typedef struct {
    uint8_t mode;                       /* 01 01 display mode: 0, 1, 2 or 4 */
    uint8_t pattern;                    /* 01 03 test pattern: 0 to 13 */
    imjarlet_led_current current;       /* 01 04 */
    imjarlet_static_colour colour;      /* 01 06 */
    imjarlet_display_setting setting;   /* 01 07 */
    imjarlet_video_input input;         /* 02 00 */
    imjarlet_video_mode video;          /* 02 01 */
    imjarlet_pattern_sequence sequence; /* 04 00 */
    uint32_t run;                       /* 04 02 sequence run: 0, or 1 in display mode 4 */
} imjarlet_settings;

/*
 * The packet that is coming in and the open transfer. No transfer is open where active is 0; otherwise
 * it is one of the command cmd1 cmd2.
 */
typedef struct {
    uint32_t received; /* how many bytes of the packet have come in */
    uint16_t held;     /* how many bytes of the transfer are held */
    uint8_t active;
    uint8_t cmd1;
    uint8_t cmd2;
    uint8_t header[6]; /* of the packet; between two packets, of the last one */
    uint8_t sum;       /* of the packet's bytes so far, modulo 256; it begins anew with its first byte */
} imjarlet_registers;

/*
 * A head: 2,120 bytes that the caller owns and lends. Settings may be read at any time; bytes that
 * other code has written there draw refusal 3 where they are out of rule.
 */
typedef struct {
    imjarlet_settings settings;
    imjarlet_registers registers;
    uint8_t buffer[IMJARLET_HOLD]; /* the held bytes of the open transfer */
    uint8_t hold[IMJARLET_HOLD];   /* the payload of the packet that is coming in, as far as there is room */
} imjarlet_controller;

/*
 * What a packet was judged under: the display mode, and the open transfer, its command and how many bytes
 * were held. None was open where active is 0; the other three are then what stood there, and count for
 * nothing (held is at most 1,024 even so).
 */
typedef struct {
    uint16_t held;
    uint8_t mode;
    uint8_t active;
    uint8_t cmd1;
    uint8_t cmd2;
} imjarlet_kept;

/* What a packet draws. */
typedef struct {
    uint16_t codes;   /* bit n is error code n; 0 where the packet has no fault */
    uint16_t accepts; /* what is asked to be done; 0 with an error */
    uint16_t wrong;   /* with code 03 the byte that is wrong, counted as for the receive call */
    uint16_t count;   /* how many bytes the joined data have */
    uint8_t cmd1;     /* the packet's command, which the response repeats */
    uint8_t cmd2;
    imjarlet_kept kept;
} imjarlet_ruling;

/*
 * A judgement: 1,040 bytes that the caller owns. Nothing of it says which controller it was made on, and it
 * may be copied, stored and carried out later or more than once. One that other code has written or damaged
 * is answered like any other: by 2, by 4, by an error packet with its codes, or as a packet that draws it.
 */
typedef struct {
    imjarlet_ruling ruling;
    uint8_t joined[IMJARLET_HOLD]; /* the bytes that were held, behind them what an accepted packet brings */
} imjarlet_judgement;

/*
 * What is said of a report.
 *   accepted   the trial named (from 0), its score and its end settings; place is 0
 *   refused    place is where; trial and score are 0 and the settings the factory values
 */
typedef struct {
    imjarlet_size place;
    imjarlet_size trial;
    imjarlet_size score;
    imjarlet_settings settings;
} imjarlet_verdict;

/* Makes *c a head at power-up: factory values, nothing half received, no transfer open. Returns 0. */
uint32_t imjarlet_reset(imjarlet_controller *c);

/*
 * Takes bytes of the input until it ends or one packet is complete, and carries that packet out. Call
 * it again with the bytes behind those that were taken. Refusals 1 and 3, tested in this order.
 *   0, *size is 0    waiting: the input ended before a packet did, *taken is all of it, and the output
 *                    is untouched
 *   0, otherwise     answered: *taken bytes of the input were taken, and the response is the first *size
 *                    bytes (7 or more) of the output, the rest of which is untouched
 *   1 or 3           refused: *taken and *size are 0
 *
 * Where the response is an error packet with code 03, *wrong says which value is not allowed: it is the
 * number of the first data byte, counted from 0, of the first field that is not, in layout order. A field
 * of two bytes is named by its first one (green 1025 is byte 2). A rule between two fields counts against
 * the later one: X and Y that are no listed pair are byte 2, whatever X is; a count over the limit of its
 * depth is byte 1; an inversion or a trigger that only depth 1 allows is byte 2 or 3. In a transfer the
 * bytes are counted in the joined data. In every other case, waiting and refused among them, *wrong is
 * IMJARLET_NO_WRONG_BYTE. The wrong byte is no part of the response.
 *
 * For C callers this call has changed (request 4): it takes one more pointer, the last, and always writes
 * there. Code that was compiled with the declaration of before has to be changed and compiled anew.
 */
uint32_t imjarlet_receive(imjarlet_controller *c, const uint8_t *input, imjarlet_size input_length,
                          uint8_t *out, imjarlet_size out_length,
                          imjarlet_size *taken, imjarlet_size *size, imjarlet_size *wrong);

/*
 * Asks what one packet would be answered, and does nothing: the controller is not touched, nor a packet that
 * it has half received, which has no say in the answer. *j is then the judgement: joined begins with the
 * held bytes of the open transfer, if one is open, and behind them stands the payload, if the packet is
 * accepted; the array behind the first `count` bytes is as it was. Refusals 3 and 5, tested in this order;
 * *j is then as it was.
 */
uint32_t imjarlet_judge(const imjarlet_controller *c, const uint8_t *packet, imjarlet_size packet_length,
                        imjarlet_judgement *j);

/*
 * Carries a judgement out, on the controller that it was made on or on another: what a receive call does when
 * the packet is complete, but that a half-received packet is never touched. The response is the first *size
 * bytes (7 or more) of the output, the rest of which is untouched. A read answers the values of the controller
 * that it is carried out on. Refusals 1, 3, 2 and 4, tested in this order; *size is then 0.
 *
 * A judgement with an error code is never refused with 2, whatever else it says: its codes are sent and an open
 * transfer is closed. 4 is drawn exactly where the display mode is not the kept one, or one of the two has a
 * transfer open and the other none, or both have one and its command, the number of held bytes or one of these
 * is another; it is drawn also where that item has no bearing on the answer.
 */
uint32_t imjarlet_carry_out(imjarlet_controller *c, const imjarlet_judgement *j,
                            uint8_t *out, imjarlet_size out_length, imjarlet_size *size);

/*
 * The whole-packet write of what *settings has for the command CMD1 CMD2, at the output's start, *size
 * bytes long; the rest of the output is untouched, and no other part of *settings is looked at. Run 1
 * is allowed in any display mode here. Refusals 1 and 2, tested in this order; *size is then 0.
 */
uint32_t imjarlet_encode(uint8_t cmd1, uint8_t cmd2, const imjarlet_settings *settings,
                         uint8_t *out, imjarlet_size out_length, imjarlet_size *size);

/*
 * The standard shipping list, at the output's start, *size bytes long: one whole-packet write for each
 * command, which bring a head at factory values to these settings. Refusals 1 and 3, tested in this
 * order; *size is then 0.
 */
uint32_t imjarlet_standard_list(const imjarlet_settings *settings,
                                uint8_t *out, imjarlet_size out_length, imjarlet_size *size);

/*
 * Whether the settings that a tuning report ships are those that its best trial ended with. Refusals
 * 10 to 20; 0 is that the report is accepted.
 */
uint32_t imjarlet_check_report(const uint8_t *report, imjarlet_size report_length, imjarlet_verdict *verdict);

#ifdef __cplusplus
}
#endif

#endif
