/*
 * Calls the library on cases (cases.rs) and writes all that it answers, so that two processors can be
 * compared byte for byte.
 *
 *     call <CASES >ANSWERS          the answers, and on standard error how often each kind came up
 *     call spoil N <CASES >ANSWERS  the same, with one bit of the last byte of case N (from 0) changed
 *     call stack <CASES             on standard error the bytes of a controller, and of stack that calls take
 *
 * A case is its length (4 bytes, as every number here least significant first), its kind and what it
 * hands over. Its answer is all that the calls returned and filled, 16 bytes on both sides of the output
 * included, and a sum of that and of the whole controller after each call. What is to be filled is EE
 * before. Exit status 0: every kind of answer came up; 1: one did not; 2: no such usage or case; 3: an
 * answer that include/imjarlet.h does not have.
 */
#include "imjarlet.h"
#include <stddef.h>
#include <string.h>
#include <unistd.h>

enum { LONGEST = 1 << 20, BESIDE = 16, LENT = 256, OLD = 0xEE };

/* ---- numbers in and out */

static uint8_t from[1 << 16], to[1 << 16];
static size_t from_at, from_end, to_end;

static void flush(void) {
    size_t at = 0;
    while (at < to_end) {
        long n = (long)write(1, to + at, to_end - at);
        if (n <= 0) _exit(2);
        at += (size_t)n;
    }
    to_end = 0;
}

static void say(const char *text) {
    if (write(2, text, strlen(text)) < 0) _exit(2);
}

static void say_number(const char *before, uint32_t n, const char *after) {
    char digits[24];
    size_t at = sizeof digits;
    digits[--at] = 0;
    do {
        digits[--at] = (char)('0' + n % 10);
        n /= 10;
    } while (n != 0);
    say(before);
    say(digits + at);
    say(after);
}

static void leave(int status, const char *why, uint64_t number) {
    flush();
    say_number(why, (uint32_t)number, "\n");
    _exit(status);
}

/* Whether there were n more bytes; the end of the input may come only before the first. */
static int get(uint8_t *p, size_t n) {
    size_t i;
    for (i = 0; i < n; i++) {
        if (from_at == from_end) {
            long got = (long)read(0, from, sizeof from);
            if (got <= 0 && i == 0) return 0;
            if (got <= 0) leave(2, "the cases are cut short after ", i);
            from_at = 0;
            from_end = (size_t)got;
        }
        p[i] = from[from_at++];
    }
    return 1;
}

static uint32_t four(const uint8_t *p) {
    return p[0] | (uint32_t)p[1] << 8 | (uint32_t)p[2] << 16 | (uint32_t)p[3] << 24;
}

static uint64_t sum;
static int painting; /* the stack is looked at, and no answer is written */

/* Into the sum alone. */
static void note(const void *p, size_t n) {
    const uint8_t *bytes = p;
    for (; n >= 4; n -= 4, bytes += 4) sum = (sum ^ four(bytes)) * 0x100000001B3u;
    for (; n > 0; n--, bytes++) sum = (sum ^ *bytes) * 0x100000001B3u;
}

/* Into the sum and the answers. */
static void put(const void *p, size_t n) {
    note(p, n);
    if (painting) return;
    if (sizeof to - to_end < n) flush();
    memcpy(to + to_end, p, n);
    to_end += n;
}

/* ---- what came up, and how often */

enum {
    STREAMS, LENT_HEADS, RECEIVED, OF_ONE_BYTE, PACKETS, RESETS, ENCODES, LISTS, REPORTS,
    WAITING, WRITTEN, READ, FAULTY, SHORT, RULE,
    CODE_02, CODE_03, CODE_04, CODE_07, CODE_09, CODE_0A, CODE_0B,
    BYTE_0, BYTE_1, BYTE_2, BYTE_3, BYTE_4, BYTE_16,
    JUDGES, JUDGED_ERROR, JUDGED_HOLD, JUDGED_WRITE, JUDGED_READ, JUDGE_RULE, JUDGE_NOT_ONE,
    CARRIES, CARRIED_ERROR, CARRIED_HOLD, CARRIED_WRITE, CARRIED_READ, CARRY_SHORT, CARRY_NOT, CARRY_RULE, CARRY_STALE,
    ENCODED, ENCODE_SHORT, ENCODE_NOT,
    LISTED, LIST_SHORT, LIST_RULE,
    ACCEPTED, REFUSED_10, REFUSED_20 = REFUSED_10 + 10,
    KINDS
};

static const char *const names[KINDS] = {
    "streams: all", "streams: on a lent controller", "receive: calls", "receive: of one byte", "receive: packets",
    "reset: calls", "encode: calls", "standard_list: calls", "check_report: calls",
    "receive: waiting", "receive: write response", "receive: read response", "receive: error packet",
    "receive: refusal 1", "receive: refusal 3",
    "code: 02", "code: 03", "code: 04", "code: 07", "code: 09", "code: 0A", "code: 0B",
    "wrong byte: 0", "wrong byte: 1", "wrong byte: 2", "wrong byte: 3", "wrong byte: 4", "wrong byte: 16",
    "judge: calls", "judge: error", "judge: hold", "judge: write", "judge: read", "judge: refusal 3", "judge: refusal 5",
    "carry_out: calls", "carry_out: error", "carry_out: hold", "carry_out: write", "carry_out: read",
    "carry_out: refusal 1", "carry_out: refusal 2", "carry_out: refusal 3", "carry_out: refusal 4",
    "encode: written", "encode: refusal 1", "encode: refusal 2",
    "standard_list: written", "standard_list: refusal 1", "standard_list: refusal 3",
    "check_report: accepted", "check_report: refusal 10", "check_report: refusal 11", "check_report: refusal 12",
    "check_report: refusal 13", "check_report: refusal 14", "check_report: refusal 15", "check_report: refusal 16",
    "check_report: refusal 17", "check_report: refusal 18", "check_report: refusal 19", "check_report: refusal 20"
};

static uint32_t seen[KINDS];

static void saw_codes(const uint8_t *out, uint64_t size) {
    static const uint8_t codes[] = {0x02, 0x03, 0x04, 0x07, 0x09, 0x0A, 0x0B};
    uint64_t i;
    size_t k;
    for (i = 6; i + 1 < size; i++) {
        for (k = 0; k < sizeof codes && codes[k] != out[i]; k++) {}
        if (k == sizeof codes) leave(3, "no such code: ", out[i]);
        seen[CODE_02 + k]++;
    }
}

/* With code 03, and with nothing else, a byte is named that a field begins with. */
static void saw_byte(int with_03, uint64_t wrong) {
    static const uint8_t bytes[] = {0, 1, 2, 3, 4, 16};
    size_t k;
    if (!with_03 && wrong == IMJARLET_NO_WRONG_BYTE) return;
    if (!with_03) leave(3, "receive: a wrong byte without code 03: ", wrong);
    for (k = 0; k < sizeof bytes && bytes[k] != wrong; k++) {}
    if (k == sizeof bytes) leave(3, "receive: no field begins with byte ", wrong);
    seen[BYTE_0 + k]++;
}

static void saw_receipt(uint32_t refusal, uint64_t cut, uint64_t size, uint64_t wrong, const uint8_t *out) {
    int error = refusal == IMJARLET_NO_REFUSAL && size > 0 && out[0] == IMJARLET_ERROR;
    saw_byte(error && out[6] == IMJARLET_CODE_VALUE, wrong);
    seen[RECEIVED]++;
    seen[OF_ONE_BYTE] += cut == 1;
    if (refusal == IMJARLET_SHORT_OUTPUT) seen[SHORT]++;
    else if (refusal == IMJARLET_OUT_OF_RULE) seen[RULE]++;
    else if (refusal != IMJARLET_NO_REFUSAL) leave(3, "receive: no such refusal: ", refusal);
    else if (size == 0) seen[WAITING]++;
    else {
        seen[PACKETS]++;
        if (out[0] == IMJARLET_WRITE_RESPONSE) seen[WRITTEN]++;
        else if (out[0] == IMJARLET_READ_RESPONSE) seen[READ]++;
        else if (out[0] == IMJARLET_ERROR) seen[FAULTY]++, saw_codes(out, size);
        else leave(3, "receive: no such response: ", out[0]);
    }
}

/* What a judgement asks to be done: by its codes, and without any by its number. */
static int asks(const imjarlet_judgement *j) {
    if (j->ruling.codes != 0) return IMJARLET_ACCEPTS_NOTHING;
    if (j->ruling.accepts < 1 || j->ruling.accepts > 3) leave(3, "no such thing is asked: ", j->ruling.accepts);
    return j->ruling.accepts;
}

static void saw_judgement(uint32_t refusal, const imjarlet_judgement *j) {
    seen[JUDGES]++;
    if (refusal == IMJARLET_NO_REFUSAL) seen[JUDGED_ERROR + asks(j)]++;
    else if (refusal == IMJARLET_OUT_OF_RULE) seen[JUDGE_RULE]++;
    else if (refusal == IMJARLET_NOT_ONE_PACKET) seen[JUDGE_NOT_ONE]++;
    else leave(3, "judge: no such refusal: ", refusal);
}

static void saw_carried(uint32_t refusal, const imjarlet_judgement *j, const uint8_t *out) {
    static const uint8_t types[] = {IMJARLET_ERROR, IMJARLET_WRITE_RESPONSE, IMJARLET_WRITE_RESPONSE,
                                    IMJARLET_READ_RESPONSE};
    seen[CARRIES]++;
    if (refusal == IMJARLET_SHORT_OUTPUT) seen[CARRY_SHORT]++;
    else if (refusal == IMJARLET_NOT_ALLOWED) seen[CARRY_NOT]++;
    else if (refusal == IMJARLET_OUT_OF_RULE) seen[CARRY_RULE]++;
    else if (refusal == IMJARLET_STALE) seen[CARRY_STALE]++;
    else if (refusal != IMJARLET_NO_REFUSAL) leave(3, "carry_out: no such refusal: ", refusal);
    else if (out[0] != types[asks(j)]) leave(3, "carry_out: another response: ", out[0]);
    else seen[CARRIED_ERROR + asks(j)]++;
}

static void saw_emitted(int first, uint32_t refusal, uint32_t other) {
    if (refusal == IMJARLET_NO_REFUSAL) seen[first]++;
    else if (refusal == IMJARLET_SHORT_OUTPUT) seen[first + 1]++;
    else if (refusal == other) seen[first + 2]++;
    else leave(3, "encoder or standard list: no such refusal: ", refusal);
}

static void saw_verdict(uint32_t refusal) {
    seen[REPORTS]++;
    if (refusal == IMJARLET_NO_REFUSAL) seen[ACCEPTED]++;
    else if (refusal >= 10 && refusal <= 20) seen[REFUSED_10 + refusal - 10]++;
    else leave(3, "report: no such refusal: ", refusal);
}

/* ---- the stack, painted below a call and looked at after it */

/*
 * What is counted of a call: from the stack pointer that it begins with down to the lowest word that it, or
 * a memory function that it calls, has written, rounded up to the alignment that the ABI gives the stack
 * pointer. So saved registers count, and the return address, which on x86-64 the call itself puts there.
 * Arguments that are passed on the stack do not: they are above, in the caller's frame. What a frame has at
 * its lowest end and never writes cannot be seen.
 */
enum { PAINTED = 8192 };
enum { OF_RESET, OF_RECEIVE, OF_JUDGE, OF_CARRY_OUT, OF_ENCODE, OF_LIST, OF_REPORT, CALLS };

static uintptr_t deepest[CALLS];

/*
 * The stack pointer, and by BEGIN(call) a function measured_CALL that stores in `begun` the one that it
 * begins with and goes on as CALL. Only there is it known where a call begins: a compiler may push arguments
 * after it has been asked for the stack pointer.
 */
uintptr_t begun;

#define LINES(call, type, lines) \
    __asm__(".text\n.p2align 2\n.globl measured_" #call "\n" type "\nmeasured_" #call ":\n" lines);

#if defined __thumb__
enum { ALIGNED = 8, RETURN = 0 };
#define STACK_POINTER(p) __asm__ volatile("mov %0, sp" : "=r"(p) : : "memory")
#define BEGIN(call) LINES(call, ".thumb_func", "ldr r12, =begun\nstr sp, [r12]\nb.w " #call "\n.ltorg\n")
#elif defined __arm__
enum { ALIGNED = 8, RETURN = 0 };
#define STACK_POINTER(p) __asm__ volatile("mov %0, sp" : "=r"(p) : : "memory")
#define BEGIN(call) \
    LINES(call, ".type measured_" #call ", %function", "ldr r12, =begun\nstr sp, [r12]\nb " #call "\n.ltorg\n")
#elif defined __aarch64__
enum { ALIGNED = 16, RETURN = 0 };
#define STACK_POINTER(p) __asm__ volatile("mov %0, sp" : "=r"(p) : : "memory")
#define BEGIN(call)                                     \
    LINES(call, ".type measured_" #call ", %function", \
          "adrp x16, begun\nmov x17, sp\nstr x17, [x16, :lo12:begun]\nb " #call "\n")
#elif defined __riscv
enum { ALIGNED = 16, RETURN = 0 };
#define STACK_POINTER(p) __asm__ volatile("mv %0, sp" : "=r"(p) : : "memory")
#define BEGIN(call) LINES(call, ".type measured_" #call ", @function", "la t0, begun\nsw sp, 0(t0)\ntail " #call "\n")
#else
enum { ALIGNED = 16, RETURN = 8 };
#define STACK_POINTER(p) __asm__ volatile("mov %%rsp, %0" : "=r"(p) : : "memory")
#define BEGIN(call) LINES(call, ".type measured_" #call ", @function", "movq %rsp, begun(%rip)\njmp " #call "\n")
#endif

#define MEASURED(call)                         \
    extern __typeof__(call) measured_##call; \
    BEGIN(call)

MEASURED(imjarlet_reset)
MEASURED(imjarlet_receive)
MEASURED(imjarlet_judge)
MEASURED(imjarlet_carry_out)
MEASURED(imjarlet_encode)
MEASURED(imjarlet_standard_list)
MEASURED(imjarlet_check_report)

/* What is painted at a place: by the place, so that no register and no copy of other words has it. */
#define PAINT(at, coat) (((uint32_t)(at) + (coat)) * 2654435761u)

/*
 * BEFORE makes ready for one more CALL. Two coats: what the call leaves in a word may be the paint of one.
 * Nothing is called for the paint and the look, since that would write there too.
 */
#define MEASURE(which, before, call)                                                               \
    if (painting) {                                                                                \
        uint32_t coat;                                                                             \
        for (coat = 1; coat <= 2; coat++) {                                                        \
            uintptr_t end, at;                                                                     \
            before;                                                                                \
            STACK_POINTER(end);                                                                    \
            for (at = end - PAINTED; at < end; at += 4) *(volatile uint32_t *)at = PAINT(at, coat); \
            measured_##call;                                                                       \
            begun += RETURN;                                                                       \
            at = end - PAINTED;                                                                    \
            while (at < begun && *(const volatile uint32_t *)at == PAINT(at, coat)) at += 4;       \
            at = (begun - at + ALIGNED - 1) / ALIGNED * ALIGNED;                                   \
            if (at > deepest[which]) deepest[which] = at;                                          \
        }                                                                                          \
    }

/* ---- the calls */

static imjarlet_controller head, before;
static uint8_t area[BESIDE + 8 + LENT + BESIDE];

/* The output of a call, at any alignment and with the same byte around it. */
static uint8_t *lend(uint8_t fill) {
    memset(area, fill, sizeof area);
    return area + BESIDE + fill % 8;
}

static void fresh(void) {
    uint32_t refusal;
    memset(&head, OLD, sizeof head);
    MEASURE(OF_RESET, memset(&head, OLD, sizeof head), imjarlet_reset(&head))
    refusal = imjarlet_reset(&head);
    seen[RESETS]++;
    put(&refusal, sizeof refusal);
    put(&head, sizeof head);
    if (refusal != IMJARLET_NO_REFUSAL) leave(3, "reset: no such refusal: ", refusal);
}

/* Whether the controller was not refused; *at grows by the bytes taken. */
static int receive(const uint8_t *input, size_t cut, size_t length, uint8_t fill, size_t *at) {
    imjarlet_size taken, size, wrong;
    uint8_t *out = lend(fill);
    uint32_t refusal;
    if (painting) before = head;
    MEASURE(OF_RECEIVE, head = before, imjarlet_receive(&head, input, cut, out, length, &taken, &size, &wrong))
    if (painting) head = before;
    lend(fill);
    memset(&taken, OLD, sizeof taken);
    memset(&size, OLD, sizeof size);
    memset(&wrong, OLD, sizeof wrong);
    refusal = imjarlet_receive(&head, input, cut, out, length, &taken, &size, &wrong);
    put(&refusal, sizeof refusal);
    put(&taken, sizeof taken);
    put(&size, sizeof size);
    put(&wrong, sizeof wrong);
    put(out - BESIDE, BESIDE + length + BESIDE);
    note(&head, sizeof head);
    if (taken > cut) leave(3, "receive: more bytes taken than given: ", taken);
    if (size > length) leave(3, "receive: a response longer than the output: ", size);
    saw_receipt(refusal, cut, size, wrong, out);
    *at += (size_t)taken;
    return refusal != IMJARLET_OUT_OF_RULE;
}

/*
 * Cuts (4 bytes each) and output lengths, both used in turn and behind their number; the first byte
 * around the output; whether the head is reset in the end; whether it is lent, and then its bytes; and
 * the stream.
 */
static void stream(const uint8_t *p, const uint8_t *end) {
    size_t cuts = p[0], outs = p[1 + 4 * cuts], call, at = 0, idle = 0, total;
    const uint8_t *cut_at = p + 1, *out_at = p + 2 + 4 * cuts;
    uint8_t fill = out_at[outs], reset = out_at[outs + 1], given = out_at[outs + 2];
    p = out_at + outs + 3 + (given ? sizeof head : 0);
    if (p > end || cuts == 0 || outs == 0) leave(2, "no such stream: ", seen[STREAMS]);
    seen[STREAMS]++;
    seen[LENT_HEADS] += given;
    fresh();
    if (given) memcpy(&head, p - sizeof head, sizeof head);
    total = (size_t)(end - p);
    /* Nothing more comes of the end of the stream, nor of a head that is refused. */
    for (call = 0; idle <= 20 && !(at == total && idle > 0); call++) {
        size_t cut = four(cut_at + 4 * (call % cuts)), old = at;
        if (cut > total - at) cut = total - at;
        if (!receive(p + at, cut, out_at[call % outs], (uint8_t)(fill + call), &at)) break;
        idle = at == old ? idle + 1 : 0;
    }
    put(&head, sizeof head);
    if (reset) fresh();
}

/* Carries a judgement out on the head. */
static void carry_out(const imjarlet_judgement *j, size_t length) {
    imjarlet_size size;
    uint8_t fill = (uint8_t)seen[CARRIES], *out = lend(fill);
    uint32_t refusal;
    if (painting) before = head;
    MEASURE(OF_CARRY_OUT, head = before, imjarlet_carry_out(&head, j, out, length, &size))
    if (painting) head = before;
    lend(fill);
    memset(&size, OLD, sizeof size);
    refusal = imjarlet_carry_out(&head, j, out, length, &size);
    put(&refusal, sizeof refusal);
    put(&size, sizeof size);
    put(out - BESIDE, BESIDE + length + BESIDE);
    note(&head, sizeof head);
    note(j, sizeof *j);
    if (size > length) leave(3, "carry_out: a response longer than the output: ", size);
    saw_carried(refusal, j, out);
}

/*
 * The output's length and a head; and then a packet, which is judged and, where that is not refused, carried
 * out, or a judgement, which is carried out.
 */
static void ask(uint8_t kind, const uint8_t *p, const uint8_t *end) {
    static imjarlet_judgement j;
    size_t length = p[0], n;
    uint32_t refusal;
    if ((size_t)(end - p) < 1 + sizeof head) leave(2, "no such head: ", seen[JUDGES]);
    memcpy(&head, p + 1, sizeof head);
    p += 1 + sizeof head;
    n = (size_t)(end - p);
    if (kind == 'C') {
        if (n != sizeof j) leave(2, "no such judgement: ", seen[CARRIES]);
        memcpy(&j, p, n);
        carry_out(&j, length);
        return;
    }
    MEASURE(OF_JUDGE, , imjarlet_judge(&head, p, n, &j))
    memset(&j, OLD, sizeof j);
    refusal = imjarlet_judge(&head, p, n, &j);
    put(&refusal, sizeof refusal);
    put(&j, sizeof j);
    note(&head, sizeof head);
    saw_judgement(refusal, &j);
    if (refusal == IMJARLET_NO_REFUSAL) carry_out(&j, length);
}

/* The encoder again, with other bits above the command's bytes, which a caller may leave there: the same answer. */
extern uint32_t encode_in_words(uint32_t cmd1, uint32_t cmd2, const imjarlet_settings *settings, uint8_t *out,
                                imjarlet_size out_length, imjarlet_size *size) __asm__("imjarlet_encode");

static void encode_again(uint8_t cmd1, uint8_t cmd2, const imjarlet_settings *settings, size_t length, uint8_t fill,
                         uint32_t refusal, imjarlet_size size) {
    const uint32_t above = 0xA5C3E100;
    static uint8_t wanted[sizeof area];
    imjarlet_size again;
    size_t i;
    memcpy(wanted, area, sizeof area);
    if (encode_in_words(above | cmd1, above | cmd2, settings, lend(fill), length, &again) != refusal || again != size)
        leave(3, "encode: not by the command's bytes alone: ", cmd1);
    for (i = 0; i < sizeof area; i++)
        if (area[i] != wanted[i]) leave(3, "encode: other bytes by what is above the command's: ", i);
}

/* The output's length, and for the encoder the command; then the settings. */
static void emit(uint8_t kind, const uint8_t *p, const uint8_t *end) {
    int encode = kind == 'E';
    size_t length = p[0];
    uint8_t cmd1 = p[1], cmd2 = p[2], *out = lend((uint8_t)(seen[ENCODES] + seen[LISTS]));
    imjarlet_settings settings;
    imjarlet_size size;
    uint32_t refusal;
    p += encode ? 3 : 1;
    if ((size_t)(end - p) != sizeof settings) leave(2, "no such settings: ", seen[ENCODES] + seen[LISTS]);
    memcpy(&settings, p, sizeof settings);
    if (encode) {
        MEASURE(OF_ENCODE, , imjarlet_encode(cmd1, cmd2, &settings, out, length, &size))
    } else {
        MEASURE(OF_LIST, , imjarlet_standard_list(&settings, out, length, &size))
    }
    out = lend((uint8_t)(seen[ENCODES] + seen[LISTS]));
    memset(&size, OLD, sizeof size);
    refusal = encode ? imjarlet_encode(cmd1, cmd2, &settings, out, length, &size)
                     : imjarlet_standard_list(&settings, out, length, &size);
    put(&refusal, sizeof refusal);
    put(&size, sizeof size);
    put(out - BESIDE, BESIDE + length + BESIDE);
    note(&settings, sizeof settings);
    if (encode) encode_again(cmd1, cmd2, &settings, length, (uint8_t)(seen[ENCODES] + seen[LISTS]), refusal, size);
    seen[encode ? ENCODES : LISTS]++;
    if (encode) saw_emitted(ENCODED, refusal, IMJARLET_NOT_ALLOWED);
    else saw_emitted(LISTED, refusal, IMJARLET_OUT_OF_RULE);
}

static void report(const uint8_t *p, const uint8_t *end) {
    size_t length = (size_t)(end - p);
    imjarlet_verdict verdict;
    uint32_t refusal;
    MEASURE(OF_REPORT, , imjarlet_check_report(p, length, &verdict))
    memset(&verdict, OLD, sizeof verdict);
    refusal = imjarlet_check_report(p, length, &verdict);
    put(&refusal, sizeof refusal);
    put(&verdict, sizeof verdict);
    saw_verdict(refusal);
}

static void answer(uint8_t kind, const uint8_t *p, const uint8_t *end) {
    sum = 0xCBF29CE484222325u;
    if (kind == 'S') stream(p, end);
    else if (kind == 'E' || kind == 'L') emit(kind, p, end);
    else if (kind == 'R') report(p, end);
    else if (kind == 'J' || kind == 'C') ask(kind, p, end);
    else leave(2, "no such kind of case: ", kind);
    put(&sum, sizeof sum);
}

static int counted(void) {
    int kind, status = 0;
    for (kind = 0; kind < KINDS; kind++) {
        say(names[kind]);
        say_number(": ", seen[kind], seen[kind] == 0 ? ", so this was not tried\n" : "\n");
        if (seen[kind] == 0) status = 1;
    }
    return status;
}

static int measured(void) {
    static const char *const calls[CALLS] = {"reset",  "receive",       "judge",       "carry_out",
                                             "encode", "standard_list", "check_report"};
    int call;
    say_number("controller ", sizeof head, "\n");
    for (call = 0; call < CALLS; call++) {
        say(calls[call]);
        say_number(" ", (uint32_t)deepest[call], "\n");
        if (deepest[call] + ALIGNED > PAINTED) leave(3, "deeper than was painted: ", PAINTED);
    }
    return 0;
}

int main(int argc, char **argv) {
    static uint8_t one[LONGEST];
    uint8_t length[4];
    uint32_t number, spoilt = UINT32_MAX;
    const char *digit;
    painting = argc == 2 && strcmp(argv[1], "stack") == 0;
    if (argc == 3 && strcmp(argv[1], "spoil") == 0)
        for (spoilt = 0, digit = argv[2]; *digit; digit++) spoilt = 10 * spoilt + (uint32_t)(*digit - '0');
    else if (argc != 1 && !painting) leave(2, "usage: call [stack | spoil N]; arguments: ", (uint64_t)argc);
    for (number = 0; get(length, sizeof length); number++) {
        size_t n = four(length);
        if (n < 1 || n > sizeof one || !get(one, n)) leave(2, "no such length of a case: ", n);
        if (number == spoilt) one[n - 1] ^= 1;
        answer(one[0], one + 1, one + n);
    }
    flush();
    return painting ? measured() : counted();
}
