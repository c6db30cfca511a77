/*
 * A head on the serial port of a Cortex-M4, all of its firmware: for ARM's MPS2 board with image AN386.
 * examples/firmware.ld places it. Nothing is copied or cleared before it starts: the library keeps no
 * data of its own, and imjarlet_reset does not look at what stood in the controller.
 */
#include "imjarlet.h"

enum { DATA, STATE, CONTROL, DIVIDER = 4 }; /* the port's registers */
enum { OUT_FULL = 1, IN_FULL = 2, IN_AND_OUT = 3, FASTEST = 16 };
#define PORT ((volatile uint32_t *)0x40004000)

static imjarlet_controller head;

void serve(void) {
    uint8_t byte, out[IMJARLET_OUTPUT_LEAST];
    imjarlet_size taken, size, wrong, i;
    PORT[DIVIDER] = FASTEST;
    PORT[CONTROL] = IN_AND_OUT;
    imjarlet_reset(&head);
    for (;;) {
        while (!(PORT[STATE] & IN_FULL)) {}
        byte = (uint8_t)PORT[DATA];
        /*
         * Refused is only a controller that other code has written to. The wrong byte is not sent: a
         * response has no room for it.
         */
        if (imjarlet_receive(&head, &byte, 1, out, sizeof out, &taken, &size, &wrong)) imjarlet_reset(&head);
        for (i = 0; i < size; i++) {
            while (PORT[STATE] & OUT_FULL) {}
            PORT[DATA] = out[i];
        }
    }
}

/* What the processor reads first: the stack's end and where to begin. */
__attribute__((section(".vectors"), used)) static const struct {
    uint32_t stack;
    void (*begin)(void);
} vectors = {0x20010000, serve};
