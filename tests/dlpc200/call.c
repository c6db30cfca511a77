/* Calls the library through include/dlpc200.h: park, and then a read of the park state. */
#include "dlpc200.h"
#include <stdio.h>
#include <string.h>

int main(void) {
    static const uint8_t stream[] = {0x02, 0xAA, 0, 0, 2, 0, 0x05, 0, 0x07, 0x04, 0xAA, 0, 0, 2, 0, 0x15, 0, 0x17};
    static const uint8_t answers[] = {0x03, 0xAA, 0, 0, 2, 0, 0, 0, 0x02, 0x05, 0xAA, 0, 0, 3, 0, 0, 0, 1, 0x04};
    dlpc200_states states = {0, 1, 0, 7, 1};
    dlpc200_device device;
    dlpc200_size taken, size, at = 0, length = 0;
    uint8_t out[64], got[64];
    if (dlpc200_reset(&device, &states) != DLPC200_NO_REFUSAL) return 1;
    while (at < sizeof stream) {
        if (dlpc200_receive(&device, stream + at, sizeof stream - at, out, sizeof out, &taken, &size) != DLPC200_NO_REFUSAL) return 2;
        if (size == 0 || dlpc200_faults(out[DLPC200_AT_DATA0], out[DLPC200_AT_DATA1]) != 0) return 3;
        memcpy(got + length, out, size);
        length += size;
        at += taken;
    }
    if (length != sizeof answers || memcmp(got, answers, length) != 0 || device.states.park != 1) return 4;
    states.flash = 8;
    dlpc200_reset(&device, &states);
    if (dlpc200_receive(&device, stream, sizeof stream, out, sizeof out, &taken, &size) != DLPC200_OUT_OF_RULE) return 5;
    if (taken != 0 || size != 0 || device.states.flash != 8) return 6;
    printf("dlpc200: called from C\n");
    return 0;
}
