#include <stdio.h>
#include "imjarlet.h"

int main(void) {
    imjarlet_controller head;
    imjarlet_size taken, size, wrong;
    uint8_t packet[64], response[64];
    imjarlet_reset(&head);
    imjarlet_settings wanted = head.settings;
    wanted.current.red.counts = 300;
    uint32_t refusal = imjarlet_encode(0x01, 0x04, &wanted, packet, sizeof packet, &size);
    if (refusal == IMJARLET_NO_REFUSAL)
        refusal = imjarlet_receive(&head, packet, size, response, sizeof response, &taken, &size, &wrong);
    if (refusal == IMJARLET_NO_REFUSAL && size > 0)
        printf("%d bytes taken, %d of response, type %02x, red %d counts\n",
               (int)taken, (int)size, response[0], head.settings.current.red.counts);
    if (refusal == IMJARLET_NO_REFUSAL) {
        packet[9] += 4;  /* green 1298 counts, which is not allowed */
        packet[12] += 4; /* the checksum of that */
        refusal = imjarlet_receive(&head, packet, 13, response, sizeof response, &taken, &size, &wrong);
    }
    if (refusal == IMJARLET_NO_REFUSAL && wrong != IMJARLET_NO_WRONG_BYTE)
        printf("type %02x, code %02x, wrong from data byte %d on\n", response[0], response[6], (int)wrong);
    return (int)refusal;
}
