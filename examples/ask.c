#include <stdio.h>
#include "imjarlet.h"

int main(void) {
    static const uint8_t packets[2][13] = {
        {0x02, 0x01, 0x04, 0, 6, 0, 0x2C, 0x01, 0x12, 0x05, 0x12, 0x01, 0x64}, /* green 1298: not allowed */
        {0x02, 0x01, 0x04, 0, 6, 0, 0x2C, 0x01, 0x12, 0x01, 0x12, 0x01, 0x60}, /* green 274 */
    };
    imjarlet_controller head;
    imjarlet_judgement asked;
    imjarlet_size size;
    uint8_t response[64];
    uint32_t refusal = imjarlet_reset(&head);
    for (int i = 0; i < 2 && refusal == IMJARLET_NO_REFUSAL; i++) {
        refusal = imjarlet_judge(&head, packets[i], sizeof packets[i], &asked);
        if (refusal != IMJARLET_NO_REFUSAL) break;
        printf("packet %d:", i);
        for (int code = 0x01; code <= 0x0B; code++)
            if (asked.ruling.codes & IMJARLET_CODE_BIT(code)) printf(" code %02x", code);
        if (asked.ruling.wrong != IMJARLET_JUDGED_NO_WRONG_BYTE)
            printf(", wrong from data byte %d on", asked.ruling.wrong);
        if (asked.ruling.codes == 0) {
            printf(" accepted");
            refusal = imjarlet_carry_out(&head, &asked, response, sizeof response, &size);
        }
        printf("; red %d counts\n", head.settings.current.red.counts);
    }
    return (int)refusal;
}
