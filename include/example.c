/* Feeds a receiver the sixteen bits of the packet 0F 85, 100 microseconds apart, and prints the packet that the last
 * of them completes. docs/FIRMWARE.md has the commands. */
#include "muralintak.h"
#include <stdio.h>

int main(void) {
    static const uint8_t packet[2] = {0x0F, 0x85};
    struct muralintak_receiver receiver = {0};
    for (unsigned bit = 0; bit < 16; bit++) {
        uint8_t level = packet[bit / 8] >> (bit % 8) & 1;
        struct muralintak_outcome o = muralintak_edge(&receiver, 100 * bit, level);
        if (o.refusal != MURALINTAK_TAKEN)
            printf("edge %u is refused with %u\n", bit + 1, o.refusal);
        else if (o.packet.length != 0)
            printf("edge %u completes a packet of %u bytes: %02X %02X\n", bit + 1, o.packet.length, o.packet.bytes[0],
                   o.packet.bytes[1]);
    }
    return 0;
}
