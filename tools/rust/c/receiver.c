/* A speed on the line, bit by bit, as a clock interrupt would hear it. */
#include "muralintak.h"
#include <stdio.h>

int main(void) {
    const uint8_t sent[2] = {0x24, 0x8A};
    struct muralintak_receiver receiver = {0};
    for (unsigned i = 0; i < 16; i++) {
        uint8_t level = sent[i / 8] >> (i % 8) & 1;
        struct muralintak_outcome o = muralintak_edge(&receiver, 100 * i, level);
        if (o.refusal == MURALINTAK_TAKEN && o.packet.length != 0)
            printf("edge %u: %02X %02X\n", i + 1, o.packet.bytes[0], o.packet.bytes[1]);
    }
    return 0;
}
