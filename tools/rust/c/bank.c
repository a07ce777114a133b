/* A bank's reply, read into cells. */
#include "muralintak.h"
#include <stdio.h>

int main(void) {
    const uint8_t reply[] = {0x8F, 0x11, 0x8F, 0x22, 0x8F, 0x33, 0x8E, 0x01, 0x8F, 0x4A, 0x8F, 0x00};
    uint8_t cells[40] = {0};
    struct muralintak_bank bank = muralintak_read_bank(reply, sizeof reply, cells, sizeof cells);
    if (bank.refusal != MURALINTAK_TAKEN)
        return 1;
    printf("%d cells:", bank.cells);
    for (int i = 0; i < bank.cells; i++)
        printf(" %02X", cells[i]);
    printf("\n");
    return 0;
}
