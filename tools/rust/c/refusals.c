/* What C can hand over and Rust cannot: null, and lengths of 0. And that a refusal changes nothing. */
#include "muralintak.h"
#include <stdio.h>
#include <string.h>

static int failed;

static void expect(int holds, const char *what) {
    if (!holds) {
        printf("not so: %s\n", what);
        failed = 1;
    }
}

static void bank_is(struct muralintak_bank bank, uint8_t refusal, uint8_t cells, const char *what) {
    expect(bank.refusal == refusal && bank.cells == cells, what);
}

static void receivers(void) {
    struct muralintak_receiver held = {.last = 500, .start = 500, .started = 255, .bits = 1, .count = 1};
    struct muralintak_receiver before = held;
    struct muralintak_outcome none = muralintak_edge(NULL, 0, 0);
    expect(none.refusal == MURALINTAK_IMPOSSIBLE && none.packet.length == 0, "a null receiver is refused with 12");
    expect(muralintak_edge(&held, 500, 2).refusal == MURALINTAK_LEVEL, "level 2 is refused with 2");
    expect(muralintak_edge(&held, 499, 1).refusal == MURALINTAK_TIME, "an earlier time is refused with 3");
    expect(memcmp(&held, &before, sizeof held) == 0, "a refusal leaves the receiver");
    held.count = 8;
    expect(muralintak_edge(&held, 500, 1).refusal == MURALINTAK_IMPOSSIBLE, "8 held bits are refused with 12");
    held = before;
    held.started = 0;
    expect(muralintak_edge(&held, 500, 1).refusal == MURALINTAK_IMPOSSIBLE, "a bit without a start is refused with 12");
    held = before;
    held.start = 501;
    expect(muralintak_edge(&held, 500, 1).refusal == MURALINTAK_IMPOSSIBLE, "a start after the last edge is refused with 12");
    held = before;
    expect(muralintak_edge(&held, 8499, 1).refusal == 0 && held.count == 2 && held.started == 1, "7,999 after the start goes on");
    held = before;
    expect(muralintak_edge(&held, 8500, 1).refusal == 0 && held.count == 1 && held.start == 8500, "8,000 after it is a pause");
}

static void banks(void) {
    const uint8_t none[] = {0x8E, 0x01, 0x8E, 0x01, 0x8F, 0x9A, 0x8F, 0x00};
    uint8_t bad[] = {0x8E, 0x01, 0x8E, 0x01, 0x8F, 0x9B, 0x8F, 0x00};
    uint8_t room[41];
    memset(room, 7, sizeof room);
    bank_is(muralintak_read_bank(none, sizeof none, room, 40), 0, 0, "a bank of no cells");
    bank_is(muralintak_read_bank(none, sizeof none, room, 39), 4, 0, "39 bytes of room are refused with 4");
    bank_is(muralintak_read_bank(none, sizeof none, NULL, 40), 4, 0, "a null room is refused with 4");
    bank_is(muralintak_read_bank(none, sizeof none, room, 0), 4, 0, "a room of 0 bytes is refused with 4");
    bank_is(muralintak_read_bank(NULL, 8, room, 40), 9, 0, "a null reply is refused with 9");
    bank_is(muralintak_read_bank(none, 0, room, 40), 9, 0, "a reply of 0 bytes is refused with 9");
    bank_is(muralintak_read_bank(NULL, 0, NULL, 0), 4, 0, "nothing at all is refused with 4");
    bank_is(muralintak_read_bank(bad, sizeof bad, room, 40), 10, 0, "a wrong checksum is refused with 10");
    for (unsigned i = 0; i < sizeof room; i++)
        expect(room[i] == 7, "none of them wrote to the room");
}

int main(void) {
    receivers();
    banks();
    return failed;
}
