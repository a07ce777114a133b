/* Muralintak for C: the SUSI line receiver, one falling clock edge a call, and the reader of a bank's
 * reply.
 *
 * Two archives have them. libfirmware.a is the toolchain's, for x86-64 Linux, and has muralintak_edge
 * alone. libmuralintak_c.a is made from the Rust form (docs/RUST.md), for any processor, and has both.
 * The functions keep no state of their own and allocate nothing: all that is known between two calls is
 * in what the caller lends.
 */
#ifndef MURALINTAK_H
#define MURALINTAK_H

#include <stddef.h>
#include <stdint.h>

#ifdef __cplusplus
extern "C" {
#endif

/* What a receiver holds between edges. The caller owns it and keeps it in its place. A fresh one is
 * all zero: struct muralintak_receiver r = {0}; */
struct muralintak_receiver {
    uint64_t last;   /* time of the last edge in microseconds, 0 before any */
    uint64_t start;  /* time of the edge from which a pause is counted; not read while started is 0 */
    uint8_t started; /* 0 before the first edge, 1 after it; any other value counts as 1 */
    uint8_t bits;    /* bits of an unfinished byte, the first in bit 0 */
    uint8_t count;   /* how many: 0..7 */
    uint8_t first;   /* bytes of an unfinished packet */
    uint8_t second;
    uint8_t held;    /* how many: 0..2 */
};

/* A packet. Length 0 and bytes 0: none. Length 3: its first byte is one from 0x70 to 0x7F, of which
 * 0x77, 0x7B and 0x7F begin a CV packet and the other thirteen mean nothing. Length 2: its first byte is
 * any other, and bytes[2] is 0. */
struct muralintak_packet {
    uint8_t length;
    uint8_t bytes[3];
};

/* Numbers given back when an edge or a reply is refused, in the order in which they are looked for. */
enum {
    MURALINTAK_TAKEN = 0,
    MURALINTAK_IMPOSSIBLE = 12, /* no edges can have left this receiver: over 7 held bits, set bits
                                   above their count, an unused held byte not 0, held bytes that a
                                   packet can't have, bits or bytes held while started is 0, a start
                                   after the last edge while it is not */
    MURALINTAK_LEVEL = 2,       /* the level is neither 0 nor 1 */
    MURALINTAK_TIME = 3,        /* the time is below that of the last edge */

    MURALINTAK_ROOM = 4,        /* the room has less than 40 bytes */
    MURALINTAK_SHAPE = 9,       /* the bytes are no bank's reply */
    MURALINTAK_CHECKSUM = 10    /* they are one but for a wrong checksum */
};

/* What an edge gives. */
struct muralintak_outcome {
    uint8_t refusal;
    struct muralintak_packet packet;
};

/* One falling clock edge: its time in microseconds, and the level of the data line, 0 or 1.
 *
 * Not refused: the receiver is changed in place, and the packet is the one that this edge completed,
 * if any. Bit 0 of a byte comes first. The pause is counted from the edge that last completed a byte or, with
 * no byte since the receiver was fresh or since a pause, from the first edge since then. An edge 8,000
 * microseconds or more after that one is a pause: held bits and bytes are dropped, this edge is bit 0 of a
 * first byte, and the count begins at it.
 * Refused, by 12, 2 or 3: the receiver stays as it was, and there is no packet.
 *
 * The caller sees to it that `receiver` points to such a struct, which nothing else reads or writes
 * during the call. All else is refused or taken, whatever the numbers. libmuralintak_c.a also takes a
 * null pointer, and refuses it with 12. */
struct muralintak_outcome muralintak_edge(struct muralintak_receiver *receiver, uint64_t time, uint8_t level);

/* What a bank's reply gives: refusal 0 and the number of cells, or a refusal and 0. */
struct muralintak_bank {
    uint8_t refusal;
    uint8_t cells;
};

/* Reads what a module sent for a bank: `length` bytes at `reply`. Not refused: the cells, 40 at most, are
 * at the front of the room, and its other bytes stay. Refused, by 4, 9 or 10: the room stays as it was.
 *
 * The caller sees to it that `reply` points to so many bytes and `room` to so many that may be written,
 * and that the two share none. Null counts as no bytes. Only in libmuralintak_c.a. */
struct muralintak_bank muralintak_read_bank(const uint8_t *reply, size_t length, uint8_t *room, size_t room_length);

#ifdef __cplusplus
}
#endif

/* How the structs are laid out, on every processor. libmuralintak_c.a is checked against the same numbers when
 * it is compiled; of libfirmware.a it is believed. */
#if defined(__cplusplus) && __cplusplus >= 201103L
#define MURALINTAK_HOLDS(what) static_assert(what, #what)
#define MURALINTAK_ALIGNMENT(type) alignof(type)
#elif !defined(__cplusplus) && defined(__STDC_VERSION__) && __STDC_VERSION__ >= 201112L
#define MURALINTAK_HOLDS(what) _Static_assert(what, #what)
#define MURALINTAK_ALIGNMENT(type) _Alignof(type)
#endif
#ifdef MURALINTAK_HOLDS
MURALINTAK_HOLDS(offsetof(struct muralintak_receiver, last) == 0);
MURALINTAK_HOLDS(offsetof(struct muralintak_receiver, start) == 8);
MURALINTAK_HOLDS(offsetof(struct muralintak_receiver, started) == 16);
MURALINTAK_HOLDS(offsetof(struct muralintak_receiver, bits) == 17);
MURALINTAK_HOLDS(offsetof(struct muralintak_receiver, count) == 18);
MURALINTAK_HOLDS(offsetof(struct muralintak_receiver, first) == 19);
MURALINTAK_HOLDS(offsetof(struct muralintak_receiver, second) == 20);
MURALINTAK_HOLDS(offsetof(struct muralintak_receiver, held) == 21);
MURALINTAK_HOLDS(sizeof(struct muralintak_receiver) - 22 < MURALINTAK_ALIGNMENT(struct muralintak_receiver));
MURALINTAK_HOLDS(offsetof(struct muralintak_packet, length) == 0);
MURALINTAK_HOLDS(offsetof(struct muralintak_packet, bytes) == 1);
MURALINTAK_HOLDS(sizeof(struct muralintak_packet) == 4);
MURALINTAK_HOLDS(offsetof(struct muralintak_outcome, refusal) == 0);
MURALINTAK_HOLDS(offsetof(struct muralintak_outcome, packet) == 1);
MURALINTAK_HOLDS(sizeof(struct muralintak_outcome) == 5);
MURALINTAK_HOLDS(offsetof(struct muralintak_bank, refusal) == 0);
MURALINTAK_HOLDS(offsetof(struct muralintak_bank, cells) == 1);
MURALINTAK_HOLDS(sizeof(struct muralintak_bank) == 2);
#endif

#endif
