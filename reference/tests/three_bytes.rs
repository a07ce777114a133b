//! C-02: every first byte from 0x70 to 0x7F is a three-byte packet. Thirteen of them mean nothing.

mod common;
use common::{levels, Board};
use reference::module::{Fed, Half, Position};
use reference::receiver::{packet_length, Receiver};

const THIRTEEN: [u8; 13] = [0x70, 0x71, 0x72, 0x73, 0x74, 0x75, 0x76, 0x78, 0x79, 0x7A, 0x7C, 0x7D, 0x7E];

/// Second and third bytes: such as begin a packet, and others. 70 01 02 and 7C 07 08 are among the packets.
const LATER: [u8; 13] = [0x00, 0x01, 0x02, 0x07, 0x08, 0x5E, 0x5F, 0x6E, 0x70, 0x77, 0x7F, 0x85, 0xFF];

/// A module whose record and buffers are anything but new, with this half held.
fn used(half: Half) -> Board {
    let mut board = Board::new();
    for packet in [[0x24, 0x85], [0x26, 9], [0x5E, 1], [0x5F, 2], [0x63, 0xFF], [0x6D, 0x85], [0x6C, 0xFE]] {
        board.send(&packet);
    }
    assert!(board.yes(&[0x7F, 0x85, 7]));
    board.module.post([0x83, 1, 0x83, 2]).unwrap();
    match half {
        Half::None => {}
        Half::Address => assert_eq!(board.send(&[0x5E, 0x34]), None),
        Half::State => assert_eq!(board.send(&[0x6E, 0x80]), None),
        Half::Position => assert_eq!(board.send(&[0x88, 0x0B]), None),
    }
    assert_eq!(board.module.half, half);
    board
}

/// A receiver to which a byte of this time completed a packet.
fn nothing_held(time: u64) -> Receiver {
    Receiver { last: time, start: time, started: 1, ..Receiver::default() }
}

#[test]
fn sixteen_lengths_and_their_neighbours() {
    for first in 0x70..=0x7F {
        assert_eq!(packet_length(first), 3, "{first:02X}");
    }
    assert_eq!((packet_length(0x6F), packet_length(0x80)), (2, 2));
}

/// No change but that a held half is dropped, no acknowledgement, and the next byte begins a packet.
#[test]
fn the_thirteen_mean_nothing() {
    for half in [Half::None, Half::Address, Half::State, Half::Position] {
        for first in THIRTEEN {
            for second in LATER {
                for third in LATER {
                    let mut board = used(half);
                    let mut wanted = board.module.clone();
                    let (states, store, room) = (board.states.clone(), board.store.clone(), board.room.clone());
                    assert_eq!(board.send(&[first, second, third]), None);
                    (wanted.half, wanted.halfbyte) = (Half::None, 0);
                    wanted.receiver = nothing_held(board.time);
                    assert_eq!(board.module, wanted, "{first:02X} {second:02X} {third:02X}");
                    assert_eq!((&board.states, &board.store, &board.room), (&states, &store, &room));
                    assert!(board.yes(&[0x77, 0x85, 7]));
                }
            }
        }
    }
}

#[test]
fn a_second_half_behind_one_of_them_does_nothing() {
    for first in THIRTEEN {
        let mut board = Board::new();
        for (one, other) in [([0x6E, 0x80], [0x6F, 1]), ([0x5E, 0x34], [0x5F, 0x12]), ([0x88, 3], [0x89, 7])] {
            board.send(&one);
            board.send(&[first, 1, 2]);
            board.send(&other);
        }
        assert_eq!((board.states, board.module.address), (vec![0; 4_096], 0), "{first:02X}");
        assert_eq!(board.module.position, Position::Unknown, "{first:02X}");
    }
}

/// 71 7F 85 7F 85 07: one write, at the 48th edge, wherever the recording is cut.
#[test]
fn a_write_behind_what_looks_like_one() {
    let levels = levels(&[0x71, 0x7F, 0x85, 0x7F, 0x85, 0x07]);
    let times: Vec<u64> = (0..48).map(|n| 100 * n).collect();
    for cut in 0..48 {
        let mut board = Board::new();
        assert_eq!(board.feed(&times[..cut], &levels[..cut]), Fed::Ended { taken: cut });
        let rest = Fed::Acknowledged { taken: 48 - cut, reply: 0 };
        assert_eq!(board.feed(&times[cut..], &levels[cut..]), rest);
        assert_eq!(board.store[2], 7);
    }
}

#[test]
fn a_pause_inside_one_of_them() {
    for first in THIRTEEN {
        let mut board = Board::new();
        board.send(&[first, 0x7F]);
        assert_eq!((board.module.receiver.first, board.module.receiver.held), (first, 2));
        board.time += 7_199;
        board.send(&[0x85]);
        assert_eq!(board.module.receiver, nothing_held(board.time));
        board.send(&[first, 0x7F]);
        board.time += 7_900;
        assert!(board.yes(&[0x7F, 0x85, 7]));
    }
}

#[test]
fn the_neighbours_have_two_bytes_on_the_line() {
    for first in [0x6F, 0x80] {
        let mut board = Board::new();
        board.send(&[first, 1]);
        assert!(board.yes(&[0x7F, 0x85, 7]), "{first:02X}");
    }
}
