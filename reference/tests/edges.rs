//! Document 01: edges, bits, pauses by the clock of C-03, and the feed.

mod common;
use common::{levels, Board};
use reference::module::{Fed, Half};
use reference::receiver::{packet_length, Receiver, PAUSE};
use reference::refusal::Refusal;

/// Seven edges at 0, 100, .. 600 and one more at this time.
fn seven_and(last: u64) -> Receiver {
    let mut receiver = Receiver::default();
    for n in 0..7 {
        assert_eq!(receiver.edge(100 * n, 1), Ok(None));
    }
    assert_eq!(receiver.edge(last, 1), Ok(None));
    receiver
}

#[test]
fn the_two_pauses() {
    let byte = seven_and(7_999);
    assert_eq!((byte.held, byte.first, byte.count, byte.bits), (1, 255, 0, 0));
    // C-03: 8,599, which was document 01's, is lost too.
    for late in [8_000, 8_599, 8_600] {
        let lost = seven_and(late);
        assert_eq!((lost.held, lost.first, lost.count, lost.bits), (0, 0, 1, 1));
    }
    assert_eq!(PAUSE, 8_000);
}

#[test]
fn bit_0_comes_first() {
    let mut receiver = Receiver::default();
    for (n, level) in [1, 0, 0, 0, 0, 0, 0, 0].into_iter().enumerate() {
        receiver.edge(n as u64, level).unwrap();
    }
    assert_eq!(receiver.first, 1);
}

#[test]
fn packets_have_two_bytes_except_sixteen_of_them() {
    for first in 0..=255u8 {
        let three = (0x70..=0x7F).contains(&first);
        assert_eq!(packet_length(first), if three { 3 } else { 2 });
        let mut receiver = Receiver::default();
        let packets: Vec<Vec<u8>> =
            levels(&[first, 0x12, 0x34]).iter().filter_map(|&level| receiver.edge(0, level).unwrap()).collect();
        if three {
            assert_eq!(packets, [vec![first, 0x12, 0x34]]);
            assert_eq!(receiver, Receiver { started: 1, ..Receiver::default() });
        } else {
            assert_eq!(packets, [vec![first, 0x12]]);
            assert_eq!(receiver.first, 0x34);
        }
    }
}

#[test]
fn equal_times_are_allowed_and_falling_ones_refused() {
    let mut receiver = Receiver::default();
    assert_eq!(receiver.edge(500, 1), Ok(None));
    assert_eq!(receiver.edge(500, 1), Ok(None));
    assert_eq!(receiver.edge(499, 1), Err(Refusal::Time));
    assert_eq!(receiver.edge(499, 2), Err(Refusal::Level));
    assert_eq!((receiver.last, receiver.count, receiver.bits), (500, 2, 3));
}

#[test]
fn the_largest_time() {
    let mut receiver = Receiver::default();
    assert_eq!(receiver.edge(u64::MAX - 7_999, 1), Ok(None));
    assert_eq!(receiver.edge(u64::MAX, 1), Ok(None));
    assert_eq!(receiver.count, 2);
    assert_eq!(receiver.edge(u64::MAX, 0), Ok(None));
    assert_eq!(receiver.count, 3);
}

#[test]
fn a_pause_drops_bits_bytes_and_a_half() {
    let mut board = Board::new();
    board.send(&[0x5E, 0x12]);
    assert_eq!((board.module.half, board.module.halfbyte), (Half::Address, 0x12));
    board.pause();
    board.send(&[0x5F, 0x34]);
    assert_eq!(board.module.address, 0);

    let mut board = Board::new();
    board.feed(&[0; 20], &levels(&[0x7F, 0x85, 0x07])[..20]);
    assert_eq!((board.module.receiver.held, board.module.receiver.count), (2, 4));
    board.feed(&[8_000], &[1]);
    let one_bit = Receiver { last: 8_000, bits: 1, count: 1, start: 8_000, started: 1, ..Receiver::default() };
    assert_eq!(board.module.receiver, one_bit);
}

#[test]
fn a_half_is_kept_below_a_pause() {
    let mut board = Board::new();
    board.send(&[0x5E, 0x12]);
    // The eighth edge of 5F comes 7,999 µs after the last one of 5E 12.
    board.time += 7_199;
    board.send(&[0x5F, 0x34]);
    assert_eq!(board.module.address, 0x3412);
}

#[test]
fn a_pause_is_judged_across_pieces() {
    let mut board = Board::new();
    board.feed(&[0, 100, 200], &[1, 1, 1]);
    board.feed(&[], &[]);
    board.feed(&[7_999], &[1]);
    assert_eq!(board.module.receiver.count, 4);
    board.feed(&[8_000], &[1]);
    assert_eq!(board.module.receiver.count, 1);
}

#[test]
fn a_feed_stops_at_an_acknowledged_command() {
    let mut board = Board::new();
    let levels = levels(&[0x00, 0x00, 0x7F, 0x85, 0x07, 0x24, 0x55]);
    let times: Vec<u64> = (0..levels.len() as u64).collect();
    assert_eq!(board.feed(&times, &levels), Fed::Acknowledged { taken: 40, reply: 0 });
    assert_eq!((board.module.actual, board.store[5 - 3]), (0, 7));
    assert_eq!(board.feed(&times[40..], &levels[40..]), Fed::Ended { taken: 16 });
    assert_eq!(board.module.actual, 0x55);
}

#[test]
fn unacknowledged_commands_do_not_stop_it() {
    let mut board = Board::new();
    let levels = levels(&[0x24, 0x11, 0x25, 0x22, 0x77, 0x85, 0x08]);
    assert_eq!(board.feed(&vec![9; 56], &levels), Fed::Ended { taken: 56 });
    assert_eq!((board.module.actual, board.module.wanted), (0x11, 0x22));
}

#[test]
fn an_empty_piece_takes_none_and_changes_nothing() {
    let mut board = Board::new();
    board.send(&[0x6E, 0x81]);
    board.feed(&[5_000], &[1]);
    let before = board.module.clone();
    assert_eq!(board.feed(&[], &[]), Fed::Ended { taken: 0 });
    assert_eq!(board.module, before);
}

#[test]
fn bad_edges_leave_the_state_after_the_edges_before() {
    let mut board = Board::new();
    assert_eq!(board.feed(&[10, 20, 30], &[1, 1, 2]), Fed::BadEdge(Refusal::Level, 2));
    assert_eq!((board.module.receiver.count, board.module.receiver.last), (2, 20));
    assert_eq!(board.feed(&[20, 19], &[1, 1]), Fed::BadEdge(Refusal::Time, 1));
    assert_eq!((board.module.receiver.count, board.module.receiver.last), (3, 20));
    assert_eq!(board.feed(&[19], &[2]), Fed::BadEdge(Refusal::Level, 0));
}

#[test]
fn a_bad_edge_behind_an_acknowledged_one_is_not_seen() {
    let mut board = Board::new();
    let mut levels = levels(&[0x7F, 0x85, 0x07]);
    levels.push(2);
    assert_eq!(board.feed(&[0; 25], &levels), Fed::Acknowledged { taken: 24, reply: 0 });
}

#[test]
fn a_refused_edge_at_a_pause_drops_nothing() {
    let mut board = Board::new();
    board.send(&[0x5E, 0x12]);
    let before = board.module.clone();
    assert_eq!(board.feed(&[90_000], &[2]), Fed::BadEdge(Refusal::Level, 0));
    assert_eq!(board.module, before);
}

#[test]
fn the_receiver_refuses_12_for_held_bits_and_bytes() {
    let good = Receiver { last: 9, bits: 0b101, count: 3, first: 0x77, second: 5, held: 2, start: 9, started: 1 };
    let bad = [
        Receiver { count: 8, ..good.clone() },
        Receiver { bits: 0b1000, ..good.clone() },
        Receiver { first: 0x6F, ..good.clone() },
        Receiver { first: 0x80, ..good.clone() },
        Receiver { held: 3, ..good.clone() },
        Receiver { held: 1, ..good.clone() },
        Receiver { held: 0, second: 0, ..good.clone() },
        Receiver { started: 0, ..good.clone() },
        Receiver { start: 10, ..good.clone() },
    ];
    assert_eq!(good.clone().edge(10, 1), Ok(None));
    for mut receiver in bad {
        let before = receiver.clone();
        assert_eq!(receiver.edge(0, 2), Err(Refusal::Record));
        assert_eq!(receiver, before);
    }
}
