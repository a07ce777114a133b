//! C-03: the pause is counted from the last complete byte or, with no byte since restart or pause, from the first edge.

mod common;
use common::{levels, replay, Board};
use reference::module::{Fed, Half, Module};
use reference::receiver::Receiver;
use reference::refusal::Refusal;

/// A receiver after good edges at these times, all of this level.
fn after(times: impl IntoIterator<Item = u64>, level: u8) -> Receiver {
    let mut receiver = Receiver::default();
    for time in times {
        receiver.edge(time, level).unwrap();
    }
    receiver
}

/// Eight edges, 100 µs a bit, the last at this time.
fn byte_at(last: u64) -> impl Iterator<Item = u64> {
    (0..8).map(move |n| last - 700 + 100 * n)
}

/// Bits and bytes held, and the clock.
fn held(receiver: &Receiver) -> (u8, u8, u64, u8) {
    (receiver.count, receiver.held, receiver.start, receiver.started)
}

#[test]
fn a_byte_at_1000_and_single_bits_from_6000_on() {
    let bits = |last| after(byte_at(1_000).chain([6_000, 7_000, last]), 1);
    assert_eq!(held(&bits(8_999)), (3, 1, 1_000, 1));
    assert_eq!((bits(8_999).first, bits(8_999).bits), (255, 7));
    assert_eq!(held(&bits(9_000)), (1, 0, 9_000, 1));
    assert_eq!((bits(9_000).first, bits(9_000).bits), (0, 1));
}

#[test]
fn the_seven_bits_of_document_01() {
    let bits = |last| after((0..7).map(|n| 100 * n).chain([last]), 0);
    assert_eq!(held(&bits(7_999)), (0, 1, 7_999, 1));
    for lost in [8_000, 8_599, 8_600] {
        assert_eq!(held(&bits(lost)), (1, 0, lost, 1));
    }
}

#[test]
fn the_first_edge_of_a_fresh_receiver_at_6000() {
    assert_eq!(held(&after([6_000], 1)), (1, 0, 6_000, 1));
    assert_eq!(held(&after([6_000, 9_000, 13_999], 1)), (3, 0, 6_000, 1));
    assert_eq!(held(&after([6_000, 9_000, 14_000], 1)), (1, 0, 14_000, 1));
    // However late it comes.
    assert_eq!(held(&after([u64::MAX - 1, u64::MAX], 1)), (2, 0, u64::MAX - 1, 1));
}

#[test]
fn the_edge_after_a_pause_starts_the_clock() {
    assert_eq!(held(&after([0, 8_000, 15_999], 1)), (2, 0, 8_000, 1));
    assert_eq!(held(&after([0, 8_000, 16_000], 1)), (1, 0, 16_000, 1));
    // A pause needs no two edges that lie far apart.
    assert_eq!(held(&after([0, 4_000, 7_999, 8_000], 1)), (1, 0, 8_000, 1));
}

#[test]
fn every_byte_starts_the_clock_also_the_last_of_a_packet() {
    let mut board = Board::new();
    for byte in [0x7F, 0x85, 0x07, 0x24, 0x11] {
        board.time += 7_199;
        board.send(&[byte]);
        assert_eq!((board.module.receiver.start, board.module.receiver.last), (board.time, board.time));
    }
    assert_eq!((board.store[2], board.module.actual), (7, 0x11));
}

/// 6E 80, and then 6F 01 whose first edge comes so long after the last one.
fn pair_with(gap: u64) -> Board {
    let mut board = Board::new();
    board.send(&[0x6E, 0x80]);
    board.time += gap - 100;
    board.send(&[0x6F, 0x01]);
    board
}

#[test]
fn a_held_half_goes_by_the_same_clock() {
    assert!(pair_with(7_299).state(128));
    for lost in [7_300, 7_999, 8_000] {
        let board = pair_with(lost);
        assert_eq!((board.states, board.module.half), (vec![0; 4_096], Half::None), "{lost}");
    }
}

#[test]
fn a_pause_on_the_eighth_edge_drops_the_half_there() {
    let mut board = Board::new();
    board.send(&[0x5E, 0x34]);
    let times: Vec<u64> = (0..8).map(|n| board.time + 7_300 + 100 * n).collect();
    board.feed(&times[..7], &levels(&[0x5F])[..7]);
    assert_eq!((board.module.half, board.module.halfbyte), (Half::Address, 0x34));
    board.feed(&times[7..], &[0]);
    assert_eq!((board.module.half, board.module.halfbyte), (Half::None, 0));
    assert_eq!(held(&board.module.receiver), (1, 0, times[7], 1));
}

#[test]
fn a_command_begun_from_7300_to_7999_is_lost() {
    for (gap, heard) in [(7_200, true), (7_299, true), (7_300, false), (7_500, false), (7_999, false), (8_000, true)] {
        let mut board = Board::new();
        board.send(&[0x25, 0x22]);
        board.time += gap - 100;
        board.send(&[0x24, 0x11]);
        assert_eq!(board.module.actual == 0x11, heard, "{gap}");
        assert_eq!(board.module.wanted, 0x22);
    }
}

#[test]
fn cuts_change_nothing() {
    let times: Vec<u64> = byte_at(1_000).chain([6_000, 7_000, 8_999, 9_000]).chain(byte_at(16_999)).collect();
    let levels = vec![1; times.len()];
    let mut whole = Board::new();
    whole.feed(&times, &levels);
    for cut in 0..times.len() {
        let mut board = Board::new();
        board.feed(&times[..cut], &levels[..cut]);
        board.feed(&times[cut..], &levels[cut..]);
        assert_eq!(board.module, whole.module);
    }
    // The eighth bit since 9,000 is the seventh edge of the last eight.
    assert_eq!(held(&whole.module.receiver), (1, 1, 16_899, 1));
}

// Refused edges and restarts.

#[test]
fn a_refused_edge_leaves_the_clock() {
    let mut fresh = Receiver::default();
    assert_eq!(fresh.edge(5, 2), Err(Refusal::Level));
    assert_eq!(fresh, Receiver::default());
    let running = after([10, 20], 1);
    for (time, level, refusal) in
        [(8_010, 2, Refusal::Level), (30, 2, Refusal::Level), (19, 1, Refusal::Time), (9, 1, Refusal::Time)]
    {
        let mut receiver = running.clone();
        assert_eq!(receiver.edge(time, level), Err(refusal));
        assert_eq!(receiver, running);
    }
    let mut marked = Receiver { started: 255, ..running };
    assert_eq!(marked.edge(8_010, 2), Err(Refusal::Level));
    assert_eq!(marked.started, 255);
}

#[test]
fn a_restart_stops_the_clock() {
    let mut board = Board::new();
    board.send(&[0x24, 0x11]);
    board.module.restart(&mut board.states).unwrap();
    assert_eq!(board.module.receiver, Receiver::default());
    board.feed(&[6_000, 13_999], &[1, 1]);
    assert_eq!(held(&board.module.receiver), (2, 0, 6_000, 1));
}

// The mark.

#[test]
fn every_mark_but_0_is_set() {
    for mark in 1..=255 {
        let marked = Receiver { last: 900, bits: 1, count: 2, start: 100, started: mark, ..Receiver::default() };
        let mut receiver = marked.clone();
        assert_eq!(receiver.edge(8_099, 1), Ok(None));
        assert_eq!(held(&receiver), (3, 0, 100, 1));
        let mut receiver = marked;
        assert_eq!(receiver.edge(8_100, 1), Ok(None));
        assert_eq!(held(&receiver), (1, 0, 8_100, 1));
    }
}

#[test]
fn with_the_mark_clear_no_edge_is_a_pause() {
    for start in [0, 5, 20_000, u64::MAX] {
        let mut board = Board::new();
        (board.module.half, board.module.halfbyte) = (Half::State, 0x80);
        board.module.receiver.start = start;
        board.feed(&[20_000], &levels(&[0x6F])[..1]);
        assert_eq!(board.module.half, Half::State);
        assert_eq!(held(&board.module.receiver), (1, 0, 20_000, 1));
        board.feed(&[27_999; 7], &levels(&[0x6F])[1..]);
        board.feed(&[27_999; 8], &levels(&[0x01]));
        assert!(board.state(128));
    }
}

// Row 12's two parts.

/// The bench's module with this receiver.
fn board_with(receiver: Receiver) -> Board {
    let mut board = Board::new();
    board.module.receiver = receiver;
    board
}

fn accepts(receiver: Receiver) {
    let mut board = board_with(receiver);
    assert_eq!(board.feed(&[], &[]), Fed::Ended { taken: 0 }, "{:?}", board.module.receiver);
    assert_eq!(board.module.set_wait(true), Ok(()));
    assert_eq!(board.module.restart(&mut board.states), Ok(()));
    assert_eq!(board.module, Module::new(1));
}

#[test]
fn bits_or_bytes_held_without_a_start() {
    let none = Receiver { last: 50, start: 50, ..Receiver::default() };
    let holding = [
        Receiver { count: 1, ..none.clone() },
        Receiver { count: 7, bits: 127, ..none.clone() },
        Receiver { held: 1, ..none.clone() },
        Receiver { held: 1, first: 0x24, ..none.clone() },
        Receiver { held: 2, first: 0x77, second: 0x85, ..none.clone() },
        Receiver { held: 2, first: 0x77, count: 3, bits: 5, ..none.clone() },
    ];
    for receiver in holding {
        for started in [1, 2, 255] {
            accepts(Receiver { started, ..receiver.clone() });
        }
        let board = board_with(receiver);
        assert_eq!(board.module.broken_clauses(), ["bits or bytes held without a start"]);
        board.refuses_12();
    }
    accepts(none);
}

#[test]
fn a_start_after_the_last_edge() {
    for last in [0, 7_999, u64::MAX - 1] {
        for started in [1, 2, 255] {
            let receiver = Receiver { last, start: last, started, ..Receiver::default() };
            accepts(receiver.clone());
            for start in [last + 1, u64::MAX] {
                let board = board_with(Receiver { start, ..receiver.clone() });
                assert_eq!(board.module.broken_clauses(), ["start after the last edge"]);
                board.refuses_12();
            }
        }
        // With the mark clear the start is not judged, be it ever so late.
        for start in [last + 1, u64::MAX] {
            accepts(Receiver { last, start, ..Receiver::default() });
        }
    }
    // Nor does a start long before the last edge break the row.
    accepts(Receiver { last: u64::MAX, start: 0, started: 1, count: 1, ..Receiver::default() });
}

#[test]
fn a_half_may_be_held_with_the_mark_clear() {
    for half in [Half::Address, Half::State] {
        let mut board = Board::new();
        (board.module.half, board.module.halfbyte) = (half, 0x81);
        assert_eq!(board.feed(&[], &[]), Fed::Ended { taken: 0 });
        assert_eq!(board.module.set_wait(true), Ok(()));
        assert_eq!((board.module.half, board.module.halfbyte), (half, 0x81));
    }
}

// The scenario language.

#[test]
fn the_clock_is_set_and_shown() {
    let last_line = |scenario: &str| replay(scenario).lines().last().map(str::to_string).unwrap_or_default();
    let shown = |scenario: &str| replay(scenario).lines().find(|line| line.starts_with("receiver")).map(str::to_string);
    assert_eq!(shown("6000 1\nshow"), Some("receiver 6000 1 1 0 0 0 6000 1".into()));
    assert_eq!(shown("bytes 300 24\n6000 1\n8999 1\nshow"), Some("receiver 8999 3 2 36 0 1 1000 1".into()));
    assert_eq!(shown("bytes 300 24\n6000 1\n9000 1\nshow"), Some("receiver 9000 1 1 0 0 0 9000 1".into()));
    assert_eq!(shown("set start 77\nset started 9\nset last 99\nshow"), Some("receiver 99 0 0 0 0 0 77 9".into()));
    assert_eq!(last_line("set count 1\ncut"), "refused 12");
    assert_eq!(last_line("set started 1\nset count 1\ncut\nset start 1\n5 1"), "refused 12");
    assert_eq!(last_line("set started 0x1\nset last 1\nset start 1\n0 1"), "refused 3 0");
}
