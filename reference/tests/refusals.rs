//! Document 01: the numbers given back when we say no, and their order.

mod common;
use common::{levels, Board};
use reference::module::{Fed, Half, Module, Position};
use reference::refusal::Refusal;

type Change = fn(&mut Module);

fn heard(address: u16, extended: bool) -> Position {
    Position::Heard { address, extended }
}

/// Row 12 clause by clause: a record that breaks it, and the nearest that doesn't.
fn clauses() -> Vec<(&'static str, Change, Change)> {
    vec![
        ("over 7 held bits", |m| m.receiver.count = 8, |m| m.receiver.count = 7),
        ("over 7 held bits, by far", |m| m.receiver.count = 255, |m| m.receiver.count = 0),
        ("a set bit above no held bits", |m| m.receiver.bits = 1, |m| m.receiver.bits = 0),
        (
            "a set bit above its count",
            |m| (m.receiver.count, m.receiver.bits) = (3, 8),
            |m| (m.receiver.count, m.receiver.bits) = (3, 7),
        ),
        (
            "the highest bit above its count",
            |m| (m.receiver.count, m.receiver.bits) = (7, 128),
            |m| (m.receiver.count, m.receiver.bits) = (7, 127),
        ),
        ("an unused first byte", |m| m.receiver.first = 1, |m| (m.receiver.first, m.receiver.held) = (1, 1)),
        ("an unused second byte", |m| m.receiver.second = 1, |m| m.receiver.second = 0),
        (
            "an unused second byte beside a first",
            |m| (m.receiver.first, m.receiver.held, m.receiver.second) = (0x77, 1, 1),
            |m| (m.receiver.first, m.receiver.held, m.receiver.second) = (0x77, 2, 1),
        ),
        ("an unused half byte", |m| m.halfbyte = 1, |m| (m.half, m.halfbyte) = (Half::Address, 1)),
        ("an unused half byte, 128", |m| m.halfbyte = 128, |m| (m.half, m.halfbyte) = (Half::State, 128)),
        (
            "a position half over 15",
            |m| (m.half, m.halfbyte) = (Half::Position, 16),
            |m| (m.half, m.halfbyte) = (Half::Position, 15),
        ),
        (
            "a position half of 255",
            |m| (m.half, m.halfbyte) = (Half::Position, 255),
            |m| (m.half, m.halfbyte) = (Half::Position, 0),
        ),
        (
            "16 as a position half, and as an address half",
            |m| (m.half, m.halfbyte) = (Half::Position, 16),
            |m| (m.half, m.halfbyte) = (Half::Address, 16),
        ),
        (
            "128 as a position half, and as a state half",
            |m| (m.half, m.halfbyte) = (Half::Position, 128),
            |m| (m.half, m.halfbyte) = (Half::State, 128),
        ),
        ("a position", |m| m.position = heard(2_048, false), |m| m.position = heard(2_047, false)),
        ("an extended position", |m| m.position = heard(2_048, true), |m| m.position = heard(2_047, true)),
        ("the highest position", |m| m.position = heard(65_535, true), |m| m.position = Position::Unknown),
        ("the first unused queue byte", |m| m.queue[0] = 1, |m| (m.queue[0], m.queued) = (1, 1)),
        (
            "the queue byte after the used ones",
            |m| (m.queue[12], m.queued) = (1, 3),
            |m| (m.queue[11], m.queued) = (1, 3),
        ),
        ("the last queue byte", |m| (m.queue[31], m.queued) = (1, 7), |m| (m.queue[31], m.queued) = (1, 8)),
        (
            "two held bytes of a two-byte packet",
            |m| (m.receiver.first, m.receiver.held) = (0x6F, 2),
            |m| (m.receiver.first, m.receiver.held) = (0x70, 2),
        ),
        (
            "two held bytes of a two-byte packet, from above",
            |m| (m.receiver.first, m.receiver.held) = (0x80, 2),
            |m| (m.receiver.first, m.receiver.held) = (0x7F, 2),
        ),
        ("two held bytes of a packet that begins 0", |m| m.receiver.held = 2, |m| m.receiver.held = 1),
        (
            "three held bytes",
            |m| (m.receiver.first, m.receiver.held) = (0x7F, 3),
            |m| (m.receiver.first, m.receiver.held) = (0x7F, 2),
        ),
        ("CV 897", |m| m.number = 4, |m| m.number = 3),
        ("CV 897 at 255", |m| m.number = 255, |m| m.number = 0),
        ("the queue", |m| m.queued = 9, |m| m.queued = 8),
        ("status 0, bit 2", |m| m.status0 = 4, |m| m.status0 = 0x13),
        ("status 0, bit 3", |m| m.status0 = 8, |m| m.status0 = 0x10),
        ("status 0, bit 5", |m| m.status0 = 32, |m| m.status0 = 1),
        ("status 0, bit 6", |m| m.status0 = 64, |m| m.status0 = 2),
        ("status 0, bit 7", |m| m.status0 = 128, |m| m.status0 = 0),
        ("status 1, bit 2", |m| m.status1 = 4, |m| m.status1 = 3),
        ("status 1, bit 4", |m| m.status1 = 16, |m| m.status1 = 1),
        ("status 1, bit 7", |m| m.status1 = 128, |m| m.status1 = 2),
        ("control, bit 2", |m| m.control = 4, |m| m.control = 3),
        ("control, bit 7", |m| m.control = 128, |m| m.control = 0),
        ("WAIT, bit 1", |m| m.wait = 2, |m| m.wait = 1),
        ("WAIT, bit 7", |m| m.wait = 128, |m| m.wait = 0),
        ("function bit 29", |m| m.functions = 1 << 29, |m| m.functions = (1 << 29) - 1),
        ("function bit 31", |m| m.functions = 1 << 31, |m| m.functions = 1 << 28),
        ("load", |m| m.load = 128, |m| m.load = 127),
    ]
}

/// The bench's module whose clock runs, so that held bits and bytes are possible (C-03).
fn with_a_clock() -> Board {
    let mut board = Board::new();
    board.module.receiver.started = 1;
    board
}

#[test]
fn row_12_clause_by_clause() {
    for (name, break_it, keep_it) in clauses() {
        let mut board = with_a_clock();
        break_it(&mut board.module);
        assert_eq!(board.module.broken_clauses().len(), 1, "{name}");
        board.refuses_12();

        let mut board = with_a_clock();
        keep_it(&mut board.module);
        assert_eq!(board.module.broken_clauses().len(), 0, "beside {name}");
        assert_eq!(board.feed(&[], &[]), Fed::Ended { taken: 0 });
        assert_eq!(board.module.set_wait(true), Ok(()));
        assert_eq!(board.module.restart(&mut board.states), Ok(()));
    }
}

#[test]
fn row_12_knows_all_first_bytes() {
    for first in 0..=255 {
        let mut board = with_a_clock();
        (board.module.receiver.first, board.module.receiver.held) = (first, 2);
        if (0x70..=0x7F).contains(&first) {
            assert_eq!(board.feed(&[], &[]), Fed::Ended { taken: 0 });
        } else {
            board.refuses_12();
        }
    }
}

#[test]
fn row_12_knows_all_halves_and_positions() {
    for halfbyte in 0..=255 {
        for (half, most) in [(Half::None, 0), (Half::Address, 255), (Half::State, 255), (Half::Position, 15)] {
            let module = Module { half, halfbyte, ..Module::new(1) };
            assert_eq!(module.broken_clauses().is_empty(), halfbyte <= most, "{half:?} {halfbyte}");
        }
    }
    for address in 0..=65_535 {
        for extended in [false, true] {
            let module = Module { position: heard(address, extended), ..Module::new(1) };
            assert_eq!(module.broken_clauses().is_empty(), address <= 2_047, "{address}");
        }
    }
}

#[test]
fn a_fresh_and_a_restarted_module_are_possible() {
    for number in 0..=3 {
        let mut module = Module::new(number);
        assert!(module.broken_clauses().is_empty());
        assert_eq!(module.restart(&mut vec![0; 4_096]), Ok(()));
        assert!(module.broken_clauses().is_empty());
    }
}

#[test]
fn row_4_lengths() {
    let changes: [fn(&mut Board); 11] = [
        |b| b.store.truncate(10_239),
        |b| b.store.push(0),
        |b| b.sheet.truncate(255),
        |b| b.sheet.push(0),
        |b| b.states.truncate(4_095),
        |b| b.states.push(0),
        |b| b.fixed.truncate(39),
        |b| b.fixed.push(0),
        |b| b.fixed.clear(),
        |b| b.room.truncate(83),
        |b| b.room.clear(),
    ];
    for change in changes {
        let mut board = Board::new();
        change(&mut board);
        assert_eq!(board.feed(&[], &[]), Fed::Refused(Refusal::Length));
        board.sheet[0] = 0;
        assert_eq!(board.feed(&[1], &[]), Fed::Refused(Refusal::Length));
        assert_eq!(board.module, Module::new(1));
    }
    let mut board = Board::new();
    board.room.push(0);
    assert_eq!(board.feed(&[], &[]), Fed::Ended { taken: 0 });
}

#[test]
fn row_4_at_a_restart() {
    for length in [0, 4_095, 4_097] {
        let mut module = Module::new(1);
        module.actual = 5;
        let before = module.clone();
        let mut states = vec![9; length];
        assert_eq!(module.restart(&mut states), Err(Refusal::Length));
        assert_eq!((module, states), (before, vec![9; length]));
    }
}

#[test]
fn row_5_the_size_sheet() {
    for bank in 0..=255usize {
        for size in 0..=255u8 {
            let fits = match bank {
                0 | 1 => (2..=40).contains(&size),
                251..=253 => size == 0,
                254 => size == 2,
                _ => size <= 40,
            };
            let mut board = Board::new();
            board.sheet[bank] = size;
            let wanted = if fits { Fed::Ended { taken: 0 } } else { Fed::Refused(Refusal::Sheet) };
            assert_eq!(board.feed(&[], &[]), wanted, "bank {bank}, size {size}");
            let wanted = if fits { Fed::Refused(Refusal::ListsDiffer) } else { Fed::Refused(Refusal::Sheet) };
            assert_eq!(board.feed(&[1], &[]), wanted);
        }
    }
}

#[test]
fn row_1_before_2_and_3() {
    let mut board = Board::new();
    board.module.receiver.last = 100;
    let before = board.module.clone();
    assert_eq!(board.feed(&[5, 5], &[2]), Fed::Refused(Refusal::ListsDiffer));
    assert_eq!(board.feed(&[], &[2]), Fed::Refused(Refusal::ListsDiffer));
    assert_eq!(board.module, before);
}

#[test]
fn rows_2_and_3_for_each_edge_in_turn() {
    let mut board = Board::new();
    assert_eq!(board.feed(&[50, 40, 60], &[1, 1, 2]), Fed::BadEdge(Refusal::Time, 1));
    let mut board = Board::new();
    assert_eq!(board.feed(&[50, 60, 40], &[1, 2, 1]), Fed::BadEdge(Refusal::Level, 1));
    let mut board = Board::new();
    assert_eq!(board.feed(&[50, 40, 60], &[1, 2, 1]), Fed::BadEdge(Refusal::Level, 1));
    for level in 2..=255 {
        let mut board = Board::new();
        assert_eq!(board.feed(&[50], &[level]), Fed::BadEdge(Refusal::Level, 0));
        assert_eq!(board.module, Module::new(1));
    }
}

#[test]
fn a_time_may_be_lower_after_a_restart() {
    let mut board = Board::new();
    board.feed(&[1_000], &[1]);
    assert_eq!(board.feed(&[999], &[1]), Fed::BadEdge(Refusal::Time, 0));
    board.module.restart(&mut board.states).unwrap();
    assert_eq!(board.feed(&[0], &[1]), Fed::Ended { taken: 1 });
}

#[test]
fn no_entry_leaves_an_impossible_record() {
    let mut board = Board::new();
    for first in 0..=255u8 {
        for second in [0x00, 0x04, 0x7F, 0x80, 0x84, 0xFF] {
            for third in [0x00, 0x04, 0xEF, 0xFF] {
                for level in levels(&[first, second, third]) {
                    board.time += 1;
                    board.feed(&[board.time], &[level]);
                    assert!(board.module.broken_clauses().is_empty());
                }
            }
        }
    }
}
