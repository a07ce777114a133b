//! C-12: the position that another board sends, 0x88 followed directly by 0x89.

mod common;
use common::{levels, replay, Board};
use reference::module::{Fed, Half, Module, Position};

fn heard(address: u16, extended: bool) -> Position {
    Position::Heard { address, extended }
}

/// The bench's module after these packets, none of which is acknowledged.
fn after(packets: &[&[u8]]) -> Board {
    let mut board = Board::new();
    for packet in packets {
        assert_eq!(board.send(packet), None, "{packet:02X?}");
    }
    board
}

fn held(board: &Board) -> (Half, u8) {
    (board.module.half, board.module.halfbyte)
}

#[test]
fn a_fresh_module_knows_no_position() {
    assert_eq!(Module::new(1).position, Position::Unknown);
}

#[test]
fn the_rows_of_the_request() {
    for (packets, position) in [
        (&[[0x88, 0x03], [0x89, 0x07]][..], heard(775, false)),
        (&[[0x88, 0x0B], [0x89, 0x07]], heard(775, true)),
        (&[[0x88, 0x10], [0x89, 0x07]], Position::Unknown),
        (&[[0x88, 0x03], [0x00, 0x00], [0x89, 0x07]], Position::Unknown),
        (&[[0x6E, 0x80], [0x88, 0x03], [0x6F, 0x01]], Position::Unknown),
        (&[[0x88, 0x03], [0x88, 0x04], [0x89, 0x07]], heard(1_031, false)),
    ] {
        let board = after(&packets.iter().map(|packet| &packet[..]).collect::<Vec<_>>());
        assert_eq!(board.module.position, position, "{packets:02X?}");
        assert_eq!((held(&board), board.states), ((Half::None, 0), vec![0; 4_096]), "{packets:02X?}");
    }
}

/// Bits 2 to 0 are A10 to A8, bit 3 is the extended mark; a set bit above them is no high half at all.
#[test]
fn every_high_half_with_every_low_half() {
    for high in 0..=255u8 {
        let board = after(&[&[0x88, high]]);
        let kept = if high <= 15 { (Half::Position, high) } else { (Half::None, 0) };
        assert_eq!((held(&board), board.module.position), (kept, Position::Unknown));
        for low in 0..=255u8 {
            let board = after(&[&[0x88, high], &[0x89, low]]);
            let address = 256 * (high as u16 % 8) + low as u16;
            let wanted = if high <= 15 { heard(address, high >= 8) } else { Position::Unknown };
            assert_eq!((board.module.position, held(&board)), (wanted, (Half::None, 0)), "{high:02X} {low:02X}");
        }
    }
    assert_eq!(after(&[&[0x88, 0x0F], &[0x89, 0xFF]]).module.position, heard(2_047, true));
    assert_eq!(after(&[&[0x88, 0x00], &[0x89, 0x00]]).module.position, heard(0, false));
}

/// Neither half changes anything else of the record or a lent byte.
#[test]
fn nothing_else_is_changed() {
    let mut board = Board::new();
    for packet in [[0x24, 0x85], [0x26, 9], [0x5E, 1], [0x5F, 2], [0x63, 0xFF], [0x6D, 0x85], [0x6C, 0xFE]] {
        board.send(&packet);
    }
    assert!(board.yes(&[0x7F, 0x85, 7]));
    board.module.post([0x88, 1, 0x89, 2]).unwrap();
    let mut wanted = board.module.clone();
    let (states, store, room) = (board.states.clone(), board.store.clone(), board.room.clone());
    board.send(&[0x88, 0x0B]);
    board.send(&[0x89, 0x07]);
    wanted.position = heard(775, true);
    wanted.receiver = board.module.receiver.clone();
    assert_eq!((board.module, board.states, board.store, board.room), (wanted, states, store, room));
}

/// Without a position half 0x89 leaves the position, and drops the half of another kind.
#[test]
fn a_low_half_acts_on_its_own_kind_only() {
    let board = after(&[&[0x89, 7]]);
    assert_eq!((board.module.position, held(&board)), (Position::Unknown, (Half::None, 0)));
    for first in [[0x5E, 3], [0x6E, 3], [0x88, 16], [0x88, 255]] {
        let mut board = after(&[&[0x88, 1], &[0x89, 2], &first, &[0x89, 7]]);
        assert_eq!((board.module.position, held(&board)), (heard(258, false), (Half::None, 0)), "{first:02X?}");
        board.send(&[0x5F, 1]);
        board.send(&[0x6F, 1]);
        assert_eq!((board.module.address, board.states), (0, vec![0; 4_096]));
    }
}

/// "The same dropping rules apply": a second 0x89 finds nothing, and the halves of other kinds are replaced or dropped.
#[test]
fn a_half_is_used_up_replaced_or_dropped() {
    assert_eq!(after(&[&[0x88, 1], &[0x89, 2], &[0x89, 3]]).module.position, heard(258, false));
    for (first, half) in [(0x5E, Half::Address), (0x6E, Half::State), (0x88, Half::Position)] {
        for before in [0x5E, 0x6E, 0x88] {
            assert_eq!(held(&after(&[&[before, 1], &[first, 2]])), (half, 2), "{before:02X} {first:02X}");
        }
    }
    for second in [0x5F, 0x6F] {
        let board = after(&[&[0x88, 1], &[second, 2], &[0x89, 3]]);
        assert_eq!((board.module.position, board.module.address), (Position::Unknown, 0));
        assert_eq!(board.states, vec![0; 4_096]);
    }
}

/// 0x88 with data over 15 drops a half of every kind, as each packet without meaning does.
#[test]
fn data_over_15_drops_a_held_half() {
    for first in [[0x5E, 1], [0x6E, 0x81], [0x88, 1]] {
        for data in [15, 16, 255] {
            let kept = if data == 15 { (Half::Position, 15) } else { (Half::None, 0) };
            assert_eq!(held(&after(&[&first, &[0x88, data]])), kept, "{first:02X?} {data}");
        }
    }
}

/// 88 03, and then 89 07 whose first edge comes so long after the last one.
fn pair_with(gap: u64) -> Board {
    let mut board = after(&[&[0x88, 3]]);
    board.time += gap - 100;
    board.send(&[0x89, 7]);
    board
}

#[test]
fn a_pause_drops_the_half() {
    assert_eq!(pair_with(7_299).module.position, heard(775, false));
    for lost in [7_300, 7_999, 8_000] {
        let board = pair_with(lost);
        assert_eq!((board.module.position, held(&board)), (Position::Unknown, (Half::None, 0)), "{lost}");
    }
    let mut board = pair_with(100);
    board.pause();
    board.send(&[0x24, 1]);
    assert_eq!(board.module.position, heard(775, false), "a pause leaves the position");
}

#[test]
fn nothing_but_a_pair_and_a_restart_changes_the_position() {
    for first in 0..=255u8 {
        for data in [0x00, 0x01, 0x0F, 0x10, 0x80, 0x85, 0xFF] {
            let mut board = after(&[&[0x88, 0x0B], &[0x89, 7]]);
            board.send(&[first, data, data][..if (0x70..=0x7F).contains(&first) { 3 } else { 2 }]);
            assert_eq!(board.module.position, heard(775, true), "{first:02X} {data:02X}");
        }
    }
    let mut board = after(&[&[0x88, 0x0B], &[0x89, 7]]);
    board.module.post([0x88, 1, 0x89, 2]).unwrap();
    board.module.set_status(0, 1).unwrap();
    board.module.set_wait(true).unwrap();
    assert_eq!(board.module.position, heard(775, true));
    board.module.restart(&mut board.states).unwrap();
    assert_eq!(board.module.position, Position::Unknown);
}

#[test]
fn a_restart_drops_the_half_too() {
    let mut board = after(&[&[0x88, 3]]);
    board.module.restart(&mut board.states).unwrap();
    board.time = 0;
    board.send(&[0x89, 7]);
    assert_eq!((board.module.position, held(&board)), (Position::Unknown, (Half::None, 0)));
}

/// "A board also hears its own message": not when it is posted, nor when it answers with it, but from the line.
#[test]
fn a_board_hears_its_own_message() {
    let mut board = Board::new();
    board.module.post([0x88, 0x0B, 0x89, 0x07]).unwrap();
    assert_eq!(board.module.position, Position::Unknown);
    let reply = board.send(&[0x01, 0x01]).expect("an acknowledgement");
    assert_eq!((board.module.position, held(&board)), (Position::Unknown, (Half::None, 0)));
    assert_eq!(board.send(&reply[..2]), None);
    assert_eq!(board.send(&reply[2..]), None);
    assert_eq!(board.module.position, heard(775, true));
}

/// Both packets of a pair in one recording, cut anywhere, also with what is never acknowledged behind them.
#[test]
fn cuts_change_nothing() {
    let levels = levels(&[0x88, 0x0B, 0x89, 0x07, 0x88, 0x10, 0x89, 0x01]);
    let times: Vec<u64> = (0..levels.len() as u64).map(|n| 100 * n).collect();
    for cut in 0..=levels.len() {
        let mut board = Board::new();
        for part in [0..cut, cut..levels.len()] {
            let taken = part.len();
            assert_eq!(board.feed(&times[part.clone()], &levels[part]), Fed::Ended { taken });
        }
        assert_eq!((board.module.position, held(&board)), (heard(775, true), (Half::None, 0)), "{cut}");
    }
}

#[test]
fn a_position_is_shown() {
    let lines = |scenario: &str| -> Vec<String> { replay(scenario).lines().map(str::to_string).collect() };
    let shown = lines("bytes 0 88 03\nshow\nbytes 1600 89 07\nshow\nrestart\nshow\n");
    assert_eq!((&shown[1][..], &shown[3][..]), ("half position 3", "position unknown"));
    assert_eq!((&shown[9][..], &shown[11][..]), ("half none 0", "position 775 0"));
    assert_eq!((&shown[16][..], &shown[20][..]), ("restart 0", "position unknown"));
    assert_eq!(lines("set position 2047 1\ncut\nset position 2048 1\ncut\n"), ["refused 12"]);
    assert_eq!(lines("set half position\nset halfbyte 15\ncut\nset halfbyte 16\ncut\n"), ["refused 12"]);
}
