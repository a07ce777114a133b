//! C-13: bank 254 in a sheet of its own, and views of banks.

mod common;
use common::{replay, Board};
use reference::banks::Banks;
use reference::module::{Fed, Module};
use reference::refusal::{number_of, Refusal};

/// The bench's module with bank 254 selected from the line.
fn in_bank_254() -> Board {
    let mut board = Board::new();
    assert!(board.yes(&[0x7F, 0xFC, 0xFE]));
    board
}

/// Sizes of every kind, and a store and a fixed sheet of which no two neighbours are equal.
fn filled() -> Board {
    let mut board = Board::new();
    for (bank, size) in [(2, 1), (3, 39), (100, 7), (249, 40), (250, 38), (255, 17)] {
        board.sheet[bank] = size;
    }
    board.store.iter_mut().enumerate().for_each(|(place, byte)| *byte = (place % 251) as u8);
    board.fixed.iter_mut().enumerate().for_each(|(place, byte)| *byte = 200 + place as u8);
    board.fixed[1] = 11;
    board
}

/// The number that the check gives, and the view's length.
fn viewed(banks: Banks, bank: u8) -> (u8, usize) {
    (number_of(banks.check()), banks.view(bank).len())
}

// Rows 4 and 5.

#[test]
fn byte_1_must_be_11() {
    for version in 0..=255 {
        let mut board = Board::new();
        board.fixed[1] = version;
        let before = board.module.clone();
        let (fed, number) = match version {
            11 => (Fed::Ended { taken: 0 }, 0),
            _ => (Fed::Refused(Refusal::Sheet), 5),
        };
        assert_eq!(board.feed(&[], &[]), fed, "{version}");
        assert_eq!(number_of(board.banks().check()), number, "{version}");
        let fed = if version == 11 { Fed::Refused(Refusal::ListsDiffer) } else { fed };
        assert_eq!(board.feed(&[1, 2], &[2]), fed, "5 before 1");
        assert_eq!(board.module, before);
    }
}

#[test]
fn another_length_is_refused_with_4() {
    for length in 0..=60 {
        for version in [10, 11] {
            let mut board = Board::new();
            board.fixed[1] = version;
            board.fixed.resize(length, 0);
            let (fed, number) = match (length, version) {
                (40, 11) => (Fed::Ended { taken: 0 }, 0),
                (40, _) => (Fed::Refused(Refusal::Sheet), 5),
                _ => (Fed::Refused(Refusal::Length), 4),
            };
            assert_eq!(board.feed(&[], &[]), fed, "{length} {version}");
            assert_eq!(number_of(board.banks().check()), number, "{length} {version}");
        }
    }
}

/// 12, 4, 5, 1: one row for both sheets' rules.
#[test]
fn the_order_of_refusals() {
    let mut board = Board::new();
    board.module.load = 128;
    board.sheet[0] = 1;
    board.fixed[1] = 10;
    board.fixed.push(0);
    assert_eq!(board.feed(&[1], &[]), Fed::Refused(Refusal::Record));
    board.module.load = 0;
    assert_eq!(board.feed(&[1], &[]), Fed::Refused(Refusal::Length));
    assert_eq!(viewed(board.banks(), 1), (4, 0));
    board.fixed.pop();
    board.room.pop();
    assert_eq!(board.feed(&[1], &[]), Fed::Refused(Refusal::Length));
    assert_eq!(viewed(board.banks(), 1), (5, 0), "the check does not look at the reply room");
    board.room.push(0);
    assert_eq!(board.feed(&[1], &[]), Fed::Refused(Refusal::Sheet));
    board.sheet[0] = 40;
    assert_eq!(board.feed(&[1], &[]), Fed::Refused(Refusal::Sheet));
    assert_eq!(viewed(board.banks(), 1), (5, 0));
    (board.sheet[0], board.fixed[1]) = (1, 11);
    assert_eq!(board.feed(&[1], &[]), Fed::Refused(Refusal::Sheet));
    assert_eq!(viewed(board.banks(), 1), (5, 0));
    board.sheet[0] = 2;
    assert_eq!(board.feed(&[1], &[]), Fed::Refused(Refusal::ListsDiffer));
    assert_eq!(board.module, Module::new(1));
}

// On the line.

#[test]
fn the_answers_in_bank_254() {
    let mut board = in_bank_254();
    assert!(board.yes(&[0x77, 0x84, 0x0B]), "CV 901 is 11");
    assert!(!board.yes(&[0x77, 0x83, 0x0B]), "CV 900 is not readable");
    for value in 0..=255 {
        assert!(!board.yes(&[0x77, 0x83, value]));
        assert_eq!(board.yes(&[0x77, 0x84, value]), value == 11);
        assert!(!board.yes(&[0x77, 0x85, value]));
    }
    assert_eq!(board.send(&[0x0F, 0x83]), Some(vec![0x8E, 0x01, 0x8F, 0x0B]));
    assert_eq!(board.send(&[0x0F, 0x84]), Some(vec![0x8F, 0x0B, 0x8E, 0x01]));
    assert_eq!(board.send(&[0x0F, 0xAA]), Some(vec![0x8E, 0x01, 0x8E, 0x02]));
    assert_eq!(board.send(&[0x0C, 0xFE]), Some(vec![0x8E, 0x01, 0x8E, 0x01, 0x8F, 0x9A, 0x8F, 0x00]));
}

/// Every command that a module can answer in bank 254.
fn all_answers(board: &mut Board) -> Vec<Option<Vec<u8>>> {
    let first = 0x83 + 40 * (board.module.effective_number() - 1);
    let mut answers = Vec::new();
    for second in first..first + 40 {
        for value in [0, 7, 10, 11, 12, 99, 255] {
            answers.push(board.send(&[0x77, second, value]));
            answers.push(board.send(&[0x7F, second, value]));
        }
        answers.extend((0xE0..=0xFF).map(|third| board.send(&[0x7B, second, third])));
        answers.push(board.send(&[0x0F, second]));
    }
    answers.push(board.send(&[0x0B + board.module.effective_number(), 0xFE]));
    answers
}

/// Whatever stands in the fixed sheet's other bytes and in the store's bank 254; and no write reaches either.
#[test]
fn the_answers_stay_the_same() {
    for number in 0..=3 {
        let mut plain = in_bank_254();
        plain.module.number = number;
        let wanted = all_answers(&mut plain);
        assert_eq!(wanted.iter().flatten().count(), 1 + 8 + 40 + 1, "a byte, eight bits, 0x0F, the bank");
        for (in_fixed, in_store) in [(99, 0), (0, 7), (255, 255), (11, 10), (10, 11)] {
            let mut board = in_bank_254();
            board.module.number = number;
            board.fixed.fill(in_fixed);
            board.fixed[1] = 11;
            board.store[254 * 40..255 * 40].fill(in_store);
            let (fixed, store) = (board.fixed.clone(), board.store.clone());
            assert_eq!(all_answers(&mut board), wanted, "{in_fixed} {in_store}");
            assert_eq!((board.fixed, board.store), (fixed, store));
        }
    }
}

/// The fixed sheet is bank 254 and no other.
#[test]
fn other_banks_stand_in_the_store() {
    for bank in [0, 1, 2, 3, 100, 249, 250, 255] {
        let mut board = filled();
        board.module.bank = bank;
        let size = board.sheet[bank as usize] as usize;
        let cells = board.store[40 * bank as usize..][..size].to_vec();
        for (offset, value) in cells.iter().enumerate() {
            assert!(board.yes(&[0x77, 0x83 + offset as u8, *value]), "{bank} {offset}");
        }
        assert_eq!(board.banks().view(bank), cells);
    }
}

// Views.

/// A view is a part of what was lent: the same bytes at the same place.
#[test]
fn a_view_is_a_part_of_what_is_lent() {
    let board = filled();
    for bank in 0..=255 {
        let size = board.sheet[bank as usize] as usize;
        let part = match bank {
            254 => &board.fixed[..2],
            _ => &board.store[40 * bank as usize..][..size],
        };
        let view = board.banks().view(bank);
        assert_eq!(viewed(board.banks(), bank), (0, size), "bank {bank}");
        assert_eq!(view, part, "bank {bank}");
        assert!(size == 0 || std::ptr::eq(view, part), "bank {bank} is no copy");
    }
}

#[test]
fn views_at_the_borders() {
    let board = filled();
    for (bank, cells) in
        [(0, 40), (1, 40), (2, 1), (3, 39), (4, 0), (249, 40), (250, 38), (251, 0), (253, 0), (254, 2), (255, 17)]
    {
        assert_eq!(viewed(board.banks(), bank), (0, cells), "bank {bank}");
    }
    let mut board = filled();
    board.sheet[255] = 40;
    assert_eq!(board.banks().view(255), &board.store[10_200..], "the store's last bytes");
    board.store[254 * 40..255 * 40].fill(77);
    assert_eq!(board.banks().view(254), [200, 11], "not the store's");
}

#[test]
fn refused_views_are_empty() {
    let changes: [(u8, fn(&mut Board)); 12] = [
        (4, |b| b.store.truncate(10_239)),
        (4, |b| b.store.push(0)),
        (4, |b| b.store.clear()),
        (4, |b| b.sheet.truncate(255)),
        (4, |b| b.sheet.push(0)),
        (4, |b| b.fixed.truncate(39)),
        (4, |b| b.fixed.push(0)),
        (5, |b| b.fixed[1] = 10),
        (5, |b| b.fixed[1] = 12),
        (5, |b| b.sheet[254] = 3),
        (5, |b| b.sheet[251] = 1),
        (5, |b| b.sheet[7] = 41),
    ];
    for (number, change) in changes {
        let mut board = filled();
        change(&mut board);
        for bank in 0..=255 {
            assert_eq!(viewed(board.banks(), bank), (number, 0), "bank {bank}");
        }
    }
}

#[test]
fn a_write_is_seen_by_the_next_view() {
    let mut board = Board::new();
    assert_eq!(board.banks().view(0)[2], 0);
    assert!(board.yes(&[0x7F, 0x85, 0x07]));
    assert_eq!(board.banks().view(0)[..4], [0, 0, 7, 0]);
}

// The scenario language.

#[test]
fn the_statements() {
    assert_eq!(replay("view 254\nview 5\n"), "view 0 2 00 0B\nview 0 0\n");
    assert_eq!(replay("view 0\n"), format!("view 0 40{}\n", " 00".repeat(40)));
    assert_eq!(
        replay("size 5 3\ncell 5 0 1\ncell 5 2 0xAB\ncell 5 3 9\nview 5\nview 4\n"),
        "view 0 3 01 00 AB\nview 0 0\n"
    );
    assert_eq!(replay("fixed 0 7\ncell 254 0 9\ncell 254 1 9\nview 254\n"), "view 0 2 07 0B\n");
    assert_eq!(
        replay("fixed 1 10\nview 254\nview 0\ncut\nfixed 1 0x0B\nview 254\n"),
        "view 5 0\nview 5 0\nrefused 5\nview 0 2 00 0B\n"
    );
    assert_eq!(replay("length fixed 39\nfixed 1 10\nview 254\ncut\n"), "view 4 0\nrefused 4\n");
    assert_eq!(
        replay("length fixed 60\nview 0\nlength fixed 41\nview 0\nlength fixed 0\nview 0\nlength fixed 40\nview 254"),
        "view 4 0\nview 4 0\nview 4 0\nview 0 2 00 0B\n"
    );
    assert_eq!(
        replay("length store 10239\nview 0\nlength store 10240\nlength sheet 257\nview 0\n"),
        "view 4 0\nview 4 0\n"
    );
    assert_eq!(replay("size 254 3\nview 254\n"), "view 5 0\n");
}

/// The check looks at store, size sheet and fixed sheet only.
#[test]
fn whatever_else_is_refused() {
    let view = "view 0 2 00 0B\n";
    for line in ["set load 128", "length states 0", "length room 83", "uneven", "set bank 9"] {
        assert_eq!(replay(&format!("{line}\nview 254\n")), view, "{line}");
    }
}

/// `fixed` may stand behind edges, changes what is lent whatever its length, and is not shown.
#[test]
fn fixed_at_any_time() {
    assert_eq!(replay("bytes 0 7F FC FE\nfixed 0 5\nview 254\n"), "ack 24 2300\nview 0 2 05 0B\n");
    assert_eq!(replay("length fixed 0\nfixed 1 12\nlength fixed 40\ncut\n"), "refused 5\n");
    assert_eq!(replay("fixed 39 9\nshow\n"), replay("show\n"));
    assert_eq!(
        replay("cell 254 0 11\nbytes 0 7F FC FE\nfixed 0 11\nfixed 2 7\nbytes 2400 77 83 0B\nbytes 4800 77 84 0B\nbytes 7200 77 85 07\n"),
        "ack 24 2300\nack 72 7100\n"
    );
    assert_eq!(replay("restart\nfixed 0 3\nrestart\nview 254\n"), "restart 0\nrestart 0\nview 0 2 03 0B\n");
}

#[test]
fn each_ends_a_piece() {
    for (line, written) in [("view 254", "view 0 2 00 0B\n"), ("fixed 0 0", ""), ("length fixed 40", "")] {
        assert_eq!(replay(&format!("5 1\n6 2\n{line}\n7 2\n")), format!("refused 2 1\n{written}refused 2 2\n"));
        assert_eq!(replay(&format!("uneven\n5 1\n{line}\n7 2\n")), format!("refused 1\n{written}refused 2 1\n"));
    }
}

/// Of the page.
#[test]
fn the_example_of_the_page() {
    assert_eq!(
        replay("fixed 0 7\nbytes 0 7F FC FE 77 84 0B 77 83 07\nview 254\nfixed 1 12\nview 254\nbytes 8000 77 84 0C\n"),
        "ack 24 2300\nack 48 4700\nview 0 2 07 0B\nview 5 0\nrefused 5\n"
    );
}
