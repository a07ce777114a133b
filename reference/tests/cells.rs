//! Document 01: CV packets and cells.

mod common;
use common::Board;

/// The second byte of a CV packet.
fn v(cv: u16) -> u8 {
    128 + (cv - 897) as u8
}

fn verify(board: &mut Board, cv: u16, value: u8) -> bool {
    board.yes(&[0x77, v(cv), value])
}

fn write(board: &mut Board, cv: u16, value: u8) -> bool {
    board.yes(&[0x7F, v(cv), value])
}

fn bit(board: &mut Board, cv: u16, write: bool, place: u8, value: u8) -> bool {
    board.yes(&[0x7B, v(cv), 0xE0 | (write as u8) << 4 | value << 3 | place])
}

/// The one byte that verifies, if any.
fn value(board: &mut Board, cv: u16) -> Option<u8> {
    let values: Vec<u8> = (0..=255).filter(|&value| verify(board, cv, value)).collect();
    assert!(values.len() < 2);
    values.first().copied()
}

#[test]
fn cv_897_takes_3_and_not_4() {
    let mut board = Board::new();
    assert!(board.yes(&[0x7F, 0x80, 0x03]));
    assert_eq!(board.module.number, 3);
    assert!(!board.yes(&[0x7F, 0x80, 0x04]));
    assert_eq!(board.module.number, 3);
}

#[test]
fn cv_897_takes_0_to_3_only() {
    for new in 0..=255 {
        let mut board = Board::new();
        assert_eq!(write(&mut board, 897, new), new <= 3);
        assert_eq!(value(&mut board, 897), Some(if new <= 3 { new } else { 1 }));
    }
}

#[test]
fn a_bit_write_to_cv_897_is_judged_by_the_byte_it_leaves() {
    for old in 0..=3 {
        for place in 0..8 {
            for new in 0..2 {
                let mut board = Board::new();
                board.module.number = old;
                let left = old & !(1 << place) | new << place;
                assert_eq!(bit(&mut board, 897, true, place, new), left <= 3);
                assert_eq!(board.module.number, if left <= 3 { left } else { old });
            }
        }
    }
}

#[test]
fn cv_901_in_bank_0() {
    let mut board = Board::new();
    assert!(!board.yes(&[0x7F, 0x84, 0x01]));
    assert_eq!(board.store, vec![0; 10_240]);
    assert!(!write(&mut board, 900, 1), "a write to CV 900 in bank 0 is not acknowledged");
    assert!(!bit(&mut board, 900, true, 0, 0));
}

#[test]
fn bit_7_of_the_second_byte_clear_is_ignored() {
    let mut board = Board::new();
    assert!(!board.yes(&[0x7F, 0x05, 7]));
    assert!(!board.yes(&[0x77, 0x05, 0]));
    assert!(!board.yes(&[0x7B, 0x05, 0xE0]));
    assert!(!board.yes(&[0x7B, 0x05, 0xF8]));
    assert_eq!(board.store, vec![0; 10_240]);
}

#[test]
fn bits_are_verified_and_written() {
    let mut board = Board::new();
    assert!(write(&mut board, 902, 0b1010_0101));
    for place in 0..8 {
        let is = 0b1010_0101 >> place & 1;
        assert!(bit(&mut board, 902, false, place, is));
        assert!(!bit(&mut board, 902, false, place, 1 - is));
        assert!(bit(&mut board, 902, true, place, is), "a write that leaves the same byte is done");
        assert_eq!(board.store[2], 0b1010_0101);
        assert!(bit(&mut board, 902, true, place, 1 - is));
        assert_eq!(board.store[2], 0b1010_0101 ^ 1 << place);
        assert!(bit(&mut board, 902, true, place, is));
    }
}

#[test]
fn other_top_bits_of_the_third_byte_are_ignored() {
    for third in 0..0xE0 {
        let mut board = Board::new();
        assert!(!board.yes(&[0x7B, 0x85, third]));
        assert_eq!(board.store, vec![0; 10_240]);
    }
}

#[test]
fn who_owns_which_cv() {
    for number in 0..=3u8 {
        let begin = 900 + 40 * (number.max(1) as u16 - 1);
        let mut board = Board::new();
        board.module.number = number;
        board.sheet[2] = 40;
        board.module.bank = 2;
        for cv in 900..=1019 {
            let own = (begin..begin + 40).contains(&cv);
            assert_eq!(write(&mut board, cv, 5), own, "CV {cv} at {number}");
            assert_eq!(verify(&mut board, cv, 5), own);
            assert_eq!(bit(&mut board, cv, false, 0, 1), own);
            assert_eq!(bit(&mut board, cv, true, 0, 1), own);
        }
        assert_eq!(board.store[80..120], [5; 40]);
        assert_eq!(board.store.iter().filter(|&&byte| byte != 0).count(), 40);
    }
}

#[test]
fn the_common_cvs() {
    for number in 0..=3 {
        let mut board = Board::new();
        board.module.number = number;
        board.module.set_wait(true).unwrap();
        assert!(write(&mut board, 1021, 9));
        let held = [(897, number), (898, 0), (899, 0), (1020, 1), (1021, 9), (1022, 0), (1023, 0), (1024, 0)];
        for (cv, is) in held {
            assert_eq!(value(&mut board, cv), Some(is), "CV {cv}");
            for place in 0..8 {
                assert!(bit(&mut board, cv, false, place, is >> place & 1));
                assert!(!bit(&mut board, cv, false, place, 1 - (is >> place & 1)));
            }
        }
        for cv in [898, 899, 1020, 1022, 1023, 1024] {
            let before = board.module.clone();
            assert!(!write(&mut board, cv, 0) && !write(&mut board, cv, 1));
            assert!(!bit(&mut board, cv, true, 0, 0) && !bit(&mut board, cv, true, 0, 1));
            assert_eq!((board.module.wait, board.module.bank), (before.wait, before.bank));
        }
    }
}

#[test]
fn cv_1021_takes_any_byte() {
    for bank in 0..=255 {
        let mut board = Board::new();
        assert!(write(&mut board, 1021, bank));
        assert_eq!(board.module.bank, bank);
        assert!(bit(&mut board, 1021, true, 3, 1));
        assert_eq!(board.module.bank, bank | 8);
    }
}

#[test]
fn the_store_is_bank_times_40_and_offset() {
    let mut board = Board::new();
    board.sheet[..251].fill(40);
    board.sheet[255] = 40;
    for bank in (0..251).chain([255u8]) {
        write(&mut board, 1021, bank);
        for offset in [2, 39] {
            assert!(write(&mut board, 900 + offset, 7));
            assert_eq!(board.store[40 * bank as usize + offset as usize], 7);
        }
    }
    assert_eq!(board.store.iter().filter(|&&byte| byte == 7).count(), 2 * 252);
}

#[test]
fn readable_is_below_the_size() {
    for size in 0..=40 {
        let mut board = Board::new();
        board.sheet[7] = size;
        board.store[280..320].fill(3);
        board.module.bank = 7;
        for offset in 0..40 {
            let readable = offset < size as u16;
            assert_eq!(verify(&mut board, 900 + offset, 3), readable);
            assert_eq!(bit(&mut board, 900 + offset, false, 2, 0), readable);
            assert_eq!(bit(&mut board, 900 + offset, true, 2, 0), readable);
            assert_eq!(write(&mut board, 900 + offset, 3), readable);
        }
    }
}

#[test]
fn offsets_0_and_1_of_banks_0_and_1_are_fixed() {
    for bank in 0..3 {
        for offset in 0..3 {
            let mut board = Board::new();
            board.sheet[2] = 40;
            board.module.bank = bank;
            let done = bank == 2 || offset == 2;
            assert!(verify(&mut board, 900 + offset, 0));
            assert_eq!(write(&mut board, 900 + offset, 5), done);
            assert_eq!(bit(&mut board, 900 + offset, true, 1, 1), done);
            assert_eq!(board.store.iter().any(|&byte| byte != 0), done);
        }
    }
}

#[test]
fn bank_254() {
    let mut board = Board::new();
    board.store[254 * 40..255 * 40].fill(9);
    let store = board.store.clone();
    board.module.bank = 254;
    assert_eq!(value(&mut board, 900), None);
    assert_eq!(value(&mut board, 901), Some(11));
    assert_eq!(value(&mut board, 902), None);
    for offset in 0..40 {
        assert!(!write(&mut board, 900 + offset, 11));
        assert!(!bit(&mut board, 900 + offset, true, 0, 1));
    }
    for place in 0..8 {
        assert!(bit(&mut board, 901, false, place, 11 >> place & 1));
        assert!(!bit(&mut board, 900, false, place, 0) && !bit(&mut board, 900, false, place, 1));
    }
    assert_eq!(board.store, store);
}

#[test]
fn renumbering_counts_from_the_next_command_and_the_cells_go_along() {
    let mut board = Board::new();
    assert!(write(&mut board, 905, 66));
    assert!(write(&mut board, 897, 2));
    assert!(!verify(&mut board, 905, 66));
    assert!(verify(&mut board, 945, 66));
    assert!(write(&mut board, 897, 0));
    assert!(verify(&mut board, 905, 66));
    assert!(verify(&mut board, 897, 0), "0 counts as module 1 but is stored as 0");
}
