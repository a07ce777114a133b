//! Document 01: commands.

mod common;
use common::Board;
use reference::module::{Half, Module, Position};

#[test]
fn speeds_are_stored_whole() {
    let mut board = Board::new();
    assert_eq!(board.send(&[0x24, 0x85]), None);
    assert_eq!(board.send(&[0x25, 0x7F]), None);
    assert_eq!((board.module.actual, board.module.wanted), (0x85, 0x7F));
}

#[test]
fn load_with_bit_7_is_ignored() {
    let mut board = Board::new();
    board.send(&[0x26, 127]);
    assert_eq!(board.module.load, 127);
    board.send(&[0x26, 128]);
    assert_eq!(board.module.load, 127);
    board.send(&[0x26, 0]);
    assert_eq!(board.module.load, 0);
}

#[test]
fn the_address_needs_both_halves_in_turn() {
    let mut board = Board::new();
    board.send(&[0x5E, 0x34]);
    assert_eq!(board.module.address, 0);
    board.send(&[0x5F, 0x12]);
    assert_eq!(board.module.address, 0x1234);
    board.send(&[0x5F, 0x77]);
    assert_eq!(board.module.address, 0x1234);
    board.send(&[0x5E, 0x01]);
    board.send(&[0x5E, 0x02]);
    board.send(&[0x5F, 0x03]);
    assert_eq!(board.module.address, 0x0302);
}

#[test]
fn function_groups() {
    let mut board = Board::new();
    board.send(&[0x60, 0xF0]);
    assert_eq!(board.module.functions, 1);
    for bit in 0..4 {
        board.send(&[0x60, 1 << bit]);
        assert_eq!(board.module.functions, 1 << (bit + 1));
    }
    board.send(&[0x60, 0xE0]);
    assert_eq!(board.module.functions, 0);
    for (first, from) in [(0x61, 5), (0x62, 13), (0x63, 21)] {
        for bit in 0..8 {
            board.send(&[first, 1 << bit]);
            assert_eq!(board.module.functions, 1 << (from + bit));
        }
        board.send(&[first, 0]);
    }
    board.send(&[0x60, 0x1F]);
    board.send(&[0x61, 0xFF]);
    board.send(&[0x62, 0xFF]);
    board.send(&[0x63, 0xFF]);
    assert_eq!(board.module.functions, (1 << 29) - 1);
    board.send(&[0x62, 0x00]);
    assert_eq!(board.module.functions, ((1 << 29) - 1) & !(0xFF << 13));
}

#[test]
fn control_bits() {
    let mut board = Board::new();
    assert_eq!(board.module.control, 3);
    board.send(&[0x63, 0xFF]);
    board.send(&[0x6D, 0x85]);
    board.send(&[0x6C, 0xFE]);
    assert_eq!((board.module.control, board.module.functions), (2, 0xFF << 21));
    board.send(&[0x6C, 0xFD]);
    assert_eq!((board.module.control, board.module.functions), (1, 0));
    assert!(board.state(5));
    board.send(&[0x63, 0x01]);
    assert_eq!(board.module.functions, 1 << 21);
    board.send(&[0x6C, 0x00]);
    assert_eq!((board.module.control, board.module.functions), (0, 0));
}

#[test]
fn short_states() {
    let mut board = Board::new();
    for number in 1..=127u8 {
        board.send(&[0x6D, 0x80 | number]);
        for other in 0..200 {
            assert_eq!(board.state(other), other == number as usize);
        }
        board.send(&[0x6D, number]);
        assert_eq!(board.states, vec![0; 4_096]);
    }
}

#[test]
fn all_short_states() {
    let mut board = Board::new();
    board.send(&[0x6E, 0x80]);
    board.send(&[0x6F, 0x01]);
    board.states[0] = 1;
    board.send(&[0x6D, 0x80]);
    let mut on = vec![255; 16];
    on[0] = 254;
    on.resize(4_096, 0);
    on[16] = 1;
    assert_eq!(board.states, on);
    board.states[0] = 255;
    board.send(&[0x6D, 0x00]);
    let mut off = vec![0; 4_096];
    off[16] = 1;
    assert_eq!(board.states, off);
}

#[test]
fn long_states() {
    let mut board = Board::new();
    for number in [1usize, 7, 8, 127, 128, 255, 256, 16_384, 32_766, 32_767] {
        let (low, high) = (number as u8 & 127, (number >> 7) as u8);
        board.send(&[0x6E, 0x80 | low]);
        assert_eq!((board.module.half, board.module.halfbyte), (Half::State, 0x80 | low));
        board.send(&[0x6F, high]);
        let mut only = vec![0; 4_096];
        only[number / 8] = 1 << (number % 8);
        assert_eq!(board.states, only);
        board.send(&[0x6E, low]);
        board.send(&[0x6F, high]);
        assert_eq!(board.states, vec![0; 4_096]);
    }
}

#[test]
fn all_long_states() {
    let mut board = Board::new();
    board.states[0] = 1;
    board.send(&[0x6E, 0x80]);
    board.send(&[0x6F, 0x00]);
    let mut on = vec![255; 4_096];
    on[0] = 254;
    assert_eq!(board.states, on);
    board.states[0] = 255;
    board.send(&[0x6E, 0x00]);
    board.send(&[0x6F, 0x00]);
    assert_eq!(board.states, vec![0; 4_096]);
}

#[test]
fn single_commands_leave_bit_0_of_byte_0() {
    let mut board = Board::new();
    board.states[0] = 1;
    board.send(&[0x6D, 0x81]);
    board.send(&[0x6D, 0x01]);
    assert_eq!(board.states[0], 1);
}

#[test]
fn short_and_long_forms_share_one_set_of_states() {
    let mut board = Board::new();
    board.send(&[0x6D, 0x80 | 100]);
    board.send(&[0x6E, 100]);
    board.send(&[0x6F, 0]);
    assert!(!board.state(100));
}

#[test]
fn a_noop_between_the_halves() {
    let mut board = Board::new();
    board.send(&[0x6E, 0x80]);
    board.send(&[0x00, 0x00]);
    board.send(&[0x6F, 0x01]);
    assert_eq!(board.states, vec![0; 4_096]);
    board.send(&[0x6E, 0x80]);
    board.send(&[0x6F, 0x01]);
    let mut state_128 = vec![0; 4_096];
    state_128[16] = 1;
    assert_eq!(board.states, state_128);
    assert!(board.state(128));
}

#[test]
fn every_completed_command_drops_a_held_half() {
    for first in 0..=255u8 {
        for (one, data, other) in [(0x5E, 0x85, 0x5F), (0x6E, 0x85, 0x6F), (0x88, 0x05, 0x89)] {
            let mut board = Board::new();
            board.send(&[one, data]);
            let between = match first {
                0x70..=0x7F => vec![first, 0x05, 0x00],
                0x88 => vec![first, 0x01],
                _ => vec![first, 0x81],
            };
            board.send(&between);
            let (address, position, states) = (board.module.address, board.module.position, board.states.clone());
            board.send(&[other, 0x02]);
            let heard = board.module.address != address || board.module.position != position;
            assert_eq!(heard || board.states != states, first == one, "{one:02X} {first:02X} {other:02X}");
            assert_eq!((board.module.half, board.module.halfbyte), (Half::None, 0));
        }
    }
}

#[test]
fn a_second_high_half_does_nothing() {
    let mut board = Board::new();
    board.send(&[0x6E, 0x85]);
    board.send(&[0x6F, 0x00]);
    board.send(&[0x6F, 0x01]);
    assert!(board.state(5) && !board.state(128 + 5));
}

#[test]
fn every_other_first_byte_has_two_bytes_and_no_effect() {
    let known = [
        0x24, 0x25, 0x26, 0x5E, 0x5F, 0x60, 0x61, 0x62, 0x63, 0x6C, 0x6D, 0x6E, 0x6F, 0x88, 0x89, 0x01, 0x0C, 0x0D,
        0x0E, 0x0F,
    ];
    for first in (0..=255u8).filter(|first| !known.contains(first) && !(0x70..=0x7F).contains(first)) {
        for data in [0x00, 0x01, 0x7F, 0x80, 0xFF] {
            let mut board = Board::new();
            assert_eq!(board.send(&[first, data]), None);
            board.module.receiver = Module::new(1).receiver;
            assert_eq!(board.module, Module::new(1));
            assert_eq!((board.states, board.store), (vec![0; 4_096], vec![0; 10_240]));
        }
    }
}

#[test]
fn a_restart() {
    let mut board = Board::new();
    for packet in [[0x24, 1], [0x25, 2], [0x26, 3], [0x5E, 4], [0x5F, 5], [0x60, 31], [0x6C, 2], [0x6D, 0x80]] {
        board.send(&packet);
    }
    board.send(&[0x88, 3]);
    board.send(&[0x89, 7]);
    board.yes(&[0x7F, 0x80 + 5, 9]);
    board.yes(&[0x7F, 0x80, 3]);
    board.yes(&[0x7F, 0x80 + 124, 77]);
    board.send(&[0x01, 0x07]);
    board.send(&[0x6E, 0x81]);
    board.module.set_wait(true).unwrap();
    board.module.set_status(0, 0x13).unwrap();
    board.module.set_status(1, 3).unwrap();
    board.module.post([0x80, 0, 0x80, 0]).unwrap();
    board.states[0] |= 1;
    let store = board.store.clone();
    board.module.restart(&mut board.states).unwrap();
    let mut after = Module::new(3);
    after.bank = 77;
    assert_eq!(board.module, after);
    assert_eq!(after.position, Position::Unknown);
    assert_eq!((after.control, after.receiver.last, after.receiver.start, after.receiver.started), (3, 0, 0, 0));
    assert_eq!((board.states, board.store), (vec![0; 4_096], store));
}
