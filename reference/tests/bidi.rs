//! Document 01: BiDi.

mod common;
use common::Board;
use reference::crc::crc;
use reference::module::legal;
use reference::refusal::Refusal;

const EMPTY: [u8; 4] = [0x81, 0, 0x81, 0];

fn reply(board: &mut Board, packet: &[u8]) -> Vec<u8> {
    board.send(packet).expect("an acknowledgement")
}

#[test]
fn who_is_called() {
    for number in 0..=3u8 {
        for data in 0..=255u8 {
            let mut board = Board::new();
            board.module.number = number;
            let answered = board.send(&[0x01, data]).is_some();
            assert_eq!(answered, data & 3 == number.max(1));
        }
    }
}

#[test]
fn forced_calls_give_statuses() {
    let mut board = Board::new();
    board.module.set_status(0, 0x12).unwrap();
    board.module.set_status(1, 0x01).unwrap();
    for rest in [0x00, 0x20, 0xE0] {
        assert_eq!(reply(&mut board, &[0x01, 0x05 | rest]), [0x8A, 0x12, 0x8A, 0x01]);
        assert_eq!(reply(&mut board, &[0x01, 0x0D | rest]), [0x8A, 0x12, 0x8A, 0x01]);
        assert_eq!(reply(&mut board, &[0x01, 0x15 | rest]), EMPTY);
        assert_eq!(reply(&mut board, &[0x01, 0x1D | rest]), EMPTY);
    }
}

#[test]
fn an_unforced_empty_call_is_answered_once() {
    let mut board = Board::new();
    assert_eq!(reply(&mut board, &[0x01, 0x01]), EMPTY);
    assert_eq!(board.send(&[0x01, 0x01]), None);
    assert_eq!(board.send(&[0x01, 0x01]), None);
    board.module.restart(&mut board.states).unwrap();
    board.time = 0;
    assert_eq!(reply(&mut board, &[0x01, 0xF9]), EMPTY);
}

#[test]
fn forced_calls_and_messages_register_too() {
    let mut board = Board::new();
    reply(&mut board, &[0x01, 0x15]);
    assert_eq!(board.send(&[0x01, 0x01]), None);

    let mut board = Board::new();
    board.module.post([0x80, 4, 0x80, 15]).unwrap();
    assert_eq!(reply(&mut board, &[0x01, 0x01]), [0x80, 4, 0x80, 15]);
    assert_eq!(board.send(&[0x01, 0x01]), None);
}

#[test]
fn calls_to_others_do_not_register() {
    let mut board = Board::new();
    assert_eq!(board.send(&[0x01, 0x02]), None);
    assert_eq!(board.send(&[0x01, 0x06]), None);
    assert_eq!(reply(&mut board, &[0x01, 0x01]), EMPTY);
}

#[test]
fn the_oldest_message_leaves_first() {
    let mut board = Board::new();
    for n in 0..8 {
        assert_eq!(board.module.post([0x83, n, 0x84, n]), Ok(()));
    }
    assert_eq!(board.module.post([0x83, 8, 0x84, 8]), Err(Refusal::QueueFull), "a ninth post gives 7");
    assert_eq!(board.module.post([0x86, 8, 0x84, 8]), Err(Refusal::Message));
    reply(&mut board, &[0x01, 0x05]);
    for n in 0..8 {
        assert_eq!(board.module.queued, 8 - n);
        assert_eq!(reply(&mut board, &[0x01, 0x01]), [0x83, n, 0x84, n]);
    }
    assert_eq!((board.module.queued, board.module.queue), (0, [0; 32]));
    assert_eq!(board.send(&[0x01, 0x01]), None);
}

/// The data that a header takes as a half without a partner.
fn takes(header: u8) -> Vec<u8> {
    (0..=255).filter(|&data| legal([header, data, 0x83, 0])).collect()
}

#[test]
fn legal_halves() {
    assert_eq!(takes(0x80), [0, 4, 15]);
    let kinds = [0, 1, 2, 3, 4, 5, 6, 7, 15, 16, 17, 19, 24, 25];
    let mut functions: Vec<u8> = Vec::new();
    for add in [0, 32, 64] {
        functions.extend(kinds.iter().map(|kind| kind + add).filter(|&data| data != 32));
    }
    assert_eq!(takes(0x81), functions);
    let dcc: Vec<u8> = (0..=28).chain(32..=60).chain(64..=92).collect();
    assert_eq!(takes(0x82), dcc);
    for header in [0x83, 0x84, 0x8C, 0x8D] {
        assert_eq!(takes(header), (0..=255).collect::<Vec<u8>>());
    }
    assert_eq!(takes(0x85), [0, 1, 2, 3, 4, 5, 6, 7]);
    for header in (0..=255).filter(|header| ![0x80, 0x81, 0x82, 0x83, 0x84, 0x85, 0x8C, 0x8D].contains(header)) {
        assert_eq!(takes(header), []);
        assert!(!legal([0x83, 0, header, 0]));
    }
}

#[test]
fn the_position_is_a_pair() {
    for data in 0..=255 {
        assert_eq!(legal([0x88, data, 0x89, 0]), data <= 15);
        assert!(legal([0x88, 0, 0x89, data]));
        assert!(!legal([0x88, data, 0x88, data]) && !legal([0x89, data, 0x89, data]));
        assert!(!legal([0x89, data, 0x88, data]) && !legal([0x83, data, 0x89, data]));
        assert!(!legal([0x88, data, 0x83, data]));
    }
}

#[test]
fn both_halves_are_judged() {
    assert!(legal([0x80, 15, 0x85, 7]));
    assert!(!legal([0x80, 15, 0x85, 8]));
    assert!(!legal([0x80, 14, 0x85, 7]));
}

#[test]
fn statuses() {
    for value in 0..=255u8 {
        let mut board = Board::new();
        let zero = if value & !0b1_0011 == 0 { Ok(()) } else { Err(Refusal::Status) };
        let one = if value & !0b0_0011 == 0 { Ok(()) } else { Err(Refusal::Status) };
        assert_eq!(board.module.set_status(0, value), zero);
        assert_eq!(board.module.set_status(1, value), one);
        assert_eq!(board.module.status0, if zero.is_ok() { value } else { 0 });
        assert_eq!(board.module.status1, if one.is_ok() { value } else { 0 });
        for number in 2..=255 {
            assert_eq!(board.module.set_status(number, value), Err(Refusal::Status));
        }
    }
}

#[test]
fn reading_a_cv_and_the_next() {
    let mut board = Board::new();
    board.store[2] = 7;
    board.store[39] = 9;
    assert_eq!(reply(&mut board, &[0x0F, 0x85]), [0x8F, 7, 0x8F, 0]);
    assert_eq!(reply(&mut board, &[0x0F, 0xAA]), [0x8F, 9, 0x8E, 2], "CV 939 at module 1");
    assert_eq!(reply(&mut board, &[0x0F, 0xA9]), [0x8F, 0, 0x8F, 9]);
    assert_eq!(board.send(&[0x0F, 0xAB]), None, "CV 940 is module 2's");
    board.sheet[0] = 39;
    assert_eq!(reply(&mut board, &[0x0F, 0xAA]), [0x8E, 1, 0x8E, 2]);
    assert_eq!(reply(&mut board, &[0x0F, 0xA9]), [0x8F, 0, 0x8E, 1]);
    board.sheet[0] = 38;
    assert_eq!(reply(&mut board, &[0x0F, 0xA9]), [0x8E, 1, 0x8E, 1]);
}

#[test]
fn only_the_owner_answers() {
    for number in 0..=3u8 {
        let begin = 900 + 40 * (number.max(1) as u16 - 1);
        for data in 0..=255u8 {
            let mut board = Board::new();
            board.module.number = number;
            let cv = data as u16 + 769;
            let answer = board.send(&[0x0F, data]);
            assert_eq!(answer.is_some(), (begin..begin + 40).contains(&cv));
            if cv == begin + 39 {
                assert_eq!(answer.unwrap()[2..], [0x8E, 2]);
            }
        }
    }
}

#[test]
fn reading_a_cv_goes_by_the_selected_bank() {
    let mut board = Board::new();
    board.module.bank = 254;
    assert_eq!(reply(&mut board, &[0x0F, 0x83]), [0x8E, 1, 0x8F, 11]);
    assert_eq!(reply(&mut board, &[0x0F, 0x84]), [0x8F, 11, 0x8E, 1]);
    assert_eq!(reply(&mut board, &[0x0F, 0x85]), [0x8E, 1, 0x8E, 1]);
    board.module.bank = 3;
    assert_eq!(reply(&mut board, &[0x0F, 0x83]), [0x8E, 1, 0x8E, 1], "an own CV that isn't readable still answers");
}

#[test]
fn bank_254_is_read_as_empty() {
    let mut board = Board::new();
    assert_eq!(reply(&mut board, &[0x0C, 0xFE]), [0x8E, 1, 0x8E, 1, 0x8F, 0x9A, 0x8F, 0]);
}

#[test]
fn the_checksum() {
    assert_eq!(crc(&[0x01]), 0x5E);
    assert_eq!(crc(&[0x01, 0x01]), 0x9A);
    assert_eq!(crc(&[]), 0);
}

/// The check value of CRC-8/MAXIM, the example of the 1-Wire note, and one that goes by the name
/// of RCN-218 Appendix C, which is not among the sources.
#[test]
fn published_checksum_vectors() {
    assert_eq!(crc(b"123456789"), 0xA1);
    assert_eq!(crc(&[0x02, 0x1C, 0xB8, 0x01, 0x00, 0x00, 0x00]), 0xA2);
    assert_eq!(crc(&[0x0B, 0x0A, 0x00, 0x00, 0x8E, 0x40, 0x00, 0x0D, 0x67, 0x00, 0x01, 0x00]), 0x4C);
}

#[test]
fn the_receiving_side_ends_at_0() {
    for first in 0..=255 {
        let data = [first, 0x12, 0xFE];
        assert_eq!(crc(&[first, 0x12, 0xFE, crc(&data)]), 0);
    }
}

#[test]
fn lengths_of_bank_replies() {
    for (size, length) in [(1, 8), (2, 12), (3, 12), (37, 80), (38, 84), (39, 84), (40, 84)] {
        let mut board = Board::new();
        board.sheet[9] = size;
        assert_eq!(reply(&mut board, &[0x0C, 9]).len(), length, "size {size}");
    }
}

#[test]
fn every_size_of_a_bank() {
    for size in 1..=40usize {
        let mut board = Board::new();
        board.sheet[9] = size as u8;
        for offset in 0..40 {
            board.store[360 + offset] = 100 + offset as u8;
        }
        let mut wanted = Vec::new();
        let mut data = Vec::new();
        for offset in 0..size {
            wanted.extend([0x8F, 100 + offset as u8]);
            data.push(100 + offset as u8);
        }
        for _ in 0..[2, 1][size % 2] * (size < 40) as usize {
            wanted.extend([0x8E, 1]);
            data.push(1);
        }
        wanted.extend([0x8F, crc(&data), 0x8F, 0]);
        assert_eq!(reply(&mut board, &[0x0C, 9]), wanted);
    }
}

#[test]
fn banks_are_read_past_cv_1021() {
    let mut board = Board::new();
    board.store[0] = 1;
    board.store[40] = 2;
    board.module.bank = 1;
    assert_eq!(reply(&mut board, &[0x0C, 0])[..2], [0x8F, 1]);
    assert_eq!(board.module.bank, 1);
    board.module.bank = 3;
    assert_eq!(reply(&mut board, &[0x0C, 1])[..2], [0x8F, 2]);
}

#[test]
fn banks_of_size_0_and_of_other_modules() {
    for number in 0..=3u8 {
        for first in 0x0C..=0x0E {
            for bank in 0..=255 {
                let mut board = Board::new();
                board.module.number = number;
                let answered = board.send(&[first, bank]).is_some();
                let right = first - 0x0B == number.max(1);
                assert_eq!(answered, right && [0, 1, 254].contains(&bank));
            }
        }
    }
}

#[test]
fn a_reply_writes_its_own_bytes_and_no_further() {
    let mut board = Board::new();
    board.room = vec![0xEE; 100];
    let reply = reply(&mut board, &[0x0C, 0]);
    assert_eq!(reply.len(), 84);
    assert_eq!(board.room[84..], [0xEE; 16]);
    board.room = vec![0xEE; 84];
    board.send(&[0x0F, 0x85]);
    assert_eq!(board.room[4..], [0xEE; 80]);
    board.room = vec![0xEE; 84];
    assert!(board.yes(&[0x7F, 0x85, 7]));
    assert_eq!(board.room, [0xEE; 84]);
}
