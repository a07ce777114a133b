//! Document 01: the host's encoder and bank reply reader.

mod common;
use common::Board;
use reference::crc::crc;
use reference::host::{encode, read_bank, Command};
use reference::module::bank_reply;
use reference::refusal::Refusal;

const NO: Result<Vec<u8>, Refusal> = Err(Refusal::NoRoom);

#[test]
fn commands_with_any_byte() {
    assert_eq!(encode(Command::Noop), Ok(vec![0x00, 0x00]));
    for n in 0..=255 {
        assert_eq!(encode(Command::Actual(n)), Ok(vec![0x24, n]));
        assert_eq!(encode(Command::Wanted(n)), Ok(vec![0x25, n]));
        assert_eq!(encode(Command::AddressLow(n)), Ok(vec![0x5E, n]));
        assert_eq!(encode(Command::AddressHigh(n)), Ok(vec![0x5F, n]));
        assert_eq!(encode(Command::Functions5(n)), Ok(vec![0x61, n]));
        assert_eq!(encode(Command::Functions13(n)), Ok(vec![0x62, n]));
        assert_eq!(encode(Command::Functions21(n)), Ok(vec![0x63, n]));
        assert_eq!(encode(Command::LongHigh(n)), Ok(vec![0x6F, n]));
        assert_eq!(encode(Command::PositionLow(n)), Ok(vec![0x89, n]));
    }
}

#[test]
fn commands_with_a_limit() {
    for n in 0..=255 {
        assert_eq!(encode(Command::Load(n)), if n <= 127 { Ok(vec![0x26, n]) } else { NO });
        assert_eq!(encode(Command::Functions0(n)), if n <= 31 { Ok(vec![0x60, n >> 1 | (n & 1) << 4]) } else { NO });
        assert_eq!(encode(Command::Control(n)), if n <= 3 { Ok(vec![0x6C, n]) } else { NO });
        assert_eq!(encode(Command::PositionHigh(n)), if n <= 15 { Ok(vec![0x88, n]) } else { NO });
        for on in [false, true] {
            let data = n | if on { 128 } else { 0 };
            let state = encode(Command::State { number: n, on });
            assert_eq!(state, if n <= 127 { Ok(vec![0x6D, data]) } else { NO });
            let low = encode(Command::LongLow { number: n, on });
            assert_eq!(low, if n <= 127 { Ok(vec![0x6E, data]) } else { NO });
        }
    }
}

#[test]
fn commands_with_a_cv() {
    for cv in (0..2_000u16).chain([65_535]) {
        let fits = (897..=1024).contains(&cv);
        let second = 128u8.wrapping_add(cv.wrapping_sub(897) as u8);
        for value in [0, 1, 255] {
            let verify = encode(Command::Verify { cv, value });
            assert_eq!(verify, if fits { Ok(vec![0x77, second, value]) } else { NO });
            let write = encode(Command::Write { cv, value });
            assert_eq!(write, if fits { Ok(vec![0x7F, second, value]) } else { NO });
        }
        for (place, bit) in [(0, 0), (7, 1), (8, 0), (0, 2), (255, 255)] {
            let fits = fits && place <= 7 && bit <= 1;
            let third = 0xE0 | bit.min(1) << 3 | place & 7;
            let verify = encode(Command::VerifyBit { cv, place, bit });
            assert_eq!(verify, if fits { Ok(vec![0x7B, second, third]) } else { NO });
            let write = encode(Command::WriteBit { cv, place, bit });
            assert_eq!(write, if fits { Ok(vec![0x7B, second, third | 16]) } else { NO });
        }
        let read = encode(Command::ReadCv(cv));
        let data = cv.wrapping_sub(769) as u8;
        assert_eq!(read, if (769..=1024).contains(&cv) { Ok(vec![0x0F, data]) } else { NO });
    }
}

#[test]
fn bidi_commands() {
    for module in 0..=255 {
        for status in 0..=255 {
            for forced in [false, true] {
                let call = encode(Command::Call { module, forced, status });
                let fits = module <= 3 && status <= 3;
                let data = module & 3 | (forced as u8) << 2 | (status & 3) << 3;
                assert_eq!(call, if fits { Ok(vec![0x01, data]) } else { NO });
            }
        }
        for bank in [0, 1, 254, 255] {
            let read = encode(Command::Bank { module, bank });
            assert_eq!(read, if (1..=3).contains(&module) { Ok(vec![0x0B + module, bank]) } else { NO });
        }
    }
}

#[test]
fn the_hosts_packets_reach_the_module() {
    let mut board = Board::new();
    let write = encode(Command::Write { cv: 902, value: 7 }).unwrap();
    assert!(board.yes(&write));
    assert!(board.yes(&encode(Command::VerifyBit { cv: 902, place: 1, bit: 1 }).unwrap()));
    let reply = board.send(&encode(Command::Bank { module: 1, bank: 0 }).unwrap()).unwrap();
    let mut cells = [0; 40];
    assert_eq!(read_bank(&reply, &mut cells), Ok(40));
    assert_eq!(cells[2], 7);
}

fn read(reply: &[u8]) -> Result<Vec<u8>, Refusal> {
    let mut room = vec![0xEE; 50];
    let result = read_bank(reply, &mut room);
    let written = *result.as_ref().unwrap_or(&0);
    assert!(room[written..].iter().all(|&byte| byte == 0xEE), "what lies past the cells is untouched");
    result.map(|cells| room[..cells].to_vec())
}

fn cells(count: usize) -> Vec<u8> {
    (0..count).map(|n| (7 * n + 3) as u8).collect()
}

#[test]
fn every_right_reply_is_read() {
    for count in 0..=40 {
        assert_eq!(read(&bank_reply(&cells(count))), Ok(cells(count)));
    }
}

#[test]
fn the_readers_room() {
    let reply = bank_reply(&cells(2));
    for length in 0..40 {
        assert_eq!(read_bank(&reply, &mut vec![0; length]), Err(Refusal::Length));
        assert_eq!(read_bank(&[], &mut vec![0; length]), Err(Refusal::Length));
    }
    assert_eq!(read_bank(&reply, &mut [0; 40]), Ok(2));
    assert_eq!(read_bank(&reply, &mut [0; 41]), Ok(2));
}

#[test]
fn short_and_long_replies_are_9() {
    assert_eq!(read(&[]), Err(Refusal::Shape));
    assert_eq!(read(&[0x8E, 1, 0x8E, 1, 0x8F, 0x9B, 0x8F, 0, 0]), Err(Refusal::Shape), "9 before 10");
    for count in 0..=40 {
        let reply = bank_reply(&cells(count));
        for length in 0..reply.len() {
            assert_eq!(read(&reply[..length]), Err(Refusal::Shape));
        }
        for more in [&[0x00][..], &[0x8F, 0, 0x8F, 0], &[0x8E, 1, 0x8E, 1]] {
            assert_eq!(read(&[&reply[..], more].concat()), Err(Refusal::Shape));
        }
    }
}

/// What a right reply with one damaged byte gives.
fn damaged_gives(count: usize, reply: &[u8], place: usize, byte: u8) -> Result<Vec<u8>, Refusal> {
    let end = reply.len() - 4;
    let header = place % 2 == 0;
    let unused = place > 2 * count && place < end;
    let one_more = count % 2 == 0 || count == 39;
    if one_more && place == 2 * count && place < end && byte == 0x8F {
        // 8E 01 becomes 8F 01: the checksum leaves headers out, so this is a right reply of one cell more.
        return Ok([&cells(count)[..], &[1]].concat());
    }
    if header || unused || place == reply.len() - 1 {
        Err(Refusal::Shape)
    } else {
        Err(Refusal::Checksum)
    }
}

#[test]
fn damage_in_every_byte() {
    for count in [0, 1, 2, 38, 39, 40] {
        let reply = bank_reply(&cells(count));
        for place in 0..reply.len() {
            for byte in (0..=255).filter(|&byte| byte != reply[place]) {
                let mut damaged = reply.clone();
                damaged[place] = byte;
                let wanted = damaged_gives(count, &reply, place, byte);
                assert_eq!(read(&damaged), wanted, "{count} cells, byte {place} to {byte:02X}");
            }
        }
    }
}

#[test]
fn twenty_one_cell_groups_are_9() {
    let mut groups = Vec::new();
    let mut data = Vec::new();
    for n in 0..21 {
        groups.extend([0x8F, n, 0x8F, 0]);
        data.extend([n, 0]);
    }
    groups.extend([0x8F, crc(&data), 0x8F, 0]);
    assert_eq!(groups.len(), 88);
    assert_eq!(read(&groups), Err(Refusal::Shape));
}

#[test]
fn an_end_group_after_20_cell_groups_is_9() {
    let mut groups = Vec::new();
    for _ in 0..20 {
        groups.extend([0x8F, 0, 0x8F, 0]);
    }
    groups.extend([0x8E, 1, 0x8E, 1]);
    let mut data = vec![0; 40];
    data.extend([1, 1]);
    groups.extend([0x8F, crc(&data), 0x8F, 0]);
    assert_eq!(read(&groups), Err(Refusal::Shape));
}

#[test]
fn cells_that_look_like_the_checksum_group_do_not_end_a_bank() {
    let mut cells = vec![5, 6];
    cells.extend([crc(&cells), 0]);
    cells.extend([9, 9]);
    assert_eq!(read(&bank_reply(&cells)), Ok(cells.clone()));
    assert_eq!(read(&bank_reply(&[0; 40])), Ok(vec![0; 40]));
    let stopped = [0x8F, 5, 0x8F, 6, 0x8F, crc(&[5, 6]), 0x8F, 0];
    assert_eq!(read(&stopped), Err(Refusal::Shape), "a bank without an end group");
}

#[test]
fn end_groups_of_another_form_are_9() {
    for group in [
        [0x8E, 1, 0x8F, 5],
        [0x8E, 2, 0x8E, 1],
        [0x8E, 1, 0x8E, 2],
        [0x8E, 0, 0x8E, 0],
        [0x8F, 5, 0x8E, 2],
        [0x8F, 5, 0x8E, 0],
    ] {
        let sum = crc(&[group[1], group[3]]);
        assert_eq!(read(&[&group[..], &[0x8F, sum, 0x8F, 0]].concat()), Err(Refusal::Shape));
    }
}

#[test]
fn the_checksum_goes_over_data_and_not_over_headers() {
    let over_all = crc(&[0x8E, 1, 0x8E, 1]);
    assert_eq!(read(&[0x8E, 1, 0x8E, 1, 0x8F, over_all, 0x8F, 0]), Err(Refusal::Checksum));
    assert_eq!(read(&[0x8E, 1, 0x8E, 1, 0x8F, 0x9A, 0x8F, 0]), Ok(vec![]));
    assert_eq!(read(&[0x8E, 1, 0x8E, 1, 0x8F, 0x9A, 0x8F, 1]), Err(Refusal::Shape));
}
