//! What random scenarios are made of: size sheets, messages, broken records, bank replies, commands, bad lines.

use crate::names::ENCODED;
use crate::random::Random;
use reference::crc::crc;
use reference::module::bank_reply;

// Size sheets.

/// Sizes of every kind of bank.
pub fn usual_sizes(random: &mut Random) -> Vec<(u8, u8)> {
    let mut sizes = Vec::new();
    for bank in [0, 1] {
        if random.one_in(2) {
            sizes.push((bank, random.pick(&[2, 3, 38, 39, 40])));
        }
    }
    for bank in [2, 3, 100, 249, 250, 255] {
        if random.one_in(2) {
            let any = random.from(0, 40) as u8;
            sizes.push((bank, random.pick(&[0, 1, 2, 3, 38, 39, 40, any])));
        }
    }
    sizes
}

/// A rule of the size sheet broken, mostly just so.
pub fn bad_sizes(rule: u64, random: &mut Random) -> Vec<(u8, u8)> {
    let bank = random.pick(&[0, 1, 2, 100, 250, 255]);
    let some = random.pick(&[1, 2, 40]);
    let mut sizes = vec![match rule % 10 {
        0 => (0, 1),
        1 => (1, 1),
        2 => (bank, 41),
        3 => (bank, random.from(41, 255) as u8),
        4 => (251, some),
        5 => (252, some),
        6 => (253, some),
        7 => (254, random.below(2) as u8),
        8 => (254, random.pick(&[3, 3, 40])),
        _ => (random.below(2) as u8, 0),
    }];
    if random.one_in(5) {
        let another = random.below(10);
        sizes.extend(bad_sizes(another, random));
    }
    sizes
}

// Messages.

fn legal_half(random: &mut Random) -> [u8; 2] {
    let header = random.pick(&[0x80, 0x81, 0x81, 0x82, 0x82, 0x83, 0x84, 0x85, 0x8C, 0x8D]);
    let add = random.pick(&[0, 32, 64]);
    let data = match header {
        0x80 => random.pick(&[0, 4, 15]),
        0x81 => random.pick(&[0, 1, 2, 3, 4, 5, 6, 7, 15, 16, 17, 19, 24, 25]) + add,
        0x82 => random.from(0, 28) as u8 + add,
        0x85 => random.below(8) as u8,
        _ => random.byte(),
    };
    match (header, data) {
        (0x81, 32) => [0x81, 64],
        half => half.into(),
    }
}

pub fn legal_message(random: &mut Random) -> [u8; 4] {
    if random.one_in(6) {
        return [0x88, random.below(16) as u8, 0x89, random.byte()];
    }
    let ([a, b], [c, d]) = (legal_half(random), legal_half(random));
    [a, b, c, d]
}

/// A message with something wrong, or nearly.
pub fn damaged_message(mut message: [u8; 4], random: &mut Random) -> [u8; 4] {
    let half = 2 * random.below(2) as usize;
    match random.below(7) {
        0 => message[half] = random.from(0x7F, 0x90) as u8,
        1 => message[half] = random.byte(),
        2 => (message[half], message[half + 1]) = (0x81, random.byte_or(&[8, 14, 18, 20, 23, 26, 31, 32, 96, 97, 128])),
        3 => (message[half], message[half + 1]) = (0x82, random.byte_or(&[29, 31, 61, 63, 93, 95, 96, 124, 128])),
        4 => {
            (message[half], message[half + 1]) = random.pick(&[(0x80, 1), (0x80, 14), (0x80, 16), (0x85, 8), (0x87, 0)])
        }
        5 => message = [0x88, random.pick(&[15, 16, 255]), 0x89, random.byte()],
        _ => {
            message[0] = random.pick(&[0x88, 0x89, message[0]]);
            message[2] = random.pick(&[0x88, 0x89, message[2]]);
        }
    }
    message
}

// Bank replies.

pub fn right_reply(random: &mut Random) -> Vec<u8> {
    let any = random.from(0, 40) as usize;
    let count = random.pick(&[0, 1, 2, 3, 4, 37, 38, 39, 40, any, any]);
    let mut cells: Vec<u8> = (0..count).map(|_| random.byte_or(&[0, 1, 0x8E, 0x8F])).collect();
    if count > 3 && random.one_in(4) {
        let pairs = 2 * random.from(1, count as u64 / 2 - 1) as usize;
        cells[pairs] = crc(&cells[..pairs]);
        cells[pairs + 1] = 0;
    }
    bank_reply(&cells)
}

/// A reply that is right, or damaged in one of the ways that lie near.
pub fn some_reply(random: &mut Random) -> Vec<u8> {
    let mut reply = right_reply(random);
    let place = random.below(reply.len() as u64) as usize;
    match random.below(12) {
        0..=2 => {}
        3 => reply[place] ^= 1 << random.below(8),
        4 => reply[place] = random.byte_or(&[0, 1, 2, 0x8E, 0x8F]),
        5 => reply.truncate(place),
        6 => reply.extend((0..random.from(1, 4)).map(|_| random.byte_or(&[0, 1, 0x8E, 0x8F]))),
        7 => reply = groups(random, 21, false),
        8 => {
            let end = random.one_in(2);
            let cells = random.pick(&[0, 5, 19, 20, 20]);
            reply = groups(random, cells, end);
        }
        9 => reply.truncate(place / 4 * 4),
        10 => {
            let end = reply.len() - 4;
            let group = random.pick(&[[0x8E, 1, 0x8F, 1], [0x8E, 2, 0x8E, 1], [0x8E, 1, 0x8E, 2], [0x8F, 1, 0x8E, 2]]);
            reply.truncate(end.saturating_sub(4));
            reply.extend(group);
            close(&mut reply);
        }
        _ => {
            let end = reply.len() - 4;
            reply[end + 1] = reply[end + 1].wrapping_add(1);
        }
    }
    reply
}

/// This many cell groups, an end group or none, and the right checksum.
fn groups(random: &mut Random, cells: usize, end: bool) -> Vec<u8> {
    let mut reply = Vec::new();
    for _ in 0..cells {
        reply.extend([0x8F, random.byte(), 0x8F, random.byte_or(&[0])]);
    }
    if end {
        reply.extend([0x8E, 1, 0x8E, 1]);
    }
    close(&mut reply);
    reply
}

/// Adds the checksum group.
fn close(reply: &mut Vec<u8>) {
    let data: Vec<u8> = reply.iter().skip(1).step_by(2).copied().collect();
    reply.extend([0x8F, crc(&data), 0x8F, 0]);
}

// Commands for the encoder.

pub fn encode_line(random: &mut Random) -> String {
    let name = random.pick(&ENCODED);
    let n = random.byte_or(&[0, 1, 2, 3, 4, 7, 8, 15, 16, 31, 32, 126, 127, 128, 255]);
    let cv = match random.below(4) {
        0 => random.pick(&[896, 897, 898, 1023, 1024, 1025]),
        1 => random.pick(&[0, 1, 255, 256, 768, 769, 770, 65_535]),
        2 => random.from(897, 1024),
        _ => random.below(65_536),
    };
    let place = random.byte_or(&[0, 1, 6, 7, 8, 9]);
    let bit = random.byte_or(&[0, 1, 1, 2]);
    let small = random.byte_or(&[0, 1, 2, 3, 4]);
    let on = random.below(2);
    match name {
        "noop" => "encode noop".to_string(),
        "state" | "longlow" => format!("encode {name} {n} {on}"),
        "verify" | "write" => format!("encode {name} {cv} {n}"),
        "verifybit" | "writebit" => format!("encode {name} {cv} {place} {bit}"),
        "call" => {
            let status = random.pick(&[0, 1, 2, 3, 4, 255]);
            format!("encode call {small} {on} {status}")
        }
        "bank" => format!("encode bank {small} {n}"),
        "readcv" => format!("encode readcv {cv}"),
        _ => format!("encode {name} {n}"),
    }
}

/// Lines that are not statements.
const NO_STATEMENTS: &[&str] = &[
    "nonsense",
    "cut 1",
    "Cut",
    "cut\r\r",
    "cut\r ",
    "\rcut",
    "cut\t",
    "\tcut",
    "cut\0",
    "cut\u{7f}",
    "cut \u{e9}",
    "\u{1b}",
    "wait 1\u{1f}",
    "1",
    "1 2 3",
    "1#1",
    "1 256",
    "-1 0",
    "+1 0",
    "1.0 1",
    "0x 0",
    "0X1 0",
    "0xg 0",
    "18446744073709551616 0",
    "99999999999999999999 0",
    "000000000000000000001 0",
    "0x000000000000000000001 0",
    "0x10000000000000000 1",
    "1\t0",
    "1 0x",
    "post 1 2 3",
    "post 1 2 3 4 5",
    "post 1 2 3#4",
    "post 1 2 3 256",
    "post 1 2 3 256#",
    "post 256 2 3 4",
    "post 256 2 0xFFF 4",
    "post 256 2 999 x",
    "post",
    "status 1",
    "status 256 0",
    "status 0 256",
    "status 0 1 2",
    "wait",
    "wait 2",
    "wait on",
    "wait#1",
    "wait 0 0",
    "restart 0",
    "counts 0",
    "counts 0 0",
    "counts counts",
    "Counts",
    "count",
    "counts\t",
    "check 0",
    "check 12",
    "Check",
    "checks",
    "check\0",
    "states",
    "states 0",
    "states 4096 0",
    "states 0 256",
    "states 4096 256",
    "states 0 0 0",
    "states 0#0",
    "states#0 0",
    "states x 0",
    "states 0 x",
    "states -1 0",
    "states 0x1000 1#",
    "States 0 0",
    "fixed",
    "fixed 0",
    "fixed 40 0",
    "fixed 0 256",
    "fixed 40 256",
    "fixed 0 0 0",
    "fixed 0#0",
    "fixed#0 0",
    "fixed x 0",
    "fixed 0 x",
    "fixed -1 0",
    "fixed 0x28 11#",
    "Fixed 0 0",
    "fix 0 0",
    "fixed 0\t0",
    "view",
    "view 256",
    "view 256#",
    "view 0 0",
    "view 256 0",
    "view#0",
    "view x",
    "view -1",
    "view store",
    "View 0",
    "views 0",
    "view 0\0",
    "state 1 1",
    "size 256 0",
    "size 0",
    "size 0 256",
    "size 0 1 2",
    "cell 0 40 0",
    "cell 256 0 0",
    "cell 0 0",
    "cell 0 0 256",
    "cell 0 0 0 0",
    "show 1",
    "set",
    "set load",
    "set load#1",
    "set load 256",
    "set load 1 2",
    "set half 0",
    "set half",
    "set half Address",
    "set half none 0",
    "set address 65536",
    "set stateson",
    "set stateson 65536",
    "set stateson 65536#",
    "set stateson -1",
    "set stateson x",
    "set stateson 0 0",
    "set stateson#0",
    "set Stateson 0",
    "set states 0",
    "set functions 4294967296",
    "set registered 2",
    "set half Position",
    "set half position 3",
    "set position",
    "set position Unknown",
    "set position unknown 0",
    "set position#unknown",
    "set position 0",
    "set position 0#1",
    "set position 0 2",
    "set position 0 unknown",
    "set position 65536 0",
    "set position 65536 2",
    "set position 65536",
    "set position 0 0 0",
    "set positions 0 0",
    "set queue 32 0",
    "set queue 0",
    "set queue 0 256",
    "set queue",
    "set nothing 0",
    "set last 18446744073709551616",
    "set start 18446744073709551616",
    "set start",
    "set started 256",
    "set started",
    "set starts 0",
    "set bits 256",
    "set queued 256",
    "length store 10301",
    "length sheet 301",
    "length states 4201",
    "length room 201",
    "length fixed 61",
    "length fixed 61#",
    "length fixed",
    "length fixed#40",
    "length fixed 40 1",
    "length Fixed 40",
    "length fixe 40",
    "length rooms 84",
    "length room",
    "length",
    "length room 84 1",
    "uneven 1",
    "encode",
    "encode noop 0",
    "encode#noop",
    "encode load#1",
    "encode load",
    "encode load 256",
    "encode state 1",
    "encode state 1 2",
    "encode state 256 0",
    "encode longlow 1 2",
    "encode verify 65536 0",
    "encode verify 897",
    "encode verify 897 256",
    "encode writebit 897 0",
    "encode writebit 897 0 256",
    "encode call 1 2 0",
    "encode call 256 0 0",
    "encode call 1 1 256",
    "encode bank 256 0",
    "encode bank 1",
    "encode readcv 65536",
    "encode readcv",
    "encode positionhigh",
    "encode positionhigh 256",
    "encode positionhigh 1 1",
    "encode positionlow",
    "encode positionlow 256",
    "encode position 1",
    "encode nothing",
    "encode Noop",
    "read 256",
    "read 0 0 0 0 0 0 256 0",
    "read 300 0 0x100",
    "read x",
    "read 0 x#",
    "read 0 -1",
    "bytes",
    "bytes 0",
    "bytes 00 ",
    "bytes 0 7",
    "bytes 0#7F",
    "bytes 0 7#F",
    "bytes 0 07F",
    "bytes 0 0x7F",
    "bytes 0 7F 8",
    "bytes 0 7F 085",
    "bytes 0 7G",
    "bytes 0 G7",
    "bytes 0 :0",
    "bytes 0 /0",
    "bytes 0 @0",
    "bytes 0 `0",
    "bytes 0 g0",
    "bytes 0 -1",
    "bytes 0 +1",
    "bytes 0 7F,85",
    "bytes 0 7F\t85",
    "bytes 0 7F\r 85",
    "bytes 9223372036854775808 7F",
    "bytes 0x8000000000000000 7F",
    "bytes 18446744073709551615 7F",
    "bytes 18446744073709551616 7F",
    "bytes 000000000000000000000 7F",
    "bytes x 7F",
    "bytes 0x 7F",
    "bytes -1 7F",
    "bytes 7F",
    "Bytes 0 7F",
    "byte 0 7F",
];

/// All lines that are not statements.
pub fn no_statements() -> Vec<String> {
    let long = [format!("read{}", " 0".repeat(301)), format!("bytes 0{}", " 00".repeat(301))];
    NO_STATEMENTS.iter().map(|line| line.to_string()).chain(long).collect()
}

/// A line that is not a statement.
pub fn no_statement(random: &mut Random) -> String {
    let lines = no_statements();
    let line = &lines[random.below(lines.len() as u64) as usize];
    match random.below(4) {
        0 => format!("  {line}"),
        1 => format!("{line} # said"),
        _ => line.to_string(),
    }
}
