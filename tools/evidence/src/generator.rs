//! Random scenarios for `replay` and random byte streams for `bench`, and the files that are always the same.
//!
//! A scenario file holds many scenarios. Each begins with a comment that names it and with
//! statements that make the record possible and restart the module, so that it stands by itself
//! but for the cells, which a restart keeps.

use crate::material::no_statements;
use crate::packets::{three_without_meaning, Guess};
use crate::random::Random;
use crate::script::Script;
use crate::stored::stored_scenario;
use reference::bench::bench_sheet;
use reference::module::bank_reply;

/// Lines that are no text.
const JUNK: &[u8] = include_bytes!("../fixed/junk");

/// The comment before each scenario begins so.
pub const MARK: &str = "# scenario";

/// A file of scenarios, and how many it holds.
pub struct File {
    pub text: Vec<u8>,
    pub scenarios: usize,
}

/// The kind of a file.
enum Kind {
    /// Scenarios with a size sheet that keeps its rule.
    Usual,
    /// Scenarios with a size sheet that breaks the rule of this number.
    BadSheet(u64),
    /// No scenario worth the name.
    Special,
}

/// Seeds in a row reach every kind.
fn kind(seed: u64) -> Kind {
    match seed % 30 {
        29 => Kind::Special,
        4 | 9 | 14 | 19 | 24 => Kind::BadSheet(seed / 5),
        _ => Kind::Usual,
    }
}

/// How many scenarios the file of this seed holds, if a usual one holds this many.
pub fn scenarios_of(seed: u64, scenarios: usize) -> usize {
    match kind(seed) {
        Kind::Usual => scenarios,
        Kind::BadSheet(_) => scenarios.div_ceil(10),
        Kind::Special => 1,
    }
}

/// The file of this seed. A usual file holds this many scenarios.
pub fn scenario_file(seed: u64, scenarios: usize) -> File {
    let scenarios = scenarios_of(seed, scenarios);
    let mut random = Random::new(seed);
    let broken_rule = match kind(seed) {
        Kind::Usual => None,
        Kind::BadSheet(rule) => Some(rule),
        Kind::Special => return special_file(seed, &mut random),
    };
    let mut script = Script::new(random, broken_rule);
    script.returns = match seed % 8 {
        3 => 1,
        6 => 5,
        _ => 0,
    };
    for number in 0..scenarios {
        script.say(&format!("{MARK} {number} of seed {seed}"));
        if number > 0 {
            script.reset();
        }
        match broken_rule {
            Some(_) => script.refused_entries(),
            None => script.scenario(),
        }
    }
    script.end();
    File { text: script.text, scenarios }
}

/// Files that are compared whatever the seed, with their names: one for each bad line, since a program stops at the
/// first; the stored scenario; and what is said number by number.
pub fn fixed_files() -> Vec<(String, Vec<u8>)> {
    let bad = |line: &String| (format!("the bad line '{line}'"), format!("wait 1\n{line}\nshow\n").into_bytes());
    let mut files: Vec<(String, Vec<u8>)> = no_statements().iter().map(bad).collect();
    for (name, text) in [
        ("the stored scenario", stored_scenario()),
        ("junk", JUNK.to_vec()),
        ("every post and status", every_post_and_status()),
        ("every size", every_size()),
        ("every damaged byte", every_damage()),
        ("every position", every_position()),
        ("every count", every_count()),
        ("every view", every_view()),
        ("every byte of bank 254", every_byte_of_254()),
        ("a comment against every statement", every_comment()),
        ("lines that end as on Windows", returns_at_borders()),
        ("a carriage return at the end", b"wait 1\r".to_vec()),
        ("a carriage return in a line of 1,000 bytes", [long_comment(999), long_comment(1_000)].concat()),
    ] {
        files.push((name.to_string(), text));
    }
    files
}

/// Each bank with the sizes at the borders of its rule, and a feed of nothing for each.
fn every_size() -> Vec<u8> {
    let mut text = String::new();
    for (bank, usual) in bench_sheet().iter().enumerate() {
        let borders: &[u8] = match bank {
            0 | 1 => &[0, 1, 2, 40, 41],
            251..=254 => &[0, 1, 2, 3, 40],
            _ => &[0, 40, 41, 255],
        };
        for size in borders {
            text.push_str(&format!("size {bank} {size}\ncut\n"));
        }
        text.push_str(&format!("size {bank} {usual}\n"));
    }
    text.into_bytes()
}

/// Replies of 40, 39 and 2 cells, right and then with one bit of each byte turned.
fn every_damage() -> Vec<u8> {
    let mut text = String::new();
    for cells in [40, 39, 2] {
        let reply = bank_reply(&(1..=cells).collect::<Vec<u8>>());
        text.push_str(&read_line(&reply));
        for place in 0..8 * reply.len() {
            let mut damaged = reply.clone();
            damaged[place / 8] ^= 1 << (place % 8);
            text.push_str(&read_line(&damaged));
        }
    }
    text.into_bytes()
}

/// Each byte behind 0x88 and behind 0x89, each byte held as each kind of half, and addresses at the limit.
fn every_position() -> Vec<u8> {
    let mut text = String::new();
    for data in 0..=255 {
        text.push_str(&format!("restart\nbytes 0 88 {data:02X}\nshow\nbytes 1600 89 {:02X}\nshow\n", 255 - data));
    }
    for half in ["position", "address", "state"] {
        let held = (0..=255).map(|data| format!("set half {half}\nset halfbyte {data}\ncut\n"));
        text.extend(held);
    }
    text.push_str("set half none\nset halfbyte 0\n");
    for address in [0, 1, 2_046, 2_047, 2_048, 2_049, 4_095, 4_096, 32_768, 65_535] {
        text.push_str(&format!("set position {address} 0\ncut\nset position {address} 1\ncut\nshow\n"));
    }
    text.into_bytes()
}

/// Each short state on and off, and as many long ones on, each twice; each byte at the limits of the lent states, with the
/// numbers about the right one; each function alone, all up to it, and all but it.
fn every_count() -> Vec<u8> {
    let mut text = String::new();
    for state in 1..128 {
        let packets = [
            format!("6D {:02X}", 128 + state),
            format!("6D {state:02X}"),
            format!("6E {:02X} 6F {state:02X}", 128 + state),
        ];
        for packet in packets {
            text.push_str(&format!("restart\nbytes 0 {packet}\ncounts\ncheck\nbytes 3200 {packet}\ncounts\ncheck\n"));
        }
    }
    for place in [0, 1, 15, 16, 4_095] {
        for value in 0..=255u8 {
            let ones = value.count_ones();
            text.push_str(&format!("restart\nstates {place} {value}\n"));
            for number in [65_535, ones.max(2) - 2, ones.max(1) - 1, ones, ones + 1] {
                text.push_str(&format!("set stateson {number}\ncheck\n"));
            }
            text.push_str("bytes 0 6D 80\ncounts\nbytes 1600 6D 00\ncounts\ncheck\n");
        }
    }
    text.push_str("restart\n");
    for function in 0..32u32 {
        for functions in [1 << function, u32::MAX >> (31 - function), 0x1FFF_FFFF & !(1 << function)] {
            text.push_str(&format!("set functions {functions}\ncounts\ncheck\n"));
        }
    }
    text.into_bytes()
}

/// Each bank viewed, with a size of its own and cells that are all other, right, and refused for each sheet.
fn every_view() -> Vec<u8> {
    let mut text = String::new();
    for bank in 0..=255usize {
        let size = if (251..254).contains(&bank) { 0 } else { (bank * 7 % 41).max(2 * (bank < 2) as usize) };
        if bank != 254 {
            text.push_str(&format!("size {bank} {size}\n"));
        }
        let places = [0, 1, size.max(1) - 1, size.min(39), 39];
        text.extend(places.map(|offset| format!("cell {bank} {offset} {}\n", (bank + 31 * offset) % 255 + 1)));
    }
    text.push_str("fixed 0 0xA5\nfixed 2 0x5A\nfixed 39 0xFF\n");
    let refused = ["length store 10239", "length store 10240\nlength sheet 257", "length sheet 256\nfixed 1 12"];
    for change in ["", refused[0], refused[1], refused[2], "length fixed 39", "length fixed 40\nfixed 1 11"] {
        text.push_str(&format!("{change}\n"));
        text.extend((0..=255).map(|bank| format!("view {bank}\n")));
    }
    text.into_bytes()
}

/// Each length and each byte 1 of the fixed sheet; then each CV of bank 254, by byte and by bit, with the bytes that stand in
/// the fixed sheet and in the store.
fn every_byte_of_254() -> Vec<u8> {
    let mut text = String::new();
    text.extend((0..40).map(|offset| format!("cell 254 {offset} {}\n", 3 * offset + 5)));
    text.extend((0..=60).map(|length| format!("length fixed {length}\ncut\nview 254\nview 0\n")));
    text.push_str("length fixed 40\n");
    text.extend((0..=255).map(|byte| format!("fixed 1 {byte}\ncut\nview 254\n")));
    text.push_str("fixed 1 11\nbytes 0 7F FC FE\n");
    let filled = (0..40).filter(|offset| *offset != 1);
    text.extend(filled.map(|offset| format!("fixed {offset} {}\n", 5 * offset + 1)));
    for offset in 0..40u8 {
        let second = 0x83 + offset;
        let bytes = [0, 10, 11, 12, 3 * offset + 5, 5 * offset + 1];
        let verifies = bytes.iter().map(|byte| format!(" 77 {second:02X} {byte:02X}"));
        let bits = (0xE0..=0xFF).map(|third: u8| format!(" 7B {second:02X} {third:02X}"));
        let packets: String = verifies.chain(bits).collect();
        text.push_str(&format!("restart\nbytes 0{packets} 7F {second:02X} 0B 0F {second:02X} 0C FE\n"));
    }
    text.push_str("view 254\nshow\n");
    text.into_bytes()
}

/// Each kind of statement with a comment against its last word. (A comment against a word before it makes a bad line.)
fn every_comment() -> Vec<u8> {
    let lines = ONE_OF_EACH.iter().map(|line| format!("{line}#\n{line}#5\n{line}# 5\n"));
    lines.collect::<String>().into_bytes()
}

/// Every kind of statement.
const ONE_OF_EACH: [&str; 29] = [
    "size 2 0x28",
    "cell 2 39 255",
    "post 0x83 1 0x83 2",
    "status 0 0x13",
    "wait 1",
    "counts",
    "check",
    "states 4095 255",
    "fixed 39 255",
    "view 255",
    "show",
    "set load 12",
    "set half state",
    "set half position",
    "set half none",
    "set position unknown",
    "set position 2047 1",
    "set stateson 65535",
    "set queue 31 255",
    "length room 84",
    "length fixed 40",
    "encode noop",
    "encode write 902 7",
    "encode positionhigh 15",
    "read 142 1 142 1 143 154 143 5",
    "100 1",
    "bytes 0x100 7F 8A",
    "uneven",
    "cut",
];

/// Lines of eight bytes behind one of one byte, so that a block of 65,536 bytes ends between CR and LF.
fn returns_at_borders() -> Vec<u8> {
    format!("\n{}", "wait 1\r\n".repeat(8_200)).into_bytes()
}

/// A line of so many bytes, a carriage return and a line feed.
fn long_comment(length: usize) -> Vec<u8> {
    format!("wait 1 {}\r\n", "#".repeat(length - 7)).into_bytes()
}

fn read_line(reply: &[u8]) -> String {
    let words: String = reply.iter().map(|byte| format!(" {byte}")).collect();
    format!("read{words}\n")
}

/// A half with each header near the legal ones and each data, in both places; each first half of a pair 88, 89; each
/// value of each status. Restarts between them leave room in the queue.
fn every_post_and_status() -> Vec<u8> {
    let mut text = String::new();
    for data in 0..=255 {
        for header in 0x7F..=0x90 {
            text.push_str(&format!("restart\npost {header} {data} 0x83 7\npost 0x83 7 {header} {data}\n"));
        }
        text.push_str(&format!("restart\npost 0x88 {data} 0x89 {data}\npost 0x89 {data} 0x88 {data}\n"));
        for number in [0, 1, 2, 255] {
            text.push_str(&format!("status {number} {data}\n"));
        }
        text.push_str("show\n");
    }
    text.into_bytes()
}

/// Files that are empty or hold no statement, files of random bytes, and files of a few lines.
fn special_file(seed: u64, random: &mut Random) -> File {
    let mut text = Vec::new();
    match random.below(8) {
        0 => {}
        1 => text.push(b'\n'),
        2 => text.extend(format!("{MARK} 0 of seed {seed}").bytes()),
        3 => text.extend((0..random.below(200)).map(|_| random.byte())),
        4 => text.extend((0..random.below(200)).map(|_| random.pick(b"0123456789 x#\n\r\tcut show"))),
        _ => text.extend(few_lines(random).bytes()),
    }
    File { text, scenarios: 1 }
}

/// At most two edges, with sizes and cells before and behind them.
fn few_lines(random: &mut Random) -> String {
    let mut lines = String::from("size 2 3\ncut\ncell 2 1 7\nshow\n");
    let level = random.below(3);
    for _ in 0..random.below(3) {
        lines.push_str(random.pick(&["", "\n", "cut\n"]));
        lines.push_str(&format!("5 {level}\n"));
    }
    lines.push_str(random.pick(&["size 3 2\n", "cell 3 1 9\n"]));
    lines.push_str("show\n");
    lines
}

// Byte streams.

/// The bus bytes of this seed. Some end with two bytes of three.
pub fn byte_stream(seed: u64) -> Vec<u8> {
    let mut random = Random::new(seed ^ 0x6265_6E63_68);
    let length = match random.below(12) {
        0 => random.below(8),
        1 => random.from(4_090, 4_100),
        2 => random.from(65_530, 65_545),
        3 => random.from(10_000, 30_000),
        _ => random.from(8, 3_000),
    } as usize;
    if random.one_in(10) {
        return (0..length).map(|_| random.byte()).collect();
    }
    let mut bytes = mixed_stream(&mut random, length);
    if random.one_in(6) {
        bytes.extend(&three_without_meaning(&mut random)[..2]);
    }
    bytes
}

/// This many bytes of commands of all kinds, with a stray byte now and then.
pub fn mixed_stream(random: &mut Random, length: usize) -> Vec<u8> {
    let mut bytes = Vec::new();
    let mut guess = Guess::new(bench_sheet(), vec![0; 10_240]);
    guess.all_on = 4;
    while bytes.len() < length {
        match random.below(200) {
            0 => bytes.push(random.byte()),
            1 => {
                bytes.extend([0x7F, 0x80, 0x01]);
                guess.number = 1;
            }
            _ => bytes.extend(guess.packets(random).concat()),
        }
    }
    bytes.truncate(length);
    bytes
}
