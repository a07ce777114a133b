//! A scenario as it is written: lines, edges and packets, with what the generator knows of the module.

use crate::material::{bad_sizes, usual_sizes};
use crate::packets::Guess;
use crate::random::Random;
use reference::bench::bench_sheet;
use reference::grammar::LATEST;
use reference::receiver::{Receiver, PAUSE};

/// Gaps between the edges of a packet. With each kind a byte can be completed before the clock is over.
#[derive(Clone, Copy)]
pub(crate) enum Gaps {
    Steady,
    Short,
    None,
    Wide,
    /// Each byte is completed in the last microsecond.
    Widest,
}

/// A file of scenarios that is being written.
pub(crate) struct Script {
    pub(crate) random: Random,
    pub(crate) text: Vec<u8>,
    pub(crate) time: u64,
    pub(crate) gaps: Gaps,
    /// How long after the clock's start the next edge comes (C-03), if that is special.
    pub(crate) next_gap: Option<u64>,
    /// The receiver, as far as it follows from the edges. It only guides the choice of times.
    pub(crate) receiver: Receiver,
    /// A cut after an edge once in this many times; 0 is never.
    pub(crate) cuts: u64,
    /// No cuts between packets.
    pub(crate) whole: bool,
    /// Disturbed edges once in this many edges; 0 is never.
    pub(crate) disturbed: u64,
    pub(crate) guess: Guess,
    /// Whether all long states may be on, so that showing them is long.
    pub(crate) many_states: bool,
    /// Whether packets mostly come as lines `bytes`.
    pub(crate) as_bytes: bool,
    /// A carriage return before a line feed once in this many lines; 0 is never.
    pub(crate) returns: u64,
}

impl Script {
    pub(crate) fn new(mut random: Random, broken_rule: Option<u64>) -> Script {
        let mut sheet = bench_sheet();
        let mut lines: Vec<String> = Vec::new();
        let mut sizes = usual_sizes(&mut random);
        if let Some(rule) = broken_rule {
            sizes.extend(bad_sizes(rule, &mut random));
        }
        for (bank, size) in sizes {
            sheet[bank as usize] = size;
            lines.push(format!("size {bank} {size}"));
        }
        let mut store = vec![0; 10_240];
        for _ in 0..random.below(30) {
            let bank = random.pick(&[0, 0, 1, 1, 2, 3, 100, 249, 250, 251, 254, 254, 255]);
            let offset = random.pick(&[0, 1, 1, 2, 3, 37, 38, 39, 20]);
            let value = random.byte_or(&[0, 1, 11, 255]);
            store[40 * bank as usize + offset] = value;
            lines.push(format!("cell {bank} {offset} {value}"));
        }
        let mut script = Script {
            random,
            text: Vec::new(),
            time: 0,
            gaps: Gaps::Steady,
            next_gap: None,
            receiver: Receiver::default(),
            cuts: 0,
            whole: false,
            disturbed: 0,
            guess: Guess::new(sheet, store),
            many_states: false,
            as_bytes: false,
            returns: 0,
        };
        for line in lines {
            script.say(&line);
        }
        script
    }

    // Lines.

    /// A line as it is.
    pub(crate) fn plain(&mut self, line: &str) {
        self.text.extend(line.bytes());
        self.end_line();
    }

    fn end_line(&mut self) {
        if self.returns > 0 && self.random.one_in(self.returns) {
            self.text.push(b'\r');
        }
        self.text.push(b'\n');
    }

    /// A line, sometimes with more spaces, other forms of its numbers, or a comment.
    pub(crate) fn say(&mut self, line: &str) {
        if line.starts_with('#') || !self.random.one_in(12) {
            return self.plain(line);
        }
        for (place, word) in line.split(' ').enumerate() {
            let spaces = if place == 0 { self.random.below(3) } else { self.random.from(1, 3) };
            self.text.extend((0..spaces).map(|_| b' '));
            // The bytes of a line `bytes` have one form only.
            let fixed = place > 1 && line.starts_with("bytes ");
            let word = if fixed { word.to_string() } else { self.other_form(word) };
            self.text.extend(word.bytes());
        }
        match self.random.below(4) {
            0 => self.text.extend(b" "),
            1 => self.comment(),
            _ => {}
        }
        self.end_line();
        match self.random.below(8) {
            0 => self.text.push(b'\n'),
            1 => self.plain("# a comment"),
            2 => self.plain("   "),
            _ => {}
        }
    }

    pub(crate) fn comment(&mut self) {
        self.text.push(b'#');
        for _ in 0..self.random.below(20) {
            let byte = self.random.byte();
            self.text.push(if byte == b'\n' { b'#' } else { byte });
        }
    }

    /// Another way to write a number.
    pub(crate) fn other_form(&mut self, word: &str) -> String {
        let Ok(value) = word.parse::<u64>() else { return word.to_string() };
        match self.random.below(6) {
            0 => format!("0x{value:x}"),
            1 => format!("0x{value:X}"),
            2 => format!("0x{value:020x}"),
            3 => format!("{value:020}"),
            4 => format!("0{value}").chars().rev().take(20).collect::<Vec<_>>().into_iter().rev().collect(),
            _ => word.to_string(),
        }
    }

    /// Makes the record possible and restarts.
    pub(crate) fn reset(&mut self) {
        for field in ["bits", "count", "first", "second", "held", "started"] {
            self.plain(&format!("set {field} 0"));
        }
        for field in ["halfbyte", "load", "functions", "control", "wait"] {
            self.plain(&format!("set {field} 0"));
        }
        self.plain("set half none\nset position unknown\nset status0 0\nset status1 0\nset number 1\nset queued 8");
        self.right_sheets();
        self.plain("length room 84\nrestart");
        self.guess.wait = 0;
        self.receiver = Receiver::default();
        self.time = 0;
        self.next_gap = None;
        self.many_states = false;
        self.set_number();
        self.set_bank();
    }

    /// The lengths of all that is lent but the room, and the fixed sheet's byte 1 (C-13).
    pub(crate) fn right_sheets(&mut self) {
        self.plain("length store 10240\nlength sheet 256\nlength states 4096\nfixed 1 11\nlength fixed 40");
        self.guess.fixed[1] = 11;
    }

    pub(crate) fn put_fixed(&mut self, offset: usize, value: u8) {
        self.guess.fixed[offset] = value;
        self.say(&format!("fixed {offset} {value}"));
    }

    pub(crate) fn set_number(&mut self) {
        let number = self.random.pick(&[0, 1, 1, 1, 2, 2, 3, 3]);
        self.guess.number = number;
        self.plain(&format!("set number {number}"));
    }

    pub(crate) fn set_bank(&mut self) {
        let bank = self.guess.some_bank(&mut self.random);
        self.guess.bank = bank;
        self.plain(&format!("set bank {bank}"));
    }

    /// How the edges of this scenario come.
    pub(crate) fn choose_manner(&mut self) {
        self.gaps = self.random.pick(&[
            Gaps::Steady,
            Gaps::Steady,
            Gaps::Steady,
            Gaps::Short,
            Gaps::Short,
            Gaps::None,
            Gaps::Wide,
            Gaps::Widest,
        ]);
        self.cuts = self.random.pick(&[0, 0, 100, 30, 5, 1]);
        self.disturbed = self.random.pick(&[0, 0, 0, 300, 60]);
        self.as_bytes = self.random.one_in(2);
        let below = self.random.below(60_000);
        self.time = match self.random.below(13) {
            0 => self.random.next(),
            1 => u64::MAX - below,
            2 => self.random.pick(&[5_900, 6_000, 7_999, 8_000, below / 6]),
            3 => LATEST - self.random.pick(&[0, 99, 100, 101, 8_000, below]),
            _ => 0,
        };
    }

    // Edges.

    pub(crate) fn gap(&mut self) -> u64 {
        let completing = self.receiver.count == 7;
        if completing && self.random.one_in(20) {
            return self.left();
        }
        match self.gaps {
            Gaps::Steady => 100,
            Gaps::Short => self.random.from(10, 500),
            Gaps::None => 0,
            Gaps::Wide => self.random.below(1_000),
            Gaps::Widest if completing => self.left(),
            Gaps::Widest => self.random.below(self.left() / 2 + 1),
        }
    }

    /// The longest gap that is no pause.
    fn left(&self) -> u64 {
        if self.receiver.started == 0 {
            return PAUSE - 1;
        }
        self.receiver.start.saturating_add(PAUSE - 1).saturating_sub(self.time)
    }

    /// The time of the next edge, so long after the one before if nothing special is wanted.
    fn next_time(&mut self, gap: u64) -> u64 {
        let Some(past) = self.next_gap.take() else { return self.time.saturating_add(gap) };
        let start = if self.receiver.started == 0 { self.time } else { self.receiver.start };
        start.saturating_add(past).max(self.time)
    }

    /// The next edge comes at the limit of the clock, or so that the limit falls on another edge of its byte, 100 µs a
    /// bit. The first and the eighth are wanted most.
    pub(crate) fn near_pause(&mut self) {
        let other = self.random.below(8);
        let place = self.random.pick(&[0, 0, 7, 7, other]);
        self.next_gap = Some(self.random.pick(&[PAUSE - 1, PAUSE]) - 100 * place);
    }

    pub(crate) fn edge(&mut self, level: u8) {
        let gap = if self.next_gap.is_none() { self.gap() } else { 0 };
        self.time = self.next_time(gap);
        let _ = self.receiver.edge(self.time, level);
        let line = format!("{} {level}", self.time);
        if self.random.one_in(40) {
            self.say(&line);
        } else {
            self.plain(&line);
        }
        if self.cuts > 0 && self.random.one_in(self.cuts) {
            self.say("cut");
        }
    }

    /// These bytes on one line. Gives false where their time is past the latest.
    pub(crate) fn bytes_line(&mut self, bytes: &[u8]) -> bool {
        let special = self.next_gap;
        let time = self.next_time(100);
        if bytes.is_empty() || time > LATEST {
            self.next_gap = special;
            return false;
        }
        self.bytes_at(time, bytes);
        if self.cuts > 0 && self.random.one_in(self.cuts) {
            self.say("cut");
        }
        true
    }

    /// A line `bytes`, digits of either case.
    pub(crate) fn bytes_at(&mut self, time: u64, bytes: &[u8]) {
        let lower = self.random.one_in(8);
        let word = |byte: &u8| if lower { format!(" {byte:02x}") } else { format!(" {byte:02X}") };
        let words: String = bytes.iter().map(word).collect();
        self.say(&format!("bytes {time}{words}"));
        let levels = bytes.iter().flat_map(|byte| (0..8).map(move |bit| byte >> bit & 1));
        for (level, place) in levels.zip(0..) {
            let _ = self.receiver.edge(time + 100 * place, level);
        }
        self.time = self.time.max(time + 100 * (8 * bytes.len() as u64 - 1));
    }

    /// Bytes whose first edges lie before the last edge, so that these are refused.
    pub(crate) fn late_bytes(&mut self) {
        let back = self.random.pick(&[1, 100, 250, 701, 1_500, 9_000]);
        let bytes: Vec<u8> = (0..self.random.from(1, 3)).map(|_| self.random.byte()).collect();
        self.bytes_at(self.time.saturating_sub(back).min(LATEST), &bytes);
    }

    /// An edge that is refused and leaves the receiver as it was.
    pub(crate) fn refused_edge(&mut self) {
        let level = self.random.byte_or(&[2, 3, 128, 255]).max(2);
        match self.random.below(4) {
            0 => self.say(&format!("{} {level}", self.time)),
            1 => self.say(&format!("{} {level}", self.time.saturating_add(9_000))),
            2 if self.time > 0 => {
                let back = self.random.pick(&[1, 1, 100, 8_000]);
                let level = self.random.below(2);
                self.say(&format!("{} {level}", self.time.saturating_sub(back)))
            }
            _ => self.say(&format!("{} {level}", self.time / 2)),
        }
    }

    /// An edge of either level.
    pub(crate) fn any_edge(&mut self) {
        let level = self.random.below(2) as u8;
        self.edge(level);
    }

    /// Clocks a packet out. Gives false if a pause broke it off.
    pub(crate) fn packet(&mut self, bytes: &[u8]) -> bool {
        if self.as_bytes && !self.random.one_in(8) && self.bytes_line(bytes) {
            return true;
        }
        for (place, level) in bytes.iter().flat_map(|byte| (0..8).map(move |bit| byte >> bit & 1)).enumerate() {
            if place > 0 && self.disturbed > 0 && self.random.one_in(self.disturbed) {
                match self.random.below(7) {
                    0 => self.edge(1 - level),
                    1 => continue,
                    2 => self.next_gap = Some(8_000),
                    3 => self.next_gap = Some(7_999),
                    4 => {
                        self.next_gap = Some(self.random.pick(&[8_000, 8_000, 8_001, 9_000]));
                        return false;
                    }
                    _ => self.refused_edge(),
                }
            }
            self.edge(level);
        }
        true
    }

    /// Clocks a packet out, whole or not.
    pub(crate) fn send(&mut self, bytes: &[u8]) {
        self.packet(bytes);
    }

    /// What stands between two packets.
    pub(crate) fn between(&mut self) {
        match self.random.below(20) {
            0 => self.next_gap = Some(8_000),
            1 => self.near_pause(),
            2 => self.next_gap = Some(self.random.from(8_000, 20_000)),
            3 => self.refused_edge(),
            4 | 5 if !self.whole => self.say("cut"),
            6 if !self.whole => {
                self.say("cut");
                self.say("cut");
            }
            _ => {}
        }
    }

    pub(crate) fn commands(&mut self, count: u64) {
        for _ in 0..count {
            let packets = self.guess.packets(&mut self.random);
            if self.as_bytes && self.random.one_in(4) && self.together(&packets) {
                continue;
            }
            for packet in packets {
                self.count_states(&packet);
                if !self.packet(&packet) && self.random.one_in(2) {
                    self.send(&packet);
                }
                if self.random.one_in(3) {
                    self.between();
                }
            }
        }
    }

    /// These packets, and some more, on one line.
    fn together(&mut self, packets: &[Vec<u8>]) -> bool {
        let mut all = packets.to_vec();
        for _ in 0..self.random.below(4) {
            all.extend(self.guess.packets(&mut self.random));
        }
        all.iter().for_each(|packet| self.count_states(packet));
        self.bytes_line(&all.concat())
    }

    /// Remembers that a long broadcast may have been sent.
    pub(crate) fn count_states(&mut self, packet: &[u8]) {
        self.many_states |= packet.first() == Some(&0x6F) && packet.get(1) == Some(&0);
    }

    /// Shows the record; of all states on mostly the most are put off before.
    pub(crate) fn show(&mut self) {
        if self.many_states && !self.random.one_in(8) {
            self.next_gap = Some(8_000);
            self.send(&[0x6E, 0x00]);
            self.send(&[0x6F, 0x00]);
        }
        self.say("show");
    }
}
