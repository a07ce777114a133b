//! The kinds of random scenarios.

use crate::clauses::clause;
use crate::material::{damaged_message, encode_line, legal_message, no_statement, right_reply, some_reply};
use crate::packets::{of_three_bytes, position, position_high, three_without_meaning};
use crate::script::Script;
use reference::receiver::{Receiver, PAUSE};

impl Script {
    pub(crate) fn scenario(&mut self) {
        self.choose_manner();
        match self.random.weighted(&[36, 8, 5, 6, 8, 8, 8, 6, 6, 2, 3, 6, 5, 4, 6, 7, 8, 1]) {
            0 => self.mixed(),
            1 => self.row_12(),
            2 => self.row_4(),
            3 => self.noise(),
            4 => self.pairs(),
            5 => self.calls(),
            6 => self.one_bank(),
            7 => self.reads(),
            8 => self.encodes(),
            9 => self.broadcasts(),
            10 => self.restarts(),
            11 => self.pauses(),
            12 => self.common_cvs(),
            13 => self.threes(),
            14 => self.positions(),
            15 => self.numbers(),
            16 => self.fixed_bank(),
            _ => self.long_piece(),
        }
    }

    /// Commands of all kinds, and the application between them.
    pub(crate) fn mixed(&mut self) {
        for _ in 0..self.random.from(1, 4) {
            let count = self.random.from(1, 4);
            self.commands(count);
            if self.random.one_in(3) {
                self.application();
            }
        }
        self.show();
    }

    /// One call of the application.
    pub(crate) fn application(&mut self) {
        match self.random.below(14) {
            0..=3 => self.post(),
            4..=5 => self.status(),
            6..=7 => self.wait(),
            8 => self.show(),
            9..=10 => self.ask_number(),
            11..=12 => self.view(),
            _ => self.restart(),
        }
    }

    pub(crate) fn restart(&mut self) {
        self.say("restart");
        self.guess.wait = 0;
        self.receiver = Receiver::default();
        if self.random.one_in(2) {
            self.time = 0;
        }
    }

    pub(crate) fn wait(&mut self) {
        let on = self.random.below(2) as u8;
        self.guess.wait = on;
        self.say(&format!("wait {on}"));
    }

    pub(crate) fn status(&mut self) {
        let number = self.random.pick(&[0, 0, 0, 1, 1, 1, 2, 255]);
        let value = match self.random.below(4) {
            0 => self.random.byte(),
            1 => 1 << self.random.below(8),
            2 => self.random.byte() & 0x13,
            _ => self.random.byte() & 0x03,
        };
        self.say(&format!("status {number} {value}"));
    }

    pub(crate) fn post(&mut self) {
        let mut message = legal_message(&mut self.random);
        if self.random.one_in(3) {
            message = damaged_message(message, &mut self.random);
        }
        let [header0, data0, header1, data1] = message;
        self.say(&format!("post {header0} {data0} {header1} {data1}"));
    }

    pub(crate) fn legal_post(&mut self) {
        let [header0, data0, header1, data1] = legal_message(&mut self.random);
        self.say(&format!("post {header0} {data0} {header1} {data1}"));
    }

    /// Queue empty to full, and calls.
    pub(crate) fn calls(&mut self) {
        for _ in 0..self.random.pick(&[0, 0, 1, 2, 7, 8, 9, 10]) {
            self.legal_post();
        }
        if self.random.one_in(2) {
            self.post();
        }
        for _ in 0..self.random.pick(&[1, 2, 3, 9, 11]) {
            let forced = if self.random.one_in(4) { 4 } else { 0 };
            let data = self.guess.module() | forced | (self.random.below(4) as u8) << 3;
            self.send(&[0x01, data]);
            match self.random.below(8) {
                0 => self.legal_post(),
                1 => self.status(),
                2 => self.restart(),
                3 => self.commands(1),
                _ => {}
            }
        }
        self.show();
    }

    /// Halves of pairs in any order, with what may stand between them.
    pub(crate) fn pairs(&mut self) {
        for _ in 0..self.random.from(2, 8) {
            let first =
                self.random.pick(&[0x5E, 0x5E, 0x5F, 0x5F, 0x6E, 0x6E, 0x6F, 0x6F, 0x6F, 0x88, 0x88, 0x89, 0x89]);
            let data = match first {
                0x88 => position_high(&mut self.random),
                0x6F => self.random.byte_or(&[0x80, 0x81, 0x01, 0xFF]).max(1),
                _ => self.random.byte_or(&[0x80, 0x81, 0x01, 0xFF]),
            };
            self.send(&[first, data]);
            self.between_halves();
        }
        self.show();
    }

    /// What may stand between the halves of a pair, nothing among it.
    fn between_halves(&mut self) {
        match self.random.below(16) {
            0 => self.next_gap = Some(8_000),
            1 => self.near_pause(),
            2 => self.say("cut"),
            3 => self.send(&[0x00, 0x00]),
            4 => self.commands(1),
            5 => self.application(),
            6 => {
                self.edge(1);
                self.next_gap = Some(8_000);
            }
            7 => self.refused_edge(),
            8 => {
                self.say("cut");
                self.next_gap = Some(8_000);
            }
            9 => {
                let packet = three_without_meaning(&mut self.random);
                self.send(&packet);
            }
            10 | 11 => self.parted_second_half(),
            _ => {}
        }
    }

    /// A second half with a pause, or just none, between its bytes.
    fn parted_second_half(&mut self) {
        let first = self.random.pick(&[0x5F, 0x6F, 0x89]);
        self.send(&[first]);
        self.near_pause();
        self.send(&[0x01]);
    }

    /// C-12: positions that are heard, nearly heard, set and forgotten, the module's own among them.
    pub(crate) fn positions(&mut self) {
        for _ in 0..self.random.from(1, 4) {
            match self.random.below(8) {
                0 | 1 => self.own_message(),
                2 => self.set_position(),
                3 => self.restart(),
                _ => {
                    let (high, low) = position(&mut self.random);
                    self.send(&high);
                    self.between_halves();
                    self.send(&low);
                }
            }
        }
        self.show();
    }

    /// A position that is posted, called for, and clocked out as the call's answer.
    fn own_message(&mut self) {
        let (high, low) = (self.random.below(16) as u8, self.random.byte());
        self.say(&format!("post 0x88 {high} 0x89 {low}"));
        self.send(&[0x01, self.guess.module()]);
        self.send(&[0x88, high]);
        self.send(&[0x89, low]);
    }

    fn set_position(&mut self) {
        let address = self.random.from(0, 2_047);
        let extended = self.random.below(2);
        match self.random.below(4) {
            0 => self.say("set position unknown"),
            _ => self.say(&format!("set position {address} {extended}")),
        }
    }

    /// C-05: states one by one and all together, numbers that are right and wrong, and the two entries that give them.
    pub(crate) fn numbers(&mut self) {
        for _ in 0..self.random.from(1, 5) {
            match self.random.below(14) {
                0 => self.set_number_on(),
                1 | 2 => self.lent_states(),
                3 | 4 => self.near_a_limit(),
                5 => {
                    let all = self.random.pick(&[0x00, 0x80]);
                    self.send(&[0x6D, all]);
                }
                6 => self.all_long_states(),
                7 => self.set_functions(),
                8 => self.restart(),
                9 => self.say("states 0 1"),
                _ => self.one_state(),
            }
            self.ask_number();
        }
        if self.many_states {
            self.reset();
        }
        self.show();
    }

    pub(crate) fn ask_number(&mut self) {
        match self.random.below(4) {
            0 => self.say("counts"),
            1 => self.plain("counts\ncheck"),
            _ => self.say("check"),
        }
    }

    pub(crate) fn set_number_on(&mut self) {
        let any = self.random.below(65_536);
        let number = self.random.pick(&[0, 1, 2, 127, 128, 32_766, 32_767, 32_768, 65_534, 65_535, any]);
        self.say(&format!("set stateson {number}"));
    }

    /// One state, mostly at a limit, once or twice, by either form.
    fn one_state(&mut self) {
        let any = self.random.from(1, 32_767) as u16;
        let number = self.random.pick(&[1, 1, 2, 7, 8, 126, 127, 127, 128, 128, 129, 200, 32_766, 32_767, 32_767, any]);
        let (low, high) = ((number % 128) as u8, (number / 128) as u8);
        for _ in 0..self.random.from(1, 2) {
            let on = self.random.pick(&[0x00, 0x80, 0x80]);
            if high == 0 && self.random.one_in(2) {
                self.send(&[0x6D, on | low]);
            } else {
                self.send(&[0x6E, on | low]);
                self.send(&[0x6F, high]);
            }
        }
    }

    fn all_long_states(&mut self) {
        self.many_states = true;
        let all = self.random.pick(&[0x00, 0x80]);
        self.send(&[0x6E, all]);
        self.send(&[0x6F, 0x00]);
    }

    /// Lent states of which one byte is not 0, and a number that is right for them, or nearly.
    fn lent_states(&mut self) {
        self.restart();
        let any = self.random.below(4_096);
        let place = self.random.pick(&[0, 0, 1, 15, 16, 4_094, 4_095, any]);
        let value = self.random.byte_or(&[1, 2, 3, 128, 254, 255]);
        let counted = if place == 0 { value & 254 } else { value };
        let right = counted.count_ones() as u16;
        let number = self.random.pick(&[right, right, right, right + 1, right.wrapping_sub(1), 65_535]);
        self.say(&format!("states {place} {value}"));
        self.say(&format!("set stateson {number}"));
    }

    /// A number next to a limit, and a change that goes up to it or over it.
    fn near_a_limit(&mut self) {
        self.restart();
        let first = self.random.pick(&[0x00, 0x80, 0x81]);
        self.send(&[0x6D, first]);
        let (number, second) = self.random.pick(&[
            (65_408, 0x80),
            (65_409, 0x80),
            (126, 0x00),
            (127, 0x00),
            (65_534, 0x81),
            (65_535, 0x81),
            (32_767, 0x81),
            (1, 0x01),
            (0, 0x01),
        ]);
        self.say(&format!("set stateson {number}"));
        self.send(&[0x6D, second]);
    }

    fn set_functions(&mut self) {
        let any = self.random.below(1 << 29);
        let functions = self.random.pick(&[0, 1, 1 << 28, (1 << 28) - 1, (1 << 29) - 1, any]);
        self.say(&format!("set functions {functions}"));
    }

    /// C-13: bank 254 from the line, views, and fixed sheets that are right and wrong.
    pub(crate) fn fixed_bank(&mut self) {
        self.fixed_bytes();
        for _ in 0..self.random.from(1, 6) {
            match self.random.below(10) {
                0..=4 => self.in_bank_254(),
                5 | 6 => self.view(),
                7 => self.fixed_bytes(),
                8 => self.commands(1),
                _ => self.refused_sheets(),
            }
        }
        self.show();
    }

    /// Bytes of the fixed sheet that a feed does not mind.
    fn fixed_bytes(&mut self) {
        let any = self.random.below(40) as usize;
        for offset in [0, 2, 39, any] {
            let old = self.guess.store[40 * 254 + offset];
            let value = self.random.byte_or(&[0, 1, 10, 11, 255, old]);
            if offset != 1 && self.random.one_in(2) {
                self.put_fixed(offset, value);
            }
        }
    }

    /// A command for a cell of bank 254, mostly with a byte that the fixed sheet or the store has there.
    fn in_bank_254(&mut self) {
        self.guess.bank = 254;
        if self.random.one_in(2) {
            self.send(&[0x7F, 0xFC, 254]);
        } else {
            self.say("set bank 254");
        }
        let any = self.random.below(40) as usize;
        let offset = self.random.pick(&[0, 0, 1, 1, 1, 2, 2, 38, 39, any]);
        let second = 0x83 + 40 * (self.guess.module() - 1) + offset as u8;
        let (fixed, old) = (self.guess.fixed[offset], self.guess.store[40 * 254 + offset]);
        let value = self.random.byte_or(&[fixed, fixed, old, old, 0, 10, 11, 12]);
        let place = self.random.below(8) as u8;
        let bit = (value >> place & 1) << 3 | place;
        match self.random.below(12) {
            0..=3 => self.send(&[0x77, second, value]),
            4..=6 => self.send(&[0x7B, second, 0xE0 | bit]),
            7 => self.send(&[0x7B, second, 0xF0 | bit]),
            8 => self.send(&[0x7F, second, value]),
            9 | 10 => self.send(&[0x0F, second]),
            _ => self.send(&[0x0B + self.guess.module(), 254]),
        }
    }

    /// A view of a bank of any kind.
    pub(crate) fn view(&mut self) {
        let some = self.guess.some_bank(&mut self.random);
        let bank = self.random.pick(&[some, some, some, 0, 1, 2, 249, 250, 251, 252, 253, 254, 254, 254, 255]);
        self.say(&format!("view {bank}"));
    }

    /// A fixed sheet of another length or with another byte 1, or both, and what is refused then.
    fn refused_sheets(&mut self) {
        let any = self.random.byte();
        let version = self.random.pick(&[10, 10, 12, 12, 0, any]);
        let length = self.random.pick(&[39, 39, 41, 41, 0, 1, 2, 60]);
        let what = self.random.below(4);
        if what < 3 {
            self.put_fixed(1, version);
        }
        if what > 1 {
            self.say(&format!("length fixed {length}"));
        }
        self.view();
        self.ask_entries();
        self.right_sheets();
        self.next_gap = Some(PAUSE);
    }

    /// Packets of three bytes that mean nothing, with something between two of their bytes, and a command behind.
    pub(crate) fn threes(&mut self) {
        for _ in 0..self.random.from(1, 4) {
            let packet = three_without_meaning(&mut self.random);
            let (front, back) = packet.split_at(self.random.from(1, 2) as usize);
            self.send(front);
            match self.random.below(6) {
                0 => self.next_gap = Some(8_000),
                1 => self.near_pause(),
                2 => self.say("cut"),
                3 => self.refused_edge(),
                _ => {}
            }
            self.send(back);
            self.commands(1);
        }
        self.show();
    }

    /// A bank read, asked and written at its borders.
    pub(crate) fn one_bank(&mut self) {
        self.set_bank();
        let bank = self.guess.bank;
        for _ in 0..self.random.from(1, 5) {
            match self.random.below(4) {
                0 => self.send(&[0x0B + self.guess.module(), bank]),
                1 => {
                    let cv = self.guess.cv(&mut self.random);
                    self.send(&[0x0F, (cv - 769) as u8]);
                }
                _ => self.commands(1),
            }
            if self.random.one_in(10) {
                self.set_number();
            }
        }
        self.show();
    }

    /// The CVs that every module has, by byte and by bit.
    pub(crate) fn common_cvs(&mut self) {
        if self.random.one_in(2) {
            self.wait();
        }
        for _ in 0..self.random.from(2, 6) {
            let v = self.random.pick(&[0, 0, 1, 2, 123, 123, 124, 125, 126, 127]) + 128;
            let value = self.random.below(4) as u8;
            let bit = self.random.pick(&[0xE0, 0xE8, 0xF0, 0xF8]) | self.random.below(8) as u8;
            let any = self.random.byte();
            let packet = match self.random.below(6) {
                0 => [0x77, v, value],
                1 => [0x7F, v, value],
                2 => [0x7F, v, any],
                3 => [0x77, v, 0],
                _ => [0x7B, v, bit],
            };
            self.send(&packet);
        }
        self.show();
    }

    pub(crate) fn broadcasts(&mut self) {
        self.many_states = true;
        for _ in 0..self.random.from(1, 4) {
            match self.random.below(6) {
                0 => self.send(&[0x6D, 0x80]),
                1 => self.send(&[0x6D, 0x00]),
                2 => {
                    self.send(&[0x6E, 0x00]);
                    self.send(&[0x6F, 0x00]);
                }
                3 => self.pairs_of_states(),
                _ => {
                    self.send(&[0x6E, 0x80]);
                    self.send(&[0x6F, 0x00]);
                }
            }
        }
        self.show();
    }

    pub(crate) fn pairs_of_states(&mut self) {
        for _ in 0..self.random.from(1, 3) {
            let (low, high) = (self.random.byte(), self.random.byte_or(&[0, 1, 255]));
            self.send(&[0x6E, low]);
            self.send(&[0x6F, high]);
        }
    }

    /// A restart with much to forget, wherever the receiver stands.
    pub(crate) fn restarts(&mut self) {
        self.commands(3);
        self.legal_post();
        self.wait();
        self.status();
        if self.random.one_in(2) {
            self.set_position();
        }
        let cut_short = self.random.pick(&[0, 3, 8, 11, 16]);
        for _ in 0..cut_short {
            self.any_edge();
        }
        if self.random.one_in(2) {
            let low_or_high = self.random.pick(&[[0x5E, 0x81], [0x6E, 0x81], [0x88, 0x0B]]);
            self.send(&low_or_high);
        }
        self.restart();
        self.say("show");
        self.commands(2);
        self.show();
    }

    /// A pause, or just none, before an edge, with anything held and the clock anywhere.
    pub(crate) fn pauses(&mut self) {
        let receiver = self.some_receiver();
        self.set_half();
        self.set_receiver(&receiver);
        self.time = receiver.last;
        self.receiver = receiver;
        self.next_gap = Some(self.random.pick(&[7_999, 7_999, 8_000, 8_000, 0, 100, 8_001]));
        match self.random.below(6) {
            0 if self.time > 0 => self.say(&format!("{} 1", self.time - 1)),
            1 => self.say(&format!("{} 2", self.time.saturating_add(PAUSE))),
            _ => {}
        }
        let more = self.random.pick(&[1, 1, 1, 8, 24]);
        for _ in 0..more {
            self.any_edge();
        }
        self.say("show");
        self.commands(1);
        self.show();
    }

    fn set_half(&mut self) {
        let half = self.random.pick(&["none", "address", "state", "position"]);
        let halfbyte = match half {
            "none" => 0,
            "position" => self.random.below(16) as u8,
            _ => self.random.byte_or(&[0x81, 0x80]),
        };
        self.say(&format!("set half {half}"));
        self.say(&format!("set halfbyte {halfbyte}"));
    }

    /// A possible receiver. Without a clock it holds nothing, and the clock's start may be anything.
    fn some_receiver(&mut self) -> Receiver {
        let last = self.random.pick(&[0, 0, 1, 1_000_000, u64::MAX - 8_000]);
        let any = self.random.next();
        if self.random.one_in(5) {
            let start = self.random.pick(&[0, last, last + 1, u64::MAX, any]);
            return Receiver { last, start, ..Receiver::default() };
        }
        let back = self.random.pick(&[0, 0, 0, 1, 100, 700, 7_998, 7_999, 8_000, any]);
        let start = last.saturating_sub(back);
        let started = self.random.pick(&[1, 1, 1, 2, 255]);
        let count = self.random.pick(&[0, 0, 1, 2, 3, 4, 5, 6, 7, 7]);
        let bits = self.random.below(1 << count) as u8;
        let held = self.random.below(3) as u8;
        let first = match held {
            0 => 0,
            1 => self.random.byte_or(&[0x77, 0x70, 0x6F, 0x5F, 0x89, 0x24]),
            _ => of_three_bytes(&mut self.random),
        };
        let second = if held == 2 { self.random.byte_or(&[0x80, 0x85, 0xFC]) } else { 0 };
        Receiver { last, bits, count, first, second, held, start, started }
    }

    fn set_receiver(&mut self, receiver: &Receiver) {
        let Receiver { last, start, .. } = *receiver;
        let bytes = [
            ("count", receiver.count),
            ("bits", receiver.bits),
            ("held", receiver.held),
            ("first", receiver.first),
            ("second", receiver.second),
            ("started", receiver.started),
        ];
        self.say(&format!("set last {last}"));
        self.say(&format!("set start {start}"));
        for (field, value) in bytes {
            self.say(&format!("set {field} {value}"));
        }
    }

    /// Edges of any kind.
    pub(crate) fn noise(&mut self) {
        for _ in 0..self.random.from(1, 80) {
            match self.random.below(12) {
                0 if self.as_bytes => self.late_bytes(),
                0 => self.refused_edge(),
                1 => self.next_gap = Some(self.random.pick(&[7_999, 8_000, 8_001])),
                2 if self.random.one_in(6) => self.say("cut"),
                3 if self.random.one_in(6) => self.ask_number(),
                _ => self.any_edge(),
            }
        }
        self.say("show");
        self.next_gap = Some(8_000);
        self.commands(2);
        self.show();
    }

    /// A piece longer than any block.
    pub(crate) fn long_piece(&mut self) {
        self.cuts = 0;
        self.whole = true;
        match self.random.below(6) {
            0 => self.say("set load 128"),
            1 => self.say("uneven"),
            2 => self.say("length room 83"),
            _ => {}
        }
        if self.as_bytes {
            self.long_lines();
        } else {
            let count = self.random.from(50, 500);
            self.commands(count);
        }
        self.whole = false;
        if self.random.one_in(2) {
            self.say("cut");
        }
        self.say("set load 0");
        self.say("length room 84");
        self.commands(1);
        self.show();
    }

    /// Lines `bytes` of about as many bytes as they may have, a packet going over from one to the next.
    fn long_lines(&mut self) {
        for _ in 0..self.random.from(2, 6) {
            let length = self.random.pick(&[250, 299, 300, 300]);
            let mut bytes = Vec::new();
            while bytes.len() < length {
                let packets = self.guess.packets(&mut self.random);
                packets.iter().for_each(|packet| self.count_states(packet));
                bytes.extend(packets.concat());
            }
            bytes.truncate(length);
            self.bytes_line(&bytes);
        }
    }

    // Refusals.

    /// Asks the entries of a record or of buffers that may be refused.
    pub(crate) fn ask_entries(&mut self) {
        for _ in 0..self.random.from(1, 5) {
            match self.random.below(13) {
                0 | 1 => self.short_piece(),
                2 => self.say("cut"),
                3 => self.legal_post(),
                4 => self.post(),
                5 => self.status(),
                6 => self.wait(),
                7 => {
                    self.say("uneven");
                    self.short_piece();
                }
                8 => self.say("counts"),
                9 => self.say("check"),
                10 | 11 => self.view(),
                _ => self.say("restart"),
            }
        }
    }

    /// A few edges and the end of their piece.
    pub(crate) fn short_piece(&mut self) {
        if self.random.one_in(6) {
            self.refused_edge();
        }
        for _ in 0..self.random.from(1, 4) {
            self.any_edge();
        }
        self.say("cut");
    }

    /// A clause of row 12, and its nearest accepted neighbour.
    pub(crate) fn row_12(&mut self) {
        let (bad, good) = clause(&mut self.random);
        if self.random.one_in(3) {
            self.commands(1);
            self.next_gap = Some(8_000);
            self.send(&[0x00, 0x00]);
        }
        if self.random.one_in(4) {
            let (worse, _) = clause(&mut self.random);
            self.say_all(&worse);
        }
        if self.random.one_in(4) {
            self.wrong_length();
        }
        if self.random.one_in(8) {
            self.say("set queued 8");
        }
        if self.random.one_in(4) {
            self.set_number_on();
        }
        self.say_all(&bad);
        self.ask_entries();
        self.say("show");
        self.reset();
        self.say_all(&good);
        self.ask_entries();
        self.commands(2);
        self.show();
    }

    pub(crate) fn say_all(&mut self, lines: &[String]) {
        for line in lines {
            self.say(line);
        }
    }

    pub(crate) fn wrong_length(&mut self) {
        let (which, right, most) = self.random.pick(&[
            ("store", 10_240, 10_300),
            ("sheet", 256, 300),
            ("states", 4_096, 4_200),
            ("room", 84, 200),
            ("fixed", 40, 60),
        ]);
        let length = match self.random.below(10) {
            0 => self.random.below(right),
            1 => self.random.from(right, most),
            2 => 0,
            3 => most,
            4..=6 => right - 1,
            _ => right + 1,
        };
        self.say(&format!("length {which} {length}"));
    }

    /// Lengths that are wrong by one or by much, and the right ones.
    pub(crate) fn row_4(&mut self) {
        self.commands(1);
        self.wrong_length();
        if self.random.one_in(3) {
            self.wrong_length();
        }
        if self.random.one_in(3) {
            self.set_number_on();
        }
        if self.random.one_in(4) {
            self.say("states 4095 128");
        }
        if self.random.one_in(4) {
            let version = self.random.pick(&[10, 11, 12, 0]);
            self.put_fixed(1, version);
        }
        self.ask_entries();
        if self.random.one_in(3) {
            self.say("restart");
        }
        self.say("show");
        self.right_sheets();
        let room = self.random.pick(&[84, 85, 200]);
        self.say(&format!("length room {room}"));
        self.ask_entries();
        self.commands(2);
        self.show();
    }

    /// What a size sheet that breaks its rule leaves possible.
    pub(crate) fn refused_entries(&mut self) {
        self.choose_manner();
        self.cuts = 0;
        match self.random.below(5) {
            0 => self.wrong_length(),
            1 => {
                let (bad, _) = clause(&mut self.random);
                self.say_all(&bad);
            }
            2 => self.put_fixed(1, 10),
            _ => {}
        }
        self.view();
        self.short_piece();
        self.ask_entries();
        self.commands(1);
        self.show();
    }

    // The host.

    pub(crate) fn read(&mut self, reply: &[u8]) {
        let words: String = reply.iter().map(|byte| format!(" {byte}")).collect();
        self.plain(&format!("read{words}"));
    }

    pub(crate) fn reads(&mut self) {
        if self.random.one_in(10) {
            return self.damage_every_byte();
        }
        for _ in 0..self.random.from(1, 6) {
            match self.random.below(12) {
                0 => {
                    let room = self.random.pick(&[0, 39, 40, 41, 84]);
                    self.say(&format!("length room {room}"));
                }
                1 => self.say("read"),
                2 => self.read_long(),
                _ => {
                    let reply = some_reply(&mut self.random);
                    self.read(&reply);
                }
            }
        }
    }

    /// A reply of up to 300 bytes.
    pub(crate) fn read_long(&mut self) {
        let length = self.random.pick(&[299, 300, 90, 150]);
        let words: String = (0..length).map(|_| format!(" {}", self.random.below(100))).collect();
        self.plain(&format!("read{words}"));
    }

    pub(crate) fn damage_every_byte(&mut self) {
        let reply = right_reply(&mut self.random);
        for place in 0..reply.len() {
            let mut damaged = reply.clone();
            damaged[place] ^= 1 << self.random.below(8);
            self.read(&damaged);
        }
    }

    pub(crate) fn encodes(&mut self) {
        for _ in 0..self.random.from(3, 20) {
            let line = encode_line(&mut self.random);
            self.say(&line);
        }
    }

    // The end of a file.

    /// Mostly a line that stops the program, with statements behind it that must not be run.
    pub(crate) fn end(&mut self) {
        if self.random.one_in(4) {
            let begin = self.text.len();
            self.say("show");
            if self.random.one_in(2) && self.text[begin..].ends_with(b"show\n") {
                self.text.pop();
            }
            return;
        }
        if self.random.one_in(2) {
            self.send(&[0x0F, 0x85]);
        }
        match self.random.below(6) {
            0 => self.long_line(1_001),
            1 => {
                self.long_line(1_000);
                self.long_line(1_200);
            }
            2 => self.say("size 2 3"),
            3 => self.say("cell 2 3 4"),
            _ => {
                let line = no_statement(&mut self.random);
                self.plain(&line);
            }
        }
        if self.random.one_in(2) {
            self.text.pop();
        } else {
            self.plain("show\nwait 1\nnonsense");
        }
    }

    pub(crate) fn long_line(&mut self, length: usize) {
        let fill = self.random.pick(b"# 0x");
        let mut line = if fill == b' ' { b"wait 1".to_vec() } else { b"wait 1 #".to_vec() };
        line.resize(length, fill);
        self.text.extend(line);
        self.text.push(b'\n');
    }
}
