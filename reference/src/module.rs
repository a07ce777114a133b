//! The module: settings, commands, cells and BiDi replies.

use crate::banks::{Banks, CELLS};
use crate::crc::crc;
use crate::receiver::Receiver;
use crate::refusal::Refusal;

pub const STATES: usize = 4_096;
pub const ROOM: usize = 84;

/// The long states are 1 to this.
pub const LONG_STATES: u16 = 32_767;

/// The kind of a held half of a pair.
#[derive(Clone, Copy, Debug, PartialEq, Eq)]
pub enum Half {
    None,
    Address,
    State,
    Position,
}

/// The last position heard from the line (C-12).
#[derive(Clone, Copy, Debug, PartialEq, Eq)]
pub enum Position {
    Unknown,
    Heard { address: u16, extended: bool },
}

/// The module's record.
#[derive(Clone, Debug, PartialEq, Eq)]
pub struct Module {
    pub receiver: Receiver,
    pub half: Half,
    pub halfbyte: u8,
    pub actual: u8,
    pub wanted: u8,
    pub load: u8,
    pub address: u16,
    /// F0 is bit 0, F28 is bit 28.
    pub functions: u32,
    pub control: u8,
    pub position: Position,
    /// How many of the states 1 to 32767 are on (C-05). Every value is possible.
    pub stateson: u16,
    /// CV 897.
    pub number: u8,
    /// CV 1020.
    pub wait: u8,
    /// CV 1021.
    pub bank: u8,
    pub status0: u8,
    pub status1: u8,
    pub registered: bool,
    pub queued: u8,
    /// Eight messages of four bytes, the oldest first.
    pub queue: [u8; 32],
}

/// The buffers lent to a feed.
pub struct Lent<'a> {
    pub states: &'a mut [u8],
    pub store: &'a mut [u8],
    pub sheet: &'a [u8],
    pub fixed: &'a [u8],
    pub room: &'a mut [u8],
}

impl Lent<'_> {
    pub fn banks(&self) -> Banks<'_> {
        Banks { store: self.store, sheet: self.sheet, fixed: self.fixed }
    }
}

/// What a feed gives.
#[derive(Clone, Debug, PartialEq, Eq)]
pub enum Fed {
    /// All edges were taken and none completed an acknowledged command.
    Ended { taken: usize },
    /// The last edge taken completed an acknowledged command. The reply stands in the room.
    Acknowledged { taken: usize, reply: usize },
    /// Rows 12, 4, 5 and 1: nothing was taken.
    Refused(Refusal),
    /// Rows 2 and 3: this many edges were taken before the bad one.
    BadEdge(Refusal, usize),
}

/// What is on (C-05): how many of the states 1 to 32767, and how many of F0 to F28.
#[derive(Clone, Copy, Debug, PartialEq, Eq)]
pub struct On {
    pub states: u16,
    pub functions: usize,
}

/// What a completed command gives: no acknowledgement, or one with these reply bytes.
#[derive(Clone, Debug, PartialEq, Eq)]
pub enum Answer {
    Silence,
    Acknowledged(Vec<u8>),
}

impl Module {
    /// A fresh module with this number in CV 897 and CV 1021 at 0.
    pub fn new(number: u8) -> Module {
        Module {
            receiver: Receiver::default(),
            half: Half::None,
            halfbyte: 0,
            actual: 0,
            wanted: 0,
            load: 0,
            address: 0,
            functions: 0,
            control: 3,
            position: Position::Unknown,
            stateson: 0,
            number,
            wait: 0,
            bank: 0,
            status0: 0,
            status1: 0,
            registered: false,
            queued: 0,
            queue: [0; 32],
        }
    }

    // The entries.

    /// Takes edges until one completes an acknowledged command, or to the piece's end.
    pub fn feed(&mut self, times: &[u64], levels: &[u8], lent: &mut Lent) -> Fed {
        if let Err(refusal) = self.check_feed(times, levels, lent) {
            return Fed::Refused(refusal);
        }
        for (before, (&time, &level)) in times.iter().zip(levels).enumerate() {
            match self.edge(time, level, lent) {
                Err(refusal) => {
                    branch!("feed refuses {}", refusal.number());
                    return Fed::BadEdge(refusal, before);
                }
                Ok(Some(Answer::Acknowledged(reply))) => {
                    lent.room[..reply.len()].copy_from_slice(&reply);
                    return Fed::Acknowledged { taken: before + 1, reply: reply.len() };
                }
                Ok(Some(Answer::Silence)) if before + 1 < times.len() => {
                    branch!("feed goes on after an unacknowledged command")
                }
                Ok(_) => {}
            }
        }
        branch!("feed takes the whole piece");
        Fed::Ended { taken: times.len() }
    }

    /// One edge of a feed whose rows 12, 4, 5 and 1 are in order. C-03: a pause "clears everything held", a half too.
    pub fn edge(&mut self, time: u64, level: u8, lent: &mut Lent) -> Result<Option<Answer>, Refusal> {
        let pause = self.receiver.pause_before(time);
        let packet = self.receiver.edge(time, level)?;
        if pause {
            self.drop_half();
        }
        Ok(packet.map(|packet| self.obey(&packet, lent)))
    }

    /// Keeps CV 897, CV 1021 and the store; the rest begins anew. C-12: "Restart forgets the position." C-05: a restart
    /// sets the number of states that are on, with all of them off, to 0.
    pub fn restart(&mut self, states: &mut [u8]) -> Result<(), Refusal> {
        self.check_record("restart")?;
        if states.len() != STATES {
            branch!("restart refuses 4");
            return Err(Refusal::Length);
        }
        branch!("restart");
        states.fill(0);
        *self = Module { number: self.number, bank: self.bank, ..Module::new(0) };
        Ok(())
    }

    /// Queues a message of two (header, data) halves.
    pub fn post(&mut self, message: [u8; 4]) -> Result<(), Refusal> {
        self.check_record("post")?;
        if !legal(message) {
            branch!("post refuses 6");
            return Err(Refusal::Message);
        }
        if self.queued == 8 {
            branch!("post refuses 7");
            return Err(Refusal::QueueFull);
        }
        let end = 4 * self.queued as usize;
        self.queue[end..end + 4].copy_from_slice(&message);
        self.queued += 1;
        branch!("post makes the queue {} long", self.queued);
        Ok(())
    }

    /// Sets status 0 or status 1.
    pub fn set_status(&mut self, number: u8, value: u8) -> Result<(), Refusal> {
        self.check_record("status")?;
        if number > 1 {
            branch!("status refuses 11: number over 1");
            return Err(Refusal::Status);
        }
        if value & reserved_status(number) != 0 {
            branch!("status refuses 11: reserved bit of status {number}");
            return Err(Refusal::Status);
        }
        branch!("status {number} set");
        match number {
            0 => self.status0 = value,
            _ => self.status1 = value,
        }
        Ok(())
    }

    /// Sets the WAIT bit of CV 1020.
    pub fn set_wait(&mut self, on: bool) -> Result<(), Refusal> {
        self.check_record("wait")?;
        branch!("wait set to {}", on as u8);
        self.wait = on as u8;
        Ok(())
    }

    /// C-05: how much is on, by the record alone. The states are not recounted.
    pub fn counts(&self) -> Result<On, Refusal> {
        self.check_record("counts")?;
        branch!("counts");
        Ok(self.on())
    }

    /// C-05: the same, and the states are recounted: "a record whose number disagrees with the lent states is refused
    /// with 12 by that entry only, after 4".
    pub fn check(&self, states: &[u8]) -> Result<On, Refusal> {
        self.check_record("check")?;
        if states.len() != STATES {
            branch!("check refuses 4");
            return Err(Refusal::Length);
        }
        if self.stateson != states_on(states) {
            branch!("check refuses 12 for the number");
            return Err(Refusal::Record);
        }
        branch!("check");
        Ok(self.on())
    }

    fn on(&self) -> On {
        let is_on = |function: &u32| self.functions >> function & 1 == 1;
        On { states: self.stateson, functions: (0..=28).filter(is_on).count() }
    }

    // The rows that are looked at before anything is done.

    /// The clauses of row 12 that this record breaks.
    pub fn broken_clauses(&self) -> Vec<&'static str> {
        let mut broken = self.receiver.broken_clauses();
        let mut clause = |bad: bool, name| {
            if bad {
                broken.push(name)
            }
        };
        clause(self.half == Half::None && self.halfbyte != 0, "unused half byte not 0");
        // C-12: "data over 15" is never held, and A10 to A0 are eleven bits.
        clause(self.half == Half::Position && self.halfbyte > 15, "position half over 15");
        clause(matches!(self.position, Position::Heard { address: 2_048.., .. }), "position over 2047");
        clause(self.unused_queue().iter().any(|&byte| byte != 0), "unused queue byte not 0");
        clause(self.number > 3, "CV 897 over 3");
        clause(self.queued > 8, "queue over 8");
        clause(self.status0 & reserved_status(0) != 0, "reserved bit of status 0");
        clause(self.status1 & reserved_status(1) != 0, "reserved bit of status 1");
        clause(self.control & !3 != 0, "reserved control bit");
        clause(self.wait & !1 != 0, "reserved WAIT bit");
        clause(self.functions >> 29 != 0, "reserved function bit");
        clause(self.load > 127, "load over 127");
        broken
    }

    fn unused_queue(&self) -> &[u8] {
        &self.queue[4 * self.queued.min(8) as usize..]
    }

    /// Row 12, which every entry looks at first.
    fn check_record(&self, entry: &str) -> Result<(), Refusal> {
        if self.broken_clauses().is_empty() {
            return Ok(());
        }
        branch!("{entry} refuses 12");
        Err(Refusal::Record)
    }

    /// Rows 12, 4, 5 and 1, in this order.
    fn check_feed(&self, times: &[u64], levels: &[u8], lent: &Lent) -> Result<(), Refusal> {
        self.check_record("feed")?;
        if !wrong_lengths(lent).is_empty() {
            branch!("feed refuses 4");
            return Err(Refusal::Length);
        }
        if !lent.banks().broken_rules().is_empty() {
            branch!("feed refuses 5");
            return Err(Refusal::Sheet);
        }
        if times.len() != levels.len() {
            branch!("feed refuses 1");
            return Err(Refusal::ListsDiffer);
        }
        Ok(())
    }

    // Commands.

    /// A completed packet. Every one of them uses up or drops a held half.
    fn obey(&mut self, packet: &[u8], lent: &mut Lent) -> Answer {
        let (half, held) = (self.half, self.halfbyte);
        self.drop_half();
        let data = packet[1];
        match packet[0] {
            0x24 => self.actual = data,
            0x25 => self.wanted = data,
            0x26 => self.set_load(data),
            0x5E => self.hold(Half::Address, data),
            0x5F => self.address_high(half, held, data),
            0x60 => self.set_functions(0, 5, ((data & 15) << 1 | data >> 4 & 1) as u32),
            0x61 => self.set_functions(5, 8, data as u32),
            0x62 => self.set_functions(13, 8, data as u32),
            0x63 => self.set_functions(21, 8, data as u32),
            0x6C => self.set_control(data),
            0x6D => self.short_state(data, lent.states),
            0x6E => self.hold(Half::State, data),
            0x6F => self.long_state(half, held, data, lent.states),
            0x88 => self.position_high(data),
            0x89 => self.position_low(half, held, data),
            0x01 => return self.call(data),
            0x0C..=0x0E => return self.bank_read(packet[0] - 0x0B, data, lent),
            0x0F => return self.read_cv(data as u16 + 769, lent),
            0x77 | 0x7B | 0x7F => return self.cv_packet(packet, lent),
            // Without meaning, among them the thirteen others from 0x70 to 0x7F (C-02).
            _ => {}
        }
        Answer::Silence
    }

    /// Bit 7 set: ignored.
    fn set_load(&mut self, data: u8) {
        if data < 128 {
            branch!("0x26 stores a load");
            self.load = data;
        } else {
            branch!("0x26 with bit 7 is ignored");
        }
    }

    fn hold(&mut self, half: Half, data: u8) {
        self.half = half;
        self.halfbyte = data;
    }

    fn drop_half(&mut self) {
        self.half = Half::None;
        self.halfbyte = 0;
    }

    /// The high half acts only if its own low half was the command just before.
    fn address_high(&mut self, half: Half, low: u8, high: u8) {
        if half != Half::Address {
            branch!("0x5F without its low half");
            return;
        }
        branch!("0x5F acts");
        self.address = (high as u16) << 8 | low as u16;
    }

    /// C-12: the high half comes first and is the one held, "with data over 15 ignored".
    fn position_high(&mut self, data: u8) {
        if data > 15 {
            branch!("0x88 over 15 is ignored");
            return;
        }
        branch!("0x88 is held");
        self.hold(Half::Position, data);
    }

    /// C-12: "0x88 followed directly by 0x89". Bits 2 to 0 of the held byte are A10 to A8, bit 3 is the extended mark.
    fn position_low(&mut self, half: Half, high: u8, low: u8) {
        if half != Half::Position {
            branch!("0x89 without its high half");
            return;
        }
        branch!("0x89 acts");
        let address = ((high & 7) as u16) << 8 | low as u16;
        self.position = Position::Heard { address, extended: high & 8 != 0 };
    }

    /// Functions from this number on, as many as there are bits.
    fn set_functions(&mut self, from: u32, bits: u32, value: u32) {
        let mask = ((1 << bits) - 1) << from;
        self.functions = self.functions & !mask | value << from;
    }

    /// Bit 0 buffer, bit 1 clear: F0 to F28 off.
    fn set_control(&mut self, data: u8) {
        self.control = data & 3;
        if data & 2 == 0 {
            branch!("0x6C puts the functions off");
            self.functions = 0;
        } else {
            branch!("0x6C leaves the functions");
        }
    }

    // States.

    /// 0x6D: bits 0 to 6 the state number, bit 7 on or off; number 0 means 1 to 127.
    fn short_state(&mut self, data: u8, states: &mut [u8]) {
        let (number, on) = (data & 127, data & 128 != 0);
        let before = states_on(states);
        if number == 0 {
            branch!("0x6D all {}", on_off(on));
            broadcast(on, &mut states[..16]);
        } else {
            branch!("0x6D one {}", on_off(on));
            set_state(number as usize, on, states);
        }
        self.move_number(before, states_on(states));
    }

    /// 0x6F: number is 128·H and the low seven bits; number 0 means 1 to 32767. C-05: "a long broadcast .. sets the
    /// count".
    fn long_state(&mut self, half: Half, low: u8, high: u8, states: &mut [u8]) {
        if half != Half::State {
            branch!("0x6F without its low half");
            return;
        }
        let (number, on) = (128 * high as usize + (low & 127) as usize, low & 128 != 0);
        if number == 0 {
            branch!("0x6F all {}", on_off(on));
            broadcast(on, states);
            self.stateson = if on { LONG_STATES } else { 0 };
        } else {
            branch!("0x6F one {}", on_off(on));
            let before = states_on(states);
            set_state(number, on, states);
            self.move_number(before, states_on(states));
        }
    }

    /// C-05: "every other change moves it by its difference modulo 65,536", whether the number kept is true or not.
    fn move_number(&mut self, before: u16, after: u16) {
        self.stateson = self.stateson.wrapping_add(after).wrapping_sub(before);
    }

    // CV packets and cells.

    /// 0x77 verifies a byte, 0x7F writes it, 0x7B does so with a bit.
    fn cv_packet(&mut self, packet: &[u8], lent: &mut Lent) -> Answer {
        let (first, second, third) = (packet[0], packet[1], packet[2]);
        if second & 128 == 0 {
            branch!("0x{first:02X} with bit 7 clear is ignored");
            return Answer::Silence;
        }
        let cv = 897 + (second & 127) as u16;
        let done = match first {
            0x77 => self.verify(cv, |value| value == third, lent),
            0x7F => self.write(cv, |_| third, lent),
            _ => self.bit_packet(cv, third, lent),
        };
        match done {
            true => Answer::Acknowledged(Vec::new()),
            false => Answer::Silence,
        }
    }

    /// Third byte 111K DBBB.
    fn bit_packet(&mut self, cv: u16, third: u8, lent: &mut Lent) -> bool {
        let (write, bit, place) = (third & 16 != 0, third >> 3 & 1, third & 7);
        if third >> 5 != 7 {
            branch!("0x7B with other top bits is ignored");
            return false;
        }
        if write {
            self.write(cv, |value| value & !(1 << place) | bit << place, lent)
        } else {
            self.verify(cv, |value| value >> place & 1 == bit, lent)
        }
    }

    /// A verify is acknowledged if it is true; of an unreadable CV none is true.
    fn verify(&self, cv: u16, is_true: impl Fn(u8) -> bool, lent: &Lent) -> bool {
        self.value(cv, lent).is_some_and(is_true)
    }

    /// A write is acknowledged if it is done.
    fn write(&mut self, cv: u16, new: impl Fn(u8) -> u8, lent: &mut Lent) -> bool {
        match self.value(cv, lent) {
            Some(old) => self.store_value(cv, new(old), lent),
            None => false,
        }
    }

    /// The number by which this module is called: 0 counts as 1.
    pub fn effective_number(&self) -> u8 {
        self.number.max(1)
    }

    /// The offset of a CV of this module's own range.
    pub fn own_offset(&self, cv: u16) -> Option<usize> {
        let begin = 900 + 40 * (self.effective_number() as u16 - 1);
        (begin..begin + 40).contains(&cv).then(|| (cv - begin) as usize)
    }

    /// The value of a CV that this module can read.
    fn value(&self, cv: u16, lent: &Lent) -> Option<u8> {
        match cv {
            897 => Some(self.number),
            898 | 899 | 1022..=1024 => Some(0),
            1020 => Some(self.wait),
            1021 => Some(self.bank),
            _ => cell(self.bank, self.own_offset(cv)?, lent),
        }
    }

    /// Stores a value in a readable CV, if the CV is writable and may hold it.
    fn store_value(&mut self, cv: u16, value: u8, lent: &mut Lent) -> bool {
        match cv {
            897 if value > 3 => return false,
            897 => {
                branch!("CV 897 becomes {value}");
                self.number = value;
            }
            1021 => self.bank = value,
            898 | 899 | 1020 | 1022..=1024 => return false,
            _ => return self.store_cell(cv, value, lent),
        }
        true
    }

    fn store_cell(&mut self, cv: u16, value: u8, lent: &mut Lent) -> bool {
        match self.own_offset(cv) {
            Some(offset) if writable(self.bank, offset, lent) => {
                lent.store[CELLS * self.bank as usize + offset] = value;
                true
            }
            _ => false,
        }
    }

    // BiDi.

    /// 0x01: bits 0, 1 the module number, bit 2 forced, bits 3, 4 status number.
    fn call(&mut self, data: u8) -> Answer {
        if data & 3 == 0 {
            branch!("0x01 to nobody");
            return Answer::Silence;
        }
        if data & 3 != self.effective_number() {
            branch!("0x01 to another module");
            return Answer::Silence;
        }
        if data & 4 != 0 {
            return self.forced_call(data >> 3 & 3);
        }
        self.unforced_call()
    }

    fn forced_call(&mut self, status: u8) -> Answer {
        branch!("0x01 forced, status number {status}");
        self.registered = true;
        Answer::Acknowledged(match status {
            0 | 1 => vec![0x8A, self.status0, 0x8A, self.status1],
            _ => vec![0x81, 0, 0x81, 0],
        })
    }

    /// The oldest message; with none, the empty message once.
    fn unforced_call(&mut self) -> Answer {
        if self.queued > 0 {
            branch!("0x01 takes a message from {}", self.queued);
            self.registered = true;
            return Answer::Acknowledged(self.take_oldest());
        }
        if !self.registered {
            branch!("0x01 first empty call");
            self.registered = true;
            return Answer::Acknowledged(vec![0x81, 0, 0x81, 0]);
        }
        branch!("0x01 later empty call");
        Answer::Silence
    }

    fn take_oldest(&mut self) -> Vec<u8> {
        let oldest = self.queue[..4].to_vec();
        self.queue.copy_within(4.., 0);
        self.queue[28..].fill(0);
        self.queued -= 1;
        oldest
    }

    /// 0x0F: only the owner answers, for this CV and the next.
    fn read_cv(&self, cv: u16, lent: &Lent) -> Answer {
        let Some(offset) = self.own_offset(cv) else {
            branch!("0x0F of no own CV");
            return Answer::Silence;
        };
        let mut reply = cv_half(cell(self.bank, offset, lent), "first");
        match self.own_offset(cv + 1) {
            Some(next) => reply.extend(cv_half(cell(self.bank, next, lent), "second")),
            None => {
                branch!("0x0F second half is 8E 02 at module {}", self.effective_number());
                reply.extend([0x8E, 2]);
            }
        }
        Answer::Acknowledged(reply)
    }

    /// 0x0C, 0x0D, 0x0E: a whole bank, if its size isn't 0.
    fn bank_read(&self, module: u8, bank: u8, lent: &Lent) -> Answer {
        if module != self.effective_number() {
            branch!("bank read of another module");
            return Answer::Silence;
        }
        if lent.sheet[bank as usize] == 0 {
            branch!("bank read of size 0");
            return Answer::Silence;
        }
        branch!("bank read of module {module}");
        Answer::Acknowledged(bank_reply(&leading_cells(bank, lent)))
    }
}

// States.

fn on_off(on: bool) -> &'static str {
    if on {
        "on"
    } else {
        "off"
    }
}

/// All of these on leaves byte 0 at 254 and the others at 255; off gives 0.
fn broadcast(on: bool, states: &mut [u8]) {
    states.fill(if on { 255 } else { 0 });
    if on {
        states[0] = 254;
    }
}

/// How many of the states are on. C-05: "the ones in the bytes, bit 0 of byte 0 left out".
pub fn states_on(states: &[u8]) -> u16 {
    let ones: u32 = states.iter().map(|byte| byte.count_ones()).sum();
    (ones - (states[0] & 1) as u32) as u16
}

/// State n is bit n mod 8 of byte n div 8.
fn set_state(number: usize, on: bool, states: &mut [u8]) {
    let bit = 1 << (number % 8);
    if on {
        states[number / 8] |= bit;
    } else {
        states[number / 8] &= !bit;
    }
}

// Cells.

/// The value of a readable cell. In bank 254 offset 0 isn't readable.
fn cell(bank: u8, offset: usize, lent: &Lent) -> Option<u8> {
    match (bank, offset) {
        (254, 0) => None,
        _ => lent.banks().used(bank).get(offset).copied(),
    }
}

/// Readable, not bank 254, not offsets 0 and 1 of banks 0 and 1.
fn writable(bank: u8, offset: usize, lent: &Lent) -> bool {
    cell(bank, offset, lent).is_some() && bank != 254 && !(bank < 2 && offset < 2)
}

/// The leading readable cells of a bank.
fn leading_cells(bank: u8, lent: &Lent) -> Vec<u8> {
    (0..CELLS).map_while(|offset| cell(bank, offset, lent)).collect()
}

// Replies.

fn cv_half(value: Option<u8>, which: &str) -> Vec<u8> {
    match value {
        Some(value) => {
            branch!("0x0F {which} half is 8F");
            vec![0x8F, value]
        }
        None => {
            branch!("0x0F {which} half is 8E 01");
            vec![0x8E, 1]
        }
    }
}

/// Pairs, below 40 cells an end group, then the checksum group.
pub fn bank_reply(cells: &[u8]) -> Vec<u8> {
    let mut reply = Vec::new();
    for pair in cells.chunks_exact(2) {
        reply.extend([0x8F, pair[0], 0x8F, pair[1]]);
    }
    if cells.len() % 2 == 1 {
        reply.extend([0x8F, cells[cells.len() - 1], 0x8E, 1]);
    } else if cells.len() < CELLS {
        reply.extend([0x8E, 1, 0x8E, 1]);
    }
    let data: Vec<u8> = reply.iter().skip(1).step_by(2).copied().collect();
    reply.extend([0x8F, crc(&data), 0x8F, 0]);
    reply
}

// What may be lent and posted.

/// The buffers whose length row 4 refuses.
pub fn wrong_lengths(lent: &Lent) -> Vec<&'static str> {
    let mut wrong = lent.banks().wrong_lengths();
    let mut rule = |bad: bool, name| {
        if bad {
            wrong.push(name)
        }
    };
    rule(lent.states.len() != STATES, "states");
    rule(lent.room.len() < ROOM, "room");
    wrong
}

/// Status 0 uses bits 0, 1, 4; status 1 bits 0, 1.
pub fn reserved_status(number: u8) -> u8 {
    match number {
        0 => !0b0001_0011,
        _ => !0b0000_0011,
    }
}

/// 88 with 0 to 15 stands as first half exactly when 89 is the second.
pub fn legal(message: [u8; 4]) -> bool {
    let [header0, data0, header1, data1] = message;
    if header0 == 0x88 && header1 == 0x89 {
        return data0 <= 15;
    }
    legal_half(header0, data0) && legal_half(header1, data1)
}

/// A half that needs no partner.
pub fn legal_half(header: u8, data: u8) -> bool {
    let kind = data % 32;
    match header {
        0x80 => matches!(data, 0 | 4 | 15),
        0x81 => matches!(kind, 0..=7 | 15 | 16 | 17 | 19 | 24 | 25) && data < 96 && data != 32,
        0x82 => kind <= 28 && data < 96,
        0x83 | 0x84 | 0x8C | 0x8D => true,
        0x85 => data <= 7,
        _ => false,
    }
}
