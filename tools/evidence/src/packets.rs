//! Random packets that do something more often than not.

use crate::random::Random;
use crate::watch_packet::THIRTEEN;
use reference::bench::bench_fixed;

/// What the module holds as far as the generator knows. It only guides the choice.
pub struct Guess {
    pub number: u8,
    pub bank: u8,
    pub wait: u8,
    pub sheet: Vec<u8>,
    pub store: Vec<u8>,
    pub fixed: Vec<u8>,
    /// How seldom a long broadcast puts all states on; 0 is never.
    pub all_on: u64,
}

const CVS: [u16; 27] = [
    897, 898, 899, 900, 901, 902, 903, 937, 938, 939, 940, 941, 942, 977, 978, 979, 980, 981, 982, 1017, 1018, 1019,
    1020, 1021, 1022, 1023, 1024,
];

/// First bytes of two that mean nothing, among them the neighbours of those that mean something.
const NOTHING: [u8; 24] = [
    0x02, 0x03, 0x0B, 0x10, 0x23, 0x27, 0x5D, 0x64, 0x6A, 0x6B, 0x80, 0x81, 0x87, 0x8A, 0x8E, 0x8F, 0x90, 0xA4, 0xDE,
    0xE0, 0xF7, 0xFB, 0xFE, 0xFF,
];

/// First bytes that mean something, and the limits of those that have three bytes.
const BEGINNINGS: [u8; 18] =
    [0x00, 0x01, 0x0C, 0x0F, 0x24, 0x5E, 0x5F, 0x6D, 0x6E, 0x6F, 0x70, 0x77, 0x7B, 0x7E, 0x7F, 0x80, 0x88, 0x89];

impl Guess {
    pub fn new(sheet: Vec<u8>, store: Vec<u8>) -> Guess {
        Guess { number: 1, bank: 0, wait: 0, sheet, store, fixed: bench_fixed(), all_on: 0 }
    }

    /// The number that counts.
    pub fn module(&self) -> u8 {
        self.number.clamp(1, 3)
    }

    /// A command, or a pair of halves.
    pub fn packets(&mut self, random: &mut Random) -> Vec<Vec<u8>> {
        match random.weighted(&[2, 12, 11, 36, 8, 8, 8, 2, 3, 1]) {
            0 => vec![vec![0x00, random.byte()]],
            1 => vec![drive(random)],
            2 => self.halves(random),
            3 => vec![self.cv_packet(random)],
            4 => vec![vec![0x01, self.call(random)]],
            5 => vec![self.bank_read(random)],
            6 => vec![vec![0x0F, self.read_data(random)]],
            7 => vec![vec![random.pick(&NOTHING), random.byte()]],
            8 => vec![three_without_meaning(random)],
            _ => vec![vec![random.byte(), random.byte(), random.byte()]],
        }
    }

    /// Two halves of a pair, or what looks like them.
    fn halves(&mut self, random: &mut Random) -> Vec<Vec<u8>> {
        let (one, other) = if random.one_in(3) { position(random) } else { self.low_and_high(random) };
        match random.below(14) {
            0 => vec![one],
            1 => vec![other],
            2 => vec![one, vec![0x00, random.byte()], other],
            3 => vec![one, other.clone(), other],
            4 => vec![one, three_without_meaning(random), other],
            5 => vec![one, some_half(random), other],
            _ => vec![one, other],
        }
    }

    /// An address or a long state.
    fn low_and_high(&mut self, random: &mut Random) -> (Vec<u8>, Vec<u8>) {
        let mut low = vec![random.pick(&[0x5E, 0x6E]), random.pick(&[0x00, 0x01, 0x7F, 0x80, 0x81, 0xFF])];
        if random.one_in(2) {
            low[1] = random.byte();
        }
        let mut high = vec![low[0] + 1, random.pick(&[0, 1, 255])];
        if random.one_in(2) {
            high[1] = random.byte();
        }
        if low == [0x6E, 0x80] && high[1] == 0 && (self.all_on == 0 || !random.one_in(self.all_on)) {
            high[1] = 1;
        }
        (low, high)
    }

    /// A CV that is worth a command.
    pub fn cv(&self, random: &mut Random) -> u16 {
        match random.below(10) {
            0 => random.from(897, 1024) as u16,
            1 => random.pick(&[897, 1020, 1021, 1021]),
            2..=4 => random.pick(&CVS),
            _ => 900 + 40 * (self.module() as u16 - 1) + self.offset(random),
        }
    }

    /// An offset that is worth a command in the selected bank.
    fn offset(&self, random: &mut Random) -> u16 {
        let size = self.sheet[self.bank as usize] as u16;
        let offset = match random.below(5) {
            0 => random.below(40) as u16,
            1 => random.from(0, 3) as u16,
            2 => size.max(1) - 1,
            3 => size,
            _ => random.below(size.max(1) as u64) as u16,
        };
        offset.min(39)
    }

    /// What a CV holds, as far as known.
    fn held(&self, cv: u16) -> u8 {
        let begin = 900 + 40 * (self.module() as u16 - 1);
        match cv {
            897 => self.number,
            1020 => self.wait,
            1021 => self.bank,
            _ if self.bank == 254 && (begin..begin + 40).contains(&cv) => self.fixed[(cv - begin) as usize],
            _ if (begin..begin + 40).contains(&cv) => self.store[40 * self.bank as usize + (cv - begin) as usize],
            _ => 0,
        }
    }

    fn remember(&mut self, cv: u16, value: u8) {
        let begin = 900 + 40 * (self.module() as u16 - 1);
        match cv {
            897 if value < 4 => self.number = value,
            1021 => self.bank = value,
            _ if self.bank == 254 => {}
            _ if self.bank < 2 && (begin..begin + 2).contains(&cv) => {}
            _ if (begin..begin + 40).contains(&cv) => {
                self.store[40 * self.bank as usize + (cv - begin) as usize] = value
            }
            _ => {}
        }
    }

    fn cv_packet(&mut self, random: &mut Random) -> Vec<u8> {
        let cv = self.cv(random);
        let mut second = 128 + (cv - 897) as u8;
        if random.one_in(25) {
            second &= 127;
        }
        match random.weighted(&[30, 35, 15, 15, 5]) {
            0 => vec![0x77, second, self.verify_value(cv, random)],
            1 => vec![0x7F, second, self.write_value(cv, random)],
            2 => vec![0x7B, second, self.verify_bit(cv, random)],
            3 => vec![0x7B, second, self.write_bit(cv, random)],
            _ => vec![0x7B, second, random.below(0xE0) as u8],
        }
    }

    fn verify_value(&self, cv: u16, random: &mut Random) -> u8 {
        match random.below(10) {
            0..=5 => self.held(cv),
            6 => self.held(cv) ^ 1 << random.below(8),
            7 => random.pick(&[0, 1, 2, 3, 11]),
            _ => random.byte(),
        }
    }

    fn write_value(&mut self, cv: u16, random: &mut Random) -> u8 {
        let value = match cv {
            897 => match random.below(10) {
                0..=6 => random.below(4) as u8,
                7 => 4,
                _ => random.byte(),
            },
            1021 => self.some_bank(random),
            _ => random.byte_or(&[0, 1, 7, 128, 255]),
        };
        self.remember(cv, value);
        value
    }

    fn verify_bit(&self, cv: u16, random: &mut Random) -> u8 {
        let place = random.below(8) as u8;
        let is = self.held(cv) >> place & 1;
        let asked = if random.one_in(3) { 1 - is } else { is };
        0xE0 | asked << 3 | place
    }

    fn write_bit(&mut self, cv: u16, random: &mut Random) -> u8 {
        let place = if cv == 897 && random.one_in(2) { random.below(2) } else { random.below(8) } as u8;
        let bit = random.below(2) as u8;
        self.remember(cv, self.held(cv) & !(1 << place) | bit << place);
        0xF0 | bit << 3 | place
    }

    /// A bank: mostly one that has cells.
    pub fn some_bank(&self, random: &mut Random) -> u8 {
        let used: Vec<u8> = (0..=255).filter(|&bank| self.sheet[bank as usize] != 0).collect();
        match random.below(10) {
            0..=5 => random.pick(&used),
            6 => random.pick(&[0, 1]),
            7 => random.pick(&[250, 251, 252, 253, 254, 255]),
            8 => random.pick(&[2, 3, 254, 255]),
            _ => random.byte(),
        }
    }

    fn call(&self, random: &mut Random) -> u8 {
        let number = if random.one_in(5) { random.below(4) as u8 } else { self.module() };
        let forced = if random.one_in(3) { 4 } else { 0 };
        let status = (random.below(4) as u8) << 3;
        let rest = if random.one_in(4) { random.byte() & 0xE0 } else { 0 };
        number | forced | status | rest
    }

    fn bank_read(&self, random: &mut Random) -> Vec<u8> {
        let module = if random.one_in(6) { random.from(1, 3) as u8 } else { self.module() };
        vec![0x0B + module, self.some_bank(random)]
    }

    fn read_data(&self, random: &mut Random) -> u8 {
        match random.below(12) {
            0 => random.byte(),
            1 => random.pick(&[0, 127, 128]),
            _ => (self.cv(random) - 769) as u8,
        }
    }
}

/// The first byte of a packet of three bytes: those that mean something and the limits more often than the others.
pub fn of_three_bytes(random: &mut Random) -> u8 {
    let any = random.pick(&THIRTEEN);
    random.pick(&[0x77, 0x7B, 0x7F, 0x70, 0x7E, any])
}

/// Three bytes that mean nothing, the second and the third often as if a packet began there.
pub fn three_without_meaning(random: &mut Random) -> Vec<u8> {
    vec![random.pick(&THIRTEEN), random.byte_or(&BEGINNINGS), random.byte_or(&BEGINNINGS)]
}

/// Both halves of a position (C-12).
pub fn position(random: &mut Random) -> (Vec<u8>, Vec<u8>) {
    (vec![0x88, position_high(random)], vec![0x89, random.byte_or(&[0, 7, 255])])
}

/// The data of 0x88: mostly a high half, sometimes over 15.
pub fn position_high(random: &mut Random) -> u8 {
    let (any, half) = (random.byte(), random.below(16) as u8);
    random.pick(&[half, half, half, half, 0, 7, 8, 15, 15, 16, 16, 24, any])
}

/// Either half of any pair, none that puts all states on.
fn some_half(random: &mut Random) -> Vec<u8> {
    vec![random.pick(&[0x5E, 0x5F, 0x6E, 0x6F, 0x88, 0x89]), random.from(1, 17) as u8]
}

/// Speeds, load, functions, control and short states.
fn drive(random: &mut Random) -> Vec<u8> {
    let first = random.pick(&[0x24, 0x25, 0x26, 0x60, 0x61, 0x62, 0x63, 0x6C, 0x6D, 0x6D]);
    let data = match first {
        0x26 => random.byte_or(&[0, 127, 128, 255]),
        0x6C if random.one_in(2) => random.below(4) as u8,
        0x6D if random.one_in(4) => random.pick(&[0x00, 0x80]),
        _ => random.byte_or(&[0, 255]),
    };
    vec![first, data]
}
