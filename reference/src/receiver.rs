//! Edges, bits, pauses: from falling clock edges to packets.

use crate::refusal::Refusal;

/// C-03: an edge this many microseconds or more after the clock's start comes after a pause.
pub const PAUSE: u64 = 8_000;

/// What the receiver holds between two edges.
#[derive(Clone, Debug, Default, PartialEq, Eq)]
pub struct Receiver {
    /// The time of the last edge, 0 after a restart.
    pub last: u64,
    /// The held bits, bit 0 came first.
    pub bits: u8,
    /// How many bits are held.
    pub count: u8,
    /// The first held byte.
    pub first: u8,
    /// The second held byte.
    pub second: u8,
    /// How many bytes are held.
    pub held: u8,
    /// The clock's start; without meaning while the clock does not run.
    pub start: u64,
    /// Whether the clock runs: 0 is no, every other value yes.
    pub started: u8,
}

/// How many bytes a packet has that begins so. C-02: every first byte from 0x70 to 0x7F is a three-byte packet.
pub fn packet_length(first: u8) -> u8 {
    match first {
        0x70..=0x7F => 3,
        _ => 2,
    }
}

impl Receiver {
    /// The clauses of row 12 about held bits and bytes that this receiver breaks.
    pub fn broken_clauses(&self) -> Vec<&'static str> {
        let mut broken = Vec::new();
        if self.count > 7 {
            broken.push("over 7 held bits");
        } else if self.bits >> self.count != 0 {
            broken.push("set bits above their count");
        }
        if self.held < 1 && self.first != 0 {
            broken.push("unused first byte not 0");
        }
        if self.held < 2 && self.second != 0 {
            broken.push("unused second byte not 0");
        }
        if self.held > 2 {
            broken.push("over 2 held bytes");
        }
        if self.held == 2 && packet_length(self.first) == 2 {
            broken.push("two held bytes of a two-byte packet");
        }
        // C-03: "bits or bytes held without a start, and a start after the last edge".
        if self.started == 0 && (self.count > 0 || self.held > 0) {
            broken.push("bits or bytes held without a start");
        }
        if self.started != 0 && self.start > self.last {
            broken.push("start after the last edge");
        }
        broken
    }

    /// Whether an edge at this time comes after a pause. C-03: "an edge 8,000 µs or more after that start". While the
    /// clock does not run there is none.
    pub fn pause_before(&self, time: u64) -> bool {
        self.started != 0 && time >= self.start && time - self.start >= PAUSE
    }

    /// One falling edge. Gives the packet that it completes, if any.
    pub fn edge(&mut self, time: u64, level: u8) -> Result<Option<Vec<u8>>, Refusal> {
        if !self.broken_clauses().is_empty() {
            return Err(Refusal::Record);
        }
        if level > 1 {
            return Err(Refusal::Level);
        }
        if time < self.last {
            return Err(Refusal::Time);
        }
        if self.pause_before(time) {
            self.drop_held();
            self.started = 0;
        }
        // C-03: "with no byte since restart or pause, at the first edge".
        if self.started == 0 {
            self.start = time;
        }
        self.started = 1;
        self.last = time;
        Ok(self.take_bit(level))
    }

    /// A pause "clears everything held": here bits and bytes. A held half is the module's.
    fn drop_held(&mut self) {
        self.bits = 0;
        self.count = 0;
        self.first = 0;
        self.second = 0;
        self.held = 0;
    }

    /// Bit 0 comes first; the eighth bit completes a byte. C-03: the clock "starts at the edge that completes a byte".
    fn take_bit(&mut self, level: u8) -> Option<Vec<u8>> {
        self.bits |= level << self.count;
        self.count += 1;
        if self.count < 8 {
            return None;
        }
        let byte = self.bits;
        self.start = self.last;
        self.bits = 0;
        self.count = 0;
        self.take_byte(byte)
    }

    /// The last byte of a packet completes it.
    fn take_byte(&mut self, byte: u8) -> Option<Vec<u8>> {
        if self.held == 0 {
            self.first = byte;
            self.held = 1;
            return None;
        }
        if self.held == 1 && packet_length(self.first) == 3 {
            self.second = byte;
            self.held = 2;
            return None;
        }
        let packet = match self.held {
            1 => vec![self.first, byte],
            _ => vec![self.first, self.second, byte],
        };
        self.first = 0;
        self.second = 0;
        self.held = 0;
        Some(packet)
    }
}
