//! The program `pace` once more, over the reference: the same reading, the same blocks, the same lines.

#![no_main]

use reference::banks::STORE;
use reference::bench::{bench_fixed, bench_sheet};
use reference::module::{Fed, Lent, Module, Position, ROOM, STATES};
use std::ffi::c_char;
use std::fs::File;
use std::io::{Read, Write};
use std::os::fd::FromRawFd;

const BLOCK: usize = 4_096;

struct Pace {
    kept: Module,
    time: u64,
    edges: u64,
    refused: u64,
    answers: u64,
    sum: u64,
}

fn with(sum: u64, number: u64) -> u64 {
    sum % 4_294_967_296 * 16_777_619 + number % 4_294_967_296
}

fn of_bytes(sum: u64, bytes: &[u8]) -> u64 {
    bytes.iter().fold(sum, |sum, &byte| with(sum, byte as u64))
}

fn of_position(sum: u64, position: Position) -> u64 {
    match position {
        Position::Unknown => with(sum, 0),
        Position::Heard { address, extended } => with(with(sum, 1 + address as u64), extended as u64),
    }
}

fn of_record(sum: u64, kept: &Module) -> u64 {
    let receiver = &kept.receiver;
    let before = [
        receiver.last,
        receiver.bits as u64,
        receiver.count as u64,
        receiver.first as u64,
        receiver.second as u64,
        receiver.held as u64,
        receiver.start,
        receiver.started as u64,
        kept.half as u64,
        kept.halfbyte as u64,
        kept.actual as u64,
        kept.wanted as u64,
        kept.load as u64,
        kept.address as u64,
        kept.functions as u64,
        kept.control as u64,
    ];
    let told = of_position(before.into_iter().fold(sum, with), kept.position);
    let after = [
        kept.stateson as u64,
        kept.number as u64,
        kept.wait as u64,
        kept.bank as u64,
        kept.status0 as u64,
        kept.status1 as u64,
        kept.queued as u64,
    ];
    let sum = of_bytes(after.into_iter().fold(told, with), &kept.queue);
    with(sum, kept.registered as u64)
}

/// The times and levels of these bytes. Gives the time of the last of them.
fn spread(input: &[u8], from: u64, times: &mut [u64], levels: &mut [u8]) -> u64 {
    let mut time = from;
    for ((&byte, to), level) in input.iter().zip(times).zip(levels) {
        time = time.wrapping_add((byte % 128) as u64 * 100);
        *to = time;
        *level = byte / 128;
    }
    time
}

impl Pace {
    /// Feeds a block, on from where the feed stopped until it is used up.
    fn feed_block(&mut self, times: &[u64], levels: &[u8], lent: &mut Lent) {
        let mut at = 0;
        while at < times.len() {
            at += match self.kept.feed(&times[at..], &levels[at..], lent) {
                Fed::Ended { taken } => taken,
                Fed::Acknowledged { taken, reply } => {
                    self.answers += 1;
                    let edge = self.edges + (at + taken) as u64;
                    self.sum = of_bytes(with(self.sum, edge), &lent.room[..reply]);
                    taken
                }
                Fed::BadEdge(_, taken) => {
                    self.refused += 1;
                    taken + 1
                }
                Fed::Refused(_) => {
                    self.refused += (times.len() - at) as u64;
                    times.len() - at
                }
            };
        }
        self.edges += times.len() as u64;
    }

    /// Reads to the end, a block at a time.
    fn take_all(&mut self, from: &mut File, lent: &mut Lent) -> std::io::Result<()> {
        let (mut input, mut times, mut levels) = ([0; BLOCK], [0; BLOCK], [0; BLOCK]);
        loop {
            let n = from.read(&mut input)?;
            if n == 0 {
                return Ok(());
            }
            self.time = spread(&input[..n], self.time, &mut times, &mut levels);
            self.feed_block(&times[..n], &levels[..n], lent);
        }
    }
}

fn run() -> std::io::Result<()> {
    let (mut states, mut store, mut room) = ([0; STATES], [0; STORE], [0; ROOM]);
    let (sheet, fixed) = (bench_sheet(), bench_fixed());
    let mut lent = Lent { states: &mut states, store: &mut store, sheet: &sheet, fixed: &fixed, room: &mut room };
    let mut pace = Pace { kept: Module::new(1), time: 0, edges: 0, refused: 0, answers: 0, sum: 0 };
    // Standard input without a buffer of its own: a read is a read, as in the proved program.
    pace.take_all(&mut unsafe { File::from_raw_fd(0) }, &mut lent)?;
    let sum = of_bytes(of_bytes(of_record(pace.sum, &pace.kept), &states), &store);
    let mut out = std::io::stdout();
    write!(out, "edges {}\nrefused {}\nanswers {}\nsum {sum}\n", pace.edges, pace.refused, pace.answers)
}

#[no_mangle]
pub extern "C" fn main(_argc: i32, _argv: *const *const c_char) -> i32 {
    run().is_err() as i32
}
