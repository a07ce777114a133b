//! generate edges|bytes SIZE SEED: so many bytes of a recording for `pace`, or of bus bytes for the bench,
//! on standard output. README.md says what the mix is.

#![no_main]

use evidence::packets::Guess;
use evidence::random::Random;
use reference::banks::STORE;
use reference::bench::bench_sheet;
use reference::receiver::packet_length;
use std::ffi::c_char;
use std::io::{BufWriter, Write};

/// In hundreds of microseconds: a bit, and from where on it is a pause.
const BIT: u8 = 1;
const PAUSE: u64 = 80;
const LONGEST: u64 = 127;

/// Three packets in four are what a locomotive on the track is told; the fourth is of any kind.
fn packets(guess: &mut Guess, random: &mut Random) -> Vec<Vec<u8>> {
    if random.one_in(4) {
        return guess.packets(random);
    }
    let first = random.pick(&[0x24, 0x24, 0x25, 0x25, 0x26, 0x60, 0x60, 0x61, 0x62, 0x63, 0x6C, 0x6D]);
    let data = match first {
        0x26 => random.below(128) as u8,
        0x6C => random.pick(&[1, 2, 3, 3]),
        _ => random.byte(),
    };
    vec![vec![first, data]]
}

/// A packet with its bits 100 µs apart, after a pause or a shorter gap.
fn edges(packet: &[u8], pause: bool, random: &mut Random) -> Vec<u8> {
    let gap = if pause { random.from(PAUSE, LONGEST) } else { random.from(1, 15) };
    let bits = packet.iter().flat_map(|byte| (0..8).map(move |place| byte >> place & 1));
    let mut edges: Vec<u8> = bits.map(|bit| bit << 7 | BIT).collect();
    edges[0] = edges[0] & 128 | gap as u8;
    edges
}

/// Whole packets; as edges, a pause before one in 50, and one in 500 breaks off, with a pause after it.
fn write(as_edges: bool, size: usize, random: &mut Random) -> std::io::Result<()> {
    let mut guess = Guess::new(bench_sheet(), vec![0; STORE]);
    let mut out = BufWriter::new(std::io::stdout());
    let (mut left, mut broken) = (size, false);
    while left > 0 {
        for packet in packets(&mut guess, random) {
            if packet.len() != packet_length(packet[0]) as usize {
                continue;
            }
            let mut bytes = packet;
            if as_edges {
                bytes = edges(&bytes, broken || random.one_in(50), random);
                broken = random.one_in(500);
                bytes.truncate(if broken { random.from(1, 15) as usize } else { bytes.len() });
            }
            let n = left.min(bytes.len());
            out.write_all(&bytes[..n])?;
            left -= n;
        }
    }
    out.flush()
}

fn run() -> Option<()> {
    let words: Vec<String> = std::env::args().skip(1).collect();
    let [kind, size, seed] = words.as_slice() else { return None };
    let (size, seed) = (size.parse().ok()?, seed.parse().ok()?);
    match kind.as_str() {
        "edges" => write(true, size, &mut Random::new(seed)).ok(),
        "bytes" => write(false, size, &mut Random::new(seed)).ok(),
        _ => None,
    }
}

#[no_mangle]
pub extern "C" fn main(_argc: i32, _argv: *const *const c_char) -> i32 {
    if run().is_none() {
        eprintln!("usage: generate edges|bytes SIZE SEED");
        return 2;
    }
    0
}
