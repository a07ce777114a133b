//! The checksum of 1 MiB by the proved crate and by plain Rust, in turn, whole and in blocks: the best time of each.
//! Given the name of a side and a number up to 16, that side takes so many of 16 blocks of 4 KiB, for counting
//! instructions: the making of the blocks is then the same for any number.

#![no_main]

use std::ffi::{c_char, CStr};
use std::hint::black_box;
use std::time::Instant;

const SIZE: usize = 1 << 20;
const BLOCK: usize = 4_096;
/// Too short for the lanes of the proved side.
const SHORT: usize = 504;
const ROUNDS: usize = 200;

extern "C" {
    #[allow(improper_ctypes)]
    fn exported_continued(crc: u8, bytes: &[u8]) -> u8;
}

type Continued = fn(u8, &[u8]) -> u8;

fn proved(crc: u8, bytes: &[u8]) -> u8 {
    unsafe { exported_continued(crc, bytes) }
}

fn bit(crc: u8) -> u8 {
    if crc % 2 == 1 {
        crc / 2 ^ 0x8C
    } else {
        crc / 2
    }
}

/// Bit by bit, and it stays so: no compiler seen makes a table of eight nested calls.
fn bitwise(mut crc: u8, bytes: &[u8]) -> u8 {
    for byte in bytes {
        crc = bit(bit(bit(bit(bit(bit(bit(bit(crc ^ byte))))))));
    }
    crc
}

/// The usual loop. Rust 1.95 and later turn it into a table by themselves.
fn usual(mut crc: u8, bytes: &[u8]) -> u8 {
    for byte in bytes {
        crc ^= byte;
        for _ in 0..8 {
            crc = if crc & 1 == 1 { crc >> 1 ^ 0x8C } else { crc >> 1 };
        }
    }
    crc
}

const SIDES: [(&str, Continued); 3] = [("proved", proved), ("bitwise", bitwise), ("usual", usual)];

fn in_blocks(side: Continued, bytes: &[u8], block: usize) -> u8 {
    bytes.chunks(block).fold(0, |crc, block| black_box(side)(crc, black_box(block)))
}

/// Bytes from a fixed seed.
fn input(size: usize) -> Vec<u8> {
    let mut state = 7u64;
    let next = || {
        state = state.wrapping_mul(6_364_136_223_846_793_005).wrapping_add(1_442_695_040_888_963_407);
        (state >> 56) as u8
    };
    std::iter::repeat_with(next).take(size).collect()
}

fn keep_best(given: &mut Option<u8>, best: &mut f64, sum: impl Fn() -> u8) {
    let start = Instant::now();
    let crc = black_box(sum());
    *best = best.min(start.elapsed().as_secs_f64());
    assert_eq!(*given.get_or_insert(crc), crc, "the sides differ");
}

fn all_in_turn(bytes: &[u8]) {
    let mut given = None;
    let mut best = [[f64::INFINITY; 3]; SIDES.len()];
    for _ in 0..ROUNDS {
        for (side, best) in SIDES.iter().zip(&mut best) {
            for (block, best) in [SIZE, BLOCK, SHORT].into_iter().zip(best) {
                keep_best(&mut given, best, || in_blocks(side.1, bytes, block));
            }
        }
    }
    for (side, [whole, blocks, short]) in SIDES.iter().zip(best) {
        println!("{} {:.4} {:.4} {:.4}", side.0, 1e3 * whole, 1e3 * blocks, 1e3 * short);
    }
}

fn argument(argv: *const *const c_char, n: usize) -> String {
    unsafe { CStr::from_ptr(*argv.add(n)) }.to_string_lossy().into_owned()
}

#[no_mangle]
pub extern "C" fn main(argc: i32, argv: *const *const c_char) -> i32 {
    if argc < 3 {
        all_in_turn(&input(SIZE));
        return 0;
    }
    let name = argument(argv, 1);
    let side = SIDES.iter().find(|side| side.0 == name).expect("a side").1;
    let blocks: usize = argument(argv, 2).parse().expect("a number");
    black_box(in_blocks(side, &input(16 * BLOCK)[..blocks * BLOCK], BLOCK));
    0
}
