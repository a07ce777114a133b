//! Row 12: records that break one of its clauses, and their nearest accepted neighbours.

use crate::packets::of_three_bytes;
use crate::random::Random;

/// Statements that break a clause, and statements that make its nearest accepted neighbour.
pub type Pair = (Vec<String>, Vec<String>);

pub fn clause(random: &mut Random) -> Pair {
    match random.below(23) {
        0..=1 => with_a_clock(held_bits(random)),
        2..=5 => with_a_clock(held_bytes(random)),
        6..=9 => numbers(random),
        10..=13 => clock(random),
        14..=16 => position(random),
        _ => reserved_bits(random),
    }
}

/// The clock runs, so that held bits and bytes are no cause by themselves (C-03).
fn with_a_clock((bad, good): Pair) -> Pair {
    let marked = |lines: Vec<String>| [set(&[("started", 1)]), lines].concat();
    (marked(bad), marked(good))
}

fn set(fields: &[(&str, u64)]) -> Vec<String> {
    fields.iter().map(|(field, value)| format!("set {field} {value}")).collect()
}

/// Just too much, the most, or something between.
fn over(random: &mut Random, from: u64) -> u64 {
    let any = random.from(from, 255);
    random.pick(&[from, 255, any])
}

fn not_zero(random: &mut Random) -> u64 {
    random.byte().max(1) as u64
}

fn held_bits(random: &mut Random) -> Pair {
    let any = not_zero(random);
    if random.one_in(2) {
        let bits = random.pick(&[0, any]);
        return (set(&[("count", over(random, 8)), ("bits", bits)]), set(&[("count", 7), ("bits", any & 127)]));
    }
    let count = random.below(8);
    let lower = any & ((1 << count) - 1);
    let bit = random.from(count, 7);
    let top = if count == 0 { 0 } else { 1 << (count - 1) };
    (set(&[("count", count), ("bits", lower | 1 << bit)]), set(&[("count", count), ("bits", lower | top)]))
}

fn held_bytes(random: &mut Random) -> Pair {
    let any = not_zero(random);
    let three = of_three_bytes(random) as u64;
    let second = random.pick(&[0, any]);
    let both = set(&[("first", three), ("held", 2), ("second", second)]);
    match random.below(4) {
        0 => (set(&[("first", any)]), set(&[("first", any), ("held", 1)])),
        1 => {
            let first = random.pick(&[0, three]);
            let held = (first != 0) as u64;
            let good = set(&[("first", three), ("held", 2), ("second", any)]);
            (set(&[("first", first), ("held", held), ("second", any)]), good)
        }
        2 => (set(&[("first", three), ("held", over(random, 3)), ("second", second)]), both),
        _ => {
            let two = of_two_bytes(random);
            let good = if random.one_in(2) { set(&[("first", two), ("held", 1)]) } else { both };
            (set(&[("first", two), ("held", 2), ("second", second)]), good)
        }
    }
}

/// The first byte of a packet of two bytes, mostly a neighbour of those of three.
fn of_two_bytes(random: &mut Random) -> u64 {
    match random.byte_or(&[0x00, 0x6F, 0x6F, 0x80, 0x80, 0x37, 0xF7]) {
        0x70..=0x7F => 0x6F,
        first => first as u64,
    }
}

/// C-03: bits or bytes held without a start, and a start after the last edge.
fn clock(random: &mut Random) -> Pair {
    let mark = random.pick(&[1, 1, 2, 255]);
    if random.one_in(2) {
        return without_a_start(random, mark);
    }
    let last = random.pick(&[0, 0, 5, 7_999]);
    let start = random.pick(&[last + 1, last + 1, last + 8_000, u64::MAX]);
    let good = match random.below(3) {
        // Without a clock the start is not judged.
        0 => set(&[("last", last), ("start", start), ("started", 0)]),
        _ => set(&[("last", last), ("start", last), ("started", mark)]),
    };
    (set(&[("last", last), ("start", start), ("started", mark)]), good)
}

fn without_a_start(random: &mut Random, mark: u64) -> Pair {
    let count = random.from(1, 7);
    let three = of_three_bytes(random) as u64;
    let two = of_two_bytes(random);
    let held = match random.below(4) {
        0 => set(&[("count", count), ("bits", random.below(1 << count))]),
        1 => set(&[("held", 1), ("first", two)]),
        2 => set(&[("held", 2), ("first", three), ("second", not_zero(random))]),
        _ => set(&[("held", 1), ("first", three), ("count", count)]),
    };
    let good = match random.below(4) {
        // A half may be held without a start.
        0 => vec!["set half state".to_string(), "set started 0".to_string()],
        _ => [held.clone(), set(&[("started", mark)])].concat(),
    };
    ([held, set(&[("started", 0)])].concat(), good)
}

/// C-12: a position half over 15, which is possible as another half, and an address over 2,047.
fn position(random: &mut Random) -> Pair {
    let half = |kind: &str, byte: u64| vec![format!("set half {kind}"), format!("set halfbyte {byte}")];
    if random.one_in(2) {
        let byte = over(random, 16);
        let good = random.pick(&[("position", 15), ("position", 15), ("address", byte), ("state", byte)]);
        return (half("position", byte), half(good.0, good.1));
    }
    let any = random.from(2_048, 65_535);
    let bad = random.pick(&[2_048, 2_048, 65_535, any]);
    let extended = random.below(2);
    (vec![format!("set position {bad} {extended}")], vec![format!("set position 2047 {extended}")])
}

fn numbers(random: &mut Random) -> Pair {
    let any = not_zero(random);
    match random.below(4) {
        0 => {
            let half = random.pick(&["address", "state"]);
            (set(&[("halfbyte", any)]), vec![format!("set half {half}"), format!("set halfbyte {any}")])
        }
        1 => {
            let queued = random.below(8);
            let later = random.from(4 * queued, 31);
            let place = random.pick(&[4 * queued, 31, later]);
            let byte = format!("set queue {place} {any}");
            (vec![format!("set queued {queued}"), byte.clone()], vec![format!("set queued {}", place / 4 + 1), byte])
        }
        2 => (set(&[("number", over(random, 4))]), set(&[("number", random.from(0, 3))])),
        _ => (set(&[("queued", over(random, 9))]), set(&[("queued", 8)])),
    }
}

fn reserved_bits(random: &mut Random) -> Pair {
    let any = not_zero(random);
    let from = |random: &mut Random, lowest: u64, highest: u64| 1 << random.from(lowest, highest);
    match random.below(6) {
        0 => {
            let bad = random.pick(&[4, 8, 32, 64, 128]) | any & 0x13;
            (set(&[("status0", bad)]), set(&[("status0", random.pick(&[0x13, 0x13, 0x10, 1]))]))
        }
        1 => (set(&[("status1", from(random, 2, 7) | any & 3)]), set(&[("status1", 3)])),
        2 => (set(&[("control", from(random, 2, 7) | any & 3)]), set(&[("control", random.from(0, 3))])),
        3 => (set(&[("wait", from(random, 1, 7) | any & 1)]), set(&[("wait", 1)])),
        4 => (set(&[("functions", from(random, 29, 31) | any)]), set(&[("functions", (1 << 29) - 1)])),
        _ => (set(&[("load", over(random, 128))]), set(&[("load", 127)])),
    }
}
