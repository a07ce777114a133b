//! The bench program: bus bytes in, a line for each command out.

use crate::banks::{FIXED, SHEET, STORE, VERSION};
use crate::module::{Answer, Lent, Module, ROOM, STATES};

/// The bench's size sheet: 40 for banks 0 and 1, 2 for bank 254, else 0.
pub fn bench_sheet() -> Vec<u8> {
    let mut sheet = vec![0; SHEET];
    sheet[0] = 40;
    sheet[1] = 40;
    sheet[254] = 2;
    sheet
}

/// The bench's fixed sheet (C-13): 0, 11 and zeros.
pub fn bench_fixed() -> Vec<u8> {
    let mut fixed = vec![0; FIXED];
    fixed[1] = VERSION;
    fixed
}

/// What the bench writes for these bus bytes, 100 µs a bit.
pub fn bench(bytes: &[u8]) -> Vec<u8> {
    let mut module = Module::new(1);
    let (mut states, mut store, mut room) = (vec![0; STATES], vec![0; STORE], vec![0; ROOM]);
    let (sheet, fixed) = (bench_sheet(), bench_fixed());
    let mut out = Vec::new();
    let mut time = 0;
    for byte in bytes {
        for place in 0..8 {
            let mut lent =
                Lent { states: &mut states, store: &mut store, sheet: &sheet, fixed: &fixed, room: &mut room };
            let answer = module.edge(time, byte >> place & 1, &mut lent).expect("bus bytes make good edges");
            if let Some(answer) = answer {
                write_answer(&answer, &mut out);
            }
            time += 100;
        }
    }
    if module.receiver.held > 0 {
        branch!("bench: unfinished packet of {} bytes", module.receiver.held);
    }
    if module.receiver.held == 2 && !matches!(module.receiver.first, 0x77 | 0x7B | 0x7F) {
        branch!("bench: unfinished packet of 2 bytes without meaning");
    }
    out
}

fn write_answer(answer: &Answer, out: &mut Vec<u8>) {
    match answer {
        Answer::Silence => {
            branch!("bench: no acknowledgement");
            out.extend(b"-");
        }
        Answer::Acknowledged(reply) => {
            branch!("bench: acknowledged, {} reply bytes", reply.len());
            out.extend(b"ACK");
            write_bytes(reply, out);
        }
    }
    out.push(b'\n');
}

/// Bytes as two upper-case hexadecimal digits each, with one space before each.
pub fn write_bytes(bytes: &[u8], out: &mut Vec<u8>) {
    for byte in bytes {
        out.extend(format!(" {byte:02X}").bytes());
    }
}
