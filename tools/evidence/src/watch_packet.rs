//! What is counted of a completed packet: its place at the borders of the rules, seen with the record before it.

use reference::branch;
use reference::module::{Answer, Half, Module};

/// The first bytes of packets of three bytes that mean nothing (C-02).
pub const THIRTEEN: [u8; 13] = [0x70, 0x71, 0x72, 0x73, 0x74, 0x75, 0x76, 0x78, 0x79, 0x7A, 0x7C, 0x7D, 0x7E];

pub const COMMON_CVS: [u16; 8] = [897, 898, 899, 1020, 1021, 1022, 1023, 1024];

pub const BORDERS: [&str; 4] = ["one below", "first", "last", "one above"];

pub fn mark_if(is: bool, name: &str) {
    if is {
        branch!("{name}");
    }
}

pub fn half_name(half: Half) -> &'static str {
    match half {
        Half::None => "no",
        Half::Address => "address",
        Half::State => "state",
        Half::Position => "position",
    }
}

/// A packet that was completed, with the record before its last edge, and what it gave.
pub fn packet_done(before: &Module, packet: &[u8], answer: &Answer, sheet: &[u8], later_states: bool) {
    let done = matches!(answer, Answer::Acknowledged(_));
    let (first, data) = (packet[0], packet[1]);
    count_half(before.half, first, data);
    count_unread(first, data);
    match first {
        0x01 => count_call(before, data),
        0x0C..=0x0E => count_bank_read(before, first - 0x0B, data, sheet),
        0x0F => count_cv_read(before, data as u16 + 769),
        0x77 | 0x7B | 0x7F => count_cv_packet(before, packet, done, sheet),
        0x00 | 0x24..=0x26 | 0x5E..=0x63 | 0x6C..=0x6F | 0x89 => branch!("command 0x{first:02X}"),
        0x88 if data <= 15 => branch!("command 0x88"),
        0x70..=0x7F => count_three_without_meaning(packet),
        _ => branch!("packet without meaning"),
    }
    if (first, data) == (0x6D, 0) && later_states {
        branch!("0x6D all off leaves a later state on");
    }
    if (before.half, first, data, before.halfbyte & 127) == (Half::State, 0x6F, 255, 127) {
        branch!("0x6F sets state 32767");
    }
}

/// What happens to a held half when a command is completed.
fn count_half(half: Half, first: u8, data: u8) {
    let name = half_name(half);
    match (half, first) {
        (Half::None, _) => {}
        (Half::Address, 0x5F) | (Half::State, 0x6F) | (Half::Position, 0x89) => branch!("{name} half used"),
        (_, 0x00) => branch!("{name} half dropped by 0x00"),
        (_, 0x88) if data > 15 => branch!("{name} half dropped by 0x88 over 15"),
        (Half::Address, 0x5E) | (Half::State, 0x6E) | (Half::Position, 0x88) => {
            branch!("{name} half replaced by its like")
        }
        (_, 0x5E | 0x6E | 0x88) => branch!("{name} half replaced by 0x{first:02X}"),
        (_, 0x5F | 0x6F | 0x89) => branch!("{name} half dropped by 0x{first:02X}"),
        (_, 0x77 | 0x7B | 0x7F) => branch!("{name} half dropped by a CV packet"),
        (_, 0x01 | 0x0C..=0x0F) => branch!("{name} half dropped by a BiDi command"),
        (_, 0x24..=0x26 | 0x60..=0x63 | 0x6C | 0x6D) => branch!("{name} half dropped by another command"),
        (_, 0x70..=0x7F) => branch!("{name} half dropped by a three-byte packet without meaning"),
        _ => branch!("{name} half dropped by a packet without meaning"),
    }
}

/// One of the thirteen, and what its second and third byte would begin if the packet ended before them.
fn count_three_without_meaning(packet: &[u8]) {
    let name = "three-byte packet without meaning";
    branch!("{name}, 0x{:02X}", packet[0]);
    for (place, byte) in ["second", "third"].iter().zip(&packet[1..]) {
        match byte {
            0x77 | 0x7B | 0x7F => branch!("{name}: {place} byte like a CV packet's first"),
            0x5E | 0x6E => branch!("{name}: {place} byte like a low half's first"),
            _ => {}
        }
    }
}

/// Bits of a second byte that are not read.
fn count_unread(first: u8, data: u8) {
    match (first, data) {
        (0x00, 1..) => branch!("0x00 with data"),
        (0x60, 32..) => branch!("0x60 with bits 5 to 7"),
        (0x6C, 4..) => branch!("0x6C with bits 2 to 7"),
        _ => {}
    }
}

/// An answer as module 1, since CV 897 is 0.
fn count_unnumbered(module: &Module, what: &str) {
    if module.number == 0 {
        branch!("{what} of module 1 by CV 897 at 0");
    }
}

/// Where a CV stands by the borders of the module's own.
fn count_border(module: &Module, what: &str, cv: u16) {
    let number = module.effective_number();
    let first = 900 + 40 * (number as u16 - 1);
    for (border, place) in BORDERS.iter().zip([first - 1, first, first + 39, first + 40]) {
        if cv == place {
            branch!("{what} at module {number}: {border} of its own");
        }
    }
}

/// The kind of a bank.
pub fn bank_kind(bank: u8) -> String {
    match bank {
        2..=250 => "banks 2 to 250".to_string(),
        _ => format!("bank {bank}"),
    }
}

// BiDi.

fn count_call(module: &Module, data: u8) {
    if data & 3 == 0 || data & 3 != module.effective_number() {
        return;
    }
    let forced = data & 4 != 0;
    let statuses = [module.status0, module.status1];
    let differ = statuses[0] != statuses[1] && !statuses.contains(&0);
    let cases = [
        (module.number == 0, "0x01 answered as module 1 by CV 897 at 0"),
        (data >> 5 != 0, "0x01 with bits 5 to 7"),
        (!forced && data >> 3 & 3 != 0, "0x01 unforced with a status number"),
        (forced && differ && data >> 4 & 1 == 0, "0x01 forced, statuses differ and are not 0"),
        (forced && module.queued > 0, "0x01 forced leaves the queue"),
        (forced && !module.registered, "0x01 forced registers"),
        (!forced && module.queued > 0 && !module.registered, "0x01 message registers"),
    ];
    for (is, name) in cases {
        if is {
            branch!("{name}");
        }
    }
}

fn count_bank_read(module: &Module, number: u8, bank: u8, sheet: &[u8]) {
    if number != module.effective_number() {
        return;
    }
    branch!("bank read asks for {}", bank_kind(bank));
    let cells = if bank == 254 { 0 } else { sheet[bank as usize] };
    if sheet[bank as usize] == 0 {
        return;
    }
    count_unnumbered(module, "bank read");
    if bank != module.bank {
        branch!("bank read past CV 1021");
    }
    match cells {
        0 => branch!("bank reply of no cells"),
        1 => branch!("bank reply of 1 cell"),
        38..=40 => branch!("bank reply of {cells} cells"),
        n if n % 2 == 1 => branch!("bank reply of an odd number of cells"),
        _ => branch!("bank reply of an even number of cells"),
    }
}

fn count_cv_read(module: &Module, cv: u16) {
    count_border(module, "0x0F", cv);
    if module.own_offset(cv).is_some() {
        branch!("0x0F in {}", bank_kind(module.bank));
        count_unnumbered(module, "0x0F");
        return;
    }
    match cv {
        769..=896 => branch!("0x0F of a CV below 897"),
        _ if COMMON_CVS.contains(&cv) => branch!("0x0F of CV {cv}"),
        _ => branch!("0x0F of a CV of another module"),
    }
}

// CV packets.

fn count_cv_packet(module: &Module, packet: &[u8], done: bool, sheet: &[u8]) {
    let (second, third) = (packet[1], packet[2]);
    if second & 128 == 0 {
        return;
    }
    let cv = 897 + (second & 127) as u16;
    count_border(module, "CV packet", cv);
    let what = match (packet[0], third >> 4) {
        (0x77, _) => "0x77 verify",
        (0x7F, _) => "0x7F write",
        (_, 0xE) => "0x7B verify",
        (_, 0xF) => "0x7B write",
        _ => return,
    };
    branch!("{what} {} {}", place_name(module, cv, sheet), if done { "yes" } else { "no" });
    if done && packet[0] == 0x7B {
        branch!("{what} of a {} done", third >> 3 & 1);
    }
    if !COMMON_CVS.contains(&cv) {
        count_unnumbered(module, "cell");
    }
}

/// The kind of place that a CV is for this module now.
fn place_name(module: &Module, cv: u16, sheet: &[u8]) -> String {
    let Some(offset) = module.own_offset(cv) else {
        return match COMMON_CVS.contains(&cv) {
            true => format!("CV {cv}"),
            false => "cell of another module".to_string(),
        };
    };
    let size = sheet[module.bank as usize] as usize;
    match (module.bank, offset) {
        (254, 0 | 1) => format!("bank 254 offset {offset}"),
        (0 | 1, 0 | 1) => format!("bank {} offset {offset}", module.bank),
        _ if size == 0 => "cell of a bank of size 0".to_string(),
        _ if offset == size => "first cell past the size".to_string(),
        _ if offset > size => "later cell past the size".to_string(),
        _ if offset + 1 == size => "last used cell".to_string(),
        _ => "used cell".to_string(),
    }
}
