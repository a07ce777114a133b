//! What is counted of the fixed sheet (C-13): its length and its byte 1, bank 254 on the line beside what the store has
//! there, and views of every kind of bank.

use crate::watch_packet::{bank_kind, mark_if};
use reference::banks::{Banks, CELLS, FIXED, SHEET, STORE, VERSION};
use reference::branch;
use reference::module::{wrong_lengths, Lent, Module};

/// Lengths that are wrong by one, for a feed and for a view.
pub const BANK_LENGTHS: [&str; 6] =
    ["store one short", "store one long", "sheet one short", "sheet one long", "fixed one short", "fixed one long"];

/// Other lengths of the fixed sheet, and bytes 1 beside 11.
pub const FAR_LENGTHS: [usize; 2] = [0, 60];
pub const NEAR_VERSIONS: [u8; 2] = [10, 12];

/// The buffers that a view is refused for with 4, and the rules that are refused with 5.
pub const BUFFERS: [&str; 3] = ["store", "sheet", "fixed"];
pub const RULES: [&str; 9] = [
    "a size over 40",
    "bank 0 under 2",
    "bank 1 under 2",
    "bank 251 not 0",
    "bank 252 not 0",
    "bank 253 not 0",
    "bank 254 under 2",
    "bank 254 over 2",
    "byte 1 of the fixed sheet not 11",
];

/// How a CV packet asks or writes.
pub const ASKED: [&str; 4] = ["0x77 verify", "0x7B verify", "0x7F write", "0x7B write"];

/// Offsets of bank 254: the first that is not used, and the last.
pub const UNUSED: [usize; 2] = [2, 39];

/// Offsets of bank 254 at which 0x0F answers in another way, or nearly.
pub const READ: [usize; 5] = [0, 1, 2, 38, 39];

/// The numbers of cells of a view that are counted.
pub const VIEWED: [usize; 4] = [1, 2, 39, 40];

/// Where bank 254 stood before.
const OLD: usize = 254 * CELLS;

// Rows 4 and 5.

/// Row 4 of a feed or a view.
pub fn count_lengths(entry: &str, banks: Banks) {
    let wrong = [
        banks.store.len() + 1 == STORE,
        banks.store.len() == STORE + 1,
        banks.sheet.len() + 1 == SHEET,
        banks.sheet.len() == SHEET + 1,
        banks.fixed.len() + 1 == FIXED,
        banks.fixed.len() == FIXED + 1,
    ];
    for (length, wrong) in BANK_LENGTHS.iter().zip(wrong) {
        mark_if(wrong, &format!("{entry} refuses 4: {length}"));
    }
    if FAR_LENGTHS.contains(&banks.fixed.len()) {
        branch!("{entry} refuses 4: fixed of {} bytes", banks.fixed.len());
    }
}

/// Row 5 of a feed or a view.
pub fn count_rules(entry: &str, banks: Banks) {
    let version = banks.fixed[1];
    if NEAR_VERSIONS.contains(&version) {
        branch!("{entry} refuses 5: byte 1 of the fixed sheet is {version}");
    }
    let sizes = Banks { fixed: &[], ..banks }.broken_rules();
    mark_if(version != VERSION && !sizes.is_empty(), &format!("{entry} refuses 5 for both sheets"));
}

/// A fixed sheet that a feed is lent and row 5 lets pass.
pub fn count_passed(fixed: &[u8]) {
    mark_if(fixed[0] != 0, "row 5 lets pass byte 0 of the fixed sheet not 0");
    mark_if(fixed[2..].iter().any(|&byte| byte != 0), "row 5 lets pass unused bytes of the fixed sheet not 0");
}

// Bank 254 on the line.

/// A completed packet, with the record before it, and whether it was acknowledged.
pub fn count_bank_254(before: &Module, packet: &[u8], done: bool, lent: &Lent) {
    let (first, data) = (packet[0], packet[1]);
    if (0x0C..=0x0E).contains(&first) && data == 254 && done {
        mark_if(lent.fixed[0] != 0, "bank read of 254 with byte 0 of the fixed sheet not 0");
        mark_if(lent.store[OLD] != lent.fixed[0], "bank read of 254 with another byte 0 in the store");
        return;
    }
    let Some(offset) = before.own_offset(769 + data as u16).filter(|_| before.bank == 254) else { return };
    match first {
        0x0F => mark_if(READ.contains(&offset), &format!("0x0F in bank 254 at offset {offset}")),
        0x77 | 0x7B | 0x7F => count_cell(before, packet, offset, done, lent),
        _ => {}
    }
}

fn count_cell(before: &Module, packet: &[u8], offset: usize, done: bool, lent: &Lent) {
    let third = packet[2];
    let (fixed, old) = (lent.fixed[offset], lent.store[OLD + offset]);
    let bit_is = |value: u8| value >> (third & 7) & 1 == third >> 3 & 1;
    let (asked, is_fixed, is_old) = match (packet[0], third >> 4) {
        (0x77, _) => (ASKED[0], third == fixed, third == old),
        (0x7B, 0xE) => (ASKED[1], bit_is(fixed), bit_is(old)),
        (0x7F, _) => (ASKED[2], false, false),
        (0x7B, 0xF) => (ASKED[3], false, false),
        _ => return,
    };
    mark_if(UNUSED.contains(&offset), &format!("{asked} in bank 254 at offset {offset}"));
    let (sheet_alone, store_alone) = (is_fixed && !is_old, is_old && !is_fixed);
    let place = ["byte 0", "byte 1", "an unused byte"][offset.min(2)];
    mark_if(sheet_alone, &format!("{asked} of {place} as the fixed sheet has it and not the store"));
    mark_if(store_alone, &format!("{asked} of {place} as the store has it and not the fixed sheet"));
    mark_if(asked == ASKED[0] && offset == 1 && third == VERSION - 1, "0x77 verify of byte 1 against 10");
    mark_if(asked == ASKED[0] && offset == 1 && third == VERSION + 1, "0x77 verify of byte 1 against 12");
    mark_if(done, &format!("bank 254 verified at module {}", before.effective_number()));
}

// Views.

/// A view that is asked for.
pub fn count_view(module: &Module, bank: u8, lent: &Lent) {
    let banks = lent.banks();
    let (lengths, rules) = (banks.wrong_lengths(), banks.broken_rules());
    if !lengths.is_empty() {
        count_alone("view refuses 4", &lengths);
        count_lengths("view", banks);
        mark_if(!rules.is_empty(), "order 4 before 5: view");
    } else if !rules.is_empty() {
        count_alone("view refuses 5", &rules);
        count_rules("view", banks);
    } else {
        count_whatever(module, lent);
        count_cells(module, bank, banks);
        return;
    }
    match (bank, banks.sheet.get(bank as usize)) {
        (254, _) => branch!("refused view of bank 254"),
        (_, Some(0) | None) => branch!("refused view of a bank of size 0"),
        _ => branch!("refused view of a bank of the store"),
    }
}

fn count_alone(row: &str, causes: &[&str]) {
    if let [cause] = causes {
        branch!("{row} for this alone: {cause}");
    }
}

/// What a view does not look at.
fn count_whatever(module: &Module, lent: &Lent) {
    let others = wrong_lengths(lent);
    mark_if(!module.broken_clauses().is_empty(), "view, whatever the record");
    mark_if(others.contains(&"states"), "view, whatever the states");
    mark_if(others.contains(&"room"), "view, whatever the room");
    mark_if(module.receiver.count != 0 || module.receiver.held != 0, "view inside a packet");
}

/// The cells of a view, and what stands beside them.
fn count_cells(module: &Module, bank: u8, banks: Banks) {
    let view = banks.used(bank);
    branch!("view of {}", bank_kind(bank));
    mark_if(bank != module.bank, "view past CV 1021");
    if bank == 254 {
        mark_if(view[0] != 0, "view of bank 254 with byte 0 not 0");
        mark_if(*view != banks.store[OLD..OLD + 2], "view of bank 254, the store has other bytes");
        return;
    }
    let begin = CELLS * bank as usize;
    let whole = &banks.store[begin..begin + CELLS];
    if view.is_empty() {
        branch!("view of size 0");
        mark_if(whole.iter().any(|&byte| byte != 0), "view of size 0, the store is not 0");
        return;
    }
    mark_if(VIEWED.contains(&view.len()), &format!("view of {} cells", view.len()));
    mark_if(whole[view.len()..].iter().any(|&byte| byte != 0), "view that ends before a cell not 0");
    let later = banks.store.get(begin + 1..begin + 1 + view.len());
    mark_if(later.is_some_and(|later| later != view), "view that is another one cell later");
}

// The statement `fixed`.

pub fn count_fixed_put(module: &Module, offset: usize, lent: usize) {
    mark_if(offset + 1 == FIXED, "replay: fixed at the last offset");
    mark_if(offset >= lent, "replay: fixed past what is lent");
    mark_if(module.receiver.started != 0, "replay: fixed behind an edge");
}
