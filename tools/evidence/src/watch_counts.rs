//! What is counted of the number of states that are on (C-05): one state and all of them, a number that is wrong or goes
//! round, and what the two entries that give it are asked about.

use crate::watch_packet::mark_if;
use reference::branch;
use reference::module::{states_on, Half, Module, LONG_STATES, STATES};

/// What a single state does to the states.
pub const ONE: [&str; 4] = [
    "puts on a state that is off",
    "puts on a state that is on",
    "puts off a state that is on",
    "puts off a state that is off",
];

/// The first and the last of the short and of the long states, and the first that is long alone.
pub const LIMITS: [usize; 4] = [1, 127, 128, 32_767];

/// How many of the short states are on before a short broadcast.
pub const BEFORE: [&str; 3] = ["none", "some", "every one"];

/// The functions that an entry is asked to count.
pub const FUNCTIONS: [(&str, u32); 4] =
    [("no function", 0), ("F0 alone", 1), ("F28 alone", 1 << 28), ("F0 to F28", (1 << 29) - 1)];

/// Numbers that no states have.
pub const PASSED: [u16; 2] = [32_768, 65_535];

/// The number is wrong for these states.
fn disagrees(module: &Module, states: &[u8]) -> bool {
    !states.is_empty() && module.stateson != states_on(states)
}

fn bit_0(states: &[u8]) -> bool {
    states.first().is_some_and(|byte| byte & 1 == 1)
}

// Packets.

/// A packet that was completed, with the record and the states before it.
pub fn count_states(before: &Module, packet: &[u8], states: &[u8]) {
    let (first, data) = (packet[0], packet[1]);
    let (number, on) = match (first, before.half) {
        (0x6D, _) => ((data & 127) as usize, data & 128 != 0),
        (0x6F, Half::State) => (128 * data as usize + (before.halfbyte & 127) as usize, before.halfbyte & 128 != 0),
        _ => return,
    };
    match (first, number) {
        (0x6D, 0) => count_short(before, on, states),
        (_, 0) => count_long(before, on, states),
        _ => count_one(before, &format!("0x{first:02X}"), number, on, states),
    }
}

fn count_one(before: &Module, packet: &str, number: usize, on: bool, states: &[u8]) {
    let was = states[number / 8] >> (number % 8) & 1 == 1;
    let place = match (on, was) {
        (true, false) => 0,
        (true, true) => 1,
        (false, true) => 2,
        (false, false) => 3,
    };
    branch!("{packet} {}", ONE[place]);
    mark_if(number < 8 && bit_0(states), "one state beside bit 0 of byte 0");
    if on == was {
        mark_if(disagrees(before, states), "a state set twice leaves a wrong number");
        return;
    }
    mark_if(LIMITS.contains(&number), &format!("the number is moved by state {number}"));
    mark_if(disagrees(before, states), "a wrong number is moved by one state");
    match (on, before.stateson) {
        (true, 65_534 | 65_535 | 32_767) => branch!("one state more than {}", before.stateson),
        (false, 0 | 1) => branch!("one state less than {}", before.stateson),
        _ => {}
    }
}

fn count_short(before: &Module, on: bool, states: &[u8]) {
    let name = if on { "0x6D all on" } else { "0x6D all off" };
    let were = states_on(&states[..16]);
    branch!("{name}, {} on before", BEFORE[(were > 0) as usize + (were == 127) as usize]);
    mark_if(bit_0(states), &format!("{name} with bit 0 of byte 0"));
    mark_if(disagrees(before, states), &format!("{name} moves a wrong number"));
    let more = if on { 127 - were } else { 0 };
    mark_if(more > 0 && before.stateson == 65_535 - more, "0x6D all on goes up to 65535");
    mark_if(more > 0 && before.stateson > 65_535 - more, "0x6D all on goes round");
    mark_if(!on && were > 0 && before.stateson == were, "0x6D all off goes down to 0");
    mark_if(!on && before.stateson < were, "0x6D all off goes round");
}

fn count_long(before: &Module, on: bool, states: &[u8]) {
    let name = if on { "0x6F all on" } else { "0x6F all off" };
    mark_if(bit_0(states), &format!("{name} with bit 0 of byte 0"));
    mark_if(disagrees(before, states), &format!("{name} sets a wrong number right"));
}

// Entries.

/// Numbers that row 12 lets pass, in every entry.
pub fn count_number_passed(module: &Module) {
    mark_if(PASSED.contains(&module.stateson), &format!("row 12 lets pass a number of {}", module.stateson));
}

/// A restart that is done.
pub fn count_number_restarted(module: &Module, states: &[u8]) {
    mark_if(disagrees(module, states), "restart sets a wrong number right");
    mark_if(bit_0(states), "restart puts off bit 0 of byte 0");
}

/// The light entry, not refused.
pub fn count_counts(module: &Module, states: &[u8]) {
    count_functions(module, "counts");
    if states.len() != STATES {
        branch!("counts, whatever is lent");
        return;
    }
    mark_if(disagrees(module, states), "counts gives a wrong number");
}

/// Whether the check would refuse with 4, or with 12 for the number.
pub fn check_refuses_later(module: &Module, states: &[u8]) -> bool {
    states.len() != STATES || disagrees(module, states)
}

/// The check of a possible record.
pub fn count_check(module: &Module, states: &[u8]) {
    if states.len() != STATES {
        mark_if(states.len() + 1 == STATES, "check refuses 4: states one short");
        mark_if(states.len() == STATES + 1, "check refuses 4: states one long");
        mark_if(disagrees(module, states), "order 4 before 12 for the number");
        return;
    }
    let (kept, are) = (module.stateson, states_on(states));
    if kept != are {
        mark_if(kept == are + 1, "check refuses 12 for the number: one too many");
        mark_if(kept == are + 1 && bit_0(states), "check refuses 12 for the number: with bit 0 of byte 0");
        mark_if(are > 0 && kept == are - 1, "check refuses 12 for the number: one too few");
        return;
    }
    count_functions(module, "check");
    mark_if(bit_0(states), "check leaves out bit 0 of byte 0");
    match are {
        0 => branch!("check recounts no state"),
        1 => {
            mark_if(states[0] & 2 != 0, "check recounts state 1 alone");
            mark_if(states[STATES - 1] & 128 != 0, "check recounts state 32767 alone");
        }
        LONG_STATES => branch!("check recounts every state"),
        _ => branch!("check recounts some states"),
    }
}

fn count_functions(module: &Module, entry: &str) {
    for (name, functions) in FUNCTIONS {
        mark_if(module.functions == functions, &format!("{entry}: {name}"));
    }
}

// The statement `states`.

pub fn count_put(module: &Module, place: usize, value: u8, lent: usize) {
    mark_if(place == 0 && value & 1 == 1, "replay: states sets bit 0 of byte 0");
    mark_if(place == STATES - 1, "replay: states at the last place");
    mark_if(place >= lent, "replay: states past what is lent");
    mark_if(module.receiver.started != 0, "replay: states behind an edge");
}

/// What is shown with bit 0 of byte 0 set.
pub fn count_shown(states: &[u8]) {
    mark_if(bit_0(states), "replay: show with state 0");
}
