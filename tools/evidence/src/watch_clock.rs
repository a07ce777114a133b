//! What is counted of the clock of C-03: edges at its limits, what a pause drops, and its two parts of row 12.

use crate::watch_packet::{half_name, mark_if, THIRTEEN};
use reference::branch;
use reference::module::{Half, Module};
use reference::receiver::{Receiver, PAUSE};

/// What starts the clock (C-03).
pub const STARTS: [&str; 4] = ["a first edge", "a pause's edge", "a byte inside a packet", "a packet's last byte"];

/// Where an edge stands when the clock is over, or nearly.
pub const PLACES: [&str; 4] =
    ["a packet's first edge", "a later byte's first edge", "an edge inside a byte", "a byte's eighth edge"];

// Row 12.

/// C-03's two parts of row 12 with nothing else against the record.
pub fn count_clock_refused(held: &Receiver, broken: &[&str]) {
    match broken {
        ["bits or bytes held without a start"] => match (held.count, held.held) {
            (_, 0) => branch!("row 12 refuses held bits without a start"),
            (0, 1) => branch!("row 12 refuses one held byte without a start"),
            (0, _) => branch!("row 12 refuses two held bytes without a start"),
            _ => {}
        },
        ["start after the last edge"] => {
            mark_if(held.start == held.last + 1, "row 12 refuses a start 1 us after the last edge");
            mark_if(held.started > 1, "row 12 refuses a start after the last edge, mark over 1");
        }
        _ => {}
    }
}

/// What C-03's parts of row 12 let pass.
pub fn count_clock_passed(module: &Module) {
    let held = &module.receiver;
    if held.started == 0 {
        mark_if(module.half != Half::None, "row 12 lets pass a held half without a start");
        mark_if(held.start > held.last, "row 12 lets pass a start after the last edge, mark clear");
        return;
    }
    let anything = held.count != 0 || held.held != 0;
    mark_if(anything && held.started > 1, "row 12 lets pass bits or bytes held, mark over 1");
    let old = held.last - held.start >= PAUSE;
    mark_if(old, "row 12 lets pass a start 8000 us and more before the last edge");
}

// Edges.

/// Whether two bytes of one of the thirteen are held.
pub fn two_without_meaning(held: &Receiver) -> bool {
    held.held == 2 && THIRTEEN.contains(&held.first)
}

/// What of STARTS this good edge is, if it starts the clock.
pub fn started_by(held: &Receiver, time: u64, completes: bool) -> Option<usize> {
    match (held.started, held.pause_before(time), held.count) {
        (0, _, _) => Some(0),
        (_, true, _) => Some(1),
        (_, _, 7) => Some(if completes { 3 } else { 2 }),
        _ => None,
    }
}

/// Where this edge stands by the clock, and what started that if this feed has seen it.
pub fn count_gap(module: &Module, start: Option<usize>, time: u64) {
    let held = &module.receiver;
    let anything = held.count != 0 || held.held != 0;
    mark_if(time == held.last && anything, "edge at the time of the one before");
    if held.started == 0 {
        count_first_edge(module, time);
        return;
    }
    mark_if(held.started > 1, "edge with a mark over 1");
    let past = time - held.start;
    if past == PAUSE - 1 || past == PAUSE {
        count_clock_limit(module, start, past == PAUSE);
    }
    if past >= PAUSE {
        mark_if(time - held.last < PAUSE, "pause between edges less than 8000 us apart");
        count_pause(module);
    }
}

/// An edge that starts a clock that did not run.
fn count_first_edge(module: &Module, time: u64) {
    let start = module.receiver.start;
    mark_if(time >= PAUSE, "first edge after 8000 us and more is no pause");
    mark_if(start > time, "first edge does not read a later start");
    if module.half != Half::None {
        branch!("first edge leaves a held half");
        mark_if(time >= start && time - start >= PAUSE, "first edge leaves a held half, whatever the start");
    }
}

/// 7,999 or 8,000 µs after the start: what started the clock, and which edge this is.
fn count_clock_limit(module: &Module, start: Option<usize>, pause: bool) {
    let held = &module.receiver;
    let place = match (held.count, held.held) {
        (0, 0) => PLACES[0],
        (0, _) => PLACES[1],
        (7, _) => PLACES[3],
        _ => PLACES[2],
    };
    let (time, is, what) = if pause { (8_000, "is a", "a") } else { (7_999, "is no", "no") };
    branch!("{time} us after the start, {what} pause: {place}");
    if let Some(start) = start {
        branch!("{time} us after {} {is} pause", STARTS[start]);
    }
    if module.half != Half::None && (held.count, held.held) == (7, 0) {
        let done = if pause { "dropped" } else { "kept" };
        branch!("{} half {done} by an eighth edge after {time} us", half_name(module.half));
    }
}

/// What a pause drops.
fn count_pause(module: &Module) {
    let held = &module.receiver;
    mark_if(held.count != 0, "pause drops held bits");
    mark_if(held.held == 1, "pause drops one held byte");
    mark_if(held.held == 2, "pause drops two held bytes");
    mark_if(two_without_meaning(held), "pause drops two held bytes without meaning");
    mark_if(held.count == 0 && held.held == 0, "pause between packets");
    if module.half == Half::None {
        return;
    }
    let half = half_name(module.half);
    branch!("{half} half dropped by a pause");
    mark_if(held.count != 0, &format!("{half} half dropped by a pause inside a byte"));
    mark_if(held.held != 0, &format!("{half} half dropped by a pause inside a packet"));
}
