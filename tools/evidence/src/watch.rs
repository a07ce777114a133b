//! Looks on while the reading runs a scenario, and counts the cases that lie next to each other at a border of a rule.
//! It goes through each feed once more, edge by edge, on copies. Nothing here changes what the module does.

use crate::watch_clock::{count_clock_passed, count_clock_refused, count_gap, started_by, two_without_meaning};
use crate::watch_counts::{check_refuses_later, count_check, count_counts, count_number_passed};
use crate::watch_counts::{count_number_restarted, count_put, count_shown, count_states};
use crate::watch_fixed::{count_bank_254, count_fixed_put, count_lengths, count_passed, count_rules, count_view};
use crate::watch_packet::{mark_if, packet_done};
use crate::watch_position::{count_position, count_position_passed, count_position_refused};
use reference::banks::CELLS;
use reference::branch;
use reference::branch::quietly;
use reference::grammar::{Statement, LATEST, MOST_BYTES};
use reference::host::{encode, read_bank};
use reference::module::{legal, legal_half, reserved_status, wrong_lengths};
use reference::module::{Answer, Half, Lent, Module, Position, ROOM, STATES};
use reference::receiver::packet_length;
use reference::refusal::Refusal;
use reference::replay::Watcher;

/// Pieces longer than this are fed in blocks by some programs.
const BLOCK: usize = 4_096;

/// Lengths that are wrong by one, for a feed alone.
pub const LENGTHS: [&str; 3] = ["states one short", "states one long", "room one short"];

pub const RESTARTED: [&str; 12] = [
    "actual",
    "wanted",
    "load",
    "address",
    "functions",
    "control bits",
    "status 0",
    "status 1",
    "WAIT",
    "the clock",
    "the position",
    "the number of states on",
];

/// Counts what it sees by name.
pub struct Watch;

impl Watcher for Watch {
    fn feed(&mut self, module: &Module, times: &[u64], levels: &[u8], lent: &Lent) {
        if feed_refused(module, times, levels, lent) {
            if times.len() > BLOCK {
                branch!("feed of over 4096 edges is refused");
            }
            return;
        }
        count_sizes(lent.sheet);
        count_passed(lent.fixed);
        count_begin(module, times);
        follow(module, times, levels, lent);
    }

    fn statement(&mut self, module: &Module, statement: &Statement, lent: &Lent) {
        match statement {
            Statement::Bytes(time, bytes) => {
                mark_if(*time == LATEST, "replay: bytes at the latest time");
                mark_if(bytes.len() == MOST_BYTES, "replay: bytes, 300 of them");
                mark_if(bytes.len() == 1, "replay: bytes, one of them");
            }
            Statement::Post(message) => count_post(module, *message),
            Statement::Status(number, value) => {
                record_refused(module, "status", *number > 1 || value & reserved_status(*number) != 0);
            }
            Statement::Wait(_) => {
                record_refused(module, "wait", false);
            }
            Statement::Restart => count_restart(module, lent.states),
            Statement::Counts => {
                if !record_refused(module, "counts", false) {
                    count_counts(module, lent.states);
                }
            }
            Statement::Check => {
                if !record_refused(module, "check", check_refuses_later(module, lent.states)) {
                    count_check(module, lent.states);
                }
            }
            Statement::States(place, value) => count_put(module, *place, *value, lent.states.len()),
            Statement::Fixed(offset, _) => count_fixed_put(module, *offset, lent.fixed.len()),
            Statement::View(bank) => count_view(module, *bank, lent),
            Statement::Show => count_shown(lent.states),
            Statement::Encode(command) if quietly(|| encode(*command)).is_ok() => {
                let name = format!("{command:?}").to_lowercase();
                branch!("encode {}", name.split(|c: char| !c.is_alphanumeric()).next().unwrap_or_default());
            }
            Statement::Read(reply) => count_read(reply, lent.room.len()),
            _ => {}
        }
    }
}

// Row 12, and the rows behind it.

/// Row 12 of an entry that would have refused with a later row too, or not.
fn record_refused(module: &Module, entry: &str, later: bool) -> bool {
    let broken = module.broken_clauses();
    if module.receiver.held == 2 && broken.len() < 2 {
        count_limit(module.receiver.first, broken.is_empty());
    }
    if broken.is_empty() {
        count_neighbours(module);
        count_clock_passed(module);
        count_position_passed(module);
        count_number_passed(module);
        return false;
    }
    count_clock_refused(&module.receiver, &broken);
    count_position_refused(module, &broken);
    for clause in &broken {
        branch!("{entry} refuses 12: {clause}");
    }
    if broken.len() == 1 {
        branch!("row 12 for this alone: {}", broken[0]);
    }
    if later {
        branch!("order 12 before the rest: {entry}");
    }
    true
}

/// Two held bytes with nothing else against them, at the limits of C-02.
fn count_limit(first: u8, passed: bool) {
    match (first, passed) {
        (0x70 | 0x7F, true) => branch!("row 12 lets pass two held bytes that begin 0x{first:02X}"),
        (0x6F | 0x80, false) => branch!("row 12 refuses two held bytes that begin 0x{first:02X}"),
        _ => {}
    }
}

/// The nearest records that row 12 lets pass.
fn count_neighbours(module: &Module) {
    let held = &module.receiver;
    let last_queued = module.queue[4 * module.queued.clamp(1, 8) as usize - 1];
    let near = [
        (held.count == 7, "over 7 held bits"),
        (held.count > 0 && held.bits >> (held.count.max(1) - 1) == 1, "set bits above their count"),
        (held.held == 1 && held.first != 0, "unused first byte not 0"),
        (held.held == 2 && held.second != 0, "unused second byte not 0"),
        (held.held == 2, "over 2 held bytes"),
        (held.held == 1 && packet_length(held.first) == 2, "two held bytes of a two-byte packet"),
        (held.started == 1 && (held.count != 0 || held.held != 0), "bits or bytes held without a start"),
        (held.started != 0 && held.start == held.last, "start after the last edge"),
        (module.half != Half::None && module.halfbyte != 0, "unused half byte not 0"),
        (module.half == Half::Position && module.halfbyte == 15, "position half over 15"),
        (matches!(module.position, Position::Heard { address: 2_047, .. }), "position over 2047"),
        (module.queued > 0 && last_queued != 0, "unused queue byte not 0"),
        (module.number == 3, "CV 897 over 3"),
        (module.queued == 8, "queue over 8"),
        (module.status0 == 0x13, "reserved bit of status 0"),
        (module.status1 == 3, "reserved bit of status 1"),
        (module.control == 3, "reserved control bit"),
        (module.wait == 1, "reserved WAIT bit"),
        (module.functions == (1 << 29) - 1, "reserved function bit"),
        (module.load == 127, "load over 127"),
    ];
    for (is, name) in near {
        mark_if(is, &format!("row 12 lets pass the neighbour of: {name}"));
    }
}

/// Whether rows 12, 4, 5 and 1 refuse a feed, and for what.
fn feed_refused(module: &Module, times: &[u64], levels: &[u8], lent: &Lent) -> bool {
    let (lengths, rules) = (wrong_lengths(lent), lent.banks().broken_rules());
    let differ = times.len() != levels.len();
    if record_refused(module, "feed", !lengths.is_empty() || !rules.is_empty() || differ) {
        return true;
    }
    if !lengths.is_empty() {
        count_row("feed refuses 4", &lengths, &[("4 before 5", !rules.is_empty()), ("4 before 1", differ)]);
        count_lengths("feed", lent.banks());
        count_other_lengths(lent);
        mark_if(times.is_empty(), "empty piece refused with 4");
        return true;
    }
    if !rules.is_empty() {
        count_row("feed refuses 5", &rules, &[("5 before 1", differ)]);
        count_rules("feed", lent.banks());
        mark_if(times.is_empty(), "empty piece refused with 5");
        return true;
    }
    if differ {
        let bad_level = levels.first().is_some_and(|&level| level > 1);
        let early = times.first().is_some_and(|&time| time < module.receiver.last);
        count_row("feed refuses 1", &["lists differ"], &[("1 before 2", bad_level), ("1 before 3", early)]);
    }
    differ
}

/// A row that refuses, for one cause alone or for more, and the later rows that would have refused too.
fn count_row(row: &str, causes: &[&str], order: &[(&str, bool)]) {
    if causes.len() == 1 {
        branch!("{row} for this alone: {}", causes[0]);
    }
    for (name, also) in order {
        mark_if(*also, &format!("order {name}"));
    }
}

/// Lengths of states and room that are wrong by one.
fn count_other_lengths(lent: &Lent) {
    let wrong = [lent.states.len() + 1 == STATES, lent.states.len() == STATES + 1, lent.room.len() + 1 == ROOM];
    for (length, wrong) in LENGTHS.iter().zip(wrong) {
        mark_if(wrong, &format!("feed refuses 4: {length}"));
    }
}

/// The nearest size sheets that row 5 lets pass.
fn count_sizes(sheet: &[u8]) {
    for bank in [0, 1] {
        mark_if(sheet[bank] == 2, &format!("row 5 lets pass bank {bank} of 2 cells"));
    }
    mark_if(sheet[2..].contains(&40), "row 5 lets pass a later bank of 40 cells");
}

// Edges.

/// Where in a packet or pair a feed begins.
fn count_begin(module: &Module, times: &[u64]) {
    let Some(&first) = times.first() else {
        branch!("feed of an empty piece");
        return;
    };
    mark_if(times.len() > BLOCK, "feed of over 4096 edges");
    let held = [
        (module.receiver.count != 0, "inside a byte"),
        (module.receiver.held != 0, "between the bytes of a packet"),
        (two_without_meaning(&module.receiver), "behind two bytes without meaning"),
        (module.half != Half::None, "between the halves of a pair"),
        (module.half == Half::Position, "between the halves of a position"),
    ];
    for (is, place) in held {
        mark_if(is, &format!("feed begins {place}"));
        mark_if(is && module.receiver.pause_before(first), &format!("feed begins {place} with a pause"));
    }
}

/// Goes through the edges as the feed will, on copies.
fn follow(module: &Module, times: &[u64], levels: &[u8], lent: &Lent) {
    let mut module = module.clone();
    let (mut states, mut store, mut room) = (lent.states.to_vec(), lent.store.to_vec(), lent.room.to_vec());
    let mut lent =
        Lent { states: &mut states, store: &mut store, sheet: lent.sheet, fixed: lent.fixed, room: &mut room };
    let mut start = None;
    for (place, (&time, &level)) in times.iter().zip(levels).enumerate() {
        let Ok(packet) = module.receiver.clone().edge(time, level) else {
            count_bad_edge(&module, place, time, level);
            return;
        };
        count_gap(&module, start, time);
        start = started_by(&module.receiver, time, packet.is_some()).or(start);
        let before = packet.is_some().then(|| module.clone());
        let later_states = packet.is_some() && lent.states[16..].iter().any(|&byte| byte != 0);
        if let (Some(packet), Some(before)) = (&packet, &before) {
            count_states(before, packet, lent.states);
        }
        let answer = quietly(|| module.edge(time, level, &mut lent));
        let (Some(packet), Some(before), Ok(Some(answer))) = (packet, before, answer) else { continue };
        packet_done(&before, &packet, &answer, lent.sheet, later_states);
        count_position(&before, &packet, &answer, lent.room);
        let done = matches!(answer, Answer::Acknowledged(_));
        count_bank_254(&before, &packet, done, &lent);
        if done {
            count_stop(&times[place..], &levels[place..]);
            return;
        }
    }
}

/// A bad edge, with the record as the edges before left it.
fn count_bad_edge(module: &Module, before: usize, time: u64, level: u8) {
    let row = if level > 1 { 2 } else { 3 };
    let place = if before == 0 { "at its first edge" } else { "behind others" };
    branch!("feed refuses {row} {place}");
    mark_if(level > 1 && time < module.receiver.last, "order 2 before 3");
    if row == 2 && module.receiver.pause_before(time) {
        mark_if(module.receiver.count != 0, "bad level after a pause with held bits");
        mark_if(module.receiver.held != 0, "bad level after a pause with held bytes");
        mark_if(module.half != Half::None, "bad level after a pause with a held half");
    }
    mark_if(module.receiver.started == 0, "bad edge starts no clock");
    mark_if(module.receiver.started > 1, "bad edge leaves a mark over 1");
}

/// Where a feed stops: the acknowledged edge and what stands behind it in the piece.
fn count_stop(times: &[u64], levels: &[u8]) {
    if times.len() == 1 {
        branch!("feed ends at an acknowledged command");
        return;
    }
    branch!("feed stops at an acknowledged command");
    mark_if(levels[1] > 1 || times[1] < times[0], "feed does not see a bad edge behind an acknowledged one");
}

// The application's side.

fn count_restart(module: &Module, states: &[u8]) {
    if record_refused(module, "restart", states.len() != STATES) || states.len() != STATES {
        return;
    }
    let held = module.receiver.count != 0 || module.receiver.held != 0;
    mark_if(held, "restart drops held bits or bytes");
    mark_if(module.half != Half::None, "restart drops a held half");
    mark_if(module.queued != 0, "restart empties the queue");
    mark_if(module.registered, "restart ends the registration");
    mark_if(states.iter().any(|&byte| byte != 0), "restart puts states off");
    mark_if(module.number != 1 || module.bank != 0, "restart keeps CV 897 and CV 1021");
    let not_as_new = [
        module.actual != 0,
        module.wanted != 0,
        module.load != 0,
        module.address != 0,
        module.functions != 0,
        module.control != 3,
        module.status0 != 0,
        module.status1 != 0,
        module.wait != 0,
        module.receiver.started != 0,
        module.position != Position::Unknown,
        module.stateson != 0,
    ];
    count_number_restarted(module, states);
    for (field, is) in RESTARTED.iter().zip(not_as_new) {
        mark_if(is, &format!("restart sets back {field}"));
    }
}

fn count_post(module: &Module, message: [u8; 4]) {
    let [header0, data0, header1, data1] = message;
    let fits = legal(message);
    if (header0, header1) == (0x88, 0x89) {
        branch!("post 88 89 {}", if fits { "yes" } else { "no" });
    } else {
        count_half_posted(header0, data0);
        count_half_posted(header1, data1);
    }
    let full = module.queued == 8;
    if record_refused(module, "post", !fits) {
        mark_if(full, "order 12 before 7");
        return;
    }
    mark_if(full && !fits, "order 6 before 7");
    if fits && !full {
        branch!("post takes {header0:02X}");
        branch!("post takes {header1:02X}");
    }
}

fn count_half_posted(header: u8, data: u8) {
    match header {
        0x80..=0x85 | 0x8C | 0x8D => {
            branch!("post half {header:02X} {}", if legal_half(header, data) { "yes" } else { "no" })
        }
        0x88 | 0x89 => branch!("post half {header:02X} without its partner"),
        0x8A | 0x8E | 0x8F => branch!("post half of a reply's header"),
        _ => branch!("post half of another header"),
    }
    match (header, data) {
        (0x81, 32) => branch!("post 81 with 32"),
        (0x81, 96..) => branch!("post 81 with 96 or more"),
        (0x82, 96..) => branch!("post 82 with 96 or more"),
        (0x85, 8) => branch!("post 85 with 8"),
        _ => {}
    }
}

// The bank reply reader.

fn count_read(reply: &[u8], room: usize) {
    if let 39 | 40 = room {
        branch!("read with room for {room}");
    }
    let result = quietly(|| read_bank(reply, &mut [0; CELLS]));
    if room < CELLS {
        mark_if(result == Err(Refusal::Shape), "order 4 before 9");
        mark_if(result == Err(Refusal::Checksum), "order 4 before 10");
        return;
    }
    match result {
        Ok(0) => branch!("read no cells"),
        Ok(40) => branch!("read 40 cells"),
        Ok(n) if n % 2 == 1 => branch!("read an odd number of cells"),
        Ok(_) => branch!("read an even number of cells"),
        Err(_) => {}
    }
    mark_if(matches!(result, Ok(38 | 39)), "read takes an end group as the 20th");
    let cells = |bytes: &[u8]| matches!(bytes, [0x8F, _, 0x8F, _]);
    let of_cells = reply.chunks(4).take(21).all(cells);
    mark_if(reply.len() == 88 && of_cells, "read refuses 9: 22 groups of which 21 are cells");
}
