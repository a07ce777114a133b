//! The list of all branches of the paper that are counted, and which of them were reached.

use crate::watch::{LENGTHS, RESTARTED};
use crate::watch_clock::{PLACES, STARTS};
use crate::watch_counts::{BEFORE, FUNCTIONS, LIMITS, ONE, PASSED};
use crate::watch_fixed::{ASKED, BANK_LENGTHS, BUFFERS, FAR_LENGTHS, NEAR_VERSIONS, READ, RULES, UNUSED, VIEWED};
use crate::watch_packet::{BORDERS, COMMON_CVS, THIRTEEN};
use reference::branch;

/// All branches and how often they were reached so far, by name. Another name than these is a mistake.
pub fn totals() -> Vec<(String, u64)> {
    let mut names = names();
    names.sort();
    for name in branch::taken() {
        assert!(names.binary_search(&name).is_ok(), "no branch has the name: {name}");
    }
    names.into_iter().map(|name| (name.clone(), branch::times(&name))).collect()
}

/// The clauses of row 12.
const CLAUSES: [&str; 20] = [
    "over 7 held bits",
    "set bits above their count",
    "unused first byte not 0",
    "unused second byte not 0",
    "over 2 held bytes",
    "two held bytes of a two-byte packet",
    "bits or bytes held without a start",
    "start after the last edge",
    "unused half byte not 0",
    "position half over 15",
    "position over 2047",
    "unused queue byte not 0",
    "CV 897 over 3",
    "queue over 8",
    "reserved bit of status 0",
    "reserved bit of status 1",
    "reserved control bit",
    "reserved WAIT bit",
    "reserved function bit",
    "load over 127",
];

/// Places whose verify may be true and may be false.
const READABLE: [&str; 14] = [
    "CV 897",
    "CV 898",
    "CV 899",
    "CV 1020",
    "CV 1021",
    "CV 1022",
    "CV 1023",
    "CV 1024",
    "bank 0 offset 0",
    "bank 0 offset 1",
    "bank 1 offset 0",
    "bank 1 offset 1",
    "used cell",
    "last used cell",
];

/// Places of which no verify is true.
const UNREADABLE: [&str; 5] = [
    "cell of another module",
    "bank 254 offset 0",
    "cell of a bank of size 0",
    "first cell past the size",
    "later cell past the size",
];

/// Readable places that no write changes.
const FIXED: [&str; 11] = [
    "CV 898",
    "CV 899",
    "CV 1020",
    "CV 1022",
    "CV 1023",
    "CV 1024",
    "bank 0 offset 0",
    "bank 0 offset 1",
    "bank 1 offset 0",
    "bank 1 offset 1",
    "bank 254 offset 1",
];

/// Every name that can be counted.
pub fn names() -> Vec<String> {
    let mut names: Vec<String> = NAMES.iter().map(|name| name.to_string()).collect();
    names.extend(near_names());
    for clause in CLAUSES {
        names.push(format!("row 12 for this alone: {clause}"));
        names.push(format!("row 12 lets pass the neighbour of: {clause}"));
    }
    for verify in ["0x77 verify", "0x7B verify"] {
        for place in READABLE {
            names.push(format!("{verify} {place} yes"));
            names.push(format!("{verify} {place} no"));
        }
        names.push(format!("{verify} bank 254 offset 1 yes"));
        names.push(format!("{verify} bank 254 offset 1 no"));
        names.extend(UNREADABLE.map(|place| format!("{verify} {place} no")));
    }
    for write in ["0x7B write", "0x7F write"] {
        names.extend(UNREADABLE.map(|place| format!("{write} {place} no")));
        names.extend(FIXED.map(|place| format!("{write} {place} no")));
        names.extend(["CV 897", "CV 1021", "used cell", "last used cell"].map(|place| format!("{write} {place} yes")));
        names.push(format!("{write} CV 897 no"));
    }
    for (half, own) in KINDS {
        names.extend(HALVES.map(|what| format!("{half} half {what}")));
        for (_, other) in KINDS.iter().filter(|(_, other)| *other != own) {
            names.push(format!("{half} half replaced by 0x{other:02X}"));
            names.push(format!("{half} half dropped by 0x{:02X}", other + 1));
        }
    }
    for queued in 1..=8 {
        names.push(format!("post makes the queue {queued} long"));
        names.push(format!("0x01 takes a message from {queued}"));
    }
    for bank in BANKS {
        names.push(format!("bank read asks for {bank}"));
        names.push(format!("0x0F in {bank}"));
    }
    for number in 0..=3 {
        names.push(format!("CV 897 becomes {number}"));
    }
    names.extend(COMMANDS.map(|first| format!("command 0x{first:02X}")));
    names.extend(THIRTEEN.map(|first| format!("three-byte packet without meaning, 0x{first:02X}")));
    for command in ENCODED {
        names.push(format!("encode {command}"));
    }
    names.extend(WITH_LIMITS.map(|limit| format!("encode has no room: {limit}")));
    names.extend(WITH_LIMITS.map(|limit| format!("encode has just room: {limit}")));
    names
}

/// The names of the cases at borders that have a number or a word in them.
fn near_names() -> Vec<String> {
    let mut names: Vec<String> = LENGTHS.iter().map(|length| format!("feed refuses 4: {length}")).collect();
    names.extend(RESTARTED.map(|field| format!("restart sets back {field}")));
    for start in STARTS {
        names.push(format!("7999 us after {start} is no pause"));
        names.push(format!("8000 us after {start} is a pause"));
    }
    for place in PLACES {
        names.push(format!("7999 us after the start, no pause: {place}"));
        names.push(format!("8000 us after the start, a pause: {place}"));
    }
    names.extend(COMMON_CVS.map(|cv| format!("0x0F of CV {cv}")));
    for number in 1..=3 {
        for border in BORDERS {
            names.push(format!("CV packet at module {number}: {border} of its own"));
            names.push(format!("0x0F at module {number}: {border} of its own"));
        }
    }
    for what in ["0x7B verify", "0x7B write"] {
        names.extend([0, 1].map(|bit| format!("{what} of a {bit} done")));
    }
    for header in ["80", "81", "82", "83", "84", "85", "88", "89", "8C", "8D"] {
        names.push(format!("post takes {header}"));
    }
    for entry in ["feed", "restart", "post", "status", "wait", "counts", "check"] {
        names.extend(CLAUSES.map(|clause| format!("{entry} refuses 12: {clause}")));
    }
    names.extend(number_names());
    names.extend(fixed_names());
    names
}

/// The names of the cases of the number of states on (C-05) that are like each other.
fn number_names() -> Vec<String> {
    let mut names: Vec<String> = LIMITS.iter().map(|state| format!("the number is moved by state {state}")).collect();
    for packet in ["0x6D", "0x6F"] {
        names.extend(ONE.map(|what| format!("{packet} {what}")));
    }
    for all in ["all on", "all off"] {
        names.extend(BEFORE.map(|before| format!("0x6D {all}, {before} on before")));
        names.extend(["0x6D", "0x6F"].map(|packet| format!("{packet} {all} with bit 0 of byte 0")));
        names.push(format!("0x6D {all} moves a wrong number"));
        names.push(format!("0x6F {all} sets a wrong number right"));
    }
    for entry in ["counts", "check"] {
        names.extend(FUNCTIONS.map(|(name, _)| format!("{entry}: {name}")));
    }
    names.extend(PASSED.map(|number| format!("row 12 lets pass a number of {number}")));
    names
}

/// The names of the cases of the fixed sheet and of views (C-13) that are like each other.
fn fixed_names() -> Vec<String> {
    let mut names: Vec<String> = BANKS.iter().map(|bank| format!("view of {bank}")).collect();
    for entry in ["feed", "view"] {
        names.extend(BANK_LENGTHS.map(|length| format!("{entry} refuses 4: {length}")));
        names.extend(FAR_LENGTHS.map(|bytes| format!("{entry} refuses 4: fixed of {bytes} bytes")));
        names.extend(BUFFERS.map(|buffer| format!("{entry} refuses 4 for this alone: {buffer}")));
        names.extend(NEAR_VERSIONS.map(|byte| format!("{entry} refuses 5: byte 1 of the fixed sheet is {byte}")));
        names.extend(RULES.map(|rule| format!("{entry} refuses 5 for this alone: {rule}")));
        names.push(format!("{entry} refuses 5 for both sheets"));
    }
    for asked in ASKED {
        names.extend(UNUSED.map(|offset| format!("{asked} in bank 254 at offset {offset}")));
    }
    for verify in &ASKED[..2] {
        for place in ["byte 0", "byte 1", "an unused byte"] {
            names.push(format!("{verify} of {place} as the fixed sheet has it and not the store"));
            names.push(format!("{verify} of {place} as the store has it and not the fixed sheet"));
        }
    }
    names.extend(READ.map(|offset| format!("0x0F in bank 254 at offset {offset}")));
    names.extend([1, 2, 3].map(|number| format!("bank 254 verified at module {number}")));
    names.extend(VIEWED.map(|cells| format!("view of {cells} cells")));
    names
}

/// The commands of the encoder, as a scenario names them.
pub const ENCODED: [&str; 23] = [
    "noop",
    "actual",
    "wanted",
    "load",
    "addresslow",
    "addresshigh",
    "functions0",
    "functions5",
    "functions13",
    "functions21",
    "control",
    "state",
    "longlow",
    "longhigh",
    "verify",
    "write",
    "verifybit",
    "writebit",
    "call",
    "bank",
    "readcv",
    "positionhigh",
    "positionlow",
];

/// The limits that a command's values have.
const WITH_LIMITS: [&str; 24] = [
    "load over 127",
    "functions0 over 31",
    "control over 3",
    "state over 127",
    "longlow over 127",
    "verify CV under 897",
    "verify CV over 1024",
    "write CV under 897",
    "write CV over 1024",
    "verifybit CV under 897",
    "verifybit CV over 1024",
    "verifybit place over 7",
    "verifybit value over 1",
    "writebit CV under 897",
    "writebit CV over 1024",
    "writebit place over 7",
    "writebit value over 1",
    "call module over 3",
    "call status over 3",
    "bank module under 1",
    "bank module over 3",
    "readcv CV under 769",
    "readcv CV over 1024",
    "positionhigh over 15",
];

const COMMANDS: [u8; 16] =
    [0x00, 0x24, 0x25, 0x26, 0x5E, 0x5F, 0x60, 0x61, 0x62, 0x63, 0x6C, 0x6D, 0x6E, 0x6F, 0x88, 0x89];

const BANKS: [&str; 8] =
    ["bank 0", "bank 1", "banks 2 to 250", "bank 251", "bank 252", "bank 253", "bank 254", "bank 255"];

/// The kinds of a held half, and the first byte of the packet that is held; the one that follows it begins with the next.
const KINDS: [(&str, u8); 3] = [("address", 0x5E), ("state", 0x6E), ("position", 0x88)];

const HALVES: [&str; 14] = [
    "used",
    "dropped by 0x00",
    "dropped by a pause",
    "dropped by a pause inside a byte",
    "dropped by a pause inside a packet",
    "kept by an eighth edge after 7999 us",
    "dropped by an eighth edge after 8000 us",
    "replaced by its like",
    "dropped by 0x88 over 15",
    "dropped by a CV packet",
    "dropped by a BiDi command",
    "dropped by another command",
    "dropped by a packet without meaning",
    "dropped by a three-byte packet without meaning",
];

const NAMES: &[&str] = &[
    // Edges, bits, pauses
    "edge at the time of the one before",
    "pause between edges less than 8000 us apart",
    "edge with a mark over 1",
    "first edge after 8000 us and more is no pause",
    "first edge leaves a held half",
    "first edge leaves a held half, whatever the start",
    "first edge does not read a later start",
    "pause drops held bits",
    "pause drops one held byte",
    "pause drops two held bytes",
    "pause drops two held bytes without meaning",
    "pause between packets",
    "feed of an empty piece",
    "feed takes the whole piece",
    "feed stops at an acknowledged command",
    "feed ends at an acknowledged command",
    "feed goes on after an unacknowledged command",
    "feed does not see a bad edge behind an acknowledged one",
    "feed of over 4096 edges",
    "feed of over 4096 edges is refused",
    "feed begins inside a byte",
    "feed begins inside a byte with a pause",
    "feed begins between the bytes of a packet",
    "feed begins between the bytes of a packet with a pause",
    "feed begins behind two bytes without meaning",
    "feed begins behind two bytes without meaning with a pause",
    "feed begins between the halves of a pair",
    "feed begins between the halves of a pair with a pause",
    "feed begins between the halves of a position",
    "feed begins between the halves of a position with a pause",
    // Commands
    "packet without meaning",
    "three-byte packet without meaning: second byte like a CV packet's first",
    "three-byte packet without meaning: second byte like a low half's first",
    "three-byte packet without meaning: third byte like a CV packet's first",
    "three-byte packet without meaning: third byte like a low half's first",
    "0x26 stores a load",
    "0x26 with bit 7 is ignored",
    "0x5F acts",
    "0x5F without its low half",
    "0x6C puts the functions off",
    "0x6C leaves the functions",
    "0x6D one on",
    "0x6D one off",
    "0x6D all on",
    "0x6D all off",
    "0x6F one on",
    "0x6F one off",
    "0x6F all on",
    "0x6F all off",
    "0x6F without its low half",
    "0x77 with bit 7 clear is ignored",
    "0x7B with bit 7 clear is ignored",
    "0x7F with bit 7 clear is ignored",
    "0x7B with other top bits is ignored",
    // Positions
    "0x88 is held",
    "0x88 with 15 is held",
    "0x88 over 15 is ignored",
    "0x88 with 16 is ignored",
    "0x89 acts",
    "0x89 without its high half",
    "0x89 without its high half leaves a position",
    "position heard, not extended",
    "position heard, extended",
    "position heard: address 0",
    "position heard: address 2047",
    "position heard in place of another",
    "position heard from its own message",
    "0x01 sends a position",
    // The number of states on
    "one state beside bit 0 of byte 0",
    "a state set twice leaves a wrong number",
    "a wrong number is moved by one state",
    "one state more than 32767",
    "one state more than 65534",
    "one state more than 65535",
    "one state less than 1",
    "one state less than 0",
    "0x6D all on goes up to 65535",
    "0x6D all on goes round",
    "0x6D all off goes down to 0",
    "0x6D all off goes round",
    "restart sets a wrong number right",
    "restart puts off bit 0 of byte 0",
    "counts",
    "counts refuses 12",
    "counts gives a wrong number",
    "counts, whatever is lent",
    "check",
    "check refuses 12",
    "check refuses 4",
    "check refuses 4: states one short",
    "check refuses 4: states one long",
    "check refuses 12 for the number",
    "check refuses 12 for the number: one too many",
    "check refuses 12 for the number: one too few",
    "check refuses 12 for the number: with bit 0 of byte 0",
    "check leaves out bit 0 of byte 0",
    "check recounts no state",
    "check recounts some states",
    "check recounts every state",
    "check recounts state 1 alone",
    "check recounts state 32767 alone",
    // The fixed sheet and views
    "0x77 verify of byte 1 against 10",
    "0x77 verify of byte 1 against 12",
    "bank read of 254 with byte 0 of the fixed sheet not 0",
    "bank read of 254 with another byte 0 in the store",
    "view of the fixed sheet",
    "view of the store",
    "view of size 0",
    "view of size 0, the store is not 0",
    "view that ends before a cell not 0",
    "view that is another one cell later",
    "view of bank 254 with byte 0 not 0",
    "view of bank 254, the store has other bytes",
    "view past CV 1021",
    "view, whatever the record",
    "view, whatever the states",
    "view, whatever the room",
    "view inside a packet",
    "view refuses 4",
    "view refuses 5",
    "refused view of bank 254",
    "refused view of a bank of size 0",
    "refused view of a bank of the store",
    // BiDi
    "0x01 to nobody",
    "0x01 to another module",
    "0x01 answered as module 1 by CV 897 at 0",
    "0x01 forced, status number 0",
    "0x01 forced, status number 1",
    "0x01 forced, status number 2",
    "0x01 forced, status number 3",
    "0x01 forced leaves the queue",
    "0x01 forced registers",
    "0x01 first empty call",
    "0x01 later empty call",
    "0x0F of no own CV",
    "0x0F of a CV below 897",
    "0x0F of a CV of another module",
    "0x0F first half is 8F",
    "0x0F first half is 8E 01",
    "0x0F second half is 8F",
    "0x0F second half is 8E 01",
    "0x0F second half is 8E 02 at module 1",
    "0x0F second half is 8E 02 at module 2",
    "0x0F second half is 8E 02 at module 3",
    "bank read of another module",
    "bank read of size 0",
    "bank read past CV 1021",
    "bank read of module 1",
    "bank read of module 2",
    "bank read of module 3",
    "bank reply of no cells",
    "bank reply of 1 cell",
    "bank reply of 38 cells",
    "bank reply of 39 cells",
    "bank reply of 40 cells",
    "bank reply of an odd number of cells",
    "bank reply of an even number of cells",
    // The application's side
    "post half 80 yes",
    "post half 80 no",
    "post half 81 yes",
    "post half 81 no",
    "post half 82 yes",
    "post half 82 no",
    "post half 83 yes",
    "post half 84 yes",
    "post half 85 yes",
    "post half 85 no",
    "post half 8C yes",
    "post half 8D yes",
    "post 88 89 yes",
    "post 88 89 no",
    "post half 88 without its partner",
    "post half 89 without its partner",
    "post half of a reply's header",
    "post half of another header",
    "post 81 with 32",
    "post 81 with 96 or more",
    "post 82 with 96 or more",
    "post 85 with 8",
    "post refuses 6",
    "post refuses 7",
    "post refuses 12",
    "status 0 set",
    "status 1 set",
    "status refuses 11: number over 1",
    "status refuses 11: reserved bit of status 0",
    "status refuses 11: reserved bit of status 1",
    "status refuses 12",
    "wait set to 0",
    "wait set to 1",
    "wait refuses 12",
    "restart",
    "restart refuses 4",
    "restart refuses 12",
    "restart drops held bits or bytes",
    "restart drops a held half",
    "restart empties the queue",
    "restart ends the registration",
    "restart puts states off",
    "restart keeps CV 897 and CV 1021",
    // Two held bytes, in every entry
    "row 12 refuses two held bytes that begin 0x6F",
    "row 12 lets pass two held bytes that begin 0x70",
    "row 12 lets pass two held bytes that begin 0x7F",
    "row 12 refuses two held bytes that begin 0x80",
    // The clock, in every entry
    "row 12 refuses held bits without a start",
    "row 12 refuses one held byte without a start",
    "row 12 refuses two held bytes without a start",
    "row 12 refuses a start 1 us after the last edge",
    "row 12 refuses a start after the last edge, mark over 1",
    "row 12 lets pass bits or bytes held, mark over 1",
    "row 12 lets pass a held half without a start",
    "row 12 lets pass a start after the last edge, mark clear",
    "row 12 lets pass a start 8000 us and more before the last edge",
    // Positions, in every entry
    "row 12 refuses a position half of 16",
    "row 12 lets pass an address half of 16",
    "row 12 lets pass a state half of 16",
    "row 12 refuses a position of 2048",
    "row 12 refuses a position of 65535",
    // Refusals of the feed
    "feed refuses 12",
    "feed refuses 4",
    "feed refuses 5",
    "feed refuses 1",
    "feed refuses 4 for this alone: states",
    "feed refuses 4 for this alone: room",
    "row 5 lets pass bank 0 of 2 cells",
    "row 5 lets pass bank 1 of 2 cells",
    "row 5 lets pass a later bank of 40 cells",
    "row 5 lets pass byte 0 of the fixed sheet not 0",
    "row 5 lets pass unused bytes of the fixed sheet not 0",
    "feed refuses 1 for this alone: lists differ",
    "feed refuses 2",
    "feed refuses 3",
    "order 12 before the rest: feed",
    "order 12 before the rest: restart",
    "order 12 before the rest: post",
    "order 12 before the rest: status",
    "order 12 before the rest: check",
    "order 4 before 12 for the number",
    "order 4 before 5",
    "order 4 before 5: view",
    "order 4 before 1",
    "order 5 before 1",
    "order 1 before 2",
    "order 2 before 3",
    "order 6 before 7",
    "order 4 before 9",
    // The programs
    "bench: no acknowledgement",
    "bench: acknowledged, 0 reply bytes",
    "bench: acknowledged, 4 reply bytes",
    "bench: acknowledged, 8 reply bytes",
    "bench: acknowledged, 84 reply bytes",
    "bench: unfinished packet of 1 bytes",
    "bench: unfinished packet of 2 bytes",
    "bench: unfinished packet of 2 bytes without meaning",
    "replay: not a statement",
    "replay: too long",
    "replay: after an edge",
    "replay: a number too large",
    "replay: a tab",
    "replay: a carriage return",
    "replay: a byte that is no text",
    "replay: a carriage return before the line feed",
    "replay: a comment against an edge",
    "replay: a comment against bytes",
    "replay: a comment against cut",
    "replay: a comment against post",
    "replay: a comment against status",
    "replay: a comment against wait",
    "replay: a comment against restart",
    "replay: a comment against counts",
    "replay: a comment against check",
    "replay: a comment against size",
    "replay: a comment against cell",
    "replay: a comment against states",
    "replay: a comment against fixed",
    "replay: a comment against view",
    "replay: a comment against show",
    "replay: a comment against set",
    "replay: a comment against length",
    "replay: a comment against uneven",
    "replay: a comment against encode",
    "replay: a comment against read",
    "replay: states sets bit 0 of byte 0",
    "replay: states at the last place",
    "replay: states past what is lent",
    "replay: states behind an edge",
    "replay: show with state 0",
    "replay: fixed at the last offset",
    "replay: fixed past what is lent",
    "replay: fixed behind an edge",
    "replay: bytes",
    "replay: bytes at the latest time",
    "replay: bytes, 300 of them",
    "replay: bytes, one of them",
    "replay: not bytes, no time",
    "replay: not bytes, none",
    "replay: not bytes, over 300",
    "replay: not bytes, its time",
    "replay: not bytes, a word of one or over two letters",
    "replay: not bytes, no hexadecimal digit",
    // The bank reply reader
    "read no cells",
    "read an odd number of cells",
    "read an even number of cells",
    "read 40 cells",
    "read refuses 4",
    "read refuses 9: nothing",
    "read refuses 9: a group cut short",
    "read refuses 9: ends between groups",
    "read refuses 9: a group that is none",
    "read refuses 9: bad checksum group",
    "read refuses 9: bytes after the checksum group",
    "read refuses 9: 22 groups of which 21 are cells",
    "read refuses 10",
    "read goes on past cells that look like the checksum group",
    "read takes the checksum after 20 cell groups",
    "read takes the checksum after an end group",
    // At the borders
    "feed refuses 2 at its first edge",
    "feed refuses 2 behind others",
    "feed refuses 3 at its first edge",
    "feed refuses 3 behind others",
    "bad level after a pause with held bits",
    "bad level after a pause with held bytes",
    "bad level after a pause with a held half",
    "bad edge starts no clock",
    "bad edge leaves a mark over 1",
    "empty piece refused with 4",
    "empty piece refused with 5",
    "0x00 with data",
    "0x60 with bits 5 to 7",
    "0x6C with bits 2 to 7",
    "0x6D all off leaves a later state on",
    "0x6F sets state 32767",
    "0x01 with bits 5 to 7",
    "0x01 unforced with a status number",
    "0x01 message registers",
    "0x01 forced, statuses differ and are not 0",
    "cell of module 1 by CV 897 at 0",
    "0x0F of module 1 by CV 897 at 0",
    "bank read of module 1 by CV 897 at 0",
    "read goes on past cells that look like the checksum group, not all 0",
    "read takes an end group as the 20th",
    "read with room for 39",
    "read with room for 40",
    "order 1 before 3",
    "order 12 before 7",
    "order 4 before 10",
    "order 9 before 10",
];
