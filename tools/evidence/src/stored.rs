//! The scenario that is stored as the test of the proved `replay`, and what one input can reach.

/// Rule by rule, with a comment for each.
pub const BY_HAND: &str = include_str!("../stored/by-hand.txt");

/// Scenarios that were chosen once for their branches. Each begins `# NAME (seed S, scenario K)`.
pub const CHOSEN: &str = include_str!("../stored/chosen.txt");

/// A line that stops the program, and one that must not be run.
const END: &str = "# The end: a line that is not a statement, and one that must not be run.\nnonsense\nshow\n";

/// All of the stored scenario.
pub fn stored_scenario() -> Vec<u8> {
    [BY_HAND, CHOSEN, END].concat().into_bytes()
}

/// Branches that the stored tests cannot all reach: only one bad line can stop a scenario, and only one packet can
/// stay unfinished at the end of a stream.
pub const ONE_AT_A_TIME: [&str; 15] = [
    "replay: not a statement",
    "replay: too long",
    "replay: after an edge",
    "replay: a number too large",
    "replay: a tab",
    "replay: a carriage return",
    "replay: a byte that is no text",
    "replay: not bytes, no time",
    "replay: not bytes, none",
    "replay: not bytes, over 300",
    "replay: not bytes, its time",
    "replay: not bytes, a word of one or over two letters",
    "replay: not bytes, no hexadecimal digit",
    "bench: unfinished packet of 1 bytes",
    "bench: unfinished packet of 2 bytes",
];
