//! What is wrong with a line: what was found, and what was expected.

use crate::branch::quietly;
use crate::grammar::{said, statement, words, LINE};

/// Why a line is no statement.
pub fn not_a_statement(line: &[u8]) -> String {
    let words = words(line);
    if let Some(place) = said(line).iter().position(|byte| !(32..127).contains(byte)) {
        return no_text(said(line)[place], place + 1);
    }
    if let Some(place) = large_number(&words) {
        branch!("replay: a number too large");
        return format!("a number too large: '{}'; expected: {}", text(words[place]), expected(&words));
    }
    branch!("replay: not a statement");
    format!("not a statement: '{}'; expected: {}", text(said(line)), expected(&words))
}

pub fn too_long() -> String {
    branch!("replay: too long");
    format!("too long; expected: at most {LINE} bytes before the line feed")
}

/// A `size` or `cell` that stands behind an edge.
pub fn after_an_edge(line: &[u8]) -> String {
    branch!("replay: after an edge");
    format!("after an edge: '{}'; expected: size and cell before the first edge", text(said(line)))
}

fn text(bytes: &[u8]) -> String {
    String::from_utf8_lossy(bytes).into_owned()
}

fn no_text(byte: u8, place: usize) -> String {
    let found = match byte {
        b'\t' => "a tab".to_string(),
        b'\r' => "a carriage return".to_string(),
        _ => format!("a byte that is no text, {byte:02X}"),
    };
    branch!("replay: {}", found.split(',').next().unwrap_or_default());
    format!("{found} at place {place}; expected: text, and spaces between words")
}

/// Digits only, of whatever number.
fn is_numeral(word: &[u8]) -> bool {
    match word.strip_prefix(b"0x") {
        Some(digits) => !digits.is_empty() && digits.iter().all(u8::is_ascii_hexdigit),
        None => !word.is_empty() && word.iter().all(u8::is_ascii_digit),
    }
}

/// The last of the numbers that are too large, if nothing else is wrong: with 0 for each number up to it the words
/// are a statement.
fn large_number(words: &[&[u8]]) -> Option<usize> {
    let mut lowered = words.to_vec();
    for (place, word) in words.iter().enumerate() {
        if is_numeral(word) {
            lowered[place] = b"0";
            if quietly(|| statement(&lowered)).is_some() {
                return Some(place);
            }
        }
    }
    None
}

/// How the statement is written that the first word names.
fn expected(words: &[&[u8]]) -> &'static str {
    match words[0] {
        b"cut" => "cut",
        b"post" => "post H D H D, each 0 to 255",
        b"status" => "status N V, each 0 to 255",
        b"wait" => "wait 0 or wait 1",
        b"restart" => "restart",
        b"counts" => "counts",
        b"check" => "check",
        b"size" => "size BANK N, each 0 to 255",
        b"cell" => "cell BANK OFFSET V, OFFSET 0 to 39, the others 0 to 255",
        b"states" => "states PLACE V, PLACE 0 to 4095, V 0 to 255",
        b"fixed" => "fixed OFFSET V, OFFSET 0 to 39, V 0 to 255",
        b"view" => "view BANK, 0 to 255",
        b"show" => "show",
        b"set" => "set FIELD VALUE, in the range of the field",
        b"length" => "length WHICH N: store 10300, sheet 300, states 4200, room 200 or fixed 60 at most",
        b"uneven" => "uneven",
        b"encode" => "encode COMMAND .., each number in its range",
        b"read" => "read BYTE .., up to 300, each 0 to 255",
        b"bytes" => "bytes TIME HEX .., TIME below 2^63, 1 to 300 bytes of two hexadecimal digits",
        word if is_numeral(word) => "TIME LEVEL, TIME below 2^64, LEVEL 0 to 255",
        _ => "a statement of docs/REPLAY.md",
    }
}
