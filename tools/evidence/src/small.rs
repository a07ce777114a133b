//! Small changes made mechanically from a Rattle source: a number off by one, a comparison or a test
//! turned, an operator's neighbour, a branch, an arm or a statement dropped.

use crate::changes::{Change, Edit};
use crate::random::Random;

/// A change, where it was made, and whether it is mere bookkeeping: a loop's counter or bound.
pub struct Small {
    pub change: Change,
    pub function: String,
    pub bookkeeping: bool,
}

impl Small {
    /// The crate that is changed.
    fn owner(&self) -> &str {
        self.change.name.split('/').next().unwrap_or_default()
    }
}

#[derive(Clone, Copy, PartialEq)]
enum Kind {
    Space,
    Word,
    Text,
    Mark,
}

#[derive(Clone, Copy)]
struct Token<'a> {
    kind: Kind,
    text: &'a str,
    at: usize,
}

/// What a mark becomes where spaces stand around it.
const TURNED: [(&str, &str); 18] = [
    ("<", "<="),
    ("<=", "<"),
    ("==", "!="),
    ("!=", "=="),
    ("+", "-"),
    ("-", "+"),
    ("*", "+"),
    ("/", "%"),
    ("%", "/"),
    ("&", "|"),
    ("|", "&"),
    ("<<", ">>"),
    (">>", "<<"),
    ("^", "|"),
    ("&&", "||"),
    ("||", "&&"),
    ("+=", "-="),
    ("-=", "+="),
];

const LONG_MARKS: [&str; 13] = ["..=", "<=", ">=", "==", "!=", "&&", "||", "<<", ">>", "->", "=>", "+=", "-="];

/// Lines that begin so hold no code that runs.
const PASSED: [&str; 16] = [
    "ghost ",
    "use ",
    "pub use ",
    "mod ",
    "pub mod ",
    "requires ",
    "ensures ",
    "invariant ",
    "decreases ",
    "#",
    "fn ",
    "pub fn ",
    "struct ",
    "pub struct ",
    "enum ",
    "pub enum ",
];

/// Every small change of a file.
pub fn changes_of(file: &str, source: &str) -> Vec<Small> {
    let mut found = Vec::new();
    let mut function = "constants";
    let mut end = String::new();
    let mut before = "";
    for (place, line) in source.lines().enumerate() {
        let code = code_of(line);
        if let Some(name) = function_begun(code) {
            function = name;
            end = format!("{}}}", &code[..code.len() - code.trim_start().len()]);
        } else if code == end {
            function = "constants";
        }
        if speaks(code) {
            for new in lines_changed(code, before) {
                found.push(small(file, place + 1, line, &new, function));
            }
        }
        if !code.trim().is_empty() {
            before = code;
        }
    }
    found
}

fn small(file: &str, number: usize, old: &str, new: &str, function: &str) -> Small {
    let full = |line: &str| if line.trim().is_empty() { String::new() } else { format!("{line}\n") };
    let edit = Edit { file: file.to_string(), line: number, old: full(old), new: full(new) };
    let begin = old.trim_start();
    let bookkeeping = begin.starts_with("let mut ") || begin.starts_with("while ") || begin.contains(" += ");
    let name = format!("{file}:{number}");
    Small { change: Change { name, edits: vec![edit] }, function: format!("{file} {function}"), bookkeeping }
}

/// The line without a comment at its end.
fn code_of(line: &str) -> &str {
    match line.find("//") {
        Some(at) => line[..at].trim_end(),
        None => line,
    }
}

fn function_begun(code: &str) -> Option<&str> {
    let at = code.find("fn ")?;
    let front = code[..at].trim();
    if !front.is_empty() && !front.starts_with("pub") && !front.starts_with("const") {
        return None;
    }
    let rest = &code[at + 3..];
    rest.split(|c: char| !c.is_alphanumeric() && c != '_').next()
}

/// Whether a line holds code that runs.
fn speaks(code: &str) -> bool {
    let begin = code.trim_start();
    code.is_ascii() && !begin.is_empty() && !PASSED.iter().any(|passed| begin.starts_with(passed))
}

/// The lines that this one may become. An empty one: it is dropped.
fn lines_changed(code: &str, before: &str) -> Vec<String> {
    let tokens = tokens_of(code);
    let mut lines = Vec::new();
    for place in 0..tokens.len() {
        for new in token_changed(&tokens, place) {
            let token = tokens[place];
            lines.push(format!("{}{new}{}", &code[..token.at], &code[token.at + token.text.len()..]));
        }
    }
    lines.extend(branch_dropped(code));
    if is_arm(code) || is_statement(code, before) {
        lines.push(String::new());
    }
    lines
}

fn tokens_of(code: &str) -> Vec<Token<'_>> {
    let mut tokens = Vec::new();
    let mut at = 0;
    while at < code.len() {
        let (kind, length) = next_token(&code[at..]);
        tokens.push(Token { kind, text: &code[at..at + length], at });
        at += length;
    }
    tokens
}

fn next_token(rest: &str) -> (Kind, usize) {
    let first = rest.as_bytes()[0] as char;
    let run = |part: fn(char) -> bool| rest.find(|c: char| !part(c)).unwrap_or(rest.len());
    for quote in ["b\"", "b'"] {
        if rest.starts_with(quote) {
            let end = closing(&rest[2..], quote.as_bytes()[1]);
            return (Kind::Text, 2 + end);
        }
    }
    if first == ' ' {
        return (Kind::Space, run(|c| c == ' '));
    }
    if first.is_ascii_alphanumeric() || first == '_' {
        return (Kind::Word, run(|c| c.is_ascii_alphanumeric() || c == '_'));
    }
    let long = LONG_MARKS.iter().find(|mark| rest.starts_with(**mark));
    (Kind::Mark, long.map_or(1, |mark| mark.len()))
}

/// The length up to the closing quote, that included.
fn closing(rest: &str, quote: u8) -> usize {
    let bytes = rest.as_bytes();
    let mut at = 0;
    while at < bytes.len() && bytes[at] != quote {
        at += if bytes[at] == b'\\' { 2 } else { 1 };
    }
    (at + 1).min(rest.len())
}

/// What the token may become.
fn token_changed(tokens: &[Token], place: usize) -> Vec<String> {
    let token = tokens[place];
    let text = |offset: isize| -> &str {
        let at = place as isize + offset;
        usize::try_from(at).ok().and_then(|at| tokens.get(at)).map_or("", |token| token.text)
    };
    match token.kind {
        Kind::Space => Vec::new(),
        Kind::Text => next_letter(token.text).into_iter().collect(),
        Kind::Word if token.text == "true" => vec!["false".to_string()],
        Kind::Word if token.text == "false" => vec!["true".to_string()],
        // A length of an array is no number of the program's.
        Kind::Word if text(1) == "]" && text(-2) == ";" => Vec::new(),
        Kind::Word => numbers_beside(token.text),
        Kind::Mark if token.text == "!" && text(1) != "=" => vec![String::new()],
        Kind::Mark if text(-1) != " " || text(1) != " " => Vec::new(),
        Kind::Mark => {
            // In a pattern the mark | parts alternatives.
            let pattern = token.text == "|" && tokens[place..].iter().any(|token| token.text == "=>");
            let turned = TURNED.iter().find(|(old, _)| *old == token.text && !pattern);
            turned.map(|(_, new)| new.to_string()).into_iter().collect()
        }
    }
}

/// The numbers one up and one down, written as this one is; nothing of a word that is no number.
fn numbers_beside(word: &str) -> Vec<String> {
    let (digits, suffix) = match ["u8", "u16", "u32", "u64", "usize"].iter().find(|end| word.ends_with(**end)) {
        Some(end) => word.split_at(word.len() - end.len()),
        None => (word, ""),
    };
    let (value, hex) = match digits.strip_prefix("0x") {
        Some(hex) => (u64::from_str_radix(hex, 16), true),
        None => (digits.parse::<u64>(), false),
    };
    let Ok(value) = value else { return Vec::new() };
    let shown = |value: u64| if hex { format!("0x{value:02X}{suffix}") } else { format!("{value}{suffix}") };
    let mut beside: Vec<String> = value.checked_add(1).map(shown).into_iter().collect();
    if value > 0 {
        beside.push(shown(value - 1));
    }
    beside
}

/// A text whose first letter is the next one.
fn next_letter(text: &str) -> Option<String> {
    let letter = *text.as_bytes().get(2)?;
    if !letter.is_ascii_graphic() || [b'\\', b'"', b'\'', b'!', b'&', b'[', b'~'].contains(&letter) {
        return None;
    }
    Some(format!("{}{}{}", &text[..2], (letter + 1) as char, &text[3..]))
}

/// `if X {` becomes `if false {`.
fn branch_dropped(code: &str) -> Option<String> {
    let begin = code.trim_start();
    let space = &code[..code.len() - begin.len()];
    let test = begin.strip_prefix("if ")?.strip_suffix(" {")?;
    (test != "false").then(|| format!("{space}if false {{"))
}

/// An arm of a match, on one line, that the arm for the rest may stand in for.
fn is_arm(code: &str) -> bool {
    let begin = code.trim_start();
    begin.contains(" => ") && begin.ends_with(',') && !begin.starts_with("_ ")
}

/// A statement on one line that only does something.
fn is_statement(code: &str, before: &str) -> bool {
    let begin = code.trim_start();
    let starts = before.ends_with(['{', ';', '}']);
    let other = ["let ", "return", "const ", "pub ", "break", "continue", "}", "]", ")"];
    starts && begin.ends_with(';') && !other.iter().any(|other| begin.starts_with(other))
}

/// About so many of them: one of each function, then evenly of those that mean a rule.
pub fn chosen(all: Vec<Small>, count: usize) -> Vec<Small> {
    let mut picked = vec![false; all.len()];
    let mut seen = Vec::new();
    for rule_only in [true, false] {
        for (place, small) in all.iter().enumerate() {
            if !(rule_only && small.bookkeeping) && !seen.contains(&&small.function) {
                seen.push(&small.function);
                picked[place] = true;
            }
        }
    }
    let rules: Vec<usize> = (0..all.len()).filter(|&place| !picked[place] && !all[place].bookkeeping).collect();
    let wanted = count.saturating_sub(seen.len()).min(rules.len());
    for turn in 0..wanted {
        picked[rules[turn * rules.len() / wanted]] = true;
    }
    all.into_iter().zip(picked).filter(|(_, picked)| *picked).map(|(small, _)| small).collect()
}

/// So many of them, drawn at random by a seed: of each crate in proportion to what can be changed in it, a loop's
/// counters and bounds left out.
pub fn drawn(mut all: Vec<Small>, count: usize, seed: u64) -> Vec<Small> {
    all.retain(|small| !small.bookkeeping);
    let mut random = Random::new(seed);
    let mut picked = vec![false; all.len()];
    let mut begin = 0;
    while begin < all.len() {
        let end = begin + all[begin..].iter().take_while(|small| small.owner() == all[begin].owner()).count();
        // The shares of all crates, each rounded at its own end, add up to the count.
        let share = |end: usize| (count.min(all.len()) * end + all.len() / 2) / all.len();
        let mut places: Vec<usize> = (begin..end).collect();
        for _ in 0..share(end) - share(begin) {
            let place = random.below(places.len() as u64) as usize;
            picked[places.swap_remove(place)] = true;
        }
        begin = end;
    }
    all.into_iter().zip(picked).filter(|(_, picked)| *picked).map(|(small, _)| small).collect()
}

#[cfg(test)]
mod tests {
    use super::*;

    #[test]
    fn as_many_are_drawn_as_are_asked_for() {
        let all = |crates: &[(&str, usize)]| -> Vec<Small> {
            let lines = crates.iter().flat_map(|(name, lines)| (0..*lines).map(move |line| (*name, line)));
            lines.map(|(name, line)| small(&format!("{name}/src/lib.rt"), line, "a", "b", "f")).collect()
        };
        let crates = [("one", 10), ("two", 70), ("three", 20)];
        let of = |drawn: &[Small], name: &str| drawn.iter().filter(|small| small.owner() == name).count();
        for seed in 0..20 {
            let some = drawn(all(&crates), 30, seed);
            assert_eq!(["one", "two", "three"].map(|name| of(&some, name)), [3, 21, 6]);
            assert_eq!(drawn(all(&crates), 1_000, seed).len(), 100);
        }
        let names = |seed| drawn(all(&crates), 30, seed).into_iter().map(|small| small.change.name).collect::<Vec<_>>();
        assert_eq!(names(5), names(5));
        assert_ne!(names(5), names(6));
    }

    fn lines(code: &str) -> Vec<String> {
        lines_changed(code, "{")
    }

    #[test]
    fn numbers_and_marks() {
        assert_eq!(
            lines("    if 7 < count {"),
            ["    if 8 < count {", "    if 6 < count {", "    if 7 <= count {", "    if false {"]
        );
        assert_eq!(lines("pub const SHORT: u8 = 2;"), ["pub const SHORT: u8 = 3;", "pub const SHORT: u8 = 1;"]);
        assert_eq!(lines("reply: [0; 4],"), ["reply: [1; 4],"]);
        assert_eq!(lines("const S: u8 = 0x0F;"), ["const S: u8 = 0x10;", "const S: u8 = 0x0E;"]);
        assert_eq!(lines("c = a[i + 1];").len(), 4);
    }

    #[test]
    fn what_is_passed_over() {
        let source = "ghost use a.{b};\n#[repr(C)]\npub fn f(a: [u8; 3]) -> u8\n    requires low { a < 1 }\n{\n    // 1 < 2\n    a\n}\n";
        assert!(changes_of("x/src/lib.rt", source).is_empty());
    }

    #[test]
    fn arms_and_statements() {
        assert_eq!(lines("        first::LOAD => load_of(second),"), [""]);
        assert_eq!(lines("        0 | 4 => true,").len(), 5);
        assert_eq!(lines("    self.load = load;"), [""]);
        assert_eq!(lines("    if !kept {"), ["    if kept {", "    if false {"]);
        assert_eq!(lines("    put(out, b\"ACK\");"), ["    put(out, b\"BCK\");", ""]);
    }
}
