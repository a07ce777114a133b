//! The statements of a scenario.

use crate::host::Command;
use crate::module::{Half, Position};

/// A line has at most this many bytes.
pub const LINE: usize = 1_000;

/// The most that can be lent of each buffer.
pub const MOST_STORE: usize = 10_300;
pub const MOST_SHEET: usize = 300;
pub const MOST_STATES: usize = 4_200;
pub const MOST_ROOM: usize = 200;
pub const MOST_FIXED: usize = 60;

/// The most bytes of a line `bytes` or `read`, and the latest time that `bytes` takes.
pub const MOST_BYTES: usize = 300;
pub const LATEST: u64 = (1 << 63) - 1;

/// The last place among the states that `states` takes, and the last offset that `cell` and `fixed` take.
pub const LAST_PLACE: u64 = 4_095;
pub const LAST_OFFSET: u64 = 39;

/// A field of the record that `set` changes.
#[derive(Clone, Copy, Debug, PartialEq, Eq)]
pub enum Field {
    Last(u64),
    Bits(u8),
    Count(u8),
    First(u8),
    Second(u8),
    Held(u8),
    Start(u64),
    Started(u8),
    Half(Half),
    Halfbyte(u8),
    Actual(u8),
    Wanted(u8),
    Load(u8),
    Address(u16),
    Functions(u32),
    Control(u8),
    Position(Position),
    Stateson(u16),
    Number(u8),
    Wait(u8),
    Bank(u8),
    Status0(u8),
    Status1(u8),
    Registered(bool),
    Queued(u8),
    Queue(usize, u8),
}

/// A buffer whose lent length `length` changes.
#[derive(Clone, Copy, Debug, PartialEq, Eq)]
pub enum Buffer {
    Store,
    Sheet,
    States,
    Room,
    Fixed,
}

/// A statement.
#[derive(Clone, Debug, PartialEq, Eq)]
pub enum Statement {
    Edge(u64, u8),
    Bytes(u64, Vec<u8>),
    Cut,
    Post([u8; 4]),
    Status(u8, u8),
    Wait(bool),
    Restart,
    Counts,
    Check,
    Size(u8, u8),
    Cell(u8, usize, u8),
    States(usize, u8),
    Fixed(usize, u8),
    View(u8),
    Show,
    Set(Field),
    Length(Buffer, usize),
    Uneven,
    Encode(Command),
    Read(Vec<u8>),
}

impl Statement {
    /// The word that a statement begins with.
    fn name(&self) -> &'static str {
        match self {
            Statement::Edge(..) => "an edge",
            Statement::Bytes(..) => "bytes",
            Statement::Cut => "cut",
            Statement::Post(..) => "post",
            Statement::Status(..) => "status",
            Statement::Wait(..) => "wait",
            Statement::Restart => "restart",
            Statement::Counts => "counts",
            Statement::Check => "check",
            Statement::Size(..) => "size",
            Statement::Cell(..) => "cell",
            Statement::States(..) => "states",
            Statement::Fixed(..) => "fixed",
            Statement::View(..) => "view",
            Statement::Show => "show",
            Statement::Set(..) => "set",
            Statement::Length(..) => "length",
            Statement::Uneven => "uneven",
            Statement::Encode(..) => "encode",
            Statement::Read(..) => "read",
        }
    }
}

/// What a line says.
#[derive(Clone, Debug, PartialEq, Eq)]
pub enum Line {
    Nothing,
    TooLong,
    NotAStatement,
    Statement(Statement),
}

/// Reads a line, without its line feed. `closed`: a line feed ended it.
pub fn line(bytes: &[u8], closed: bool) -> Line {
    if bytes.len() > LINE {
        return Line::TooLong;
    }
    let bytes = without_return(bytes, closed);
    let words = words(bytes);
    if words.is_empty() {
        return Line::Nothing;
    }
    let Some(statement) = statement(&words) else { return Line::NotAStatement };
    if said(bytes).len() < bytes.len() && said(bytes).last() != Some(&b' ') {
        branch!("replay: a comment against {}", statement.name());
    }
    Line::Statement(statement)
}

/// A carriage return just before the line feed is no part of the line.
pub fn without_return(bytes: &[u8], closed: bool) -> &[u8] {
    match bytes {
        [line @ .., b'\r'] if closed => {
            branch!("replay: a carriage return before the line feed");
            line
        }
        _ => bytes,
    }
}

/// What is left before the comment.
pub fn said(bytes: &[u8]) -> &[u8] {
    bytes.split(|&byte| byte == b'#').next().unwrap_or(&[])
}

/// The same, split at spaces.
pub fn words(bytes: &[u8]) -> Vec<&[u8]> {
    said(bytes).split(|&byte| byte == b' ').filter(|word| !word.is_empty()).collect()
}

/// Decimal, or 0x and hexadecimal digits of either case; 1 to 20 digits.
pub fn number(word: &[u8]) -> Option<u64> {
    let (digits, base) = match word.strip_prefix(b"0x") {
        Some(digits) => (digits, 16),
        None => (word, 10),
    };
    if digits.is_empty() || digits.len() > 20 {
        return None;
    }
    let mut value: u64 = 0;
    for &digit in digits {
        let digit = (digit as char).to_digit(base)?;
        value = value.checked_mul(base as u64)?.checked_add(digit as u64)?;
    }
    Some(value)
}

/// A number that is at most this.
fn most(word: &[u8], limit: u64) -> Option<u64> {
    number(word).filter(|&value| value <= limit)
}

fn byte(word: &[u8]) -> Option<u8> {
    most(word, 255).map(|value| value as u8)
}

fn bit(word: &[u8]) -> Option<bool> {
    most(word, 1).map(|value| value == 1)
}

fn cv(word: &[u8]) -> Option<u16> {
    most(word, 65_535).map(|value| value as u16)
}

/// What words say, of which there is one at least.
pub fn statement(words: &[&[u8]]) -> Option<Statement> {
    let rest = &words[1..];
    Some(match (words[0], rest) {
        (b"bytes", _) => bus_bytes(rest)?,
        (b"cut", []) => Statement::Cut,
        (b"post", [a, b, c, d]) => Statement::Post([byte(a)?, byte(b)?, byte(c)?, byte(d)?]),
        (b"status", [number, value]) => Statement::Status(byte(number)?, byte(value)?),
        (b"wait", [on]) => Statement::Wait(bit(on)?),
        (b"restart", []) => Statement::Restart,
        (b"counts", []) => Statement::Counts,
        (b"check", []) => Statement::Check,
        (b"size", [bank, size]) => Statement::Size(byte(bank)?, byte(size)?),
        (b"cell", [bank, offset, value]) => {
            Statement::Cell(byte(bank)?, most(offset, LAST_OFFSET)? as usize, byte(value)?)
        }
        (b"states", [place, value]) => Statement::States(most(place, LAST_PLACE)? as usize, byte(value)?),
        (b"fixed", [offset, value]) => Statement::Fixed(most(offset, LAST_OFFSET)? as usize, byte(value)?),
        (b"view", [bank]) => Statement::View(byte(bank)?),
        (b"show", []) => Statement::Show,
        (b"set", _) => Statement::Set(field(rest)?),
        (b"length", [which, length]) => lent_length(which, length)?,
        (b"uneven", []) => Statement::Uneven,
        (b"encode", _) => Statement::Encode(command(rest)?),
        (b"read", _) if rest.len() <= MOST_BYTES => {
            Statement::Read(rest.iter().map(|word| byte(word)).collect::<Option<Vec<u8>>>()?)
        }
        (time, [level]) => Statement::Edge(number(time)?, byte(level)?),
        _ => return None,
    })
}

/// `bytes`: a time, and 1 to 300 bytes of two hexadecimal digits each.
fn bus_bytes(words: &[&[u8]]) -> Option<Statement> {
    let no = |why: &str| {
        branch!("replay: not bytes, {why}");
        None
    };
    let Some((time, rest)) = words.split_first() else { return no("no time") };
    if rest.is_empty() || rest.len() > MOST_BYTES {
        return no(if rest.is_empty() { "none" } else { "over 300" });
    }
    let Some(time) = most(time, LATEST) else { return no("its time") };
    let mut bytes = Vec::new();
    for word in rest {
        let &[high, low] = *word else { return no("a word of one or over two letters") };
        let (Some(high), Some(low)) = (hex_digit(high), hex_digit(low)) else { return no("no hexadecimal digit") };
        bytes.push(16 * high + low);
    }
    Some(Statement::Bytes(time, bytes))
}

fn hex_digit(letter: u8) -> Option<u8> {
    (letter as char).to_digit(16).map(|digit| digit as u8)
}

fn lent_length(which: &[u8], length: &[u8]) -> Option<Statement> {
    let (buffer, limit) = match which {
        b"store" => (Buffer::Store, MOST_STORE),
        b"sheet" => (Buffer::Sheet, MOST_SHEET),
        b"states" => (Buffer::States, MOST_STATES),
        b"room" => (Buffer::Room, MOST_ROOM),
        b"fixed" => (Buffer::Fixed, MOST_FIXED),
        _ => return None,
    };
    Some(Statement::Length(buffer, most(length, limit as u64)? as usize))
}

fn field(words: &[&[u8]]) -> Option<Field> {
    let (name, value) = match *words {
        [b"queue", place, value] => return Some(Field::Queue(most(place, 31)? as usize, byte(value)?)),
        [b"position", b"unknown"] => return Some(Field::Position(Position::Unknown)),
        [b"position", address, extended] => return Some(Field::Position(heard(address, extended)?)),
        [name, value] => (name, value),
        _ => return None,
    };
    Some(match name {
        b"last" => Field::Last(number(value)?),
        b"bits" => Field::Bits(byte(value)?),
        b"count" => Field::Count(byte(value)?),
        b"first" => Field::First(byte(value)?),
        b"second" => Field::Second(byte(value)?),
        b"held" => Field::Held(byte(value)?),
        b"start" => Field::Start(number(value)?),
        b"started" => Field::Started(byte(value)?),
        b"half" => Field::Half(half(value)?),
        b"halfbyte" => Field::Halfbyte(byte(value)?),
        b"actual" => Field::Actual(byte(value)?),
        b"wanted" => Field::Wanted(byte(value)?),
        b"load" => Field::Load(byte(value)?),
        b"address" => Field::Address(most(value, 65_535)? as u16),
        b"functions" => Field::Functions(most(value, u32::MAX as u64)? as u32),
        b"control" => Field::Control(byte(value)?),
        b"stateson" => Field::Stateson(most(value, 65_535)? as u16),
        b"number" => Field::Number(byte(value)?),
        b"wait" => Field::Wait(byte(value)?),
        b"bank" => Field::Bank(byte(value)?),
        b"status0" => Field::Status0(byte(value)?),
        b"status1" => Field::Status1(byte(value)?),
        b"registered" => Field::Registered(bit(value)?),
        b"queued" => Field::Queued(byte(value)?),
        _ => return None,
    })
}

fn half(word: &[u8]) -> Option<Half> {
    match word {
        b"none" => Some(Half::None),
        b"address" => Some(Half::Address),
        b"state" => Some(Half::State),
        b"position" => Some(Half::Position),
        _ => None,
    }
}

fn heard(address: &[u8], extended: &[u8]) -> Option<Position> {
    Some(Position::Heard { address: most(address, 65_535)? as u16, extended: bit(extended)? })
}

fn command(words: &[&[u8]]) -> Option<Command> {
    let (&name, values) = words.split_first()?;
    Some(match (name, values) {
        (b"noop", []) => Command::Noop,
        (b"actual", [n]) => Command::Actual(byte(n)?),
        (b"wanted", [n]) => Command::Wanted(byte(n)?),
        (b"load", [n]) => Command::Load(byte(n)?),
        (b"addresslow", [n]) => Command::AddressLow(byte(n)?),
        (b"addresshigh", [n]) => Command::AddressHigh(byte(n)?),
        (b"functions0", [n]) => Command::Functions0(byte(n)?),
        (b"functions5", [n]) => Command::Functions5(byte(n)?),
        (b"functions13", [n]) => Command::Functions13(byte(n)?),
        (b"functions21", [n]) => Command::Functions21(byte(n)?),
        (b"control", [n]) => Command::Control(byte(n)?),
        (b"state", [n, on]) => Command::State { number: byte(n)?, on: bit(on)? },
        (b"longlow", [n, on]) => Command::LongLow { number: byte(n)?, on: bit(on)? },
        (b"longhigh", [n]) => Command::LongHigh(byte(n)?),
        (b"verify", [c, n]) => Command::Verify { cv: cv(c)?, value: byte(n)? },
        (b"write", [c, n]) => Command::Write { cv: cv(c)?, value: byte(n)? },
        (b"verifybit", [c, place, n]) => Command::VerifyBit { cv: cv(c)?, place: byte(place)?, bit: byte(n)? },
        (b"writebit", [c, place, n]) => Command::WriteBit { cv: cv(c)?, place: byte(place)?, bit: byte(n)? },
        (b"call", [module, forced, status]) => {
            Command::Call { module: byte(module)?, forced: bit(forced)?, status: byte(status)? }
        }
        (b"bank", [module, bank]) => Command::Bank { module: byte(module)?, bank: byte(bank)? },
        (b"readcv", [c]) => Command::ReadCv(cv(c)?),
        (b"positionhigh", [n]) => Command::PositionHigh(byte(n)?),
        (b"positionlow", [n]) => Command::PositionLow(byte(n)?),
        _ => return None,
    })
}
