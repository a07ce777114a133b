//! The host: command encoder and bank reply reader.

use crate::banks::CELLS;
use crate::crc::crc;
use crate::refusal::Refusal;

/// A command that the host can send. `Functions0` has F0 in bit 0; on the line it is in bit 4.
#[derive(Clone, Copy, Debug, PartialEq, Eq)]
pub enum Command {
    Noop,
    Actual(u8),
    Wanted(u8),
    Load(u8),
    AddressLow(u8),
    AddressHigh(u8),
    Functions0(u8),
    Functions5(u8),
    Functions13(u8),
    Functions21(u8),
    Control(u8),
    State { number: u8, on: bool },
    LongLow { number: u8, on: bool },
    LongHigh(u8),
    Verify { cv: u16, value: u8 },
    Write { cv: u16, value: u8 },
    VerifyBit { cv: u16, place: u8, bit: u8 },
    WriteBit { cv: u16, place: u8, bit: u8 },
    Call { module: u8, forced: bool, status: u8 },
    Bank { module: u8, bank: u8 },
    ReadCv(u16),
    PositionHigh(u8),
    PositionLow(u8),
}

/// The packet of a command, or refusal 8.
pub fn encode(command: Command) -> Result<Vec<u8>, Refusal> {
    let packet = match command {
        Command::Noop => vec![0x00, 0],
        Command::Actual(value) => vec![0x24, value],
        Command::Wanted(value) => vec![0x25, value],
        Command::Load(value) => vec![0x26, room("load", value, 127)?],
        Command::AddressLow(value) => vec![0x5E, value],
        Command::AddressHigh(value) => vec![0x5F, value],
        Command::Functions0(value) => {
            let group = room("functions0", value, 31)?;
            vec![0x60, group >> 1 | (group & 1) << 4]
        }
        Command::Functions5(value) => vec![0x61, value],
        Command::Functions13(value) => vec![0x62, value],
        Command::Functions21(value) => vec![0x63, value],
        Command::Control(value) => vec![0x6C, room("control", value, 3)?],
        Command::State { number, on } => vec![0x6D, (on as u8) << 7 | room("state", number, 127)?],
        Command::LongLow { number, on } => vec![0x6E, (on as u8) << 7 | room("longlow", number, 127)?],
        Command::LongHigh(value) => vec![0x6F, value],
        Command::Verify { cv, value } => vec![0x77, cv_byte("verify", cv)?, value],
        Command::Write { cv, value } => vec![0x7F, cv_byte("write", cv)?, value],
        Command::VerifyBit { cv, place, bit } => {
            vec![0x7B, cv_byte("verifybit", cv)?, 0xE0 | bit_byte("verifybit", place, bit)?]
        }
        Command::WriteBit { cv, place, bit } => {
            vec![0x7B, cv_byte("writebit", cv)?, 0xF0 | bit_byte("writebit", place, bit)?]
        }
        Command::Call { module, forced, status } => {
            let module = room("call module", module, 3)?;
            vec![0x01, room("call status", status, 3)? << 3 | (forced as u8) << 2 | module]
        }
        Command::Bank { module, bank } => vec![0x0B + within("bank module", module as u16, 1, 3)? as u8, bank],
        Command::ReadCv(cv) => vec![0x0F, (within("readcv CV", cv, 769, 1024)? - 769) as u8],
        Command::PositionHigh(value) => vec![0x88, room("positionhigh", value, 15)?],
        Command::PositionLow(value) => vec![0x89, value],
    };
    Ok(packet)
}

/// The second byte of a CV packet is 128+V, CV = 897+V.
fn cv_byte(what: &str, cv: u16) -> Result<u8, Refusal> {
    Ok(128 + (within(&format!("{what} CV"), cv, 897, 1024)? - 897) as u8)
}

/// The lower half of the third byte, DBBB.
fn bit_byte(what: &str, place: u8, bit: u8) -> Result<u8, Refusal> {
    let place = room(&format!("{what} place"), place, 7)?;
    Ok(room(&format!("{what} value"), bit, 1)? << 3 | place)
}

/// A value that has room up to a limit.
fn room(what: &str, value: u8, most: u8) -> Result<u8, Refusal> {
    within(what, value as u16, 0, most as u16).map(|value| value as u8)
}

/// A value that has room between two limits.
fn within(what: &str, value: u16, least: u16, most: u16) -> Result<u16, Refusal> {
    if value < least {
        branch!("encode has no room: {what} under {least}");
        return Err(Refusal::NoRoom);
    }
    if value > most {
        branch!("encode has no room: {what} over {most}");
        return Err(Refusal::NoRoom);
    }
    if value == least && least > 0 {
        branch!("encode has just room: {what} under {least}");
    }
    if value == most {
        branch!("encode has just room: {what} over {most}");
    }
    Ok(value)
}

/// A group of four bytes before the checksum group.
enum Group {
    Cells(u8, u8),
    LastCell(u8),
    NoCell,
    Bad,
}

fn group(bytes: &[u8]) -> Group {
    match *bytes {
        [0x8F, one, 0x8F, two] => Group::Cells(one, two),
        [0x8F, one, 0x8E, 1] => Group::LastCell(one),
        [0x8E, 1, 0x8E, 1] => Group::NoCell,
        _ => Group::Bad,
    }
}

/// Reads a bank reply. Writes its n cells to the room and gives n.
pub fn read_bank(reply: &[u8], room: &mut [u8]) -> Result<usize, Refusal> {
    if room.len() < CELLS {
        branch!("read refuses 4");
        return Err(Refusal::Length);
    }
    let cells = read_cells(reply)?;
    room[..cells.len()].copy_from_slice(&cells);
    Ok(cells.len())
}

/// At most 20 groups before the checksum group, end group included, and not a byte after.
fn read_cells(reply: &[u8]) -> Result<Vec<u8>, Refusal> {
    let mut cells = Vec::new();
    let mut data = Vec::new();
    let mut at = 0;
    let mut ended = false;
    while at < 80 && !ended {
        let bytes = take_group(reply, at)?;
        at += 4;
        match group(bytes) {
            Group::Cells(one, two) => {
                if one == crc(&data) && two == 0 {
                    let zero = if one == 0 { "" } else { ", not all 0" };
                    branch!("read goes on past cells that look like the checksum group{zero}");
                }
                cells.extend([one, two]);
            }
            Group::LastCell(one) => {
                cells.push(one);
                ended = true;
            }
            Group::NoCell => ended = true,
            Group::Bad => {
                branch!("read refuses 9: a group that is none");
                return Err(Refusal::Shape);
            }
        }
        data.extend([bytes[1], bytes[3]]);
    }
    read_checksum(reply, at, crc(&data))?;
    branch!("read takes the checksum after {}", if ended { "an end group" } else { "20 cell groups" });
    Ok(cells)
}

/// The next four bytes.
fn take_group(reply: &[u8], at: usize) -> Result<&[u8], Refusal> {
    if reply.is_empty() {
        branch!("read refuses 9: nothing");
    } else if at == reply.len() {
        branch!("read refuses 9: ends between groups");
    } else if at + 4 > reply.len() {
        branch!("read refuses 9: a group cut short");
    }
    reply.get(at..at + 4).ok_or(Refusal::Shape)
}

/// The checksum group is 8F c 8F 00 and the reply's end.
fn read_checksum(reply: &[u8], at: usize, sum: u8) -> Result<(), Refusal> {
    let [0x8F, given, 0x8F, 0] = *take_group(reply, at)? else {
        branch!("read refuses 9: bad checksum group");
        return Err(Refusal::Shape);
    };
    if at + 4 != reply.len() {
        branch!("read refuses 9: bytes after the checksum group");
        if given != sum {
            branch!("order 9 before 10");
        }
        return Err(Refusal::Shape);
    }
    if given != sum {
        branch!("read refuses 10");
        return Err(Refusal::Checksum);
    }
    Ok(())
}
