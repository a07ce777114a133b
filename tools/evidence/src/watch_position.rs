//! What is counted of positions (C-12): both halves at their limits, what is heard, and its two parts of row 12.

use crate::watch_packet::mark_if;
use reference::branch;
use reference::module::{Answer, Half, Module, Position};

/// A packet that was completed, with the record before its last edge, what it gave, and the room that the feed was lent.
pub fn count_position(before: &Module, packet: &[u8], answer: &Answer, room: &[u8]) {
    match (packet[0], packet[1]) {
        (0x88, 15) => branch!("0x88 with 15 is held"),
        (0x88, 16) => branch!("0x88 with 16 is ignored"),
        (0x89, low) if before.half == Half::Position => count_heard(before, low, room),
        (0x89, _) => mark_if(before.position != Position::Unknown, "0x89 without its high half leaves a position"),
        (0x01, _) => mark_if(sends_position(answer), "0x01 sends a position"),
        _ => {}
    }
}

fn sends_position(answer: &Answer) -> bool {
    matches!(answer, Answer::Acknowledged(reply) if reply.first() == Some(&0x88))
}

/// A position that is heard now. While the room still has the same bytes as a reply, it is the module's own.
fn count_heard(before: &Module, low: u8, room: &[u8]) {
    let high = before.halfbyte;
    branch!("position heard, {}", if high & 8 == 0 { "not extended" } else { "extended" });
    match (high & 7, low) {
        (0, 0) => branch!("position heard: address 0"),
        (7, 255) => branch!("position heard: address 2047"),
        _ => {}
    }
    mark_if(before.position != Position::Unknown, "position heard in place of another");
    mark_if(room.starts_with(&[0x88, high, 0x89, low]), "position heard from its own message");
}

/// C-12's two parts of row 12 with nothing else against the record.
pub fn count_position_refused(module: &Module, broken: &[&str]) {
    match (broken, module.halfbyte, module.position) {
        (["position half over 15"], 16, _) => branch!("row 12 refuses a position half of 16"),
        (["position over 2047"], _, Position::Heard { address: address @ (2_048 | 65_535), .. }) => {
            branch!("row 12 refuses a position of {address}")
        }
        _ => {}
    }
}

/// The byte that is too much for a position half, in the other kinds.
pub fn count_position_passed(module: &Module) {
    match (module.half, module.halfbyte) {
        (Half::Address, 16) => branch!("row 12 lets pass an address half of 16"),
        (Half::State, 16) => branch!("row 12 lets pass a state half of 16"),
        _ => {}
    }
}
