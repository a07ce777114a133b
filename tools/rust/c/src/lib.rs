//! For C, by `muralintak.h`: the receiver's entry and the bank reader. Here alone is `unsafe`: a pointer, or a
//! pointer and a length, become a reference or a slice, and nothing else is done.
#![no_std]
#![deny(unsafe_op_in_unsafe_fn)]

use core::mem::{align_of, offset_of, size_of};
use core::slice::{from_raw_parts, from_raw_parts_mut};
use muralintak::firmware::Outcome;
use muralintak::line::{Packet, Receiver};
use muralintak::refusals::Refusal;

/// What a bank's reply gave: refusal 0 and how many cells, or a refusal and none.
#[repr(C)]
pub struct Bank {
    pub refusal: u8,
    pub cells: u8,
}

// How the structs are laid out: the header holds to the same numbers.
const _: () = {
    assert!(offset_of!(Receiver, last) == 0);
    assert!(offset_of!(Receiver, start) == 8);
    assert!(offset_of!(Receiver, started) == 16);
    assert!(offset_of!(Receiver, bits) == 17);
    assert!(offset_of!(Receiver, count) == 18);
    assert!(offset_of!(Receiver, first) == 19);
    assert!(offset_of!(Receiver, second) == 20);
    assert!(offset_of!(Receiver, held) == 21);
    assert!(size_of::<Receiver>() - 22 < align_of::<Receiver>());
    assert!(offset_of!(Packet, length) == 0);
    assert!(offset_of!(Packet, bytes) == 1);
    assert!(size_of::<Packet>() == 4);
    assert!(offset_of!(Outcome, refusal) == 0);
    assert!(offset_of!(Outcome, packet) == 1);
    assert!(size_of::<Outcome>() == 5);
    assert!(offset_of!(Bank, refusal) == 0);
    assert!(offset_of!(Bank, cells) == 1);
    assert!(size_of::<Bank>() == 2);
};

/// One edge. A null pointer is no receiver that edges can have left: 12.
///
/// # Safety
/// `receiver` is null, or points to a receiver that nothing else reads or writes during the call.
#[no_mangle]
pub unsafe extern "C" fn muralintak_edge(receiver: *mut Receiver, time: u64, level: u8) -> Outcome {
    // SAFETY: as the caller says.
    match unsafe { receiver.as_mut() } {
        Some(receiver) => muralintak::firmware::muralintak_edge(receiver, time, level),
        None => Outcome { refusal: Refusal::Impossible.number(), packet: Packet::none() },
    }
}

/// Reads a bank's reply. A null pointer is a list of no bytes, whatever its length.
///
/// # Safety
/// `reply` is null or points to `length` bytes, `room` is null or points to `room_length` bytes that may be
/// written; the two share none, and nothing else writes them during the call.
#[no_mangle]
pub unsafe extern "C" fn muralintak_read_bank(
    reply: *const u8,
    length: usize,
    room: *mut u8,
    room_length: usize,
) -> Bank {
    // SAFETY: as the caller says, where a pointer is not null.
    let reply = if reply.is_null() { &[] } else { unsafe { from_raw_parts(reply, length) } };
    let room = if room.is_null() { &mut [] } else { unsafe { from_raw_parts_mut(room, room_length) } };
    match muralintak::host::read_bank(reply, room) {
        // There are 40 at most.
        Ok(cells) => Bank { refusal: 0, cells: cells as u8 },
        Err(why) => Bank { refusal: why.number(), cells: 0 },
    }
}

#[panic_handler]
fn stop(_: &core::panic::PanicInfo) -> ! {
    loop {}
}
