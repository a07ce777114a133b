//! All entries of a module behind one address, so that a linker keeps them and nothing else.
#![no_std]

use muralintak::module::{feed, post, restart, set_status, set_wait, Answer, Module, Sheets};

/// The buffers that a board lends.
pub struct Lent<'a> {
    states: &'a mut [u8],
    store: &'a mut [u8],
    sheets: Sheets<'a, 'a>,
    room: &'a mut [u8],
}

/// What the feed answered goes to `answer`, the number of a refusal comes back.
#[no_mangle]
pub fn whole(kept: &mut Module, asked: u8, bytes: [u8; 4], edges: (&[u64], &[u8]), lent: &mut Lent, answer: &mut Answer) -> u8 {
    let given = match asked {
        0 => post(*kept, bytes),
        1 => set_status(*kept, bytes[0], bytes[1]),
        2 => set_wait(*kept, bytes[0] == 1),
        3 => restart(*kept, lent.states),
        _ => feed(*kept, edges.0, edges.1, lent.states, lent.store, lent.sheets, lent.room).map(|fed| {
            *answer = fed.answer;
            fed.kept
        }),
    };
    match given {
        Ok(after) => {
            *kept = after;
            0
        }
        Err(why) => why.number(),
    }
}

#[panic_handler]
fn stop(_: &core::panic::PanicInfo) -> ! {
    loop {}
}
