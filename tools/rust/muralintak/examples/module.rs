//! A whole module: a CV is written, bit by bit on the line, and the command is acknowledged.
use muralintak::module::{feed, Answer, Module, Sheets};
use muralintak::refusals::Refusal;

fn main() -> Result<(), Refusal> {
    let (mut states, mut store, mut sizes, mut fixed, mut room) = ([0; 4096], [0; 10240], [0; 256], [0; 40], [0; 84]);
    // The cells that the banks have: a bank's size is the board's own.
    (sizes[0], sizes[1], sizes[254]) = (40, 40, 2);
    // Bank 254, which no command writes: the SUSI version.
    fixed[1] = 11;
    let sent = [0x7F, 0x85, 0x07];
    let levels: [u8; 24] = core::array::from_fn(|i| sent[i / 8] >> (i % 8) & 1);
    let times: [u64; 24] = core::array::from_fn(|i| 100 * i as u64);
    let sheets = Sheets { sizes: &sizes, fixed: &fixed };
    let fed = feed(Module::new(), &times, &levels, &mut states, &mut store, sheets, &mut room)?;
    match fed.answer {
        Answer::Acknowledged(edges, reply) => print!("acknowledged after {edges} edges, {reply} bytes of reply, "),
        other => print!("{other:?}, "),
    }
    println!("CV 902 is {}", store[2]);
    Ok(())
}
