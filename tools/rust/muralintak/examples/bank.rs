//! The host's side: the packet that asks for a bank, and the reply read into cells.
use muralintak::command::Command;
use muralintak::host::{encode, read_bank};
use muralintak::refusals::Refusal;

fn main() -> Result<(), Refusal> {
    let asked = encode(Command::BankRead(1, 0))?;
    print!("asked with {:02X?}, ", &asked.bytes[..asked.length as usize]);
    let reply = [0x8F, 0x11, 0x8F, 0x22, 0x8F, 0x33, 0x8E, 0x01, 0x8F, 0x4A, 0x8F, 0x00];
    let mut cells = [0; 40];
    let count = read_bank(&reply, &mut cells)?;
    println!("{count} cells: {:02X?}", &cells[..count]);
    Ok(())
}
