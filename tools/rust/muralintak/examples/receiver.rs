//! A speed on the line, bit by bit, as a clock interrupt would hear it. The receiver stays in its place.
use muralintak::firmware::muralintak_edge;
use muralintak::line::Receiver;

fn main() {
    let sent = [0x24u8, 0x8A];
    let mut receiver = Receiver::new();
    for i in 0..16usize {
        let level = sent[i / 8] >> (i % 8) & 1;
        let outcome = muralintak_edge(&mut receiver, 100 * i as u64, level);
        if outcome.refusal == 0 && outcome.packet.length != 0 {
            println!("edge {}: {:02X?}", i + 1, &outcome.packet.bytes[..outcome.packet.length as usize]);
        }
    }
}
