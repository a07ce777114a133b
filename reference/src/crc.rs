//! The checksum of a bank reply: x^8 + x^5 + x^4 + 1, start 0, low bit first, constant 0x8C.

/// The checksum over these data bytes.
pub fn crc(data: &[u8]) -> u8 {
    data.iter().fold(0, |sum, byte| crc_byte(sum ^ byte))
}

/// Eight bits of the division, low bit first.
fn crc_byte(mut sum: u8) -> u8 {
    for _ in 0..8 {
        sum = if sum & 1 == 1 { (sum >> 1) ^ 0x8C } else { sum >> 1 };
    }
    sum
}
