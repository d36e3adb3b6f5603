//! Numbers as bytes, the high one first.

pub fn byte(number: usize) -> u8 {
    u8::try_from(number).expect("the number fits a byte")
}

pub fn two_bytes(number: usize) -> [u8; 2] {
    let number = u16::try_from(number).expect("the number fits two bytes");
    number.to_be_bytes()
}

/// The number that begins here; its two bytes must be there.
pub fn number_at(bytes: &[u8], start: usize) -> u16 {
    u16::from_be_bytes([bytes[start], bytes[start + 1]])
}
