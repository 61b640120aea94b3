//! Strings of bits as vectors of bools, highest bit first.

/// Bit Dk of a register or row of pins; 0 above its width.
pub fn bit(value: impl Into<u32>, k: usize) -> bool {
    let mut rest: u32 = value.into();
    for _ in 0..k {
        rest /= 2;
    }
    rest % 2 == 1
}

/// The eight bits of a byte, D7 first.
pub fn byte_bits(byte: u8) -> Vec<bool> {
    (0..8).rev().map(|k| bit(byte, k)).collect()
}

/// The byte whose first bits are these; missing ones are 0.
pub fn byte_of(bits: &[bool]) -> u8 {
    let mut byte = 0;
    for k in 0..8 {
        byte = byte * 2 + u8::from(bits.get(k) == Some(&true));
    }
    byte
}

/// Puts bit k of a byte; a byte has no bit above D7.
pub fn put(byte: &mut u8, k: usize, to: bool) {
    let bits: Vec<bool> = (0..8)
        .rev()
        .map(|place| if place == k { to } else { bit(*byte, place) })
        .collect();
    *byte = byte_of(&bits);
}

/// Puts bit k of a row of pins.
pub fn put_in_row(row: &mut u32, k: usize, to: bool) {
    let mut place = 1;
    for _ in 0..k {
        place *= 2;
    }
    match (bit(*row, k), to) {
        (false, true) => *row += place,
        (true, false) => *row -= place,
        _ => {}
    }
}
