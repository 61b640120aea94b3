//! Lists of one driver's words for a look back at a plane byte.

use crate::random::Random;
use crate::words;

/// The first address of a plane's writes, and of the writes to both.
const OWN: [u8; 2] = [0x20, 0x40];
const BOTH: u8 = 0x60;

/// Bits of a configuration write: R clears the planes, T the blink count.
const R: u8 = 0x20;
const T: u8 = 0x10;

/// The words that stop a look back.
pub const STOPS: [&str; 4] = ["own plane", "both planes", "clear", "clear with T"];

/// A word that stops it, of the kind at this place among `STOPS`.
pub fn stop(random: &mut Random, kind: usize, plane: usize, digit: u8) -> u16 {
    let (data, rest) = (random.byte(), random.byte() & !(R | T));
    u16::from_be_bytes(match kind {
        0 => [OWN[plane] + digit, data],
        1 => [BOTH + digit, data],
        2 => [0x04, rest | R],
        _ => [0x04, rest | R | T],
    })
}

/// A word that doesn't, mostly one that is close to doing so.
pub fn pass(random: &mut Random, plane: usize, digit: u8) -> u16 {
    let (data, other) = (random.byte(), (digit + 1 + random.byte() % 15) % 16);
    u16::from_be_bytes(match random.below(8) {
        0 => [OWN[1 - plane] + digit, data],
        1 => [random.pick(&[0x20, 0x40, 0x60]) + other, data],
        2 => [random.pick(&[0xA0, 0xC0, 0xE0]) + digit, data],
        3 => [0x04, data & !R],
        4 => [0x84, data | R],
        5 => [
            random.pick(&[0x00, 0x10, 0x30, 0x50, 0x70]) + digit,
            data & !R,
        ],
        6 => [0x80 | random.byte(), data],
        _ => [random.pick(&[0x01, 0x02, 0x03, 0x05, 0x06, 0x07]), data],
    })
}

/// So many words of every kind, a digit's writes often.
pub fn list(random: &mut Random, plane: usize, digit: u8, length: usize) -> Vec<u16> {
    let word = |_| match random.below(8) {
        0 => stop(random, 0, plane, digit),
        1 => {
            let kind = random.below(STOPS.len());
            stop(random, kind, plane, digit)
        }
        2 | 3 => u16::from_be_bytes(words::word(random)),
        _ => pass(random, plane, digit),
    };
    (0..length).map(word).collect()
}
