//! What a bench gives a MAX6957: words and pin levels.

use crate::port_records::ALL;
use crate::random::Random;

/// Levels that come again: none, all, P24 to P30, P31.
const LEVELS: [u32; 4] = [0, ALL, 0x07F0_0000, 0x0800_0000];

/// A word: mostly a write or a read of a register of Table 3, sometimes any bits.
pub fn word(random: &mut Random) -> [u8; 2] {
    if random.one_in(12) {
        return [random.byte(), random.byte()];
    }
    let address = address(random);
    if random.one_in(3) {
        [0x80 | address, random.byte()]
    } else {
        [address, data(random, address)]
    }
}

/// Configuration, mask, the pairs and the ports often; one port or eight, those past either end and those that are watched often.
fn address(random: &mut Random) -> u8 {
    let place = random.byte();
    match random.below(16) {
        0 | 1 => 0x04,
        2 | 3 => 0x06,
        4 => random.pick(&[0x02, 0x07]),
        5 | 6 => 0x09 + place % 7,
        7 | 8 => 0x12 + place % 14,
        9 => 0x20 + place % 32,
        10 => random.pick(&[0x20, 0x38]) + place % 8,
        11 | 12 => 0x40 + place % 32,
        13 | 14 => random.pick(&[0x40, 0x58]) + place % 8,
        _ => place % 0x80,
    }
}

/// Data that seldom hides the rest by shutdown or display test; masks often watch all or none.
fn data(random: &mut Random, address: u8) -> u8 {
    let byte = random.byte();
    match address {
        _ if random.one_in(4) => byte,
        0x04 => byte | 0x01,
        0x06 => random.pick(&[byte, 0x7F, 0xFF, 0x00]),
        0x07 => byte & 0xFE,
        _ => byte,
    }
}

/// Pin levels: mostly 28 bits, often some that come again or one pin alone; sometimes more than fit.
pub fn levels(random: &mut Random) -> u32 {
    let any = random.number() as u32;
    match random.below(24) {
        0 => any | random.pick(&[ALL + 1, 1 << 31]),
        1 => random.pick(&[ALL + 1, u32::MAX]),
        2..=8 => random.pick(&LEVELS),
        9..=12 => 1 << random.below(28),
        _ => any & ALL,
    }
}
