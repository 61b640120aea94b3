//! What a bench gives a chain: words and bus clocks, master clocks, closed keys.

use crate::port_words;
use crate::random::Random;
use crate::records::{OLD, PORTS};

/// Master clocks around the edges of the blink count.
const EDGES: [u32; 12] = [
    0,
    1,
    999_999,
    1_000_000,
    1_000_001,
    1_999_999,
    2_000_000,
    3_000_000,
    3_999_999,
    4_000_000,
    4_000_001,
    u32::MAX,
];

/// A word: mostly a write or a read of a register of Table 6, sometimes any bits.
pub fn word(random: &mut Random) -> [u8; 2] {
    if random.one_in(12) {
        return [random.byte(), random.byte()];
    }
    let address = address(random);
    if random.one_in(3) {
        [0x80 | address, random.byte()]
    } else {
        [address, data(random, address)]
    }
}

fn address(random: &mut Random) -> u8 {
    let place = random.below(16) as u8;
    match random.below(8) {
        0..=2 => place,
        3 => 0x10 + place % 8,
        4 => 0x20 + place,
        5 => 0x40 + place,
        6 => 0x60 + place,
        _ => random.byte() % 0x80,
    }
}

/// Data that seldom hides the rest by the scan limit, shutdown, clearing or display test; digits often hold what is near a blank.
fn data(random: &mut Random, address: u8) -> u8 {
    let byte = random.byte();
    match address {
        _ if random.one_in(4) => byte,
        0x03 => byte | 0x07,
        0x04 => byte & 0xCF | 0x01,
        0x07 => byte & 0xFE,
        0x20..=0x6F if random.one_in(4) => byte & 0xF0,
        _ => byte,
    }
}

/// A word to a driver of a family, sometimes one of the other.
fn word_to(random: &mut Random, family: u8) -> [u8; 2] {
    if (family == PORTS) != random.one_in(12) {
        port_words::word(random)
    } else {
        word(random)
    }
}

/// Words to each driver of a row in turn, the last driver's first, cut or filled to a length.
pub fn bits_to(random: &mut Random, families: &[u8], length: usize) -> Vec<u8> {
    let mut turns = families.iter().rev().cycle();
    let mut word = || word_to(random, turns.next().copied().unwrap_or(OLD));
    let mut bytes: Vec<u8> = (0..length.div_ceil(2)).flat_map(|_| word()).collect();
    bytes.truncate(length);
    bytes
}

/// Words in a row, cut or filled to a length.
pub fn bits(random: &mut Random, length: usize) -> Vec<u8> {
    let mut bytes: Vec<u8> = (0..length.div_ceil(2)).flat_map(|_| word(random)).collect();
    bytes.truncate(length);
    bytes
}

/// Clocks of an access to n drivers: mostly 16n, then fewer, more, and the edges.
pub fn clocks(random: &mut Random, n: usize) -> usize {
    match random.below(16) {
        0 => 0,
        1 => random.below(16 * n + 1),
        2 => 16 * n + random.below(20),
        3 => random.below(8 * n + 1) * 8,
        4 if random.one_in(4) => random.pick(&[4095, 4096, 4097, 4104, 65_535]),
        5 if random.one_in(4) => random.below(4097),
        _ => 16 * n,
    }
}

/// Master clocks.
pub fn master_clocks(random: &mut Random) -> u32 {
    if random.one_in(3) {
        random.number() as u32
    } else {
        random.pick(&EDGES)
    }
}

/// Closed keys, often the same ones or none.
pub fn keys(random: &mut Random) -> [u8; 4] {
    [(); 4].map(|()| match random.below(4) {
        0 => 0x00,
        1 => 0xFF,
        2 => 0x5A,
        _ => random.byte(),
    })
}
