//! Random scripts for lit times: much is lit and blinks, and clocks end around the edges of a phase.

use crate::damage::damage;
use crate::drafts::{clocks, driver, lengthen, record, step, to_each, Pieces, LONGEST};
use crate::random::Random;
use crate::words;

/// Configuration bits: I, E and B, of which a word has any; S; and T, E and S, by which a driver blinks from a count of 0 on.
const ANY: u8 = 0x4C;
const AWAKE: u8 = 0x01;
const BLINKING: u8 = 0x19;

/// A phase may end after each of these.
const QUARTER: u32 = 1_000_000;

/// The script of a case: one in four damaged, some as long as a script may be or longer.
pub fn draft(seed: u64, case: usize) -> Pieces {
    let mut random = Random::of(seed, "lit times", case);
    let (n, mut pieces) = opening(&mut random);
    for _ in 0..random.pick(&[2, 5, 10, 20]) {
        lit_step(&mut random, n, &mut pieces);
    }
    lengthen(&mut random, case, n, &mut pieces);
    match random.below(60) {
        0 => too_long(&mut random, &mut pieces),
        1..=15 => damage(&mut random, &mut pieces),
        _ => {}
    }
    pieces
}

/// Longer than a script may be, with a first chain record that is mostly refused too.
fn too_long(random: &mut Random, pieces: &mut Pieces) {
    pieces.insert(0, record(1, &[random.pick(&[0, 1, 17])]));
    pieces.push(vec![0; LONGEST]);
}

/// Mostly one to four drivers, seldom a chain that is refused; then words to each, mostly out of shutdown.
fn opening(random: &mut Random) -> (usize, Pieces) {
    let (mut n, mut pieces) = (4, Pieces::new());
    if !random.one_in(8) {
        n = match random.below(20) {
            0 => random.below(20),
            _ => 1 + random.below(4),
        };
        pieces.push(record(1, &[n as u8]));
    }
    let n = n.clamp(1, 16);
    if !random.one_in(12) {
        pieces.push(to_each(n, || [0x04, random.byte() & ANY | AWAKE]));
    }
    for _ in 0..random.below(24) {
        pieces.push(to_each(n, || word(random)));
    }
    (n, pieces)
}

/// Words to each driver, clocks to one, or any other call.
fn lit_step(random: &mut Random, n: usize, pieces: &mut Pieces) {
    match random.below(8) {
        0..=2 => pieces.push(to_each(n, || word(random))),
        3..=4 => pieces.push(clocks(driver(random, n), master_clocks(random))),
        5..=6 => over_an_edge(random, n, pieces),
        _ => step(random, n, pieces),
    }
}

/// From a count of 0 to a quarter's end or just before it, and on by few clocks at a time.
fn over_an_edge(random: &mut Random, n: usize, pieces: &mut Pieces) {
    let driver = driver(random, n);
    let edge = QUARTER * (1 + random.below(4) as u32);
    pieces.push(to_each(n, || [0x04, random.byte() & ANY | BLINKING]));
    pieces.push(clocks(driver, edge - random.below(4) as u32));
    for _ in 0..1 + random.below(3) {
        pieces.push(clocks(driver, random.below(6) as u32));
    }
}

/// Few, whole quarters and one more or less, up to two cycles, any 32 bits, or the edges of all calls.
fn master_clocks(random: &mut Random) -> u32 {
    let few = random.pick(&[10, 100, 1_200]);
    match random.below(6) {
        0 => random.below(few) as u32,
        1 => (QUARTER * random.below(4_295) as u32 + random.below(3) as u32).saturating_sub(1),
        2 => random.below(8_000_000) as u32,
        3..=4 => random.number() as u32,
        _ => words::master_clocks(random),
    }
}

/// A word that lights, dims or changes something, seldom all of it; one in 16 is any word.
fn word(random: &mut Random) -> [u8; 2] {
    let (place, byte) = (random.byte() % 16, random.byte());
    match random.below(16) {
        0 => [0x01, byte],
        1 => [0x02, byte],
        2 => [0x03, random.pick(&[byte, 0x07, 0x07])],
        3 => [0x04, byte & ANY | AWAKE],
        4 => [0x04, random.pick(&[byte, byte | AWAKE])],
        5 => [0x07, random.pick(&[0, 0, 1])],
        6 => [0x0C, byte],
        7..=8 => [0x10 + place % 8, byte],
        9..=10 => [0x20 + place, byte],
        11..=13 => [0x40 + place, byte],
        14 => [0x60 + place, byte],
        _ => words::word(random),
    }
}
