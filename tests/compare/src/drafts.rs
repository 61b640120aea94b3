//! Random scripts, as their records.

use crate::random::Random;
use crate::words;

/// A longer script is refused.
pub const LONGEST: usize = 65_536;

/// No step of a script adds more bytes.
const LARGEST_STEP: usize = 600;

/// A script in pieces: records, or what damage has left of them.
pub type Pieces = Vec<Vec<u8>>;

/// A record of a script.
pub fn record(kind: u8, body: &[u8]) -> Vec<u8> {
    let [high, low] = (body.len() as u16).to_be_bytes();
    [&[0x5A, 0xC3, kind, high, low], body].concat()
}

/// A script without damage; some of its calls are refused. With it, the length of its chain.
pub fn script(random: &mut Random) -> (usize, Pieces) {
    let (n, mut pieces) = opening(random);
    for _ in 0..random.pick(&[0, 5, 15, 40]) {
        step(random, n, &mut pieces);
    }
    (n, pieces)
}

/// Fills a script up to a length; the last record is an access with bytes to spare.
pub fn fill(random: &mut Random, n: usize, pieces: &mut Pieces, length: usize) {
    let mut filled: usize = pieces.iter().map(Vec::len).sum();
    while filled + 2 * LARGEST_STEP < length {
        let before = pieces.len();
        step(random, n, pieces);
        filled += pieces[before..].iter().map(Vec::len).sum::<usize>();
    }
    let spare = random.bytes(length - filled - 7);
    pieces.push(record(2, &[&[0x00, 0x10], &spare[..]].concat()));
}

/// Three cases of 300 become as long as a script may be, a byte longer, and longer with a first chain record that may be wrong.
pub fn lengthen(random: &mut Random, case: usize, n: usize, pieces: &mut Pieces) {
    match case % 300 {
        99 => fill(random, n, pieces, LONGEST),
        199 => fill(random, n, pieces, LONGEST + 1),
        299 => {
            let more = random.below(LONGEST);
            fill(random, n, pieces, LONGEST + more);
            pieces.insert(0, record(1, &[random.pick(&[0, 1, 17])]));
        }
        _ => {}
    }
}

/// A chain record, or none for a chain of 4. Then mostly every driver leaves shutdown and gets key groups.
fn opening(random: &mut Random) -> (usize, Pieces) {
    let mut pieces = Pieces::new();
    let mut n = 4;
    if !random.one_in(8) {
        let longest = random.pick(&[2, 16, 16]);
        n = 1 + random.below(longest);
        pieces.push(record(1, &[n as u8]));
    }
    if !random.one_in(8) {
        pieces.push(to_each(n, || [0x04, random.byte() & 0x4C | 0x01]));
    }
    if !random.one_in(4) {
        pieces.push(to_each(n, || [0x06, random.byte()]));
    }
    (n, pieces)
}

/// An access with a word for each driver.
pub fn to_each(n: usize, mut word: impl FnMut() -> [u8; 2]) -> Vec<u8> {
    let words: Vec<u8> = (0..n).flat_map(|_| word()).collect();
    access(16 * n, &words)
}

/// One call, or several that belong together.
pub fn step(random: &mut Random, n: usize, pieces: &mut Pieces) {
    let driver = driver(random, n);
    match random.below(10) {
        0..=4 => pieces.push(random_access(random, n)),
        5 => {
            let [a, b, c, d] = words::keys(random);
            let scan = record(3, &[driver, a, b, c, d]);
            pieces.extend(vec![scan; 1 + random.below(3)]);
            let read = 0x88 + random.byte() % 8;
            pieces.push(to_each(n, || [random.pick(&[read, 0x85]), 0]));
        }
        6 => pieces.push(record(4, &[driver, within(random, 32)])),
        7 => pieces.push(clocks(driver, words::master_clocks(random))),
        8 => pieces.extend((0..8).map(|cathode| record(6, &[driver, cathode]))),
        _ => pieces.push(record(6, &[driver, within(random, 8)])),
    }
}

/// Master clocks to a driver.
pub fn clocks(driver: u8, clocks: u32) -> Vec<u8> {
    let [a, b, c, d] = clocks.to_be_bytes();
    record(5, &[driver, a, b, c, d])
}

/// Mostly below n, otherwise n or above.
fn within(random: &mut Random, n: u8) -> u8 {
    match random.below(30) {
        0 => n,
        1 => random.byte(),
        _ => random.byte() % n,
    }
}

/// A driver in 1..n, sometimes another.
pub fn driver(random: &mut Random, n: usize) -> u8 {
    within(random, n as u8).wrapping_add(1)
}

/// An access whose bits are mostly as long as its clocks need, or a little longer.
fn random_access(random: &mut Random, n: usize) -> Vec<u8> {
    let clocks = words::clocks(random, n);
    let needed = clocks.min(4104).div_ceil(8);
    let length = match random.below(30) {
        0 => needed.saturating_sub(1),
        1 => random.below(needed + 1),
        2..=5 => needed + random.below(4),
        _ => needed,
    };
    access(clocks, &words::bits(random, length))
}

fn access(clocks: usize, bits: &[u8]) -> Vec<u8> {
    let clocks = (clocks as u16).to_be_bytes();
    record(2, &[&clocks, bits].concat())
}
