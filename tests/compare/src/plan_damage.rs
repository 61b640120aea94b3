//! Lists of words for the planner's check: random ones, and damage to good ones.

use crate::random::Random;
use crate::words;
use second_double::Record;

/// The kinds of damage.
pub const KINDS: [&str; 12] = [
    "none",
    "any word",
    "bit",
    "configuration",
    "digit",
    "drivers",
    "accesses",
    "cut",
    "added",
    "no-ops",
    "twice",
    "empty",
];

/// Words that mostly may be used, for whole accesses; in one list of six any words of a bench are among them.
pub fn list(random: &mut Random, row: &[Record]) -> Vec<u16> {
    let (accesses, bench) = (random.below(12), random.one_in(6));
    let drivers = row.iter().cycle().take(accesses * row.len());
    let word = |record| match random.below(8) {
        0 => 0x0000,
        1 => configuration(record) | random.pick(&[0x00, 0x20]),
        2 if bench => u16::from_be_bytes(words::word(random)),
        _ => digit_write(random),
    };
    drivers.map(word).collect()
}

/// A write to a digit, of few bytes, so that writes often leave what was there.
fn digit_write(random: &mut Random) -> u16 {
    let address = random.pick(&[0x20, 0x40, 0x60]) + random.byte() % 16;
    let any = random.byte();
    u16::from_be_bytes([address, random.pick(&[0x00, 0x20, any])])
}

/// The configuration write with what a record has stored, without a clear.
fn configuration(record: &Record) -> u16 {
    let stored = [(record.i, 6), (record.e, 3), (record.b, 2), (record.s, 0)];
    let bits = stored.map(|(bit, place)| u16::from(bit) << place);
    0x0400 | bits.iter().sum::<u16>()
}

/// Damages a list in one way; an empty one is first made an access of no-ops.
pub fn damage(random: &mut Random, kind: &str, row: &[Record], list: &mut Vec<u16>) {
    let n = row.len().max(1);
    if kind != "none" && list.is_empty() {
        list.resize(n, 0x0000);
    }
    match kind {
        "none" => {}
        "cut" => list.truncate(list.len().saturating_sub(1 + random.below(n))),
        "added" => list.extend((0..1 + random.below(2 * n)).map(|_| digit_write(random))),
        "no-ops" => {
            let at = random.below(list.len() / n + 1) * n;
            let no_ops = vec![0x0000; n * (1 + random.below(3))];
            list.splice(at..at, no_ops);
        }
        "twice" => *list = list.repeat(2),
        "empty" => list.clear(),
        _ => alter(random, kind, row, list),
    }
}

/// Changes one word, or swaps two of an access or of a driver.
fn alter(random: &mut Random, kind: &str, row: &[Record], list: &mut [u16]) {
    let at = random.below(list.len());
    match kind {
        "any word" => list[at] = random.number() as u16,
        "bit" => list[at] ^= 1 << random.below(16),
        "digit" => list[at] = digit_write(random),
        "configuration" => {
            if let Some(record) = row.iter().cycle().nth(at) {
                list[at] = configuration(record) ^ flips(random);
            }
        }
        "drivers" => {
            let n = row.len().max(1);
            let other = at / n * n + random.below(n);
            list.swap(at, other.min(list.len() - 1));
        }
        _ => {
            let n = row.len().max(1);
            let other = at % n + random.below(list.len().div_ceil(n)) * n;
            list.swap(at, other.min(list.len() - 1));
        }
    }
}

/// No bit of a configuration, one or two, each of P I R T E B X S.
fn flips(random: &mut Random) -> u16 {
    let bits = random.below(3);
    (0..bits).fold(0, |flips, _| flips ^ 1 << random.below(8))
}
