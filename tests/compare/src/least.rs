//! The planner's accesses on small pictures, beside the fewest that the second double finds by a search.

use crate::convert::hex;
use crate::planner;
use crate::random::Random;
use crate::report::{Lines, Part};
use crate::rows;
use second_double::Record;

const PICTURES: usize = 8_000;

/// The checks.
const ACCESSES: usize = 0;
const BOTH: usize = 1;

/// Shortest lists with a clear and without one are met at least so often.
const OFTEN: usize = 500;

const FEW: [u8; 4] = [0x00, 0x20, 0x01, 0xFF];

/// The part: a check of the accesses, and one that lists with and without a clear were the shortest.
pub fn compare(seed: u64, times: usize) -> Part {
    let mut part = Part::new("least", seed, &["accesses", "both"]);
    let (mut lengths, mut clears) = ([0; 33], [0; 2]);
    for case in 0..PICTURES * times {
        if part.enough() {
            break;
        }
        let (row, wanted) = draft(&mut Random::of(seed, "least", case));
        let (list, least) = (planner::list(&row, &wanted), least(&row, &wanted));
        let accesses = list.len() / row.len();
        let differ = accesses != least;
        part.count(ACCESSES, case, differ.then(|| told(&row, &wanted)));
        lengths[least] += 1;
        let cleared = list.iter().any(|word| word >> 8 == 0x04);
        clears[usize::from(cleared)] += 1;
    }
    for (what, times) in ["without a clear", "with a clear"].into_iter().zip(clears) {
        part.met(BOTH, what, times, OFTEN);
    }
    let counts = lengths.iter().enumerate().filter(|(_, count)| **count > 0);
    let counts = counts.map(|(accesses, count)| format!(", {accesses} accesses {count}"));
    let [without, with] = clears;
    part.end(&format!(
        "{without} without a clear, {with} with one{}",
        String::from_iter(counts)
    ));
    part
}

/// One to three sound records with small pictures, and small wanted ones.
fn draft(random: &mut Random) -> (Vec<Record>, Vec<u8>) {
    let n = 1 + random.below(3);
    let mut row = rows::old(random, n);
    let wanted = row.iter_mut().map(|record| match random.below(3) {
        0 => at_power_up(random, record),
        _ => dark(random, record),
    });
    let wanted: Vec<[[u8; 16]; 2]> = wanted.collect();
    (row, wanted.as_flattened().concat())
}

/// Planes that are 0 but for up to three digits, and wanted ones that are 0 but for these.
fn dark(random: &mut Random, record: &mut Record) -> [[u8; 16]; 2] {
    [record.p0, record.p1] = [[0; 16]; 2];
    let mut wanted = [[0; 16]; 2];
    for _ in 0..random.below(4) {
        let d = random.below(16);
        let mut few = || random.pick(&FEW);
        [record.p0[d], record.p1[d]] = [few(), few()];
        [wanted[0][d], wanted[1][d]] = [few(), few()];
    }
    wanted
}

/// The planes of power-up, and wanted ones that are 0 or these, but for up to two digits of one byte in both.
fn at_power_up(random: &mut Random, record: &mut Record) -> [[u8; 16]; 2] {
    let Record { p0, p1, .. } = Record::power_up();
    [record.p0, record.p1] = [p0, p1];
    let mut wanted = random.pick(&[[p0, p1], [[0; 16]; 2]]);
    for _ in 0..random.below(3) {
        let (d, byte) = (random.below(16), random.pick(&FEW));
        [wanted[0][d], wanted[1][d]] = [byte; 2];
    }
    wanted
}

/// The fewest accesses; some words always lead to the wanted planes.
fn least(row: &[Record], wanted: &[u8]) -> usize {
    second_double::least_accesses(row, wanted).expect("words that lead to the wanted planes")
}

/// The row, what is wanted, and the two lengths.
fn told(row: &[Record], wanted: &[u8]) -> Lines {
    let mut lines = rows::told(row);
    lines.push(("wanted", hex(wanted)));
    let accesses = planner::list(row, wanted).len() / row.len();
    lines.push(("library", format!("{accesses} accesses")));
    lines.push(("search", format!("{} accesses", least(row, wanted))));
    lines
}
