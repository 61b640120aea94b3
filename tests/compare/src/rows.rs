//! Random rows of records of one family or of both.

use crate::convert::unlike;
use crate::random::Random;
use crate::records::{own_fields, power_up, sound, OLD, PORTS};
use crate::report::Lines;
use crate::spoils::unknown_family;
use second_double::Record;
use std::mem;

/// What a row is of, in the order of `kind_of`.
pub const KINDS: [&str; 4] = ["old", "MAX6957", "both", "unknown"];

/// How many records a row has: mostly 1 to 16, the ends often.
pub fn length(random: &mut Random) -> usize {
    match random.below(16) {
        0 => random.pick(&[0, 17, 18]),
        1 => 16,
        2..=4 => 1,
        _ => 1 + random.below(16),
    }
}

/// A row of sound records of the old family; one in three is at power-up.
pub fn old(random: &mut Random, n: usize) -> Vec<Record> {
    of(random, &vec![OLD; n])
}

/// A row of sound records: six rows of ten are of the old family, one is of MAX6957s, the others are of both.
pub fn known(random: &mut Random, n: usize) -> Vec<Record> {
    let families: Vec<u8> = match random.below(10) {
        0..=5 => vec![OLD; n],
        6 => vec![PORTS; n],
        _ => (0..n).map(|_| random.pick(&[OLD, PORTS])).collect(),
    };
    of(random, &families)
}

/// The same, with an unknown family in one row of forty.
pub fn row(random: &mut Random, n: usize) -> Vec<Record> {
    let mut row = known(random, n);
    if n > 0 && random.one_in(40) {
        let at = random.below(n);
        unknown_family(random, &mut row[at]);
    }
    row
}

/// Mostly a row of the old family, for what a MAX6957 lacks wherever it stands.
pub fn mostly_old(random: &mut Random, n: usize) -> Vec<Record> {
    if random.one_in(6) {
        row(random, n)
    } else {
        old(random, n)
    }
}

/// A row in which this driver is of the old family, and the others are of either.
pub fn around(random: &mut Random, n: usize, driver: usize) -> Vec<Record> {
    let mut row = known(random, n);
    if row[driver - 1].family != OLD {
        row[driver - 1] = sound(random, OLD);
    }
    row
}

/// Sound records of these families; one row in three is at power-up.
fn of(random: &mut Random, families: &[u8]) -> Vec<Record> {
    let at_power_up = random.one_in(3);
    let record = |family: &u8| match at_power_up {
        true => power_up(*family),
        false => sound(random, *family),
    };
    families.iter().map(record).collect()
}

/// The families of a row.
pub fn families(row: &[Record]) -> Vec<u8> {
    row.iter().map(|record| record.family).collect()
}

/// The family of a driver, counted from 1; none where there is no such driver.
pub fn family(families: &[u8], driver: usize) -> Option<u8> {
    families.get(driver.wrapping_sub(1)).copied()
}

/// The place of what a row is of among `KINDS`.
pub fn kind_of(row: &[Record]) -> usize {
    let all = |family: u8| row.iter().all(|record| record.family == family);
    let unknown = row.iter().any(|record| record.family > PORTS);
    match (all(OLD), all(PORTS)) {
        (true, _) => 0,
        (_, true) => 1,
        _ if unknown => 3,
        _ => 2,
    }
}

/// Puts records, or their other family's fields, to power-up as long as the row still shows a difference.
pub fn simplify(row: &[Record], differ: impl Fn(&[Record]) -> bool) -> Vec<Record> {
    let mut row = row.to_vec();
    for at in 0..row.len() {
        let family = row[at].family;
        for simpler in [own_fields(&row[at]), power_up(family), power_up(OLD)] {
            let kept = mem::replace(&mut row[at], simpler);
            if !differ(&row) {
                row[at] = kept;
            }
        }
    }
    row
}

/// How many records a row has, then the fields that aren't at power-up.
pub fn told(row: &[Record]) -> Lines {
    let length = row.len();
    let mut lines = vec![(
        "row",
        format!("{length} records, at power-up but for these"),
    )];
    for (driver, record) in (1..).zip(row) {
        let fields = unlike(record, &Record::power_up());
        if !fields.is_empty() {
            lines.push(("record", format!("{driver}{fields}")));
        }
    }
    lines
}
