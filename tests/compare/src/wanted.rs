//! Random chains, mostly of the old family, and planes that a planner is to bring them to.

use crate::asks;
use crate::random::Random;
use crate::rows;
use crate::spoils;
use second_double::Record;

/// How a digit is wanted in both planes.
#[derive(Clone, Copy)]
enum Kind {
    /// As it is held.
    Kept,
    /// Each byte one of those held.
    Moved,
    /// One plane as it is held, any byte in the other.
    OnePlane,
    /// 0 in both.
    Dark,
    /// One byte in both.
    Alike,
    /// Each byte out of few, so that both are often alike.
    Few,
    /// Any bytes.
    Any,
}

const KINDS: [Kind; 7] = [
    Kind::Kept,
    Kind::Moved,
    Kind::OnePlane,
    Kind::Dark,
    Kind::Alike,
    Kind::Few,
    Kind::Any,
];

const FEW: [u8; 3] = [0x00, 0x20, 0xFF];

/// A row after a few random calls, and wanted planes; some rows aren't of the old family alone, one in eight is damaged, one in
/// ten has planes of another length.
pub fn any(random: &mut Random) -> (Vec<Record>, Vec<u8>) {
    let n = rows::length(random);
    let row = rows::mostly_old(random, n);
    let (mut row, mut wanted) = after_calls(random, row);
    if random.one_in(8) {
        spoils::spoil(random, &mut row);
    }
    let exact = wanted.len();
    let length = match random.below(60) {
        0 => exact.saturating_sub(1),
        1 => exact + 1,
        2 => 0,
        3 => exact.saturating_sub(32),
        4 => exact + 32,
        5 => random.below(600),
        _ => exact,
    };
    wanted.resize(length, random.byte());
    (row, wanted)
}

/// A row of n sound records of the old family after a few random calls, and wanted planes.
pub fn sound(random: &mut Random, n: usize) -> (Vec<Record>, Vec<u8>) {
    let row = rows::old(random, n);
    after_calls(random, row)
}

/// A row after a few random calls, and wanted planes: in one row of three most drivers keep theirs.
fn after_calls(random: &mut Random, mut row: Vec<Record>) -> (Vec<Record>, Vec<u8>) {
    let families = rows::families(&row);
    for _ in 0..random.below(6) {
        second_double::call(&mut row, &asks::call(random, &families));
    }
    for record in &mut row {
        if random.one_in(3) {
            [record.p0, record.p1] = planes(random, record);
        }
    }
    let quiet = random.one_in(3);
    let of_driver = |record: &Record| {
        if quiet && !random.one_in(4) {
            [record.p0, record.p1]
        } else {
            planes(random, record)
        }
    };
    let wanted: Vec<[[u8; 16]; 2]> = row.iter().map(of_driver).collect();
    (row, wanted.as_flattened().concat())
}

/// The planes of every driver, P0 and then P1, driver 1's first.
pub fn held(row: &[Record]) -> Vec<u8> {
    let planes = row.iter().flat_map(|record| [record.p0, record.p1]);
    planes.flatten().collect()
}

/// Planes of one kind, or so many sixteenths of the digits of another.
fn planes(random: &mut Random, record: &Record) -> [[u8; 16]; 2] {
    let kinds = [random.pick(&KINDS), random.pick(&KINDS)];
    let others = random.pick(&[0, 1, 3, 8]);
    let mut planes = [record.p0, record.p1];
    for d in 0..16 {
        let kind = kinds[usize::from(random.below(16) < others)];
        [planes[0][d], planes[1][d]] = digit(random, kind, planes.map(|plane| plane[d]));
    }
    planes
}

fn digit(random: &mut Random, kind: Kind, held: [u8; 2]) -> [u8; 2] {
    match kind {
        Kind::Kept => held,
        Kind::Moved => held.map(|_| random.pick(&held)),
        Kind::OnePlane if random.one_in(2) => [held[0], random.byte()],
        Kind::OnePlane => [random.byte(), held[1]],
        Kind::Dark => [0, 0],
        Kind::Alike => [random.byte(); 2],
        Kind::Few => held.map(|_| random.pick(&FEW)),
        Kind::Any => held.map(|_| random.byte()),
    }
}
