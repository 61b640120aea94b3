//! The blink count and the plane shown ("Blink").

use crate::record::Record;

/// The blink count runs modulo this many master clocks.
pub const CYCLE: u32 = 4_000_000;

/// One of the two digit planes.
#[derive(Clone, Copy, Debug, PartialEq, Eq)]
pub enum Plane {
    P0,
    P1,
}

/// Adds master clocks to the blink count modulo 4,000,000.
pub fn add_clocks(record: &mut Record, clocks: u32) {
    let sum = u64::from(record.blink) + u64::from(clocks);
    let left = sum % u64::from(CYCLE);
    record.blink = left as u32;
}

/// The phase: slow (B=0) over the whole cycle, fast over each half of it.
pub fn phase(record: &Record) -> Plane {
    let p0 = if record.b == 0 {
        record.blink < 2_000_000
    } else {
        record.blink % 2_000_000 < 1_000_000
    };
    if p0 {
        Plane::P0
    } else {
        Plane::P1
    }
}

/// The plane shown: P0 when E=0, otherwise that of the phase.
pub fn shown(record: &Record) -> Plane {
    if record.e == 0 {
        Plane::P0
    } else {
        phase(record)
    }
}

/// The byte that a digit shows, 0 to 7 and then 0a to 7a.
pub fn shown_byte(record: &Record, digit: usize) -> u8 {
    match shown(record) {
        Plane::P0 => record.p0[digit],
        Plane::P1 => record.p1[digit],
    }
}
