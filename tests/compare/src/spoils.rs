//! Damage to one record of a row, by the fields of its own family or of the other, or to its family number.

use crate::port_records::ALL;
use crate::random::Random;
use crate::records::PORTS;
use second_double::{PortDriver, Record};

/// What damage does; the last makes one record unsound and another's family unknown.
pub const KINDS: [&str; 4] = ["own fields", "other fields", "family", "both"];

/// Damages a row, if it has a record; the place of the damage among `KINDS`, and the family of the first record that has it.
pub fn spoil(random: &mut Random, row: &mut [Record]) -> Option<(usize, u8)> {
    if row.is_empty() {
        return None;
    }
    let kind = random.pick(&[0, 0, 0, 0, 0, 1, 2, 3]);
    let record = &mut row[random.below(row.len())];
    let family = record.family;
    match kind {
        0 | 3 => own_field(random, record),
        1 => other_field(random, record),
        _ => unknown_family(random, record),
    }
    if kind == 3 {
        let other = random.below(row.len());
        unknown_family(random, &mut row[other]);
    }
    Some((kind, family))
}

/// A family that no driver is of.
pub fn unknown_family(random: &mut Random, record: &mut Record) {
    record.family = byte_above(random, PORTS.into());
}

/// One field of the record's own family doesn't fit.
fn own_field(random: &mut Random, record: &mut Record) {
    if random.one_in(13) {
        record.answer_mark = byte_above(random, 1);
    } else if record.family == PORTS {
        port_field(random, &mut record.port_driver);
    } else {
        old_field(random, record);
    }
}

/// One field of the other family doesn't.
fn other_field(random: &mut Random, record: &mut Record) {
    if record.family == PORTS {
        old_field(random, record);
    } else {
        port_field(random, &mut record.port_driver);
    }
}

fn old_field(random: &mut Random, record: &mut Record) {
    match random.below(12) {
        0 => record.global = byte_above(random, 15),
        1 => record.limit = byte_above(random, 7),
        2 => record.gpio = byte_above(random, 31),
        3 => record.test = byte_above(random, 1),
        4 => record.i = byte_above(random, 1),
        5 => record.e = byte_above(random, 1),
        6 => record.b = byte_above(random, 1),
        7 => record.s = byte_above(random, 1),
        8 => record.interrupt = byte_above(random, 1),
        9 => record.command = byte_above(random, 127),
        10 => record.pins = above(random, 31, u32::MAX),
        _ => record.blink = above(random, 3_999_999, u32::MAX),
    }
}

fn port_field(random: &mut Random, driver: &mut PortDriver) {
    match random.below(11) {
        0 => driver.stored = above(random, ALL, u32::MAX),
        1 => driver.pins = above(random, ALL, u32::MAX),
        2 => driver.global = byte_above(random, 15),
        3 => driver.test = byte_above(random, 1),
        4 => driver.m = byte_above(random, 1),
        5 => driver.i = byte_above(random, 1),
        6 => driver.s = byte_above(random, 1),
        7 => driver.mask = byte_above(random, 127),
        8 => driver.snapshot = byte_above(random, 127),
        9 => driver.detecting = byte_above(random, 1),
        _ => driver.interrupt = byte_above(random, 1),
    }
}

fn byte_above(random: &mut Random, most: u32) -> u8 {
    above(random, most, 255) as u8
}

/// A number above the most that fits: the next, the largest or any.
fn above(random: &mut Random, most: u32, largest: u32) -> u32 {
    match random.below(3) {
        0 => most + 1,
        1 => largest,
        _ => most + 1 + random.number() as u32 % (largest - most),
    }
}
