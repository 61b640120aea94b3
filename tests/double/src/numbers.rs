//! "Numbers a call may give", in the one order 1 2 3 4 5 6 7 10 11 14 12 13.

use crate::calls::{named_driver, Call};
use crate::families::{families_of, family_of, lacks, largest_levels, unknown, OLD};
use crate::record::Record;
use crate::wire::bytes_needed;

/// The first of these numbers that isn't 0, or 0.
pub fn first_of(numbers: &[u8]) -> u8 {
    numbers.iter().copied().find(|n| *n != 0).unwrap_or(0)
}

/// The number of a call on a chain.
pub fn number(chain: &[Record], call: &Call) -> u8 {
    let families = families_of(chain);
    first_of(&[
        argument_number(&families, call),
        unsound_number(chain),
        family_number(&families, call),
    ])
}

/// The number of a call on a row of these families whose records are sound.
pub fn number_alone(families: &[u8], call: &Call) -> u8 {
    first_of(&[
        argument_number(families, call),
        family_number(families, call),
    ])
}

/// The number of an access; room is the lent answer bytes.
pub fn access_number(chain: &[Record], clocks: usize, sent: usize, room: usize) -> u8 {
    first_of(&[
        access_arguments(chain.len(), clocks, sent, room),
        unsound_number(chain),
        unknown_number(&families_of(chain)),
    ])
}

/// Number 7: a record of a known family isn't sound.
pub fn unsound_number(chain: &[Record]) -> u8 {
    if chain.iter().all(Record::sound) {
        0
    } else {
        7
    }
}

/// Number 14 of the planner, its check and the two-wire bus: "any driver" that isn't of the old family.
pub fn any_lacks_number(families: &[u8]) -> u8 {
    if families.iter().all(|family| *family == OLD) {
        0
    } else {
        14
    }
}

/// Number 14 of every call: "a family number unknown in any record".
fn unknown_number(families: &[u8]) -> u8 {
    if families.iter().any(|family| unknown(*family)) {
        14
    } else {
        0
    }
}

/// Number 14: an unknown family in the row, or a call that the named driver lacks.
fn family_number(families: &[u8], call: &Call) -> u8 {
    let named = named_driver(call).and_then(|driver| family_of(families, driver));
    match named {
        Some(family) if lacks(family, call) => 14,
        _ => unknown_number(families),
    }
}

/// The lowest of 1 to 6 that applies to a row of these families and the arguments.
fn argument_number(families: &[u8], call: &Call) -> u8 {
    let n = families.len();
    if let Call::Access { clocks, sent, room } = call {
        return access_arguments(n, *clocks, sent.len(), room.len());
    }
    if chain_length_bad(n) {
        return 1;
    }
    let named = named_driver(call).and_then(|driver| family_of(families, driver));
    match named {
        None => 2,
        Some(family) if value_bad(family, call) => 6,
        Some(_) => 0,
    }
}

/// The numbers 1, 3, 4 and 5 of an access.
fn access_arguments(n: usize, clocks: usize, sent: usize, room: usize) -> u8 {
    if chain_length_bad(n) {
        1
    } else if clocks > 4096 {
        3
    } else if sent < bytes_needed(clocks) {
        4
    } else if room < bytes_needed(clocks) {
        5
    } else {
        0
    }
}

/// Number 1: 0 or more than 16 records.
pub fn chain_length_bad(n: usize) -> bool {
    n == 0 || n > 16
}

/// Number 6: only the pin levels go by the named driver's family.
fn value_bad(family: u8, call: &Call) -> bool {
    match call {
        Call::Pins { levels, .. } => *levels > largest_levels(family),
        Call::Plane {
            p0,
            p1,
            first,
            last,
            ..
        } => *first > 15 || *last > 15 || last < first || p0.len() != 16 || p1.len() != 16,
        Call::Segments {
            cathode,
            font14,
            font16,
            ..
        } => *cathode > 7 || font14.len() != 128 || font16.len() != 128,
        Call::Brightness { digit, .. } => *digit > 15,
        Call::LookBack { plane, digit, .. } => *plane > 1 || *digit > 15,
        _ => false,
    }
}
