//! The two families of a row (request 8) and what each of them lacks.

use crate::calls::Call;
use crate::record::Record;

/// The MAX6954, and the MAX6955 with it.
pub const OLD: u8 = 0;

/// The MAX6957.
pub const PORT_DRIVER: u8 = 1;

/// The families of a row, driver 1's first.
pub fn families_of(chain: &[Record]) -> Vec<u8> {
    chain.iter().map(|record| record.family).collect()
}

/// A family number that no driver has.
pub fn unknown(family: u8) -> bool {
    family != OLD && family != PORT_DRIVER
}

/// The family of a driver, counted from 1; none where the row has no such driver.
pub fn family_of(families: &[u8], driver: usize) -> Option<u8> {
    let index = driver.checked_sub(1)?;
    families.get(index).copied()
}

/// The largest pin levels: five pins, or 28; an unknown family's aren't tested.
pub fn largest_levels(family: u8) -> u32 {
    match family {
        OLD => 31,
        PORT_DRIVER => 0x0FFF_FFFF,
        _ => u32::MAX,
    }
}

/// "The MAX6957 lacks the scan, clocks, plane, segment and brightness calls" and the look-back; "the old family only the MAX6957's own call".
pub fn lacks(family: u8, call: &Call) -> bool {
    match call {
        Call::Access { .. }
        | Call::Pins { .. }
        | Call::Interrupt { .. }
        | Call::AnswerMark { .. } => false,
        Call::Ports { .. } => family == OLD,
        Call::Scan { .. }
        | Call::Clocks { .. }
        | Call::Plane { .. }
        | Call::Segments { .. }
        | Call::Brightness { .. }
        | Call::Shown { .. }
        | Call::LookBack { .. } => family == PORT_DRIVER,
    }
}
