//! A digit's brightness and what rules it ("Segments and brightness", request 5).

use crate::record::Record;
use crate::segments::dark;

const NONE: u8 = 0;
const GLOBAL: u8 = 1;
const OWN: u8 = 2;
const TEST: u8 = 3;

/// The answer to a question of brightness.
#[derive(Clone, Copy, Debug, PartialEq, Eq)]
pub struct Brightness {
    pub sixteenths: u8,
    /// 0 none, 1 the global register, 2 the digit's own nibble, 3 display test.
    pub ruler: u8,
}

impl Brightness {
    /// A refused answer names none.
    pub const REFUSED: Brightness = Brightness {
        sixteenths: 0,
        ruler: NONE,
    };

    /// What a call gives back: the sixteenths and then what ruled.
    pub fn bytes(self) -> Vec<u8> {
        vec![self.sixteenths, self.ruler]
    }
}

/// Digits are 0 to 7 and then 0a to 7a; digit i is of cathode i mod 8.
/// On a dark cathode it has 0 sixteenths and still names what would have ruled.
pub fn brightness(record: &Record, digit: usize) -> Brightness {
    let ruler = ruler(record);
    let sixteenths = if dark(record, digit % 8) {
        0
    } else {
        ruled(record, digit, ruler)
    };
    Brightness { sixteenths, ruler }
}

/// Display test rules over I; I=0 gives the global register, I=1 the digit's own nibble.
fn ruler(record: &Record) -> u8 {
    if record.test == 1 {
        TEST
    } else if record.i == 0 {
        GLOBAL
    } else {
        OWN
    }
}

/// The sixteenths that a ruler gives: 7 in display test, otherwise its nibble's.
fn ruled(record: &Record, digit: usize, ruler: u8) -> u8 {
    match ruler {
        TEST => 7,
        GLOBAL => of_nibble(record.global),
        _ => of_nibble(own_nibble(record, digit)),
    }
}

/// The smaller of v+1 and 15.
fn of_nibble(v: u8) -> u8 {
    v.saturating_add(1).min(15)
}

/// The digit's own nibble (Table 27): the odd digit in the high one.
fn own_nibble(record: &Record, digit: usize) -> u8 {
    let pair = record.intensities[digit / 2];
    if digit % 2 == 1 {
        pair / 16
    } else {
        pair % 16
    }
}
