//! The calls and their answers.

use crate::blink::{add_clocks, shown, Plane};
use crate::brightness::{brightness, Brightness};
use crate::families::PORT_DRIVER;
use crate::keys::scan;
use crate::look_back::look_back;
use crate::numbers::{access_number, number};
use crate::port_states::{states, NO_PORT_DRIVEN};
use crate::record::Record;
use crate::segments::{pins, NO_PIN_DRIVEN};
use crate::transition::new_levels;
use crate::wire::shift;

/// One call on a chain with what it lends; drivers count from 1, nearest the controller.
#[derive(Clone, Debug, PartialEq, Eq)]
pub enum Call {
    /// Bus clocks with the sent bytes; `room` is the lent answer bytes before the call.
    Access {
        clocks: usize,
        sent: Vec<u8>,
        room: Vec<u8>,
    },
    /// One scan of the key groups A to D.
    Scan { driver: usize, keys: [u8; 4] },
    /// New levels of the pins P0 to P4, or of a MAX6957's P4 to P31, bit k for port k+4.
    Pins { driver: usize, levels: u32 },
    /// Master clocks for the blink count.
    Clocks { driver: usize, clocks: u32 },
    /// The part first to last of whichever lent plane is shown.
    Plane {
        driver: usize,
        p0: Vec<u8>,
        p1: Vec<u8>,
        first: usize,
        last: usize,
    },
    /// The pins O0 to O18 of a cathode under the lent glyph tables.
    Segments {
        driver: usize,
        cathode: usize,
        font14: Vec<u16>,
        font16: Vec<u16>,
    },
    /// The sixteenths of a digit, 0 to 7 and then 0a to 7a, and what ruled:
    /// 0 none, 1 the global register, 2 the digit's own nibble, 3 display test.
    Brightness { driver: usize, digit: usize },
    /// The plane shown: 0 for P0, 1 for P1.
    Shown { driver: usize },
    /// The interrupt, of a MAX6957 the latch of INT: 1 when raised.
    Interrupt { driver: usize },
    /// The answer mark: 1 when the latest access loaded the shift word by a read.
    AnswerMark { driver: usize },
    /// The byte of a digit in plane 0 or 1 after the driver had taken these words.
    LookBack {
        driver: usize,
        plane: usize,
        digit: usize,
        words: Vec<u16>,
    },
    /// The MAX6957's own call, a byte for each of P4 to P31: 0 undriven, 1 low, 2 high, 2+s an LED current of s sixteenths.
    Ports { driver: usize },
}

/// The number of a call and the bytes it gives back.
#[derive(Clone, Debug, PartialEq, Eq)]
pub struct Reply {
    pub number: u8,
    pub back: Vec<u8>,
}

/// Serves or refuses one call.
pub fn call(chain: &mut [Record], call: &Call) -> Reply {
    if let Call::Access { clocks, sent, room } = call {
        let mut back = room.clone();
        let number = access(chain, *clocks, sent, &mut back);
        return Reply { number, back };
    }
    let number = number(chain, call);
    let index = named_driver(call).and_then(|driver| driver.checked_sub(1));
    let back = match index.and_then(|index| chain.get_mut(index)) {
        Some(record) if number == 0 => serve(record, call),
        _ => refused(call),
    };
    Reply { number, back }
}

/// An access on lent bytes; its number. Refused, it changes nothing.
pub fn access(chain: &mut [Record], clocks: usize, sent: &[u8], answer: &mut [u8]) -> u8 {
    let number = access_number(chain, clocks, sent.len(), answer.len());
    if number == 0 {
        shift(chain, clocks, sent, answer);
    }
    number
}

/// The driver that a call names; an access names none.
pub fn named_driver(call: &Call) -> Option<usize> {
    match call {
        Call::Access { .. } => None,
        Call::Scan { driver, .. }
        | Call::Pins { driver, .. }
        | Call::Clocks { driver, .. }
        | Call::Plane { driver, .. }
        | Call::Segments { driver, .. }
        | Call::Brightness { driver, .. }
        | Call::Shown { driver }
        | Call::Interrupt { driver }
        | Call::AnswerMark { driver }
        | Call::LookBack { driver, .. }
        | Call::Ports { driver } => Some(*driver),
    }
}

/// The same call to another driver.
pub fn to_driver(call: &Call, to: usize) -> Call {
    let mut other = call.clone();
    match &mut other {
        Call::Access { .. } => {}
        Call::Scan { driver, .. }
        | Call::Pins { driver, .. }
        | Call::Clocks { driver, .. }
        | Call::Plane { driver, .. }
        | Call::Segments { driver, .. }
        | Call::Brightness { driver, .. }
        | Call::Shown { driver }
        | Call::Interrupt { driver }
        | Call::AnswerMark { driver }
        | Call::LookBack { driver, .. }
        | Call::Ports { driver } => *driver = to,
    }
    other
}

/// An accepted call on the record of the driver it names; an access names none and does nothing here.
pub fn serve(record: &mut Record, call: &Call) -> Vec<u8> {
    match call {
        Call::Access { .. } => {}
        Call::Scan { keys, .. } => scan(record, *keys),
        Call::Pins { levels, .. } => replace_pins(record, *levels),
        Call::Clocks { clocks, .. } => add_clocks(record, *clocks),
        _ => return answer(record, call),
    }
    Vec::new()
}

/// Pin levels replace those of the driver's family.
fn replace_pins(record: &mut Record, levels: u32) {
    if record.family == PORT_DRIVER {
        new_levels(&mut record.port_driver, levels);
    } else {
        record.pins = levels;
    }
}

/// The answer of an accepted call that only reads; the others have none.
fn answer(record: &Record, call: &Call) -> Vec<u8> {
    match call {
        Call::Plane {
            p0,
            p1,
            first,
            last,
            ..
        } => {
            let plane = if shown(record) == Plane::P0 { p0 } else { p1 };
            plane[*first..=*last].to_vec()
        }
        Call::Segments {
            cathode,
            font14,
            font16,
            ..
        } => pins(record, *cathode, font14, font16),
        Call::Brightness { digit, .. } => brightness(record, *digit).bytes(),
        Call::Shown { .. } => vec![u8::from(shown(record) == Plane::P1)],
        Call::Interrupt { .. } => vec![interrupt(record)],
        Call::AnswerMark { .. } => vec![record.answer_mark],
        Call::LookBack {
            plane,
            digit,
            words,
            ..
        } => vec![look_back(record, *plane, *digit, words)],
        Call::Ports { .. } => states(&record.port_driver),
        _ => Vec::new(),
    }
}

/// The interrupt of the driver's family.
fn interrupt(record: &Record) -> u8 {
    if record.family == PORT_DRIVER {
        record.port_driver.interrupt
    } else {
        record.interrupt
    }
}

/// What a refused call gives back: 0 for a number, no pin or port driven, no ruler, an empty part.
fn refused(call: &Call) -> Vec<u8> {
    match call {
        Call::Segments { .. } => NO_PIN_DRIVEN.to_vec(),
        Call::Ports { .. } => NO_PORT_DRIVEN.to_vec(),
        Call::Brightness { .. } => Brightness::REFUSED.bytes(),
        Call::Shown { .. }
        | Call::Interrupt { .. }
        | Call::AnswerMark { .. }
        | Call::LookBack { .. } => vec![0],
        _ => Vec::new(),
    }
}
