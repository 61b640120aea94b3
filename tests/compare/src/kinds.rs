//! The kinds of calls, a call in words, and the questions about what a driver shows.

use crate::convert::{hex, hex_words};
use second_double::{named_driver, Call};

/// The kinds of calls, in the order of `kind_of`.
pub const KINDS: [&str; 12] = [
    "access",
    "scan",
    "pins",
    "clocks",
    "plane",
    "segments",
    "brightness",
    "shown",
    "interrupt",
    "answer mark",
    "look back",
    "ports",
];

/// The place of a call's kind among `KINDS`.
pub fn kind_of(call: &Call) -> usize {
    match call {
        Call::Access { .. } => 0,
        Call::Scan { .. } => 1,
        Call::Pins { .. } => 2,
        Call::Clocks { .. } => 3,
        Call::Plane { .. } => 4,
        Call::Segments { .. } => 5,
        Call::Brightness { .. } => 6,
        Call::Shown { .. } => 7,
        Call::Interrupt { .. } => 8,
        Call::AnswerMark { .. } => 9,
        Call::LookBack { .. } => 10,
        Call::Ports { .. } => 11,
    }
}

/// A call in words, its lent bytes in hex.
pub fn spelled(call: &Call) -> String {
    let driver = named_driver(call).map_or(String::new(), |driver| format!("driver={driver} "));
    format!("{} {driver}{}", KINDS[kind_of(call)], rest(call))
}

/// What a call has beside its driver.
fn rest(call: &Call) -> String {
    match call {
        Call::Access { clocks, sent, room } => {
            format!("clocks={clocks} sent={} room={}", hex(sent), hex(room))
        }
        Call::Scan { keys, .. } => format!("keys={}", hex(keys)),
        Call::Pins { levels, .. } => format!("levels={levels}"),
        Call::Clocks { clocks, .. } => format!("clocks={clocks}"),
        Call::Plane {
            p0,
            p1,
            first,
            last,
            ..
        } => format!("p0={} p1={} first={first} last={last}", hex(p0), hex(p1)),
        Call::Segments {
            cathode,
            font14,
            font16,
            ..
        } => format!(
            "cathode={cathode} font14={} font16={}",
            hex_words(font14),
            hex_words(font16)
        ),
        Call::Brightness { digit, .. } => format!("digit={digit}"),
        Call::LookBack {
            plane,
            digit,
            words,
            ..
        } => format!("plane={plane} digit={digit} words={}", hex_words(words)),
        Call::Shown { .. }
        | Call::Interrupt { .. }
        | Call::AnswerMark { .. }
        | Call::Ports { .. } => String::new(),
    }
}

/// The interrupt, the plane shown, the pins of each cathode, the brightness of each digit and the states of the ports.
pub fn questions(driver: usize) -> Vec<Call> {
    let font: Vec<u16> = (0..128).map(|k| 509 * k).collect();
    let cathodes = (0..8).map(|cathode| Call::Segments {
        driver,
        cathode,
        font14: font.clone(),
        font16: font.clone(),
    });
    let digits = (0..16).map(|digit| Call::Brightness { driver, digit });
    let flags = [
        Call::Interrupt { driver },
        Call::Shown { driver },
        Call::Ports { driver },
    ];
    cathodes.chain(digits).chain(flags).collect()
}
