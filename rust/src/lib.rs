//! A bench double of a chain of MAX6954 LED display drivers and MAX6957 port drivers, and of a bus of MAX6955 ([`two_wire`]),
//! proved in Rattle.
//!
//! A chain is any slice of 1 to 16 [`Device`] records, nearest the controller first; it may mix both families. Drivers are
//! counted from 1. A call is served, or refused with the first [`Refusal`] that applies; then no record and no lent byte has
//! changed.
//!
//! ```
//! use ratchetelm::{access, answer_mark, Device, Refusal};
//!
//! let mut chain = [Device::power_up(); 2];
//! let mut answer = [0; 4];
//!
//! // With 16 clocks for each driver the last driver's word goes first: driver 2 takes 0000, driver 1 takes 0303.
//! access(&mut chain, 32, &[0x00, 0x00, 0x03, 0x03], &mut answer)?;
//! assert_eq!(chain[0].registers.controls.limit, 3);
//!
//! // Driver 1 is asked for its scan limit. What comes out in this access is the word that it took before.
//! access(&mut chain, 32, &[0x00, 0x00, 0x83, 0x00], &mut answer)?;
//! assert_eq!(answer, [0x00, 0x00, 0x03, 0x03]);
//!
//! // The word that it holds now is an answer, and comes out one access later.
//! assert!(answer_mark(&chain, 1)?);
//! access(&mut chain, 32, &[0; 4], &mut answer)?;
//! assert_eq!(answer, [0x00, 0x00, 0x83, 0x03]);
//!
//! assert_eq!(access(&mut chain, 32, &[0; 3], &mut answer), Err(Refusal::SentTooShort));
//! # Ok::<(), Refusal>(())
//! ```
//!
//! The fewest accesses that lead to another picture are planned, and then sent:
//!
//! ```
//! use ratchetelm::{access, plan, plan_bytes, Device, Refusal, MOST_ACCESSES, WANTED_SIZE};
//!
//! let mut chain = [Device::power_up(); 2];
//! let mut wanted = [0; 2 * WANTED_SIZE];
//! wanted[3] = 5; // driver 1, digit 3 of P0; all else is 0
//!
//! let mut list = [0; 2 * MOST_ACCESSES];
//! let accesses = plan(&chain, &wanted, &mut list)?;
//! // Both are cleared. Then driver 1's digit is written, and driver 2 waits.
//! assert_eq!(list[..2 * accesses], [0x0420, 0x0420, 0x2305, 0x0000]);
//!
//! let (mut sent, mut answer) = ([0; 4], [0; 4]);
//! for k in 0..accesses {
//!     plan_bytes(2, &list, k, &mut sent)?;
//!     access(&mut chain, 32, &sent, &mut answer)?;
//! }
//! assert_eq!(chain[0].registers.planes.p0[..4], [0, 0, 0, 5]);
//! assert_eq!(chain[1].registers.planes.p0, [0; 16]);
//! # Ok::<(), Refusal>(())
//! ```
//!
//! [`lit_time`] runs a whole script, and says how long and how brightly each cathode was lit.
//!
//! A MAX6957 has no digits: [`ports`] says what its ports drive. It lacks [`scan`], [`add_clocks`], [`plane`], [`segments`],
//! [`brightness`], [`shown`] and [`look_back`], and a chain with one anywhere lacks [`plan`], [`plan_check`] and the bus.
//!
//! The crate needs no standard library: no call allocates, and the records are the caller's.
#![no_std]
#![deny(missing_docs)]

mod records;
mod refusal;
mod sys;
pub mod two_wire;

pub use records::{
    Config, Controls, Device, Group, Keys, Planes, PortConfig, PortRegisters, Registers, Transition,
};
pub use refusal::Refusal;

/// The wanted bytes of one driver in a plan: P0, then P1.
pub const WANTED_SIZE: usize = 32;

/// The most accesses that a plan has.
pub const MOST_ACCESSES: usize = 32;

/// The totals of one driver in a lit time: a cathode each.
pub const CATHODES: usize = 8;

/// The most totals that a lit time has.
pub const MOST_TOTALS: usize = 128;

/// A pin of a cathode, O0 to O18; as a number it is the one that C has.
#[derive(Clone, Copy, Debug, PartialEq, Eq)]
pub enum Pin {
    /// The cathode's partner, or any pin of a cathode that is dark.
    NotDriven = 0,
    /// The cathode itself.
    Cathode = 1,
    /// Its segment is lit.
    Lit = 2,
    /// Its segment isn't lit.
    Unlit = 3,
    /// The display has no segment there.
    NoSegment = 4,
}

impl Pin {
    const BY_NUMBER: [Pin; 5] = [
        Pin::NotDriven,
        Pin::Cathode,
        Pin::Lit,
        Pin::Unlit,
        Pin::NoSegment,
    ];
}

/// What rules the brightness of a digit; as a number it is the one that C has.
#[derive(Clone, Copy, Debug, PartialEq, Eq)]
pub enum Ruler {
    /// The global intensity register: I=0.
    Global = 1,
    /// The digit's own nibble: I=1.
    Own = 2,
    /// Display test, whatever I is.
    Test = 3,
}

impl Ruler {
    // From 1 on: a served answer names one.
    const BY_NUMBER: [Ruler; 3] = [Ruler::Global, Ruler::Own, Ruler::Test];
}

/// The brightness of a digit.
#[derive(Clone, Copy, Debug, PartialEq, Eq)]
pub struct Brightness {
    /// 1 to 15; 0 where the digit's cathode is dark.
    pub sixteenths: u8,
    /// What rules them, or would if the cathode weren't dark.
    pub ruler: Ruler,
}

/// A digit plane; as a number it is the one that C has.
#[derive(Clone, Copy, Debug, PartialEq, Eq)]
pub enum Plane {
    /// Shown where blinking is off, and in the first half of a blink period.
    P0 = 0,
    /// Shown in the second half of a blink period.
    P1 = 1,
}

/// What a port of a MAX6957 drives.
#[derive(Clone, Copy, Debug, PartialEq, Eq)]
pub enum PortState {
    /// An input, an LED that is off, or any port in shutdown but an LED in display test.
    Undriven,
    /// An output, low.
    Low,
    /// An output, high.
    High,
    /// An LED current in sixteenths, 1 to 16.
    Led(u8),
}

impl PortState {
    // What C has as a number.
    fn of(number: u8) -> PortState {
        match number {
            0 => PortState::Undriven,
            1 => PortState::Low,
            2 => PortState::High,
            _ => PortState::Led(number - 2),
        }
    }
}

/// Clocks through the chain; bits are packed first bit highest. The answer's bytes are written, spare bits of the last one 0;
/// bytes after them stay. Then every driver takes the word in its shift register, also at 0 clocks.
pub fn access(
    chain: &mut [Device],
    clocks: usize,
    sent: &[u8],
    answer: &mut [u8],
) -> Result<(), Refusal> {
    let (n, sent_length, room) = (chain.len(), sent.len(), answer.len());
    // SAFETY: each pointer has the length of its slice, and the two that are written are borrowed exclusively.
    Refusal::of(unsafe {
        sys::max6954_access(
            chain.as_mut_ptr(),
            n,
            clocks,
            sent.as_ptr(),
            sent_length,
            answer.as_mut_ptr(),
            room,
        )
    })
}

/// A key scan of one driver: the closed keys of groups A to D, bit k for key k.
pub fn scan(chain: &mut [Device], driver: usize, keys: [u8; 4]) -> Result<(), Refusal> {
    let [a, b, c, d] = keys;
    let n = chain.len();
    // SAFETY: the pointer has the length of its slice, which is borrowed exclusively.
    Refusal::of(unsafe { sys::max6954_scan(chain.as_mut_ptr(), n, driver, a, b, c, d) })
}

/// The pin levels of one driver: five in the old family, bit k is Pk; 28 of a MAX6957, bit k is port k+4, and a change may
/// raise its interrupt.
pub fn set_pins(chain: &mut [Device], driver: usize, levels: u32) -> Result<(), Refusal> {
    let n = chain.len();
    // SAFETY: the pointer has the length of its slice, which is borrowed exclusively.
    Refusal::of(unsafe { sys::max6954_set_pins(chain.as_mut_ptr(), n, driver, levels) })
}

/// Master clocks given to one driver, any number; accesses give none.
pub fn add_clocks(chain: &mut [Device], driver: usize, clocks: u32) -> Result<(), Refusal> {
    let n = chain.len();
    // SAFETY: the pointer has the length of its slice, which is borrowed exclusively.
    Refusal::of(unsafe { sys::max6954_add_clocks(chain.as_mut_ptr(), n, driver, clocks) })
}

/// Digits first to last, both included, of the plane that a driver shows, of two lent planes of 16 digits, uncopied.
pub fn plane<'a>(
    chain: &[Device],
    driver: usize,
    p0: &'a [u8],
    p1: &'a [u8],
    first: usize,
    last: usize,
) -> Result<&'a [u8], Refusal> {
    let (n, l0, l1) = (chain.len(), p0.len(), p1.len());
    // SAFETY: each pointer has the length of its slice, and nothing is written.
    let answer = unsafe {
        sys::max6954_plane_shown(
            chain.as_ptr(),
            n,
            driver,
            p0.as_ptr(),
            l0,
            p1.as_ptr(),
            l1,
            first,
            last,
        )
    };
    let part = match plane_of(answer)? {
        Plane::P0 => p0,
        Plane::P1 => p1,
    };
    Ok(&part[first..=last])
}

/// The pins O0 to O18 of a cathode under two glyph tables of 128 words, for 14 and for 16 segments.
pub fn segments(
    chain: &[Device],
    driver: usize,
    cathode: usize,
    font14: &[u16],
    font16: &[u16],
) -> Result<[Pin; 19], Refusal> {
    let (n, l14, l16) = (chain.len(), font14.len(), font16.len());
    // SAFETY: each pointer has the length of its slice, and nothing is written.
    let answer = unsafe {
        sys::max6954_segments(
            chain.as_ptr(),
            n,
            driver,
            cathode,
            font14.as_ptr(),
            l14,
            font16.as_ptr(),
            l16,
        )
    };
    Refusal::of(answer.number)?;
    Ok(answer
        .pins
        .map(|number| Pin::BY_NUMBER[usize::from(number)]))
}

/// The brightness of a digit and what rules it: digits 0 to 7, then 8 to 15 for 0a to 7a. Digits d and da are of cathode d.
pub fn brightness(chain: &[Device], driver: usize, digit: usize) -> Result<Brightness, Refusal> {
    // SAFETY: the pointer has the length of its slice, and nothing is written.
    let answer = unsafe { sys::max6954_brightness(chain.as_ptr(), chain.len(), driver, digit) };
    Refusal::of(answer.number)?;
    Ok(Brightness {
        sixteenths: answer.sixteenths,
        ruler: Ruler::BY_NUMBER[usize::from(answer.ruler) - 1],
    })
}

/// The plane that a driver shows.
pub fn shown(chain: &[Device], driver: usize) -> Result<Plane, Refusal> {
    // SAFETY: the pointer has the length of its slice, and nothing is written.
    plane_of(unsafe { sys::max6954_shown(chain.as_ptr(), chain.len(), driver) })
}

fn plane_of(answer: sys::ShownAnswer) -> Result<Plane, Refusal> {
    Refusal::of(answer.number)?;
    Ok(if answer.plane == 0 {
        Plane::P0
    } else {
        Plane::P1
    })
}

/// Whether a driver's interrupt is raised. That of a MAX6957 is cleared by a read or a write of its mask, which leave detection
/// off after an event, and by configuration written with M set, which takes a new snapshot.
pub fn interrupt(chain: &[Device], driver: usize) -> Result<bool, Refusal> {
    // SAFETY: the pointer has the length of its slice, and nothing is written.
    let answer = unsafe { sys::max6954_interrupt(chain.as_ptr(), chain.len(), driver) };
    Refusal::of(answer.number)?;
    Ok(answer.raised == 1)
}

/// Whether the word that a driver last took was a read, so that its shift word is an answer.
pub fn answer_mark(chain: &[Device], driver: usize) -> Result<bool, Refusal> {
    // SAFETY: the pointer has the length of its slice, and nothing is written.
    let answer = unsafe { sys::max6954_answer_mark(chain.as_ptr(), chain.len(), driver) };
    Refusal::of(answer.number)?;
    Ok(answer.mark == 1)
}

/// What each port of a MAX6957 drives, P4 to P31. A current is the global nibble + 1, with I=1 the port's own + 1; in display
/// test every LED port has 8.
///
/// ```
/// use ratchetelm::{access, ports, Device, PortState, Refusal};
///
/// let mut chain = [Device::power_up(), Device::max6957_power_up()];
/// // To driver 2: P4 is an LED and P5 an output, the global current is 10 sixteenths, both are on, normal operation.
/// for word in [0x09A4u16, 0x0209, 0x4003, 0x0401] {
///     let [high, low] = word.to_be_bytes();
///     access(&mut chain, 32, &[high, low, 0, 0], &mut [0; 4])?;
/// }
/// let [p4, p5, p6, ..] = ports(&chain, 2)?;
/// assert_eq!([p4, p5, p6], [PortState::Led(10), PortState::High, PortState::Undriven]);
/// assert_eq!(ports(&chain, 1), Err(Refusal::Lacked));
/// # Ok::<(), Refusal>(())
/// ```
pub fn ports(chain: &[Device], driver: usize) -> Result<[PortState; 28], Refusal> {
    // SAFETY: the pointer has the length of its slice, and nothing is written.
    let answer = unsafe { sys::max6957_ports(chain.as_ptr(), chain.len(), driver) };
    Refusal::of(answer.number)?;
    Ok(answer.ports.map(PortState::of))
}

/// The byte of a digit in a plane that a driver would have after taking these words in order: digits 0 to 7, then 8 to 15 for
/// 0a to 7a. It looks back from the last word, and stops at the first that writes the byte or clears the planes.
///
/// ```
/// use ratchetelm::{look_back, Device, Plane, Refusal};
///
/// let chain = [Device::power_up()];
/// // Digit 3 is written in P0, then in both planes, then P1 alone; and digit 4, which is another.
/// let words = [0x2311, 0x6322, 0x4333, 0x6444];
/// assert_eq!(look_back(&chain, 1, Plane::P0, 3, &words)?, 0x22);
/// assert_eq!(look_back(&chain, 1, Plane::P1, 3, &words)?, 0x33);
/// assert_eq!(look_back(&chain, 1, Plane::P0, 5, &words)?, 0x20); // as at power-up
/// # Ok::<(), Refusal>(())
/// ```
pub fn look_back(
    chain: &[Device],
    driver: usize,
    plane: Plane,
    digit: usize,
    words: &[u16],
) -> Result<u8, Refusal> {
    let (n, length) = (chain.len(), words.len());
    // SAFETY: each pointer has the length of its slice, and nothing is written.
    let answer = unsafe {
        sys::max6954_look_back(
            chain.as_ptr(),
            n,
            driver,
            plane as usize,
            digit,
            words.as_ptr(),
            length,
        )
    };
    Refusal::of(answer.number)?;
    Ok(answer.byte)
}

/// The fewest accesses that lead from the planes of a chain to wanted ones, [`WANTED_SIZE`] bytes a driver, driver 1's first.
/// So many accesses are put into the list, each a word to each driver, driver 1's first; words after them stay. A room of
/// [`MOST_ACCESSES`] words for each driver always does.
pub fn plan(chain: &[Device], wanted: &[u8], list: &mut [u16]) -> Result<usize, Refusal> {
    let (n, wanted_length, room) = (chain.len(), wanted.len(), list.len());
    // SAFETY: each pointer has the length of its slice, and the one that is written is borrowed exclusively.
    let answer = unsafe {
        sys::max6954_plan(
            chain.as_ptr(),
            n,
            wanted.as_ptr(),
            wanted_length,
            list.as_mut_ptr(),
            room,
        )
    };
    Refusal::of(answer.number)?;
    Ok(answer.accesses)
}

/// Whether a list, of any length, leads to the wanted planes: it is whole accesses, ends in them, and has no other words than
/// no-ops, writes to digits, and configuration writes that keep what each driver has stored.
pub fn plan_check(chain: &[Device], wanted: &[u8], list: &[u16]) -> Result<bool, Refusal> {
    let (n, wanted_length, list_length) = (chain.len(), wanted.len(), list.len());
    // SAFETY: each pointer has the length of its slice, and nothing is written.
    let answer = unsafe {
        sys::max6954_plan_check(
            chain.as_ptr(),
            n,
            wanted.as_ptr(),
            wanted_length,
            list.as_ptr(),
            list_length,
        )
    };
    Refusal::of(answer.number)?;
    Ok(answer.accepted == 1)
}

/// The 2n bytes to send for an access of a list to n drivers, counted from 0, with 16n clocks; bytes after them stay. Refused
/// with [`Refusal::SentTooShort`] where the list lacks that access, with [`Refusal::AnswerTooShort`] where the room is under 2n.
pub fn plan_bytes(n: usize, list: &[u16], access: usize, bytes: &mut [u8]) -> Result<(), Refusal> {
    let (list_length, room) = (list.len(), bytes.len());
    // SAFETY: each pointer has the length of its slice, and the one that is written is borrowed exclusively.
    Refusal::of(unsafe {
        sys::max6954_plan_bytes(
            n,
            list.as_ptr(),
            list_length,
            access,
            bytes.as_mut_ptr(),
            room,
        )
    })
}

/// The lit time of a run: a whole script is run as the panel program runs it, on MAX6954 at power-up. The total of each driver
/// and cathode is the sum, over every master clock given to that driver, of lit segments times sixteenths of brightness at that
/// clock. Gives the drivers of the script's chain, [`CATHODES`] totals each, driver 1's first; totals after them stay. A room of
/// [`MOST_TOTALS`] always does.
///
/// A malformed record, or a chain record that isn't first, ends the run, and what ran counts. Refused with
/// [`Refusal::ScriptTooLong`], with [`Refusal::ChainLength`] for the length in the chain record, and with
/// [`Refusal::AnswerTooShort`] where the room is under [`CATHODES`] totals a driver, in this order.
///
/// ```
/// use ratchetelm::{lit_time, Refusal, CATHODES, MOST_TOTALS};
///
/// let script = [
///     0x5A, 0xC3, 1, 0, 1, 1, // a chain of 1
///     0x5A, 0xC3, 2, 0, 4, 0, 16, 0x04, 0x01, // an access of 16 clocks: normal operation
///     0x5A, 0xC3, 5, 0, 5, 1, 0x00, 0x00, 0x03, 0xE8, // 1,000 master clocks to driver 1
/// ];
/// let mut totals = [0; MOST_TOTALS];
/// let drivers = lit_time(&script, &mut totals)?;
/// // As at power-up each cathode shows 0 twice, 12 segments, at one sixteenth.
/// assert_eq!(totals[..CATHODES * drivers], [12_000; CATHODES]);
/// assert_eq!(lit_time(&script, &mut totals[..7]), Err(Refusal::AnswerTooShort));
/// # Ok::<(), Refusal>(())
/// ```
pub fn lit_time(script: &[u8], totals: &mut [u64]) -> Result<usize, Refusal> {
    let (script_length, room) = (script.len(), totals.len());
    // SAFETY: each pointer has the length of its slice, and the one that is written is borrowed exclusively.
    let answer =
        unsafe { sys::max6954_lit_time(script.as_ptr(), script_length, totals.as_mut_ptr(), room) };
    Refusal::of(answer.number)?;
    Ok(answer.drivers)
}
