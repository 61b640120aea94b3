//! The two-wire bus of the MAX6955 (request 3): what a start, a stop and a byte either way do.

use crate::bits::bit;
use crate::families::families_of;
use crate::numbers::{any_lacks_number, chain_length_bad, first_of, unsound_number};
use crate::record::Record;
use crate::registers::{read, write};

/// A bus state as its caller keeps it. Part 0 names none: phase 0 is idle, 1 awaits the slave byte, 2 is after an unmatched one.
/// Of a part, phase 0 awaits the command address, 1 is writing, 2 is reading.
#[derive(Clone, Copy, Debug, PartialEq, Eq)]
pub struct Bus {
    pub part: usize,
    pub phase: u8,
}

/// The addresses of sixteen parts, of which the first n count.
pub type Straps = [u8; 16];

/// A call of the bus.
#[derive(Clone, Copy, Debug, PartialEq, Eq)]
pub enum BusCall {
    Start,
    Stop,
    /// A byte that the master gives.
    Write(u8),
    /// A byte that the master asks for.
    Read,
}

/// The number of a call, the bus state after it, and of a byte whether it was acknowledged, and its data.
#[derive(Clone, Debug, PartialEq, Eq)]
pub struct BusReply {
    pub number: u8,
    pub bus: Bus,
    pub back: Vec<u8>,
}

/// What goes on; parts count from 1.
#[derive(Clone, Copy, PartialEq)]
enum State {
    Idle,
    AwaitsSlave,
    Unmatched,
    AwaitsCommand(usize),
    Writes(usize),
    Reads(usize),
}

impl State {
    /// The state of a bus of n parts; none where it names a part that isn't there, or has an unknown phase.
    fn of(n: usize, bus: Bus) -> Option<State> {
        let Bus { part, phase } = bus;
        let state = match (part, phase) {
            (0, 0) => State::Idle,
            (0, 1) => State::AwaitsSlave,
            (0, 2) => State::Unmatched,
            (_, 0) => State::AwaitsCommand(part),
            (_, 1) => State::Writes(part),
            (_, 2) => State::Reads(part),
            _ => return None,
        };
        (part <= n).then_some(state)
    }

    fn bus(self) -> Bus {
        let (part, phase) = match self {
            State::Idle => (0, 0),
            State::AwaitsSlave => (0, 1),
            State::Unmatched => (0, 2),
            State::AwaitsCommand(part) => (part, 0),
            State::Writes(part) => (part, 1),
            State::Reads(part) => (part, 2),
        };
        Bus { part, phase }
    }
}

/// A byte that nobody takes or drives.
const NOT_ACKNOWLEDGED: [u8; 2] = [0, 255];

/// A byte that a part takes.
const TAKEN: [u8; 2] = [1, 0];

/// Serves or refuses one call of the bus.
pub fn bus_call(parts: &mut [Record], bus: Bus, straps: &Straps, call: BusCall) -> BusReply {
    let number = number(parts, bus, straps);
    match State::of(parts.len(), bus) {
        Some(state) if number == 0 => {
            let (state, back) = serve(parts, state, straps, call);
            BusReply {
                number,
                bus: state.bus(),
                back,
            }
        }
        _ => BusReply {
            number,
            bus,
            back: refused(call),
        },
    }
}

/// The first of 1, 7, 10, 11 and 14 that applies.
fn number(parts: &[Record], bus: Bus, straps: &Straps) -> u8 {
    let n = parts.len();
    if chain_length_bad(n) {
        return 1;
    }
    if State::of(n, bus).is_none() {
        return 7;
    }
    first_of(&[
        unsound_number(parts),
        straps_number(n, straps),
        any_lacks_number(&families_of(parts)),
    ])
}

/// 10 where two of 1 to 16 parts have one address, then 11 where one is above 127; the straps of other parts don't count.
pub fn straps_number(n: usize, straps: &Straps) -> u8 {
    let own = &straps[..n];
    if (0..n).any(|k| own[..k].contains(&own[k])) {
        10
    } else if own.iter().any(|address| *address > 127) {
        11
    } else {
        0
    }
}

/// A refused byte isn't acknowledged, and its data is 0.
fn refused(call: BusCall) -> Vec<u8> {
    match call {
        BusCall::Start | BusCall::Stop => Vec::new(),
        BusCall::Write(_) | BusCall::Read => vec![0, 0],
    }
}

fn serve(parts: &mut [Record], state: State, straps: &Straps, call: BusCall) -> (State, Vec<u8>) {
    let (state, answer) = match call {
        BusCall::Start => return (State::AwaitsSlave, Vec::new()),
        BusCall::Stop => return (State::Idle, Vec::new()),
        BusCall::Write(byte) => given(parts, state, straps, byte),
        BusCall::Read => (state, asked_for(parts, state)),
    };
    (state, answer.to_vec())
}

/// A byte given: the slave byte, a command address, or data; elsewhere nobody takes it.
fn given(parts: &mut [Record], state: State, straps: &Straps, byte: u8) -> (State, [u8; 2]) {
    match state {
        State::AwaitsSlave => slave_byte(parts.len(), straps, byte),
        State::AwaitsCommand(part) => {
            parts[part - 1].command = byte % 128;
            (State::Writes(part), TAKEN)
        }
        State::Writes(part) => {
            let record = &mut parts[part - 1];
            write(record, record.command, byte);
            step(record);
            (state, TAKEN)
        }
        State::Idle | State::Unmatched | State::Reads(_) => (state, NOT_ACKNOWLEDGED),
    }
}

/// Seven bits of address and the R/W bit, which is 1 for a read; an unmatched one makes the bus await a start.
fn slave_byte(n: usize, straps: &Straps, byte: u8) -> (State, [u8; 2]) {
    let address = byte / 2;
    match straps[..n].iter().position(|strap| *strap == address) {
        Some(index) if bit(byte, 0) => (State::Reads(index + 1), TAKEN),
        Some(index) => (State::AwaitsCommand(index + 1), TAKEN),
        None => (State::Unmatched, NOT_ACKNOWLEDGED),
    }
}

/// A byte asked for: the data at the address of the part that is read, then what a read leaves; elsewhere nobody drives it.
fn asked_for(parts: &mut [Record], state: State) -> [u8; 2] {
    let State::Reads(part) = state else {
        return NOT_ACKNOWLEDGED;
    };
    let record = &mut parts[part - 1];
    let data = read(record, record.command);
    step(record);
    [1, data]
}

/// Table 6 of document 001: the address increments after a data byte; x1111111 remains.
fn step(record: &mut Record) {
    if record.command < 127 {
        record.command += 1;
    }
}
