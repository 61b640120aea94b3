//! The planner (request 6): the shorter of writing what differs and of clearing first.

use crate::bits::byte_of;
use crate::picture::{picture_of, pictures, wanted_number, Picture};
use crate::record::Record;

const NO_OP: u16 = 0x0000;

/// The planner's number and the accesses of its list.
#[derive(Clone, Copy, Debug, PartialEq, Eq)]
pub struct Planned {
    pub number: u8,
    pub accesses: usize,
}

/// Writes a shortest list to the front of the room, one word to each driver per access, driver 1's first.
pub fn plan(chain: &[Record], wanted: &[u8], room: &mut [u16]) -> Planned {
    let number = wanted_number(chain, wanted);
    if number != 0 {
        return refused(number);
    }
    let drivers = chain.iter().zip(pictures(wanted));
    let words: Vec<Vec<u16>> = drivers.map(|(record, to)| shortest(record, to)).collect();
    let accesses = words.iter().map(Vec::len).max().unwrap_or(0);
    if room.len() < accesses * chain.len() {
        return refused(13);
    }
    let list = room.chunks_exact_mut(chain.len()).take(accesses);
    for (k, access) in list.enumerate() {
        for (word, of_driver) in access.iter_mut().zip(&words) {
            *word = of_driver.get(k).copied().unwrap_or(NO_OP);
        }
    }
    Planned { number, accesses }
}

fn refused(number: u8) -> Planned {
    Planned {
        number,
        accesses: 0,
    }
}

/// The words of one driver. A clear undoes all before it, so it comes first or not at all.
fn shortest(record: &Record, to: &Picture) -> Vec<u16> {
    let direct = writes(&picture_of(record), to);
    let mut cleared = vec![clear_word(record)];
    cleared.extend(writes(&[0; 32], to));
    if cleared.len() < direct.len() {
        cleared
    } else {
        direct
    }
}

/// The configuration write with R set that keeps I, E, B and S, T, P and X being 0.
fn clear_word(record: &Record) -> u16 {
    let data = byte_of(&[
        false,
        record.i == 1,
        true,
        false,
        record.e == 1,
        record.b == 1,
        false,
        record.s == 1,
    ]);
    u16::from_be_bytes([0x04, data])
}

/// The digit writes from one picture to another.
fn writes(from: &Picture, to: &Picture) -> Vec<u16> {
    (0..16).flat_map(|d| digit_writes(d, from, to)).collect()
}

/// A write for each plane in which the digit differs, or one for both where both want the same byte.
fn digit_writes(d: usize, from: &Picture, to: &Picture) -> Vec<u16> {
    let (w0, w1) = (to[d], to[16 + d]);
    let write = |first: u8, byte| u16::from_be_bytes([first + d as u8, byte]);
    match (from[d] != w0, from[16 + d] != w1) {
        (false, false) => vec![],
        (true, false) => vec![write(0x20, w0)],
        (false, true) => vec![write(0x40, w1)],
        (true, true) if w0 == w1 => vec![write(0x60, w0)],
        (true, true) => vec![write(0x20, w0), write(0x40, w1)],
    }
}
