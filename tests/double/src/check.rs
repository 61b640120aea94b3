//! The check of a list of words (request 6), by applying them to copies of the records.

use crate::bits::bit;
use crate::picture::{picture_of, pictures, wanted_number};
use crate::record::Record;
use crate::registers::obey;

/// The check's number, and 1 where the list is accepted.
#[derive(Clone, Copy, Debug, PartialEq, Eq)]
pub struct Checked {
    pub number: u8,
    pub accepted: u8,
}

/// Accepts whole accesses of allowed words that end in the wanted planes, whatever their length.
pub fn check(chain: &[Record], wanted: &[u8], list: &[u16]) -> Checked {
    let number = wanted_number(chain, wanted);
    let accepted = number == 0
        && list.len().is_multiple_of(chain.len())
        && all_allowed(chain, list)
        && ends_in(chain, wanted, list);
    Checked {
        number,
        accepted: u8::from(accepted),
    }
}

/// Each word is allowed for the driver that it goes to, driver 1's being the first of an access.
fn all_allowed(chain: &[Record], list: &[u16]) -> bool {
    let drivers = chain.iter().cycle();
    drivers
        .zip(list)
        .all(|(record, word)| allowed(record, *word))
}

/// The no-op 0000, a write to a digit, or a configuration write that keeps what the record has.
pub fn allowed(record: &Record, word: u16) -> bool {
    let [address, data] = word.to_be_bytes();
    match address {
        0x00 => data == 0,
        0x04 => keeps(record, data),
        0x20..=0x2F | 0x40..=0x4F | 0x60..=0x6F => true,
        _ => false,
    }
}

/// I, E, B and S as in the record, T, P and X 0; R either way (Table 16).
fn keeps(record: &Record, data: u8) -> bool {
    let stored = [6, 3, 2, 0].map(|k| u8::from(bit(data, k)));
    let other = [7, 4, 1].map(|k| bit(data, k));
    stored == [record.i, record.e, record.b, record.s] && other == [false; 3]
}

/// Copies of the records that take the words, access by access, hold the wanted planes at the end.
fn ends_in(chain: &[Record], wanted: &[u8], list: &[u16]) -> bool {
    let mut copies = chain.to_vec();
    for access in list.chunks_exact(chain.len()) {
        for (record, word) in copies.iter_mut().zip(access) {
            obey(record, *word);
        }
    }
    copies
        .iter()
        .map(picture_of)
        .eq(pictures(wanted).iter().copied())
}
