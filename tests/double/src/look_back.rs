//! One plane byte after a list of a driver's words (request 9), by running all of them.

use crate::record::Record;
use crate::registers::obey;

/// The byte of a digit in plane 0 or 1 that the record would hold after it had taken every word in order; the record stays.
pub fn look_back(record: &Record, plane: usize, digit: usize, words: &[u16]) -> u8 {
    let mut copy = record.clone();
    for word in words {
        obey(&mut copy, *word);
    }
    match plane {
        0 => copy.p0[digit],
        _ => copy.p1[digit],
    }
}
