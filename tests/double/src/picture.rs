//! A driver's picture, its planes P0 and then P1, and the numbers of the calls that are given wanted ones (request 6).

use crate::families::families_of;
use crate::numbers::{any_lacks_number, chain_length_bad, first_of, unsound_number};
use crate::record::Record;

/// The 32 plane bytes of one driver, P0 first.
pub type Picture = [u8; 32];

/// The picture that a driver holds.
pub fn picture_of(record: &Record) -> Picture {
    let mut picture = [0; 32];
    let (p0, p1) = picture.split_at_mut(16);
    p0.copy_from_slice(&record.p0);
    p1.copy_from_slice(&record.p1);
    picture
}

/// Puts a picture into a driver's planes.
pub fn put_picture(record: &mut Record, picture: &Picture) {
    let (p0, p1) = picture.split_at(16);
    record.p0.copy_from_slice(p0);
    record.p1.copy_from_slice(p1);
}

/// The wanted pictures of whole 32 bytes, driver 1's first.
pub fn pictures(wanted: &[u8]) -> &[Picture] {
    wanted.as_chunks().0
}

/// The first of 1, 7, 14 and 12 that applies to a chain and the wanted bytes.
pub fn wanted_number(chain: &[Record], wanted: &[u8]) -> u8 {
    let n = chain.len();
    if chain_length_bad(n) {
        return 1;
    }
    let wrong_length = if wanted.len() != 32 * n { 12 } else { 0 };
    first_of(&[
        unsound_number(chain),
        any_lacks_number(&families_of(chain)),
        wrong_length,
    ])
}
