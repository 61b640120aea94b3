//! Damaged scripts.

use crate::drafts::{record, Pieces};
use crate::random::Random;

/// Damages a script in one way.
pub fn damage(random: &mut Random, pieces: &mut Pieces) {
    let at = random.below(pieces.len().max(1));
    match random.below(5) {
        0 if !pieces.is_empty() => cut(random, pieces, at),
        1 => chain_record(random, pieces, at),
        2 => {
            let length = random.below(20);
            pieces.push(random.bytes(length));
        }
        _ if !pieces.is_empty() => alter(random, &mut pieces[at]),
        _ => {}
    }
}

/// Cuts a piece; what follows it goes or stays.
fn cut(random: &mut Random, pieces: &mut Pieces, at: usize) {
    let left = random.below(pieces[at].len());
    pieces[at].truncate(left);
    if random.one_in(2) {
        pieces.truncate(at + 1);
    }
}

/// A chain record that isn't first, or a first one of a length that a chain can't have.
fn chain_record(random: &mut Random, pieces: &mut Pieces, at: usize) {
    if random.one_in(2) {
        pieces.insert(at, record(1, &[1 + random.byte() % 16]));
    } else {
        pieces.insert(0, record(1, &[random.pick(&[0, 17, 18, 32, 128, 255])]));
    }
}

/// Alters a record: its mark, its kind, its length, any byte, or a body of one byte more.
fn alter(random: &mut Random, piece: &mut Vec<u8>) {
    let any = random.below(piece.len());
    match random.below(6) {
        0 => piece[random.below(2)] ^= 1 << random.below(8),
        1 => piece[2] = random.pick(&[0, 1, 7, 8, 0x82, 255]),
        2 => piece[3] = random.byte(),
        3 => piece[4] = piece[4].wrapping_add(random.pick(&[1, 255])),
        4 => piece[any] = random.byte(),
        _ => {
            let body = [&piece[5..], &[random.byte()]].concat();
            *piece = record(piece[2], &body);
        }
    }
}
