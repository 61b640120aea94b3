//! The fewest accesses (request 6) by a breadth-first search over the planes, for pictures that differ in few digits.

use std::collections::HashSet;

use crate::check::allowed;
use crate::picture::{picture_of, pictures, put_picture, Picture};
use crate::record::Record;
use crate::registers::obey;

/// The fewest accesses that bring a sound chain to the wanted planes, 32 bytes a driver; none if no words do.
/// Each driver takes words of its own, so it is the largest of the drivers' fewest words.
pub fn least_accesses(chain: &[Record], wanted: &[u8]) -> Option<usize> {
    let mut least = 0;
    for (record, picture) in chain.iter().zip(pictures(wanted)) {
        let configuration = configuration_words(record);
        let words = |held: &Picture| [&configuration[..], &digit_words(held, picture)].concat();
        least = fewest_words(record, picture, words)?.max(least);
    }
    Some(least)
}

/// The fewest words that bring a driver to a picture; none if they never do.
/// `words` gives those that may be sent at each picture held.
pub fn fewest_words(
    record: &Record,
    wanted: &Picture,
    words: impl Fn(&Picture) -> Vec<u16>,
) -> Option<usize> {
    let start = picture_of(record);
    let mut seen = HashSet::from([start]);
    let mut edge = vec![start];
    let mut sent = 0;
    while !seen.contains(wanted) {
        if edge.is_empty() {
            return None;
        }
        edge = next_edge(record, &edge, &words, &mut seen);
        sent += 1;
    }
    Some(sent)
}

/// The pictures not seen before that one word more leads to.
fn next_edge(
    record: &Record,
    edge: &[Picture],
    words: impl Fn(&Picture) -> Vec<u16>,
    seen: &mut HashSet<Picture>,
) -> Vec<Picture> {
    let mut driver = record.clone();
    let mut next = Vec::new();
    for held in edge {
        for word in words(held) {
            put_picture(&mut driver, held);
            obey(&mut driver, word);
            let picture = picture_of(&driver);
            if seen.insert(picture) {
                next.push(picture);
            }
        }
    }
    next
}

/// The configuration writes that the check allows, the clear being one.
fn configuration_words(record: &Record) -> Vec<u16> {
    let words = 0x0400..=0x04FF;
    words.filter(|word| allowed(record, *word)).collect()
}

/// Writes of the wanted bytes at the digits that differ. Leaving out any other digit write changes no end and shortens:
/// what it writes is written again or cleared later, or is a wanted byte that already stood there.
fn digit_words(held: &Picture, wanted: &Picture) -> Vec<u16> {
    let mut words = Vec::new();
    for d in 0..16 {
        let (w0, w1) = (wanted[d], wanted[16 + d]);
        if (held[d], held[16 + d]) != (w0, w1) {
            for (first, byte) in [(0x20, w0), (0x40, w1), (0x60, w0), (0x60, w1)] {
                words.push(u16::from_be_bytes([first + d as u8, byte]));
            }
        }
    }
    words
}
