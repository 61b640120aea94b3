//! The chain's shift words under the bus clock ("Bits on the wire").

use crate::bits::{byte_bits, byte_of};
use crate::record::Record;
use crate::registers::take;

/// c clocks need c/8 bytes, rounded up.
pub fn bytes_needed(clocks: usize) -> usize {
    clocks.div_ceil(8)
}

/// An access already found good: the clocks one by one, then every driver takes its word.
pub fn shift(chain: &mut [Record], clocks: usize, sent: &[u8], answer: &mut [u8]) {
    let sent_bits: Vec<bool> = sent.iter().flat_map(|byte| byte_bits(*byte)).collect();
    let mut string = string_of(chain);
    let mut answered = Vec::new();
    for sent_bit in sent_bits.into_iter().take(clocks) {
        answered.push(clock(&mut string, sent_bit));
    }
    for (byte, eight) in answer.iter_mut().zip(answered.chunks(8)) {
        *byte = byte_of(eight);
    }
    put_string(chain, &string);
    for record in chain.iter_mut() {
        take(record);
    }
}

/// One clock: a bit enters at driver 1 and driver n's oldest leaves.
fn clock(string: &mut Vec<bool>, sent_bit: bool) -> bool {
    string.push(sent_bit);
    string.remove(0)
}

/// The shift words as one string of 16n bits, driver n's first.
fn string_of(chain: &[Record]) -> Vec<bool> {
    let mut string = Vec::new();
    for record in chain.iter().rev() {
        for byte in record.shift.to_be_bytes() {
            string.extend(byte_bits(byte));
        }
    }
    string
}

/// Gives each driver its sixteen bits of the string.
fn put_string(chain: &mut [Record], string: &[bool]) {
    for (record, word) in chain.iter_mut().rev().zip(string.chunks_exact(16)) {
        let (high, low) = word.split_at(8);
        record.shift = u16::from_be_bytes([byte_of(high), byte_of(low)]);
    }
}
