//! The bytes to send for one access of a list of words (request 6).

use crate::numbers::chain_length_bad;

/// Writes the 2n bytes of access number `access` (from 0) to the front of the room.
/// Driver n's word comes first, each word's high byte first.
pub fn plan_bytes(n: usize, list: &[u16], access: usize, room: &mut [u8]) -> u8 {
    if chain_length_bad(n) {
        return 1;
    }
    let Some(words) = list.chunks_exact(n).nth(access) else {
        return 4;
    };
    if room.len() < 2 * n {
        return 5;
    }
    let sent = words.iter().rev().flat_map(|word| word.to_be_bytes());
    for (byte, sent_byte) in room.iter_mut().zip(sent) {
        *byte = sent_byte;
    }
    0
}
