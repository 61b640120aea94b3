//! Key scanning ("Keys", Tables 33 to 35).

use crate::bits::{bit, put};
use crate::ports::groups;
use crate::record::Record;

/// One scan; keys of groups not configured count as open.
pub fn scan(record: &mut Record, keys: [u8; 4]) {
    let configured = groups(record);
    for (group, byte) in keys.into_iter().enumerate() {
        for key in 0..8 {
            let closed = group < configured && bit(byte, key);
            scan_key(record, group, key, closed);
        }
    }
}

/// One key: closed in two scans and not held, it is debounced and held; open, it is not held.
fn scan_key(record: &mut Record, group: usize, key: usize, closed: bool) {
    let before = bit(record.pressed[group], key);
    let held = bit(record.held[group], key);
    if closed && before && !held {
        put(&mut record.debounced[group], key, true);
        put(&mut record.held[group], key, true);
        if bit(record.mask[group], key) {
            record.interrupt = 1;
        }
    }
    if !closed {
        put(&mut record.held[group], key, false);
    }
    put(&mut record.pressed[group], key, closed);
}

/// Reading a debounced register takes its data, then clears it and the interrupt.
pub fn read_debounced(record: &mut Record, group: usize) -> u8 {
    let data = record.debounced[group];
    record.debounced[group] = 0;
    record.interrupt = 0;
    data
}
