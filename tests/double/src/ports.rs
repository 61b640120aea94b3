//! Port configuration and GPIO data ("Ports", Tables 30 to 32).

use crate::bits::{bit, put};
use crate::record::Record;

/// The key groups configured by D7 to D5 of 0x06; 4 and above are four.
pub fn groups(record: &Record) -> usize {
    match (
        bit(record.ports, 7),
        bit(record.ports, 6),
        bit(record.ports, 5),
    ) {
        (false, false, false) => 0,
        (false, false, true) => 1,
        (false, true, false) => 2,
        (false, true, true) => 3,
        (true, _, _) => 4,
    }
}

/// What a read of 0x05 gives; D7 to D5 are 0.
pub fn data_read(record: &Record) -> u8 {
    let mut data = 0;
    for port in 0..5 {
        put(&mut data, port, port_read(record, port));
    }
    data
}

/// One port: a group's reads 0, P4 the interrupt, an input its pin, an output its stored bit.
fn port_read(record: &Record, port: usize) -> bool {
    let groups = groups(record);
    if port < groups {
        return false;
    }
    if port == 4 && groups > 0 {
        return record.interrupt == 1;
    }
    if bit(record.ports, port) {
        bit(record.pins, port)
    } else {
        bit(record.gpio, port)
    }
}
