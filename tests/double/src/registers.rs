//! The word that a driver takes, and the old family's register file (Table 6, "Registers").

use crate::bits::{bit, byte_of};
use crate::blink::{phase, Plane};
use crate::families::{OLD, PORT_DRIVER};
use crate::keys::read_debounced;
use crate::port_registers;
use crate::ports;
use crate::record::Record;
use crate::transition::compare;

/// The driver is sent a whole word and obeys it.
pub fn obey(record: &mut Record, word: u16) {
    record.shift = word;
    take(record);
}

/// The driver obeys its shift word: D15 is 1 for a read, D14 to D8 the address.
/// A read of any address sets the answer mark, a write clears it.
pub fn take(record: &mut Record) {
    let [high, low] = record.shift.to_be_bytes();
    if bit(high, 7) {
        let data = read_by_family(record, high - 0x80);
        record.shift = u16::from_be_bytes([high, data]);
        record.answer_mark = 1;
    } else {
        write_by_family(record, high, low);
        record.answer_mark = 0;
    }
    if record.family == PORT_DRIVER {
        compare(&mut record.port_driver);
    }
}

/// An unknown family has no registers; its words are never taken.
fn write_by_family(record: &mut Record, address: u8, data: u8) {
    match record.family {
        OLD => write(record, address, data),
        PORT_DRIVER => port_registers::write(&mut record.port_driver, address, data),
        _ => {}
    }
}

fn read_by_family(record: &mut Record, address: u8) -> u8 {
    match record.family {
        OLD => read(record, address),
        PORT_DRIVER => port_registers::read(&mut record.port_driver, address),
        _ => 0,
    }
}

/// A write; the other addresses do nothing.
pub fn write(record: &mut Record, address: u8, data: u8) {
    let place = usize::from(address % 16);
    match address {
        0x01 => record.decode = data,
        0x02 => record.global = data % 16,
        0x03 => record.limit = data % 8,
        0x04 => write_configuration(record, data),
        0x05 => record.gpio = data % 32,
        0x06 => record.ports = data,
        0x07 => record.test = data % 2,
        0x08..=0x0B => record.mask[place - 8] = data,
        0x0C => record.types = data,
        0x10..=0x17 => record.intensities[place] = data,
        0x20..=0x2F => record.p0[place] = data,
        0x40..=0x4F => record.p1[place] = data,
        0x60..=0x6F => {
            record.p0[place] = data;
            record.p1[place] = data;
        }
        _ => {}
    }
}

/// A read; no-op, 0x60 to 0x6F (Table 6) and unlisted addresses read 0.
pub fn read(record: &mut Record, address: u8) -> u8 {
    let place = usize::from(address % 16);
    match address {
        0x01 => record.decode,
        0x02 => record.global,
        0x03 => record.limit,
        0x04 => read_configuration(record),
        0x05 => ports::data_read(record),
        0x06 => record.ports,
        0x07 => record.test,
        0x08..=0x0B => read_debounced(record, place - 8),
        0x0C..=0x0F => record.pressed[place - 12],
        0x10..=0x17 => record.intensities[place],
        0x20..=0x2F => record.p0[place],
        0x40..=0x4F => record.p1[place],
        _ => 0,
    }
}

/// I, E, B and S are stored; R clears both planes and T the blink count, once.
fn write_configuration(record: &mut Record, data: u8) {
    record.i = u8::from(bit(data, 6));
    record.e = u8::from(bit(data, 3));
    record.b = u8::from(bit(data, 2));
    record.s = u8::from(bit(data, 0));
    if bit(data, 5) {
        record.p0 = [0; 16];
        record.p1 = [0; 16];
    }
    if bit(data, 4) {
        record.blink = 0;
    }
}

/// P I R T E B X S, with P 1 in the P0 phase and R, T, X reading 0.
fn read_configuration(record: &Record) -> u8 {
    byte_of(&[
        phase(record) == Plane::P0,
        record.i == 1,
        false,
        false,
        record.e == 1,
        record.b == 1,
        false,
        record.s == 1,
    ])
}
