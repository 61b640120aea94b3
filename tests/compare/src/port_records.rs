//! Random registers of a MAX6957.

use crate::random::Random;
use second_double::{PortDriver, Record};
use std::slice::from_mut;

/// The bits of P4 to P31.
pub const ALL: u32 = 0x0FFF_FFFF;

/// A read of P24 to P31, and the word that does nothing.
const READ_WATCHED: [u8; 2] = [0xD8, 0x00];
const NO_OP: [u8; 2] = [0x00, 0x00];

/// Any that are sound; the snapshot is often what the ports read, sometimes but for one of them.
pub fn sound(random: &mut Random) -> PortDriver {
    let mut driver = fitting(random);
    match random.below(4) {
        0 | 1 => driver.snapshot = watched(&driver),
        2 => driver.snapshot = watched(&driver) ^ 1 << random.below(7),
        _ => {}
    }
    driver
}

/// Any that are sound, field by field.
pub fn fitting(random: &mut Random) -> PortDriver {
    let any = any(random);
    PortDriver {
        stored: any.stored & ALL,
        pins: any.pins & ALL,
        global: any.global % 16,
        test: u8::from(random.one_in(6)),
        m: any.m % 2,
        i: any.i % 2,
        s: u8::from(!random.one_in(6)),
        mask: any.mask % 128,
        snapshot: any.snapshot % 128,
        detecting: any.detecting % 2,
        interrupt: any.interrupt % 2,
        ..any
    }
}

/// Any bytes.
pub fn any(random: &mut Random) -> PortDriver {
    PortDriver {
        stored: random.number() as u32,
        pins: random.number() as u32,
        pairs: [(); 7].map(|()| random.byte()),
        currents: [(); 14].map(|()| random.byte()),
        global: random.byte(),
        test: random.byte(),
        m: random.byte(),
        i: random.byte(),
        s: random.byte(),
        mask: random.byte(),
        snapshot: random.byte(),
        detecting: random.byte(),
        interrupt: random.byte(),
    }
}

/// What P24 to P30 read, by the second double.
fn watched(driver: &PortDriver) -> u8 {
    after(driver, READ_WATCHED).shift as u8 % 128
}

/// Whether an event waits for the next word, whatever that is, by the second double.
pub fn waits(driver: &PortDriver) -> bool {
    after(driver, NO_OP).port_driver.interrupt > driver.interrupt
}

/// A MAX6957 with these registers after a word.
fn after(driver: &PortDriver, word: [u8; 2]) -> Record {
    let mut record = Record {
        port_driver: *driver,
        ..Record::port_driver_power_up()
    };
    second_double::access(from_mut(&mut record), 16, &word, &mut [0; 2]);
    record
}
