//! "Transition (Port Data Change) Detection" of 004, on P24 to P30.

use std::ops::RangeInclusive;

use crate::bits::{bit, put};
use crate::port_driver::PortDriver;
use crate::port_levels::level;

/// The seven ports of the mask and the snapshot; P24 is D0 (Table 13).
const WATCHED: RangeInclusive<usize> = 24..=30;

/// M written set: a snapshot of all seven as they now read, detection enabled, INT low. Written clear: detection disabled.
pub fn write_m(driver: &mut PortDriver, m: bool) {
    driver.m = u8::from(m);
    driver.detecting = u8::from(m);
    if m {
        driver.snapshot = snapshot(driver);
        driver.interrupt = 0;
    }
}

/// The levels of P24 to P30 as read.
fn snapshot(driver: &PortDriver) -> u8 {
    let mut copy = 0;
    for port in WATCHED {
        put(&mut copy, port - 24, level(driver, port));
    }
    copy
}

/// "When INT has been cleared after responding to a transition event, transition detection is automatically disabled"; with INT low it stays.
pub fn mask_accessed(driver: &mut PortDriver) {
    if driver.interrupt == 1 {
        driver.interrupt = 0;
        driver.detecting = 0;
    }
}

/// "continuously compares the snapshot register": after every word and every new pin levels.
/// A change on a monitored port latches INT high, once.
pub fn compare(driver: &mut PortDriver) {
    for port in WATCHED {
        if driver.detecting == 1 && changed(driver, port) {
            driver.interrupt = 1;
            driver.detecting = 0;
        }
    }
}

/// A port whose mask bit is set reads otherwise than in the snapshot.
fn changed(driver: &PortDriver, port: usize) -> bool {
    let place = port - 24;
    bit(driver.mask, place) && bit(driver.snapshot, place) != level(driver, port)
}

/// The levels of all 28 pins are replaced, and then compared once.
pub fn new_levels(driver: &mut PortDriver, levels: u32) {
    driver.pins = levels;
    compare(driver);
}
