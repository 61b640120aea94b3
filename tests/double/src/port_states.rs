//! The MAX6957's own call (request 8): what each of P4 to P31 drives.

use crate::port_driver::PortDriver;
use crate::port_levels::{mode, stored, Mode, FIRST, LAST};

const UNDRIVEN: u8 = 0;
const LOW: u8 = 1;
const HIGH: u8 = 2;

/// The port that is INT while M is set.
const INT: usize = 31;

/// The answer of a refused call: 28 ports undriven.
pub const NO_PORT_DRIVEN: [u8; 28] = [UNDRIVEN; 28];

/// All ports, P4 first.
pub fn states(driver: &PortDriver) -> Vec<u8> {
    (FIRST..=LAST).map(|port| state(driver, port)).collect()
}

/// Display test overrides shutdown for the LED drivers alone, shutdown all else.
fn state(driver: &PortDriver, port: usize) -> u8 {
    let mode = mode(driver, port);
    if driver.test == 1 && mode == Mode::Led {
        return current(8);
    }
    if driver.s == 0 {
        return UNDRIVEN;
    }
    match mode {
        Mode::Led if stored(driver, port) => current(nibble(driver, port).saturating_add(1)),
        Mode::Led | Mode::Input => UNDRIVEN,
        Mode::Output if high(driver, port) => HIGH,
        Mode::Output => LOW,
    }
}

/// 2+s is an LED current of s sixteenths.
fn current(sixteenths: u8) -> u8 {
    sixteenths.saturating_add(2)
}

/// The level of a logic output: P31 is INT while M is set, whatever its stored bit.
fn high(driver: &PortDriver, port: usize) -> bool {
    if port == INT && driver.m == 1 {
        driver.interrupt == 1
    } else {
        stored(driver, port)
    }
}

/// Table 7: I=0 gives the global current, I=1 the port's own. Table 10: the odd port in the high nibble, P4 and P5 first.
fn nibble(driver: &PortDriver, port: usize) -> u8 {
    let own = driver.currents[port / 2 - 2];
    match (driver.i, port % 2) {
        (0, _) => driver.global,
        (_, 0) => own % 16,
        (_, _) => own / 16,
    }
}
