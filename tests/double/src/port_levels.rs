//! What a port of the MAX6957 is, and its bit as read (004, Tables 1 and 2, "Shutdown").

use crate::bits::bit;
use crate::port_driver::PortDriver;

/// P0 to P3 are virtual, P32 to P38 nonexistent.
pub const FIRST: usize = 4;
pub const LAST: usize = 31;

/// Table 2's modes; the two inputs differ in nothing that the double shows.
#[derive(Clone, Copy, Debug, PartialEq, Eq)]
pub enum Mode {
    Led,
    Output,
    Input,
}

/// Table 1: four ports a register, P4 in D1 and D0 of 0x09. Table 2: the pair, upper bit first.
pub fn mode(driver: &PortDriver, port: usize) -> Mode {
    let pairs = driver.pairs[port / 4 - 1];
    let lower = 2 * (port % 4);
    match (bit(pairs, lower + 1), bit(pairs, lower)) {
        (false, false) => Mode::Led,
        (false, true) => Mode::Output,
        (true, false) | (true, true) => Mode::Input,
    }
}

/// The stored bit of a port.
pub fn stored(driver: &PortDriver, port: usize) -> bool {
    bit(driver.stored, port - FIRST)
}

/// A port as read: an input its pin, an output of either mode its stored bit; in shutdown "all ports are forced to inputs".
pub fn level(driver: &PortDriver, port: usize) -> bool {
    let input = driver.s == 0 || mode(driver, port) == Mode::Input;
    if input {
        bit(driver.pins, port - FIRST)
    } else {
        stored(driver, port)
    }
}
