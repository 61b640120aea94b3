//! The MAX6957's register file (Table 3 of 004).

use crate::bits::{bit, byte_of, put, put_in_row};
use crate::port_driver::PortDriver;
use crate::port_levels::{level, FIRST, LAST};
use crate::transition::{mask_accessed, write_m};

/// A write; virtual ports and the addresses that Table 3 lacks do nothing.
pub fn write(driver: &mut PortDriver, address: u8, data: u8) {
    let place = usize::from(address % 16);
    match address {
        0x02 => driver.global = data % 16,
        0x04 => write_configuration(driver, data),
        0x06 => {
            driver.mask = data % 128;
            mask_accessed(driver);
        }
        0x07 => driver.test = data % 2,
        0x09..=0x0F => driver.pairs[place - 9] = data,
        0x12..=0x1F => driver.currents[place - 2] = data,
        _ => write_ports(driver, address, data),
    }
}

/// A read; unused bits, virtual ports and the addresses that Table 3 lacks read 0.
pub fn read(driver: &mut PortDriver, address: u8) -> u8 {
    let place = usize::from(address % 16);
    match address {
        0x02 => driver.global,
        0x04 => read_configuration(driver),
        0x06 => {
            let data = driver.mask;
            mask_accessed(driver);
            data
        }
        0x07 => driver.test,
        0x09..=0x0F => driver.pairs[place - 9],
        0x12..=0x1F => driver.currents[place - 2],
        _ => read_ports(driver, address),
    }
}

/// Tables 6 to 8: M, I and S are stored, and then M acts.
fn write_configuration(driver: &mut PortDriver, data: u8) {
    driver.i = u8::from(bit(data, 6));
    driver.s = u8::from(bit(data, 0));
    write_m(driver, bit(data, 7));
}

/// M I X X X X X S, with X reading 0.
fn read_configuration(driver: &PortDriver) -> u8 {
    let mut bits = [false; 8];
    bits[0] = driver.m == 1;
    bits[1] = driver.i == 1;
    bits[7] = driver.s == 1;
    byte_of(&bits)
}

/// The ports at an address, D0's first: one port from 0x20 on, eight from 0x40 on, of which those that exist count.
fn ports_at(address: u8) -> Vec<usize> {
    let address = usize::from(address);
    let named = match address {
        0x20..=0x3F => address - 0x20..address - 0x20 + 1,
        0x40..=0x5F => address - 0x40..address - 0x40 + 8,
        _ => 0..0,
    };
    let exists = |port: &usize| (FIRST..=LAST).contains(port);
    named.filter(exists).collect()
}

/// Each port at the address takes its data bit, whatever its direction.
fn write_ports(driver: &mut PortDriver, address: u8, data: u8) {
    for (place, port) in ports_at(address).into_iter().enumerate() {
        put_in_row(&mut driver.stored, port - FIRST, bit(data, place));
    }
}

/// Each port at the address gives its data bit.
fn read_ports(driver: &PortDriver, address: u8) -> u8 {
    let mut data = 0;
    for (place, port) in ports_at(address).into_iter().enumerate() {
        put(&mut data, place, level(driver, port));
    }
    data
}
