//! The device record ("What the double covers").

use crate::blink::CYCLE;
use crate::families::{OLD, PORT_DRIVER};
use crate::port_driver::PortDriver;

/// One driver's registers, planes, key state, pin levels, blink count, shift word, answer mark and command address.
/// A record of one family holds the other's fields too, and leaves them alone.
#[derive(Clone, Debug, PartialEq, Eq)]
pub struct Record {
    /// 0x01 decode mode.
    pub decode: u8,
    /// 0x02 global intensity.
    pub global: u8,
    /// 0x03 scan limit.
    pub limit: u8,
    /// 0x05 GPIO data as written.
    pub gpio: u8,
    /// 0x06 port configuration.
    pub ports: u8,
    /// 0x07 display test.
    pub test: u8,
    /// 0x0C digit type as written.
    pub types: u8,
    /// Configuration bit I.
    pub i: u8,
    /// Configuration bit E.
    pub e: u8,
    /// Configuration bit B.
    pub b: u8,
    /// Configuration bit S.
    pub s: u8,
    /// 0x10 to 0x17.
    pub intensities: [u8; 8],
    /// Key masks A to D.
    pub mask: [u8; 4],
    /// Debounced keys A to D.
    pub debounced: [u8; 4],
    /// Pressed keys A to D: the last scan.
    pub pressed: [u8; 4],
    /// Held keys A to D.
    pub held: [u8; 4],
    /// 1 when the interrupt is raised.
    pub interrupt: u8,
    /// Plane P0, digits 0 to 7 and then 0a to 7a.
    pub p0: [u8; 16],
    /// Plane P1, in the same order.
    pub p1: [u8; 16],
    /// Levels of the pins P0 to P4, bit k for Pk.
    pub pins: u32,
    /// Blink count in master clocks.
    pub blink: u32,
    /// The 16-bit shift word.
    pub shift: u16,
    /// 1 when the latest access loaded the shift word by a read.
    pub answer_mark: u8,
    /// The two-wire bus's command address, 7 bits.
    pub command: u8,
    /// Bit d set: a 7-segment pair where the digit type leaves 16 or 7 open.
    pub fitted: u8,
    /// 0 the MAX6954 and the MAX6955, 1 the MAX6957; the others are unknown.
    pub family: u8,
    /// What a MAX6957 has of its own.
    pub port_driver: PortDriver,
}

impl Record {
    /// Table 15, and 0 for what it omits; fitted is 255. The other family's fields are at power-up too.
    pub fn power_up() -> Record {
        let mut plane = [0; 16];
        for byte in plane.iter_mut().take(8) {
            *byte = 0x20;
        }
        Record {
            decode: 0xFF,
            global: 0,
            limit: 7,
            gpio: 0,
            ports: 0x1F,
            test: 0,
            types: 0,
            i: 0,
            e: 0,
            b: 0,
            s: 0,
            intensities: [0; 8],
            mask: [0; 4],
            debounced: [0; 4],
            pressed: [0; 4],
            held: [0; 4],
            interrupt: 0,
            p0: plane,
            p1: plane,
            pins: 0,
            blink: 0,
            shift: 0,
            answer_mark: 0,
            command: 0,
            fitted: 255,
            family: OLD,
            port_driver: PortDriver::power_up(),
        }
    }

    /// The MAX6957 at power-up (Table 4 of 004): it differs in the family alone.
    pub fn port_driver_power_up() -> Record {
        Record {
            family: PORT_DRIVER,
            ..Record::power_up()
        }
    }

    /// Every field of the record's own family fits its width; an unknown family isn't tested.
    pub fn sound(&self) -> bool {
        match self.family {
            OLD => self.old_sound(),
            PORT_DRIVER => self.answer_mark <= 1 && self.port_driver.sound(),
            _ => true,
        }
    }

    /// Every field fits its width, and the blink count is below 4,000,000.
    fn old_sound(&self) -> bool {
        let single = [
            self.test,
            self.i,
            self.e,
            self.b,
            self.s,
            self.interrupt,
            self.answer_mark,
        ];
        self.global <= 15
            && self.limit <= 7
            && self.gpio <= 31
            && single.iter().all(|bit| *bit <= 1)
            && self.pins <= 31
            && self.blink < CYCLE
            && self.command <= 127
    }
}
