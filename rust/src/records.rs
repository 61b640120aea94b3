//! A driver's record, laid out as the library has it. Any values are a record; one that isn't sound is refused.
use crate::sys;

/// The control registers as stored.
#[repr(C)]
#[derive(Clone, Copy, Debug, PartialEq, Eq)]
pub struct Controls {
    /// 0x01 decode mode, bit d for digits d and da: 1 is the hex font, 0 a bit for each segment; 7-segment pairs only.
    pub decode: u8,
    /// 0x02 global intensity, 4 bits.
    pub global: u8,
    /// 0x03 scan limit, 3 bits: cathodes above it are dark.
    pub limit: u8,
    /// 0x05 GPIO data, 5 bits, bit k is Pk: what an output gives.
    pub gpio: u8,
    /// 0x06 port configuration: key groups in D7 to D5 (4 and above are 4), directions of P4 to P0 below, 1 is input.
    pub ports: u8,
    /// 0x07 display test, 1 bit.
    pub test: u8,
    /// 0x0C digit type, bit d for cathode d: 1 is 14 segments, 0 is 16 or a 7-segment pair as `fitted` has it.
    pub types: u8,
}

/// 0x04 configuration: the stored bits, each 0 or 1.
#[repr(C)]
#[derive(Clone, Copy, Debug, PartialEq, Eq)]
pub struct Config {
    /// D6: each digit's own intensity.
    pub i: u8,
    /// D3: blinking enabled.
    pub e: u8,
    /// D2: blinking fast.
    pub b: u8,
    /// D0: normal operation, 0 is shutdown.
    pub s: u8,
}

/// Eight keys of a group, bit k for key k.
#[repr(C)]
#[derive(Clone, Copy, Debug, PartialEq, Eq)]
pub struct Group {
    /// 0x08 to 0x0B as written: keys that raise the interrupt.
    pub mask: u8,
    /// 0x08 to 0x0B as read: debounced since it was last read.
    pub debounced: u8,
    /// 0x0C to 0x0F as read: closed in the last scan.
    pub pressed: u8,
    /// Still closed since they were debounced, so not debounced again.
    pub held: u8,
}

/// Key groups A to D, and the interrupt that they share.
#[repr(C)]
#[derive(Clone, Copy, Debug, PartialEq, Eq)]
pub struct Keys {
    /// Group A: 0x08, and 0x0C as read.
    pub a: Group,
    /// Group B: 0x09, and 0x0D as read.
    pub b: Group,
    /// Group C: 0x0A, and 0x0E as read.
    pub c: Group,
    /// Group D: 0x0B, and 0x0F as read.
    pub d: Group,
    /// 1 when raised, else 0.
    pub interrupt: u8,
}

/// The digit bytes: digits 0 to 7, then 0a to 7a.
#[repr(C)]
#[derive(Clone, Copy, Debug, PartialEq, Eq)]
pub struct Planes {
    /// 0x20 to 0x2F.
    pub p0: [u8; 16],
    /// 0x40 to 0x4F.
    pub p1: [u8; 16],
}

/// All that the registers hold or show.
#[repr(C)]
#[derive(Clone, Copy, Debug, PartialEq, Eq)]
pub struct Registers {
    /// 0x01 to 0x03, 0x05 to 0x07 and 0x0C.
    pub controls: Controls,
    /// 0x04.
    pub config: Config,
    /// 0x10 to 0x17: digits 0 and 1, 2 and 3, .. 7, 0a and 1a, .. 7a; the odd one in the high nibble.
    pub intensities: [u8; 8],
    /// 0x08 to 0x0F, as written and as read.
    pub keys: Keys,
    /// 0x20 to 0x2F and 0x40 to 0x4F; 0x60 to 0x6F write both.
    pub planes: Planes,
    /// Levels of the pins P0 to P4, 5 bits, bit k is Pk: what an input reads.
    pub pins: u32,
    /// Master clocks modulo 4,000,000.
    pub blink: u32,
}

/// 0x04 configuration of a MAX6957: the stored bits, each 0 or 1.
#[repr(C)]
#[derive(Clone, Copy, Debug, PartialEq, Eq)]
pub struct PortConfig {
    /// D7: transition detection; an event leaves it.
    pub m: u8,
    /// D6: each port's own current.
    pub i: u8,
    /// D0: normal operation, 0 is shutdown.
    pub s: u8,
}

/// Transition detection, bit k for port k+24: P24 to P30.
#[repr(C)]
#[derive(Clone, Copy, Debug, PartialEq, Eq)]
pub struct Transition {
    /// 0x06 transition detect mask, 7 bits: ports that raise the interrupt.
    pub mask: u8,
    /// 7 bits: what the ports read when configuration was last written with M set.
    pub snapshot: u8,
    /// 1 from such a write until a masked port differs from the snapshot or M is written 0, else 0.
    pub detecting: u8,
    /// 1 when raised, else 0: INT, which P31 shows as an output while M is set.
    pub interrupt: u8,
}

/// All that the registers of a MAX6957 hold or show, bit k for port k+4: P4 to P31. At 0x40 to 0x43 D0 is P4, as Table 3 of
/// its data sheet has it.
#[repr(C)]
#[derive(Clone, Copy, Debug, PartialEq, Eq)]
pub struct PortRegisters {
    /// 0x24 to 0x3F and 0x40 to 0x5F as written, 28 bits: what an output gives, LED or logic.
    pub stored: u32,
    /// Levels of the pins, 28 bits: what an input reads, and any port in shutdown.
    pub pins: u32,
    /// 0x09 to 0x0F: two bits a port, P4 in D1 and D0 of the first; 0 LED, 1 output, 2 input, 3 input with pull-up.
    pub pairs: [u8; 7],
    /// 0x12 to 0x1F: P4 and P5, P6 and P7, .. P30 and P31; the odd one in the high nibble.
    pub currents: [u8; 14],
    /// 0x02 global current, 4 bits.
    pub global: u8,
    /// 0x07 display test, 1 bit.
    pub test: u8,
    /// 0x04.
    pub config: PortConfig,
    /// 0x06, and what it detects by.
    pub transition: Transition,
}

/// A driver's record. Of `registers` and `ports`, those of the family that the driver isn't of are never read, tested or
/// changed.
#[repr(C)]
#[derive(Clone, Copy, Debug, PartialEq, Eq)]
pub struct Device {
    /// The registers of a MAX6954 or MAX6955.
    pub registers: Registers,
    /// The shift word, D15 to D0: the next access clocks it out.
    pub shift: u16,
    /// Bit d: cathode d has a 7-segment pair where its digit type is 0, else 16 segments; no call changes it.
    pub fitted: u8,
    /// 1 when the word that the driver last took was a read, so that the shift word is its answer, else 0.
    pub answer_mark: u8,
    /// The command address of a two-wire part, 7 bits: where its next data byte is; accesses leave it.
    pub command: u8,
    /// 0: MAX6954 or MAX6955, 1: MAX6957; no call changes it, and any other is refused.
    pub family: u8,
    /// The registers of a MAX6957.
    pub ports: PortRegisters,
}

impl Device {
    /// A driver at power-up: in shutdown, every cathode fitted with a 7-segment pair.
    pub fn power_up() -> Device {
        // SAFETY: the call takes nothing and gives a record.
        unsafe { sys::max6954_power_up() }
    }

    /// A MAX6957 at power-up: in shutdown, every port an input. The two differ in `family` alone.
    pub fn max6957_power_up() -> Device {
        // SAFETY: the call takes nothing and gives a record.
        unsafe { sys::max6957_power_up() }
    }
}
