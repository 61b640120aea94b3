//! The two-wire bus of the MAX6955. Up to 16 parts share it, each strapped to a seven-bit address; their records, scans, pin
//! levels, clocks and questions are those of a chain. The caller keeps the bus state from call to call.
//!
//! ```
//! use ratchetelm::two_wire::{read, start, stop, write, Bus};
//! use ratchetelm::{Device, Refusal};
//!
//! let mut parts = [Device::power_up()];
//! let mut straps = [0; 16];
//! straps[0] = 0x60;
//!
//! // A write: the slave byte is twice the address, then comes the command address, then data.
//! let mut bus = start(&parts, Bus::IDLE, straps)?;
//! for byte in [0xC0, 0x04, 0x01] {
//!     let given = write(&mut parts, bus, straps, byte)?;
//!     assert!(given.acknowledged);
//!     bus = given.bus;
//! }
//! bus = stop(&parts, bus, straps)?;
//! assert_eq!(parts[0].registers.config.s, 1);
//!
//! // A read goes on where the part's command address stands: 0x05, and then 0x06.
//! bus = start(&parts, bus, straps)?;
//! bus = write(&mut parts, bus, straps, 0xC1)?.bus;
//! bus = read(&mut parts, bus, straps)?.bus;
//! assert_eq!(read(&mut parts, bus, straps)?.data, 0x1F);
//! # Ok::<(), Refusal>(())
//! ```
use crate::sys;
use crate::{Device, Refusal};

/// What goes on on a bus; any values are a state, and one that isn't sound is refused.
#[repr(C)]
#[derive(Clone, Copy, Debug, PartialEq, Eq)]
pub struct Bus {
    /// The part that is written or read, from 1; 0 names none.
    pub part: usize,
    /// Of part 0: 0 idle, 1 awaiting the slave byte, 2 after one that is nobody's.
    /// Of a part: 0 awaiting its command address, 1 written, 2 read.
    pub phase: u8,
}

impl Bus {
    /// After a stop: so a bus begins.
    pub const IDLE: Bus = Bus { part: 0, phase: 0 };
}

/// What a byte left and gave.
#[derive(Clone, Copy, Debug, PartialEq, Eq)]
pub struct Byte {
    /// The bus state after it.
    pub bus: Bus,
    /// Whether a part took or drove it.
    pub acknowledged: bool,
    /// The data of a byte read; 0 of one taken, 255 of one that isn't acknowledged.
    pub data: u8,
}

/// A start, in any state: the bus awaits a slave byte. Of the straps the first n count, for n parts.
pub fn start(parts: &[Device], bus: Bus, straps: [u8; 16]) -> Result<Bus, Refusal> {
    let straps = sys::Straps { addresses: straps };
    // SAFETY: the pointer has the length of its slice, and nothing is written.
    bus_of(unsafe { sys::max6955_start(parts.as_ptr(), parts.len(), bus, straps) })
}

/// A stop, in any state: the bus is idle. The parts keep their command addresses.
pub fn stop(parts: &[Device], bus: Bus, straps: [u8; 16]) -> Result<Bus, Refusal> {
    let straps = sys::Straps { addresses: straps };
    // SAFETY: the pointer has the length of its slice, and nothing is written.
    bus_of(unsafe { sys::max6955_stop(parts.as_ptr(), parts.len(), bus, straps) })
}

/// A byte that the controller gives: a slave byte, a command address or data. Where nobody takes it, it changes nothing, but a
/// slave byte that is nobody's makes the bus await a start.
pub fn write(parts: &mut [Device], bus: Bus, straps: [u8; 16], byte: u8) -> Result<Byte, Refusal> {
    let (n, straps) = (parts.len(), sys::Straps { addresses: straps });
    // SAFETY: the pointer has the length of its slice, which is borrowed exclusively.
    byte_of(unsafe { sys::max6955_write(parts.as_mut_ptr(), n, bus, straps, byte) })
}

/// A byte that the controller asks for: the data at the command address of the part that is read. Elsewhere it changes nothing.
pub fn read(parts: &mut [Device], bus: Bus, straps: [u8; 16]) -> Result<Byte, Refusal> {
    let (n, straps) = (parts.len(), sys::Straps { addresses: straps });
    // SAFETY: the pointer has the length of its slice, which is borrowed exclusively.
    byte_of(unsafe { sys::max6955_read(parts.as_mut_ptr(), n, bus, straps) })
}

fn bus_of(answer: sys::BusAnswer) -> Result<Bus, Refusal> {
    Refusal::of(answer.number)?;
    Ok(answer.bus)
}

fn byte_of(answer: sys::ByteAnswer) -> Result<Byte, Refusal> {
    Refusal::of(answer.number)?;
    Ok(Byte {
        bus: answer.bus,
        acknowledged: answer.acknowledged == 1,
        data: answer.data,
    })
}
