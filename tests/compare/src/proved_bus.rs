//! The two-wire bus of the proved library, asked as the second double's is.

use ratchetelm::two_wire::{self, Byte};
use ratchetelm::{Device, Refusal};
use second_double::{Bus, BusCall, BusReply, Straps};

#[repr(C)]
struct Addresses {
    addresses: [u8; 16],
}

#[repr(C)]
struct BusAnswer {
    number: u8,
    bus: two_wire::Bus,
}

#[repr(C)]
struct ByteAnswer {
    number: u8,
    bus: two_wire::Bus,
    acknowledged: u8,
    data: u8,
}

extern "C" {
    fn max6955_start(
        parts: *const Device,
        n: usize,
        bus: two_wire::Bus,
        straps: Addresses,
    ) -> BusAnswer;
    fn max6955_stop(
        parts: *const Device,
        n: usize,
        bus: two_wire::Bus,
        straps: Addresses,
    ) -> BusAnswer;
    fn max6955_write(
        parts: *mut Device,
        n: usize,
        bus: two_wire::Bus,
        straps: Addresses,
        byte: u8,
    ) -> ByteAnswer;
    fn max6955_read(
        parts: *mut Device,
        n: usize,
        bus: two_wire::Bus,
        straps: Addresses,
    ) -> ByteAnswer;
}

/// The safe call's reply; where refused, with what the exported one gives back.
pub fn call(parts: &mut [Device], bus: Bus, straps: &Straps, call: BusCall) -> BusReply {
    match safe(parts, bus, *straps, call) {
        Ok(reply) => reply,
        Err(refusal) => BusReply {
            number: refusal.number(),
            ..exported(parts, bus, *straps, call)
        },
    }
}

fn safe(
    parts: &mut [Device],
    bus: Bus,
    straps: Straps,
    call: BusCall,
) -> Result<BusReply, Refusal> {
    let bus = ours(bus);
    Ok(match call {
        BusCall::Start => reply(0, two_wire::start(parts, bus, straps)?, &[]),
        BusCall::Stop => reply(0, two_wire::stop(parts, bus, straps)?, &[]),
        BusCall::Write(byte) => byte_reply(two_wire::write(parts, bus, straps, byte)?),
        BusCall::Read => byte_reply(two_wire::read(parts, bus, straps)?),
    })
}

fn exported(parts: &mut [Device], bus: Bus, straps: Straps, call: BusCall) -> BusReply {
    let (bus, straps, n) = (ours(bus), Addresses { addresses: straps }, parts.len());
    // SAFETY: the pointer has the length of its slice, which is borrowed exclusively.
    let answer = unsafe {
        match call {
            BusCall::Start => {
                let BusAnswer { number, bus } = max6955_start(parts.as_ptr(), n, bus, straps);
                return reply(number, bus, &[]);
            }
            BusCall::Stop => {
                let BusAnswer { number, bus } = max6955_stop(parts.as_ptr(), n, bus, straps);
                return reply(number, bus, &[]);
            }
            BusCall::Write(byte) => max6955_write(parts.as_mut_ptr(), n, bus, straps, byte),
            BusCall::Read => max6955_read(parts.as_mut_ptr(), n, bus, straps),
        }
    };
    let back = [answer.acknowledged, answer.data];
    reply(answer.number, answer.bus, &back)
}

fn byte_reply(byte: Byte) -> BusReply {
    reply(0, byte.bus, &[u8::from(byte.acknowledged), byte.data])
}

fn reply(number: u8, bus: two_wire::Bus, back: &[u8]) -> BusReply {
    let two_wire::Bus { part, phase } = bus;
    BusReply {
        number,
        bus: Bus { part, phase },
        back: back.to_vec(),
    }
}

fn ours(bus: Bus) -> two_wire::Bus {
    let Bus { part, phase } = bus;
    two_wire::Bus { part, phase }
}
