//! The exported calls that the safe ones make, as include/ratchetelm.h declares them.

// A record that isn't laid out as in C is not built.
#![deny(improper_ctypes)]

use crate::two_wire::Bus;
use crate::Device;

#[repr(C)]
pub struct SegmentAnswer {
    pub number: u8,
    pub pins: [u8; 19],
}

#[repr(C)]
pub struct BrightnessAnswer {
    pub number: u8,
    pub sixteenths: u8,
    pub ruler: u8,
}

#[repr(C)]
pub struct ShownAnswer {
    pub number: u8,
    pub plane: u8,
}

#[repr(C)]
pub struct InterruptAnswer {
    pub number: u8,
    pub raised: u8,
}

#[repr(C)]
pub struct MarkAnswer {
    pub number: u8,
    pub mark: u8,
}

#[repr(C)]
pub struct PortAnswer {
    pub number: u8,
    pub ports: [u8; 28],
}

#[repr(C)]
pub struct LookBackAnswer {
    pub number: u8,
    pub byte: u8,
}

#[repr(C)]
pub struct PlanAnswer {
    pub number: u8,
    pub accesses: usize,
}

#[repr(C)]
pub struct PlanCheckAnswer {
    pub number: u8,
    pub accepted: u8,
}

#[repr(C)]
pub struct LitTimeAnswer {
    pub number: u8,
    pub drivers: usize,
}

#[repr(C)]
pub struct Straps {
    pub addresses: [u8; 16],
}

#[repr(C)]
pub struct BusAnswer {
    pub number: u8,
    pub bus: Bus,
}

#[repr(C)]
pub struct ByteAnswer {
    pub number: u8,
    pub bus: Bus,
    pub acknowledged: u8,
    pub data: u8,
}

extern "C" {
    pub fn max6954_power_up() -> Device;

    pub fn max6957_power_up() -> Device;

    pub fn max6954_access(
        chain: *mut Device,
        n: usize,
        clocks: usize,
        sent: *const u8,
        sent_length: usize,
        answer: *mut u8,
        room: usize,
    ) -> u8;

    pub fn max6954_scan(
        chain: *mut Device,
        n: usize,
        driver: usize,
        a: u8,
        b: u8,
        c: u8,
        d: u8,
    ) -> u8;

    pub fn max6954_set_pins(chain: *mut Device, n: usize, driver: usize, levels: u32) -> u8;

    pub fn max6954_add_clocks(chain: *mut Device, n: usize, driver: usize, clocks: u32) -> u8;

    pub fn max6954_segments(
        chain: *const Device,
        n: usize,
        driver: usize,
        cathode: usize,
        font14: *const u16,
        font14_length: usize,
        font16: *const u16,
        font16_length: usize,
    ) -> SegmentAnswer;

    pub fn max6954_brightness(
        chain: *const Device,
        n: usize,
        driver: usize,
        digit: usize,
    ) -> BrightnessAnswer;

    pub fn max6954_shown(chain: *const Device, n: usize, driver: usize) -> ShownAnswer;

    pub fn max6954_interrupt(chain: *const Device, n: usize, driver: usize) -> InterruptAnswer;

    pub fn max6954_answer_mark(chain: *const Device, n: usize, driver: usize) -> MarkAnswer;

    pub fn max6957_ports(chain: *const Device, n: usize, driver: usize) -> PortAnswer;

    pub fn max6954_plane_shown(
        chain: *const Device,
        n: usize,
        driver: usize,
        p0: *const u8,
        p0_length: usize,
        p1: *const u8,
        p1_length: usize,
        first: usize,
        last: usize,
    ) -> ShownAnswer;

    pub fn max6954_look_back(
        chain: *const Device,
        n: usize,
        driver: usize,
        plane: usize,
        digit: usize,
        words: *const u16,
        length: usize,
    ) -> LookBackAnswer;

    pub fn max6954_plan(
        chain: *const Device,
        n: usize,
        wanted: *const u8,
        wanted_length: usize,
        list: *mut u16,
        room: usize,
    ) -> PlanAnswer;

    pub fn max6954_plan_check(
        chain: *const Device,
        n: usize,
        wanted: *const u8,
        wanted_length: usize,
        list: *const u16,
        list_length: usize,
    ) -> PlanCheckAnswer;

    pub fn max6954_plan_bytes(
        n: usize,
        list: *const u16,
        list_length: usize,
        access: usize,
        bytes: *mut u8,
        room: usize,
    ) -> u8;

    pub fn max6954_lit_time(
        script: *const u8,
        script_length: usize,
        totals: *mut u64,
        room: usize,
    ) -> LitTimeAnswer;

    pub fn max6955_start(parts: *const Device, n: usize, bus: Bus, straps: Straps) -> BusAnswer;

    pub fn max6955_stop(parts: *const Device, n: usize, bus: Bus, straps: Straps) -> BusAnswer;

    pub fn max6955_write(
        parts: *mut Device,
        n: usize,
        bus: Bus,
        straps: Straps,
        byte: u8,
    ) -> ByteAnswer;

    pub fn max6955_read(parts: *mut Device, n: usize, bus: Bus, straps: Straps) -> ByteAnswer;
}
