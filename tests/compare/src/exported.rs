//! The exported questions as C has them. The safe calls drop what a refused one gives back.

use ratchetelm::Device;
use second_double::{LitTime, Reply};

#[repr(C)]
struct Segments {
    number: u8,
    pins: [u8; 19],
}

#[repr(C)]
struct Brightness {
    number: u8,
    sixteenths: u8,
    ruler: u8,
}

#[repr(C)]
struct Ports {
    number: u8,
    ports: [u8; 28],
}

#[repr(C)]
struct LitTimeAnswer {
    number: u8,
    drivers: usize,
}

#[repr(C)]
struct One {
    number: u8,
    value: u8,
}

impl From<One> for Reply {
    fn from(one: One) -> Reply {
        Reply {
            number: one.number,
            back: vec![one.value],
        }
    }
}

extern "C" {
    fn max6954_segments(
        chain: *const Device,
        n: usize,
        driver: usize,
        cathode: usize,
        font14: *const u16,
        font14_length: usize,
        font16: *const u16,
        font16_length: usize,
    ) -> Segments;
    fn max6954_brightness(
        chain: *const Device,
        n: usize,
        driver: usize,
        digit: usize,
    ) -> Brightness;
    fn max6954_shown(chain: *const Device, n: usize, driver: usize) -> One;
    fn max6954_interrupt(chain: *const Device, n: usize, driver: usize) -> One;
    fn max6954_answer_mark(chain: *const Device, n: usize, driver: usize) -> One;
    fn max6957_ports(chain: *const Device, n: usize, driver: usize) -> Ports;
    fn max6954_look_back(
        chain: *const Device,
        n: usize,
        driver: usize,
        plane: usize,
        digit: usize,
        words: *const u16,
        length: usize,
    ) -> One;
    fn max6954_plane_number(
        chain: *const Device,
        n: usize,
        driver: usize,
        p0: *const u8,
        p0_length: usize,
        p1: *const u8,
        p1_length: usize,
        first: usize,
        last: usize,
    ) -> u8;
    fn max6954_plane_shown(
        chain: *const Device,
        n: usize,
        driver: usize,
        p0: *const u8,
        p0_length: usize,
        p1: *const u8,
        p1_length: usize,
        first: usize,
        last: usize,
    ) -> One;
    fn max6954_lit_time(
        script: *const u8,
        length: usize,
        totals: *mut u64,
        room: usize,
    ) -> LitTimeAnswer;
}

pub fn segments(
    chain: &[Device],
    driver: usize,
    cathode: usize,
    font14: &[u16],
    font16: &[u16],
) -> Reply {
    // SAFETY: each pointer has the length of its slice, and nothing is written.
    let answer = unsafe {
        max6954_segments(
            chain.as_ptr(),
            chain.len(),
            driver,
            cathode,
            font14.as_ptr(),
            font14.len(),
            font16.as_ptr(),
            font16.len(),
        )
    };
    Reply {
        number: answer.number,
        back: answer.pins.to_vec(),
    }
}

pub fn brightness(chain: &[Device], driver: usize, digit: usize) -> Reply {
    // SAFETY: the pointer has the length of its slice, and nothing is written.
    let answer = unsafe { max6954_brightness(chain.as_ptr(), chain.len(), driver, digit) };
    Reply {
        number: answer.number,
        back: vec![answer.sixteenths, answer.ruler],
    }
}

pub fn shown(chain: &[Device], driver: usize) -> Reply {
    // SAFETY: the pointer has the length of its slice, and nothing is written.
    unsafe { max6954_shown(chain.as_ptr(), chain.len(), driver) }.into()
}

pub fn interrupt(chain: &[Device], driver: usize) -> Reply {
    // SAFETY: the pointer has the length of its slice, and nothing is written.
    unsafe { max6954_interrupt(chain.as_ptr(), chain.len(), driver) }.into()
}

pub fn answer_mark(chain: &[Device], driver: usize) -> Reply {
    // SAFETY: the pointer has the length of its slice, and nothing is written.
    unsafe { max6954_answer_mark(chain.as_ptr(), chain.len(), driver) }.into()
}

pub fn ports(chain: &[Device], driver: usize) -> Reply {
    // SAFETY: the pointer has the length of its slice, and nothing is written.
    let answer = unsafe { max6957_ports(chain.as_ptr(), chain.len(), driver) };
    Reply {
        number: answer.number,
        back: answer.ports.to_vec(),
    }
}

pub fn look_back(
    chain: &[Device],
    driver: usize,
    plane: usize,
    digit: usize,
    words: &[u16],
) -> Reply {
    // SAFETY: each pointer has the length of its slice, and nothing is written.
    let answer = unsafe {
        max6954_look_back(
            chain.as_ptr(),
            chain.len(),
            driver,
            plane,
            digit,
            words.as_ptr(),
            words.len(),
        )
    };
    answer.into()
}

pub fn plane_number(
    chain: &[Device],
    driver: usize,
    planes: [&[u8]; 2],
    first: usize,
    last: usize,
) -> u8 {
    let [p0, p1] = planes;
    // SAFETY: each pointer has the length of its slice, and nothing is written.
    unsafe {
        max6954_plane_number(
            chain.as_ptr(),
            chain.len(),
            driver,
            p0.as_ptr(),
            p0.len(),
            p1.as_ptr(),
            p1.len(),
            first,
            last,
        )
    }
}

pub fn plane_shown(
    chain: &[Device],
    driver: usize,
    planes: [&[u8]; 2],
    first: usize,
    last: usize,
) -> Reply {
    let [p0, p1] = planes;
    // SAFETY: each pointer has the length of its slice, and nothing is written.
    let answer = unsafe {
        max6954_plane_shown(
            chain.as_ptr(),
            chain.len(),
            driver,
            p0.as_ptr(),
            p0.len(),
            p1.as_ptr(),
            p1.len(),
            first,
            last,
        )
    };
    answer.into()
}

pub fn lit_time(script: &[u8], totals: &mut [u64]) -> LitTime {
    let room = totals.len();
    // SAFETY: each pointer has the length of its slice, and the one that is written is borrowed exclusively.
    let LitTimeAnswer { number, drivers } =
        unsafe { max6954_lit_time(script.as_ptr(), script.len(), totals.as_mut_ptr(), room) };
    LitTime { number, drivers }
}
