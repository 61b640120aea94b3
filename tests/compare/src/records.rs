//! Random records of either family; in one that is sound the other family's fields may be anything.

use crate::port_records;
use crate::random::Random;
use second_double::{PortDriver, Record};

/// The families that a record may be of: the MAX6954 or MAX6955, and the MAX6957.
pub const OLD: u8 = 0;
pub const PORTS: u8 = 1;

/// Counts on either side of every edge of the blink count.
const COUNTS: [u32; 8] = [
    0, 999_999, 1_000_000, 1_999_999, 2_000_000, 2_999_999, 3_000_000, 3_999_999,
];

/// A record at power-up; the families differ in their number alone.
pub fn power_up(family: u8) -> Record {
    Record {
        family,
        ..Record::power_up()
    }
}

/// A record with the other family's fields at power-up.
pub fn own_fields(record: &Record) -> Record {
    if record.family == OLD {
        return Record {
            port_driver: PortDriver::power_up(),
            ..record.clone()
        };
    }
    Record {
        shift: record.shift,
        answer_mark: record.answer_mark,
        family: record.family,
        port_driver: record.port_driver,
        ..Record::power_up()
    }
}

/// Any sound record of a family; the other one's fields are at power-up, sound, or any bytes.
pub fn sound(random: &mut Random, family: u8) -> Record {
    let other = random.below(3);
    if family == OLD {
        let port_driver = match other {
            0 => PortDriver::power_up(),
            1 => port_records::fitting(random),
            _ => port_records::any(random),
        };
        return old(random, port_driver);
    }
    let port_driver = port_records::sound(random);
    let record = match other {
        0 => at_power_up(random, port_driver),
        1 => old(random, port_driver),
        _ => any(random, port_driver),
    };
    Record { family, ..record }
}

/// Any sound record of the old family, the edges often.
fn old(random: &mut Random, port_driver: PortDriver) -> Record {
    let mut four = || [(); 4].map(|()| random.byte());
    let (mask, debounced, pressed, held) = (four(), four(), four(), four());
    let mut sixteen = || [(); 16].map(|()| random.byte());
    let (p0, p1) = (sixteen(), sixteen());
    Record {
        decode: random.byte(),
        global: random.byte() % 16,
        limit: (random.byte() % 8) | random.pick(&[0, 7]),
        gpio: random.byte() % 32,
        ports: random.byte(),
        test: u8::from(random.one_in(6)),
        types: random.byte(),
        i: random.byte() % 2,
        e: random.byte() % 2,
        b: random.byte() % 2,
        s: u8::from(!random.one_in(6)),
        intensities: [(); 8].map(|()| random.byte()),
        mask,
        debounced,
        pressed,
        held,
        interrupt: random.byte() % 2,
        p0,
        p1,
        pins: u32::from(random.byte() % 32),
        blink: random.pick(&COUNTS),
        shift: random.number() as u16,
        fitted: random.byte(),
        answer_mark: random.byte() % 2,
        command: random.byte() % 128,
        family: OLD,
        port_driver,
    }
}

/// At power-up but for what a MAX6957 has.
fn at_power_up(random: &mut Random, port_driver: PortDriver) -> Record {
    Record {
        shift: random.number() as u16,
        answer_mark: random.byte() % 2,
        port_driver,
        ..Record::power_up()
    }
}

/// Whatever bytes in the old family's fields; a MAX6957 is sound by its own and by the answer mark.
fn any(random: &mut Random, port_driver: PortDriver) -> Record {
    Record {
        global: random.byte(),
        limit: random.byte(),
        gpio: random.byte(),
        test: random.byte(),
        i: random.byte(),
        e: random.byte(),
        b: random.byte(),
        s: random.byte(),
        interrupt: random.byte(),
        pins: random.number() as u32,
        blink: random.number() as u32,
        command: random.byte(),
        ..old(random, port_driver)
    }
}
