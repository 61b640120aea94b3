//! The MAX6957 at power-up (Table 4 of 004), and which fields make a record sound.

use second_double::{access, call, Call, PortDriver, Record};

#[test]
fn the_two_power_up_records_differ_in_the_family_alone() {
    let old = Record::power_up();
    let new = Record::port_driver_power_up();
    assert_eq!((old.family, new.family), (0, 1));
    assert!(old.sound() && new.sound());
    assert_eq!(Record { family: 1, ..old }, new);
}

#[test]
fn table_4() {
    let expected = PortDriver {
        stored: 0,
        pins: 0,
        pairs: [0b1010_1010; 7],
        currents: [0; 14],
        global: 0,
        test: 0,
        m: 0,
        i: 0,
        s: 0,
        mask: 0,
        snapshot: 0,
        detecting: 0,
        interrupt: 0,
    };
    let record = Record::port_driver_power_up();
    assert_eq!(record.port_driver, expected);
    assert_eq!((record.shift, record.answer_mark), (0, 0));
}

#[test]
fn every_address_as_read() {
    for address in 0..128 {
        let mut row = [Record::port_driver_power_up()];
        let sent = [0x80 + address, 0xFF, 0x00, 0x00];
        let mut answer = [0; 2];
        assert_eq!(access(&mut row, 16, &sent[..2], &mut answer), 0);
        assert_eq!(answer, [0, 0]);
        assert_eq!(access(&mut row, 16, &sent[2..], &mut answer), 0);
        let pairs = (0x09..=0x0F).contains(&address);
        assert_eq!(answer, [0x80 + address, if pairs { 0xAA } else { 0 }]);
    }
}

#[test]
fn every_port_is_an_undriven_input() {
    let mut row = [Record::port_driver_power_up()];
    assert_eq!(call(&mut row, &Call::Ports { driver: 1 }).back, [0; 28]);
    for port in 4..32 {
        let levels = 1 << (port - 4);
        assert_eq!(call(&mut row, &Call::Pins { driver: 1, levels }).number, 0);
        let mut answer = [0; 4];
        let sent = [0xA0 + port, 0, 0, 0];
        assert_eq!(access(&mut row, 16, &sent[..2], &mut answer), 0);
        assert_eq!(access(&mut row, 16, &sent[2..], &mut answer), 0);
        assert_eq!(answer[..2], [0xA0 + port, 1]);
    }
}

/// A change of one field of a record.
type Change = fn(&mut Record);

/// The widest values that fit a MAX6957's fields.
const FITTING: [Change; 14] = [
    |r| r.port_driver.stored = 0x0FFF_FFFF,
    |r| r.port_driver.pins = 0x0FFF_FFFF,
    |r| r.port_driver.pairs = [255; 7],
    |r| r.port_driver.currents = [255; 14],
    |r| r.port_driver.global = 15,
    |r| r.port_driver.test = 1,
    |r| r.port_driver.m = 1,
    |r| r.port_driver.i = 1,
    |r| r.port_driver.s = 1,
    |r| r.port_driver.mask = 127,
    |r| r.port_driver.snapshot = 127,
    |r| r.port_driver.detecting = 1,
    |r| r.port_driver.interrupt = 1,
    |r| r.shift = 0xFFFF,
];

/// One above them.
const TOO_WIDE: [Change; 11] = [
    |r| r.port_driver.stored = 0x1000_0000,
    |r| r.port_driver.pins = 0x1000_0000,
    |r| r.port_driver.global = 16,
    |r| r.port_driver.test = 2,
    |r| r.port_driver.m = 2,
    |r| r.port_driver.i = 2,
    |r| r.port_driver.s = 2,
    |r| r.port_driver.mask = 128,
    |r| r.port_driver.snapshot = 128,
    |r| r.port_driver.detecting = 2,
    |r| r.port_driver.interrupt = 2,
];

/// One above what fits the old family's fields.
const OLD_TOO_WIDE: [Change; 11] = [
    |r| r.global = 16,
    |r| r.limit = 8,
    |r| r.gpio = 32,
    |r| r.test = 2,
    |r| r.i = 2,
    |r| r.e = 2,
    |r| r.b = 2,
    |r| r.s = 2,
    |r| r.interrupt = 2,
    |r| r.pins = 32,
    |r| r.blink = 4_000_000,
];

/// Whether a record of the family is sound after the change.
fn sound(family: u8, change: Change) -> bool {
    let mut record = Record {
        family,
        ..Record::power_up()
    };
    change(&mut record);
    record.sound()
}

#[test]
fn sound_goes_by_the_records_own_family() {
    for change in FITTING {
        assert_eq!([0, 1, 2].map(|family| sound(family, change)), [true; 3]);
    }
    for change in TOO_WIDE {
        let families = [0, 1, 2].map(|family| sound(family, change));
        assert_eq!(families, [true, false, true]);
    }
    for change in OLD_TOO_WIDE {
        let families = [0, 1, 2].map(|family| sound(family, change));
        assert_eq!(families, [false, true, true]);
    }
}

#[test]
fn the_shared_fields() {
    let families = |change| [0, 1, 2, 255].map(|family| sound(family, change));
    assert_eq!(families(|r| r.answer_mark = 1), [true; 4]);
    let mark = families(|r| r.answer_mark = 2);
    assert_eq!(mark, [false, false, true, true]);
    assert_eq!(families(|r| r.command = 127), [true; 4]);
    let command = families(|r| r.command = 128);
    assert_eq!(command, [false, true, true, true]);
}

/// The record after one word.
fn after(record: &Record, word: [u8; 2]) -> Record {
    let mut row = [record.clone()];
    assert_eq!(access(&mut row, 16, &word, &mut [0; 2]), 0);
    let [record] = row;
    record
}

#[test]
fn a_max6957_leaves_the_old_familys_fields() {
    let start = Record {
        global: 77,
        pins: 0xFFFF,
        interrupt: 9,
        command: 200,
        ..Record::port_driver_power_up()
    };
    for high in 0..=255 {
        let end = after(&start, [high, 0x81]);
        let expected = Record {
            port_driver: end.port_driver,
            shift: end.shift,
            answer_mark: end.answer_mark,
            ..start.clone()
        };
        assert_eq!(end, expected);
    }
}

#[test]
fn an_old_driver_leaves_the_max6957s_fields() {
    let mut start = Record::power_up();
    start.port_driver.pins = 0xFFFF_FFFF;
    start.port_driver.detecting = 1;
    start.port_driver.mask = 0xFF;
    for high in 0..=255 {
        let end = after(&start, [high, 0x81]);
        assert_eq!(end.port_driver, start.port_driver);
    }
    let levels = 31;
    let mut row = [start.clone()];
    assert_eq!(call(&mut row, &Call::Pins { driver: 1, levels }).number, 0);
    assert_eq!(Record { pins: 31, ..start }, row[0]);
}
