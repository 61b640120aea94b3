//! The refusals of rows of two families and of unknown ones, in the order 1 2 3 4 5 6 7 10 11 14 12 13.

use second_double::{bus_call, call, check, plan, Bus, BusCall, Call, Record, Straps};

/// A record at power-up of a family.
fn of(family: u8) -> Record {
    Record {
        family,
        ..Record::power_up()
    }
}

/// A record of a family whose own fields aren't sound.
fn unsound(family: u8) -> Record {
    let mut record = of(family);
    record.limit = 8;
    record.port_driver.global = 16;
    record
}

fn row(families: &[u8]) -> Vec<Record> {
    families.iter().map(|family| of(*family)).collect()
}

fn access(clocks: usize, sent: usize, room: usize) -> Call {
    Call::Access {
        clocks,
        sent: vec![0; sent],
        room: vec![9; room],
    }
}

fn pins(driver: usize, levels: u32) -> Call {
    Call::Pins { driver, levels }
}

fn plane(driver: usize, last: usize) -> Call {
    Call::Plane {
        driver,
        p0: vec![0; 16],
        p1: vec![0; 16],
        first: 0,
        last,
    }
}

fn segments(driver: usize, cathode: usize) -> Call {
    Call::Segments {
        driver,
        cathode,
        font14: vec![0; 128],
        font16: vec![0; 128],
    }
}

fn look_back(driver: usize, digit: usize) -> Call {
    Call::LookBack {
        driver,
        plane: 1,
        digit,
        words: vec![0x4301],
    }
}

/// The calls that a MAX6957 lacks, with arguments that are good, and what each gives back where refused.
fn lacked_by_new(driver: usize) -> Vec<(Call, Vec<u8>)> {
    let keys = [1; 4];
    vec![
        (Call::Scan { driver, keys }, vec![]),
        (Call::Clocks { driver, clocks: 1 }, vec![]),
        (plane(driver, 15), vec![]),
        (segments(driver, 7), vec![0; 19]),
        (Call::Brightness { driver, digit: 15 }, vec![0; 2]),
        (Call::Shown { driver }, vec![0]),
        (look_back(driver, 15), vec![0]),
    ]
}

/// The calls that both families have.
fn shared(driver: usize) -> Vec<(Call, Vec<u8>)> {
    vec![
        (pins(driver, 31), vec![]),
        (Call::Interrupt { driver }, vec![0]),
        (Call::AnswerMark { driver }, vec![0]),
        (access(16, 2, 2), vec![9; 2]),
    ]
}

/// The MAX6957's own call.
fn own(driver: usize) -> (Call, Vec<u8>) {
    (Call::Ports { driver }, vec![0; 28])
}

/// The number that a row gives to a call.
fn number(records: &[Record], asked: &Call) -> u8 {
    call(&mut records.to_vec(), asked).number
}

/// Refused with this number, a call gives back nothing and changes no record.
fn refused(records: &[Record], (asked, back): &(Call, Vec<u8>), number: u8) {
    let mut copy = records.to_vec();
    let reply = call(&mut copy, asked);
    assert_eq!((reply.number, &reply.back), (number, back), "{asked:?}");
    assert_eq!(copy, records);
}

fn every_call(driver: usize) -> Vec<(Call, Vec<u8>)> {
    let mut calls = [lacked_by_new(driver), shared(driver)].concat();
    calls.push(own(driver));
    calls
}

#[test]
fn what_the_named_driver_lacks_is_14() {
    for families in [&[0, 1][..], &[1, 0], &[1, 1], &[0, 0], &[0, 1, 1, 0]] {
        let records = row(families);
        for (driver, family) in (1..).zip(families) {
            let is_new = *family == 1;
            let lacked = lacked_by_new(driver);
            for (asked, _) in lacked.iter().filter(|_| !is_new).chain(&shared(driver)) {
                assert_eq!(number(&records, asked), 0, "{asked:?}");
            }
            lacked
                .iter()
                .filter(|_| is_new)
                .for_each(|asked| refused(&records, asked, 14));
            if is_new {
                assert_eq!(number(&records, &own(driver).0), 0);
            } else {
                refused(&records, &own(driver), 14);
            }
        }
    }
}

#[test]
fn an_unknown_family_anywhere_is_14_for_every_call() {
    for families in [&[2][..], &[0, 2], &[2, 0], &[1, 2], &[255, 1], &[0, 1, 3]] {
        for driver in 1..=families.len() {
            for asked in every_call(driver) {
                refused(&row(families), &asked, 14);
            }
        }
    }
}

#[test]
fn seven_comes_first_and_skips_an_unknown_record() {
    for driver in 1..=3 {
        for asked in every_call(driver) {
            refused(&[of(2), unsound(0), of(1)], &asked, 7);
            refused(&[of(2), unsound(1), of(0)], &asked, 7);
            refused(&[of(0), of(1), unsound(0)], &asked, 7);
            refused(&[unsound(2), of(0), of(1)], &asked, 14);
            refused(&[unsound(2), unsound(255), of(1)], &asked, 14);
        }
    }
}

/// Calls whose arguments alone are bad, and the number.
fn bad_arguments(driver: usize) -> Vec<(Call, u8)> {
    vec![
        (plane(driver, 16), 6),
        (segments(driver, 8), 6),
        (Call::Brightness { driver, digit: 16 }, 6),
        (look_back(driver, 16), 6),
        (access(4097, 513, 513), 3),
        (access(17, 2, 3), 4),
        (access(17, 3, 2), 5),
    ]
}

#[test]
fn arguments_come_before_the_family_and_before_soundness() {
    let rows = [row(&[1]), row(&[2]), row(&[0]), vec![unsound(1)]];
    for records in rows {
        for (asked, expected) in bad_arguments(1) {
            assert_eq!(number(&records, &asked), expected, "{asked:?}");
        }
        for (asked, back) in every_call(2) {
            if !matches!(asked, Call::Access { .. }) {
                refused(&records, &(asked, back), 2);
            }
        }
    }
    for (asked, _) in every_call(0) {
        let seventeen = [row(&[0; 16]), row(&[2])].concat();
        assert_eq!(number(&seventeen, &asked), 1);
        assert_eq!(number(&[], &asked), 1);
    }
}

#[test]
fn the_pin_limit_goes_by_the_named_drivers_family() {
    let rows: [(&[u8], usize, u32, u8); 14] = [
        (&[0, 1], 1, 31, 0),
        (&[0, 1], 1, 32, 6),
        (&[0, 1], 1, 0x0FFF_FFFF, 6),
        (&[0, 1], 2, 32, 0),
        (&[0, 1], 2, 268_435_455, 0),
        (&[0, 1], 2, 268_435_456, 6),
        (&[0, 1], 2, 0xFFFF_FFFF, 6),
        (&[2, 1], 1, 0xFFFF_FFFF, 14),
        (&[2, 1], 2, 0x1000_0000, 6),
        (&[2, 1], 2, 0x0FFF_FFFF, 14),
        (&[2, 0], 2, 32, 6),
        (&[2, 0], 2, 31, 14),
        (&[2, 1], 0, 0xFFFF_FFFF, 2),
        (&[2, 1], 3, 0xFFFF_FFFF, 2),
    ];
    for (families, driver, levels, expected) in rows {
        assert_eq!(number(&row(families), &pins(driver, levels)), expected);
    }
    let records = [of(2), unsound(1)];
    assert_eq!(number(&records, &pins(1, 0xFFFF_FFFF)), 7);
    assert_eq!(number(&records, &pins(2, 0x1000_0000)), 6);
}

#[test]
fn pin_levels_and_the_interrupt_go_to_the_family() {
    let mut records = row(&[0, 1]);
    assert_eq!(call(&mut records, &pins(1, 21)).number, 0);
    assert_eq!(call(&mut records, &pins(2, 0x0ABC_DEF0)).number, 0);
    assert_eq!((records[0].pins, records[0].port_driver.pins), (21, 0));
    assert_eq!(records[1].pins, 0);
    assert_eq!(records[1].port_driver.pins, 0x0ABC_DEF0);
    records[0].port_driver.interrupt = 1;
    records[1].interrupt = 1;
    let interrupts = |records: &mut [Record]| {
        [1, 2].map(|driver| call(records, &Call::Interrupt { driver }).back[0])
    };
    assert_eq!(interrupts(&mut records), [0, 0]);
    records[0].interrupt = 1;
    records[1].interrupt = 0;
    assert_eq!(interrupts(&mut records), [1, 0]);
    records[1].port_driver.interrupt = 1;
    assert_eq!(interrupts(&mut records), [1, 1]);
}

#[test]
fn the_planner_and_its_check() {
    let cases = [
        (row(&[0, 1]), 63, 14),
        (row(&[1, 0]), 64, 14),
        (row(&[0, 2]), 63, 14),
        (row(&[0, 0]), 63, 12),
        (vec![unsound(0), of(1)], 63, 7),
        (vec![of(0), unsound(1)], 64, 7),
        (vec![of(0), unsound(2)], 64, 14),
        (row(&[2; 17]), 63, 1),
        (row(&[0, 0]), 64, 13),
    ];
    for (records, wanted, expected) in cases {
        let wanted = vec![0x55; wanted];
        let mut room = [7; 3];
        let planned = plan(&records, &wanted, &mut room);
        assert_eq!((planned.number, planned.accesses), (expected, 0));
        assert_eq!(room, [7; 3]);
        let checked = check(&records, &wanted, &[]);
        let number = if expected == 13 { 0 } else { expected };
        assert_eq!((checked.number, checked.accepted), (number, 0));
    }
}

/// The number of each call of the bus, which changes nothing where it is refused.
fn bus_numbers(records: &[Record], bus: Bus, straps: &Straps) -> [u8; 4] {
    let calls = [
        BusCall::Start,
        BusCall::Stop,
        BusCall::Write(0xC0),
        BusCall::Read,
    ];
    calls.map(|asked| {
        let mut copy = records.to_vec();
        let reply = bus_call(&mut copy, bus, straps, asked);
        if reply.number != 0 {
            assert_eq!((reply.bus, &copy[..]), (bus, records));
            assert!(reply.back.iter().all(|byte| *byte == 0));
        }
        reply.number
    })
}

#[test]
fn the_two_wire_bus() {
    let idle = Bus { part: 0, phase: 0 };
    let lost = Bus { part: 3, phase: 0 };
    let straps = |a, b| {
        let mut straps = [0; 16];
        straps[..2].copy_from_slice(&[a, b]);
        straps
    };
    let good = straps(0x60, 0x61);
    let cases = [
        (row(&[0, 0]), idle, good, 0),
        (row(&[0, 1]), idle, good, 14),
        (row(&[1, 0]), idle, good, 14),
        (row(&[0, 2]), idle, good, 14),
        (row(&[0, 1]), idle, straps(0x60, 0x60), 10),
        (row(&[0, 2]), idle, straps(0x60, 0x60), 10),
        (row(&[0, 1]), idle, straps(0x60, 0x80), 11),
        (row(&[0, 1]), lost, straps(0x60, 0x60), 7),
        (row(&[0, 2]), lost, good, 7),
        (vec![of(0), unsound(1)], idle, straps(0x60, 0x60), 7),
        (vec![of(0), unsound(2)], idle, good, 14),
        (row(&[2; 17]), lost, good, 1),
    ];
    for (records, bus, straps, expected) in cases {
        assert_eq!(bus_numbers(&records, bus, &straps), [expected; 4]);
    }
}

#[test]
fn the_rows_of_the_readings() {
    let new_first = row(&[2, 1]);
    assert_eq!(number(&new_first, &access(32, 4, 4)), 14);
    assert_eq!(number(&new_first, &access(32, 3, 4)), 4);
    assert_eq!(number(&new_first, &own(2).0), 14);
    let mixed = row(&[0, 1]);
    assert_eq!(number(&mixed, &own(1).0), 14);
    let brightness = |driver, digit| Call::Brightness { driver, digit };
    assert_eq!(number(&mixed, &brightness(2, 15)), 14);
    assert_eq!(number(&mixed, &brightness(1, 15)), 0);
    let seventeen = [row(&[0; 16]), row(&[9])].concat();
    assert_eq!(number(&seventeen, &access(5000, 0, 0)), 1);
}

#[test]
fn no_call_changes_a_family() {
    let mut records = row(&[0, 1, 1, 0]);
    for driver in 1..=4 {
        for (asked, _) in every_call(driver) {
            call(&mut records, &asked);
        }
    }
    for high in 0..=255 {
        let sent = [high, 0xFF].repeat(4);
        let room = vec![0; 8];
        let clocks = 64;
        let asked = Call::Access { clocks, sent, room };
        assert_eq!(call(&mut records, &asked).number, 0);
    }
    let families: Vec<u8> = records.iter().map(|record| record.family).collect();
    assert_eq!(families, [0, 1, 1, 0]);
}
