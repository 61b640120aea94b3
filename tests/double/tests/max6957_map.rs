//! Table 3 of 004, row by row: what a write to each address leaves and what a read of it gives.

use second_double::{access, Record};

/// The rows of ports: the address, the first port, which is D0's, and the last.
#[rustfmt::skip]
const PORTS: [(u8, usize, usize); 60] = [
    (0x24, 4, 4), (0x25, 5, 5), (0x26, 6, 6), (0x27, 7, 7),
    (0x28, 8, 8), (0x29, 9, 9), (0x2A, 10, 10), (0x2B, 11, 11),
    (0x2C, 12, 12), (0x2D, 13, 13), (0x2E, 14, 14), (0x2F, 15, 15),
    (0x30, 16, 16), (0x31, 17, 17), (0x32, 18, 18), (0x33, 19, 19),
    (0x34, 20, 20), (0x35, 21, 21), (0x36, 22, 22), (0x37, 23, 23),
    (0x38, 24, 24), (0x39, 25, 25), (0x3A, 26, 26), (0x3B, 27, 27),
    (0x3C, 28, 28), (0x3D, 29, 29), (0x3E, 30, 30), (0x3F, 31, 31),
    (0x40, 4, 7), (0x41, 4, 8), (0x42, 4, 9), (0x43, 4, 10),
    (0x44, 4, 11), (0x45, 5, 12), (0x46, 6, 13), (0x47, 7, 14),
    (0x48, 8, 15), (0x49, 9, 16), (0x4A, 10, 17), (0x4B, 11, 18),
    (0x4C, 12, 19), (0x4D, 13, 20), (0x4E, 14, 21), (0x4F, 15, 22),
    (0x50, 16, 23), (0x51, 17, 24), (0x52, 18, 25), (0x53, 19, 26),
    (0x54, 20, 27), (0x55, 21, 28), (0x56, 22, 29), (0x57, 23, 30),
    (0x58, 24, 31), (0x59, 25, 31), (0x5A, 26, 31), (0x5B, 27, 31),
    (0x5C, 28, 31), (0x5D, 29, 31), (0x5E, 30, 31), (0x5F, 31, 31),
];

/// The rows of other registers: the address and the bits that are kept, as many as Tables 5 to 14 have.
#[rustfmt::skip]
const REGISTERS: [(u8, u8); 25] = [
    (0x02, 0x0F), (0x04, 0xC1), (0x06, 0x7F), (0x07, 0x01),
    (0x09, 0xFF), (0x0A, 0xFF), (0x0B, 0xFF), (0x0C, 0xFF), (0x0D, 0xFF), (0x0E, 0xFF), (0x0F, 0xFF),
    (0x12, 0xFF), (0x13, 0xFF), (0x14, 0xFF), (0x15, 0xFF), (0x16, 0xFF), (0x17, 0xFF), (0x18, 0xFF),
    (0x19, 0xFF), (0x1A, 0xFF), (0x1B, 0xFF), (0x1C, 0xFF), (0x1D, 0xFF), (0x1E, 0xFF), (0x1F, 0xFF),
];

/// The no-op and the virtual ports.
const NO_ACTION: [u8; 5] = [0x00, 0x20, 0x21, 0x22, 0x23];

/// The addresses that Table 3 lacks.
fn unlisted() -> Vec<u8> {
    [0x01, 0x03, 0x05, 0x08, 0x10, 0x11]
        .into_iter()
        .chain(0x60..=0x7F)
        .collect()
}

/// The record after one word.
fn after(record: &Record, word: [u8; 2]) -> Record {
    let mut row = [record.clone()];
    assert_eq!(access(&mut row, 16, &word, &mut [0; 2]), 0);
    let [record] = row;
    record
}

/// What a read of the address gives in the next access; its own data byte is discarded.
fn read(record: &Record, address: u8) -> u8 {
    let shift = after(record, [0x80 + address, 0x5A]).shift;
    assert_eq!(shift / 256, 0x80 + u16::from(address));
    shift as u8
}

/// All 128 addresses as read.
fn reads(record: &Record) -> Vec<u8> {
    (0..128).map(|address| read(record, address)).collect()
}

/// Awake with these stored bits and pin levels, each register with something of its own.
fn filled(stored: u32, pins: u32) -> Record {
    let mut record = Record::port_driver_power_up();
    let driver = &mut record.port_driver;
    driver.stored = stored;
    driver.pins = pins;
    driver.pairs = [0x1B, 0xE4, 0x55, 0x00, 0xAA, 0xFF, 0x6C];
    driver.currents = std::array::from_fn(|k| 0x31 + 0x0F * k as u8);
    driver.global = 9;
    driver.mask = 0x2A;
    driver.i = 1;
    driver.s = 1;
    record
}

/// A row of 28 by port.
fn row_of(port_bit: impl Fn(usize) -> bool) -> u32 {
    let bits = (4..=31).filter(|port| port_bit(*port));
    bits.map(|port| 1 << (port - 4)).sum()
}

fn port_bit(row: u32, port: usize) -> bool {
    row >> (port - 4) & 1 == 1
}

fn data_bit(data: u8, j: usize) -> bool {
    data >> j & 1 == 1
}

#[test]
fn every_address_has_its_row() {
    let mut addresses: Vec<u8> = PORTS.iter().map(|(address, ..)| *address).collect();
    addresses.extend(REGISTERS.iter().map(|(address, _)| *address));
    addresses.extend(NO_ACTION);
    assert_eq!(addresses.len(), 90);
    addresses.extend(unlisted());
    addresses.sort();
    assert!(addresses.into_iter().eq(0..128));
}

#[test]
fn the_eight_port_rows_have_one_rule() {
    for (address, first, last) in PORTS {
        if let Some(f) = address.checked_sub(0x40) {
            let f = usize::from(f);
            assert_eq!((first, last), (f.max(4), (f + 7).min(31)));
        } else {
            assert_eq!((first, last), (address as usize - 0x20, first));
        }
    }
}

/// The bit of a port after a write of data to a row of ports.
fn written(before: u32, row: (u8, usize, usize), data: u8, port: usize) -> bool {
    let (_, first, last) = row;
    if port >= first && port <= last {
        data_bit(data, port - first)
    } else {
        port_bit(before, port)
    }
}

#[test]
fn a_write_to_ports_stores_its_bits_alone() {
    for row in PORTS {
        for before in [0, 0x0FFF_FFFF, 0x0A5C_3961] {
            for data in 0..=255 {
                let start = filled(before, 0x0333_5577);
                let mut expected = start.clone();
                expected.shift = u16::from_be_bytes([row.0, data]);
                expected.port_driver.stored = row_of(|port| written(before, row, data, port));
                assert_eq!(after(&start, [row.0, data]), expected, "{row:?} {data:02X}");
            }
        }
    }
}

#[test]
fn a_write_to_ports_is_stored_in_shutdown_too() {
    for row in PORTS {
        let mut start = filled(0x0A5C_3961, 0x0333_5577);
        start.port_driver.s = 0;
        let stored = after(&start, [row.0, 0xA7]).port_driver.stored;
        let expected = row_of(|port| written(0x0A5C_3961, row, 0xA7, port));
        assert_eq!(stored, expected);
    }
}

#[test]
fn a_read_of_ports_gives_their_levels_alone() {
    for (address, first, last) in PORTS {
        for seed in 0..64 {
            let row = 0x0123_4567_u32.wrapping_mul(2 * seed + 1) % 0x1000_0000;
            // The stored bits and pins are alike, so the directions don't matter.
            let data = read(&filled(row, row), address);
            for j in 0..8 {
                let there = first + j <= last && port_bit(row, first + j);
                assert_eq!(data_bit(data, j), there, "{address:02X} D{j}");
            }
        }
    }
}

#[test]
fn an_input_reads_its_pin_and_an_output_its_stored_bit() {
    // Pair bytes 1B E4 55 00 AA FF 6C: P4 11, P5 10, P6 01, P7 00; P8 00, P9 01, P10 10, P11 11; and so on.
    let inputs = [4, 5, 10, 11, 20, 21, 22, 23, 24, 25, 26, 27, 29, 30];
    for port in 4..=31 {
        let address = 0x20 + port as u8;
        let one = 1 << (port - 4);
        let is_input = inputs.contains(&port);
        assert_eq!(
            read(&filled(one, 0), address),
            u8::from(!is_input),
            "P{port}"
        );
        assert_eq!(
            read(&filled(0, one), address),
            u8::from(is_input),
            "P{port}"
        );
        let mut shut = filled(one, 0x0FFF_FFFF - one);
        shut.port_driver.s = 0;
        assert_eq!(read(&shut, address), 0, "P{port}");
        shut.port_driver.pins = one;
        assert_eq!(read(&shut, address), 1, "P{port}");
    }
}

#[test]
fn a_register_keeps_its_bits_and_leaves_the_others() {
    let start = filled(0x0A5C_3961, 0x0A5C_3961);
    let before = reads(&start);
    for (address, kept) in REGISTERS {
        for data in [
            0x00, 0x01, 0x02, 0x04, 0x08, 0x10, 0x20, 0x40, 0x80, 0x6D, 0xFF,
        ] {
            let end = after(&start, [address, data]);
            let mut expected = before.clone();
            expected[usize::from(address)] = data & kept;
            assert_eq!(reads(&end), expected, "{address:02X} {data:02X}");
        }
    }
}

#[test]
fn the_fields_of_the_registers() {
    let record = Record::port_driver_power_up();
    for k in 0..7 {
        let end = after(&record, [0x09 + k, 0xC5]).port_driver;
        let mut pairs = [0xAA; 7];
        pairs[usize::from(k)] = 0xC5;
        assert_eq!(end.pairs, pairs);
    }
    for k in 0..14 {
        let end = after(&record, [0x12 + k, 0xC5]).port_driver;
        let mut currents = [0; 14];
        currents[usize::from(k)] = 0xC5;
        assert_eq!(end.currents, currents);
    }
    let field = |word| after(&record, word).port_driver;
    assert_eq!(field([0x02, 0xFF]).global, 15);
    assert_eq!(field([0x06, 0xFF]).mask, 127);
    assert_eq!(field([0x07, 0xFF]).test, 1);
    for (data, bits) in [
        (0x80, [1, 0, 0]),
        (0x40, [0, 1, 0]),
        (0x01, [0, 0, 1]),
        (0x3E, [0; 3]),
    ] {
        let end = field([0x04, data]);
        assert_eq!([end.m, end.i, end.s], bits);
    }
}

#[test]
fn other_addresses_take_nothing_and_read_0() {
    for address in unlisted().into_iter().chain(NO_ACTION) {
        let start = filled(0x0A5C_3961, 0x0333_5577);
        for data in [0x00, 0x01, 0x5A, 0xFF] {
            let mut expected = start.clone();
            expected.shift = u16::from_be_bytes([address, data]);
            assert_eq!(after(&start, [address, data]), expected);
        }
        assert_eq!(read(&start, address), 0, "{address:02X}");
    }
}

#[test]
fn a_read_changes_the_shift_word_and_the_mark_alone() {
    for address in 0..128 {
        let start = filled(0x0A5C_3961, 0x0333_5577);
        let mut expected = start.clone();
        expected.shift = u16::from_be_bytes([0x80 + address, read(&start, address)]);
        expected.answer_mark = 1;
        assert_eq!(after(&start, [0x80 + address, 0xFF]), expected);
        assert_eq!(after(&expected, [address, 0x00]).answer_mark, 0);
    }
}
