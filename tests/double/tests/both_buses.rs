//! What a data byte of the two-wire bus leaves and gives at each address, beside the word of the four-wire bus that says the same.

use second_double::{access, bus_call, Bus, BusCall, Record};

/// A record with something in every register, keys debounced and the interrupt raised.
fn filled(command: u8) -> Record {
    Record {
        decode: 0x5A,
        global: 9,
        limit: 5,
        gpio: 0x15,
        ports: 0x9F,
        test: 1,
        types: 0x81,
        i: 1,
        e: 1,
        s: 1,
        intensities: std::array::from_fn(|k| 0x30 + k as u8),
        mask: [1, 2, 3, 4],
        debounced: [5, 6, 7, 8],
        pressed: [9, 10, 11, 12],
        interrupt: 1,
        p0: std::array::from_fn(|d| 0x60 + d as u8),
        p1: std::array::from_fn(|d| 0x80 + d as u8),
        blink: 1234,
        shift: 0x7F5A,
        command,
        ..Record::power_up()
    }
}

/// What one data byte of the part leaves, with its shift word and mark, and the data that it gives.
fn by_two_wires(address: u8, phase: u8, call: BusCall) -> (Record, u8) {
    let mut parts = [filled(address)];
    let reply = bus_call(&mut parts, Bus { part: 1, phase }, &[0x60; 16], call);
    assert_eq!((reply.number, reply.back[0]), (0, 1));
    (parts[0].clone(), reply.back[1])
}

/// What a word leaves, and the data in the shift word; with the shift word, the mark and the address that two wires leave.
fn by_four_wires(address: u8, word: [u8; 2]) -> (Record, u8) {
    let mut chain = [filled(address)];
    assert_eq!(access(&mut chain, 16, &word, &mut [0; 2]), 0);
    let data = chain[0].shift as u8;
    let left = Record {
        shift: 0x7F5A,
        answer_mark: 0,
        command: (address + 1).min(127),
        ..chain[0].clone()
    };
    (left, data)
}

#[test]
fn a_byte_written_is_a_write_at_its_address() {
    for address in 0..=127 {
        for byte in [0x00, 0x35, 0xCA, 0xFF] {
            let (ours, data) = by_two_wires(address, 1, BusCall::Write(byte));
            let (word, _) = by_four_wires(address, [address, byte]);
            assert_eq!((ours, data), (word, 0), "{byte:02X} at {address:02X}");
        }
    }
}

#[test]
fn a_byte_read_is_a_read_at_its_address() {
    for address in 0..=127 {
        let ours = by_two_wires(address, 2, BusCall::Read);
        let word = by_four_wires(address, [0x80 + address, 0x00]);
        assert_eq!(ours, word, "{address:02X}");
    }
}
