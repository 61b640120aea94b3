//! Every byte of a digit in hex mode (Table 11), and where the blank one isn't blank.

use second_double::{call, Call, Record};

/// Table 11: A to G of 0 to F.
const ON_SEGMENTS: [u8; 16] = [
    0b1111110, 0b0110000, 0b1101101, 0b1111001, 0b0110011, 0b1011011, 0b1011111, 0b1110000,
    0b1111111, 0b1111011, 0b1110111, 0b0011111, 0b1001110, 0b0111101, 0b1001111, 0b1000111,
];

/// A driver that shows these bytes on digits d and da of cathode d.
fn showing(cathode: usize, bytes: [u8; 2]) -> Record {
    let mut record = Record::power_up();
    record.s = 1;
    [record.p0[cathode], record.p0[cathode + 8]] = bytes;
    record
}

/// The pins of a cathode but for itself and its partner; only glyph 10 of either table is lit.
fn carrying_pins(record: &Record, cathode: usize) -> Vec<u8> {
    let mut font = vec![0; 128];
    font[0x10] = 0xFFFF;
    let question = Call::Segments {
        driver: 1,
        cathode,
        font14: font.clone(),
        font16: font,
    };
    let reply = call(&mut [record.clone()], &question);
    assert_eq!(reply.number, 0);
    let carrying = (0..19).filter(|pin| pin / 2 != cathode / 2);
    carrying.map(|pin| reply.back[pin]).collect()
}

/// What is lit on digits d and da of a pair, each as bits dp a b c d e f g.
fn lit(record: &Record, cathode: usize) -> [u8; 2] {
    let pins = carrying_pins(record, cathode);
    let bits = |places: [usize; 8]| {
        let bit = |place: usize| u8::from(pins[place] == 2);
        places
            .into_iter()
            .fold(0, |bits, place| 2 * bits + bit(place))
    };
    [[5, 0, 2, 3, 4, 6, 7, 8], [16, 9, 10, 11, 12, 13, 14, 15]].map(bits)
}

/// A byte in hex mode: D7 is dp, 0010000 below it is blank.
fn decoded(byte: u8) -> u8 {
    match byte {
        0x10 => 0x00,
        0x90 => 0x80,
        _ => (byte & 0x80) + ON_SEGMENTS[usize::from(byte & 0x0F)],
    }
}

#[test]
fn each_digit_of_a_pair_is_decoded_by_its_own_byte() {
    for cathode in 0..8 {
        for byte in 0..=0xFF {
            for other in [0x88, 0x10] {
                let found = lit(&showing(cathode, [byte, other]), cathode);
                assert_eq!(found, [byte, other].map(decoded), "{byte:02X} {other:02X}");
                let found = lit(&showing(cathode, [other, byte]), cathode);
                assert_eq!(found, [other, byte].map(decoded), "{other:02X} {byte:02X}");
            }
        }
    }
}

#[test]
fn bits_6_to_4_are_otherwise_ignored() {
    for byte in [0x00, 0x20, 0x30, 0x40, 0x50, 0x60, 0x70] {
        assert_eq!(lit(&showing(3, [byte, byte + 0x80]), 3), [0x7E, 0xFE]);
    }
}

#[test]
fn the_blank_byte_is_that_of_the_plane_shown() {
    let mut record = showing(2, [0x00, 0x10]);
    [record.p1[2], record.p1[10]] = [0x10, 0x00];
    record.e = 1;
    assert_eq!(lit(&record, 2), [0x7E, 0x00]);
    record.blink = 2_000_000;
    assert_eq!(lit(&record, 2), [0x00, 0x7E]);
}

#[test]
fn direct_control_has_no_blank_byte() {
    for cathode in 0..8 {
        let mut record = showing(cathode, [0x10, 0x90]);
        record.decode = 0xFF - (1 << cathode);
        assert_eq!(lit(&record, cathode), [0x10, 0x90]);
    }
}

#[test]
fn the_glyph_tables_have_no_blank_byte() {
    let mut record = showing(5, [0x90, 0x10]);
    record.fitted = 0;
    assert_eq!(carrying_pins(&record, 5), [2; 17]);
    record.types = 0xFF;
    let expected = [2, 4, 2, 2, 2, 4, 2, 2, 2, 2, 2, 2, 2, 2, 2, 2, 2];
    assert_eq!(carrying_pins(&record, 5), expected);
}

#[test]
fn test_mode_lights_the_blank_byte() {
    let mut record = showing(6, [0x10, 0x90]);
    record.test = 1;
    assert_eq!(lit(&record, 6), [0xFF, 0xFF]);
}
