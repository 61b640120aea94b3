//! Bench examples 1 to 12, and byte 10 in hex mode.

use second_double::{access, call, Call, Record};

fn power_up(n: usize) -> Vec<Record> {
    vec![Record::power_up(); n]
}

/// A served access with room for its answer.
fn send(chain: &mut [Record], clocks: usize, sent: &[u8]) -> Vec<u8> {
    let mut answer = vec![0xEE; clocks.div_ceil(8)];
    assert_eq!(access(chain, clocks, sent, &mut answer), 0);
    answer
}

/// A served call on driver 1 of a chain of one.
fn ask(record: &Record, question: Call) -> Vec<u8> {
    let reply = call(&mut [record.clone()], &question);
    assert_eq!(reply.number, 0);
    reply.back
}

fn pins(record: &Record, cathode: usize, glyph: u16) -> Vec<u8> {
    ask(
        record,
        Call::Segments {
            driver: 1,
            cathode,
            font14: vec![0; 128],
            font16: vec![glyph; 128],
        },
    )
}

#[test]
fn example_1() {
    let mut chain = power_up(1);
    assert_eq!(send(&mut chain, 16, &[0x04, 0x01]), [0x00, 0x00]);
    assert_eq!(send(&mut chain, 16, &[0x84, 0x00]), [0x04, 0x01]);
    assert_eq!(send(&mut chain, 16, &[0x00, 0x00]), [0x84, 0x81]);
}

#[test]
fn examples_2_and_3() {
    let mut chain = power_up(1);
    assert_eq!(send(&mut chain, 17, &[0x81, 0x01, 0x80]), [0, 0, 0x80]);
    assert_eq!((chain[0].global, chain[0].shift), (3, 0x0203));
    chain[0].global = 9;
    assert_eq!(send(&mut chain, 0, &[]), []);
    assert_eq!(chain[0].global, 3);
}

#[test]
fn example_4() {
    let mut chain = power_up(2);
    send(&mut chain, 32, &[0x00, 0x00, 0x03, 0x03]);
    assert_eq!((chain[0].limit, chain[1].limit), (3, 7));
}

#[test]
fn example_5() {
    let mut chain = power_up(2);
    send(&mut chain, 16, &[0x03, 0x05]);
    assert_eq!((chain[0].limit, chain[1].limit), (5, 7));
    assert_eq!((chain[0].shift, chain[1].shift), (0x0305, 0x0000));
}

#[test]
fn example_6() {
    for (nibble, sixteenths) in [(0x0, 1), (0xE, 15), (0xF, 15)] {
        let mut record = Record::power_up();
        record.s = 1;
        record.global = nibble;
        record.intensities = [nibble; 8];
        let even = Call::Brightness {
            driver: 1,
            digit: 14,
        };
        let odd = Call::Brightness {
            driver: 1,
            digit: 15,
        };
        assert_eq!(ask(&record, even.clone()), [sixteenths, 1]);
        record.i = 1;
        record.global = 6;
        assert_eq!(ask(&record, even), [sixteenths, 2]);
        assert_eq!(ask(&record, odd), [1, 2]);
    }
}

#[test]
fn example_7() {
    let mut record = Record::power_up();
    record.s = 1;
    record.p0[0] = 0x8A;
    let expected = [1, 0, 2, 4, 2, 2, 3, 2, 2, 2, 2, 2, 2, 2, 2, 2, 2, 3, 3];
    assert_eq!(pins(&record, 0, 0), expected);
}

#[test]
fn byte_10_in_hex_mode() {
    let mut record = Record::power_up();
    record.s = 1;
    record.p0[0] = 0x10;
    let expected = [1, 0, 3, 4, 3, 3, 3, 3, 3, 3, 3, 2, 2, 2, 2, 2, 2, 3, 3];
    assert_eq!(pins(&record, 0, 0), expected);
}

#[test]
fn example_8() {
    let mut chain = power_up(1);
    chain[0].ports = 0x20;
    chain[0].mask[0] = 0x04;
    let mut found = Vec::new();
    for key in [0x04, 0x04, 0x04, 0x00, 0x04, 0x04] {
        let keys = [key; 4];
        assert_eq!(call(&mut chain, &Call::Scan { driver: 1, keys }).number, 0);
        found.push((chain[0].debounced, chain[0].interrupt));
        send(&mut chain, 16, &[0x88, 0x00]);
    }
    let none = ([0; 4], 0);
    let key = ([0x04, 0, 0, 0], 1);
    assert_eq!(found, [none, key, none, none, none, key]);
}

#[test]
fn example_9() {
    for (b, count, p) in [(0, 1_999_999, 0x80), (0, 2_000_000, 0), (1, 1_000_000, 0)] {
        let mut chain = power_up(1);
        chain[0].b = b;
        chain[0].blink = 3_999_999;
        let clocks = Call::Clocks {
            driver: 1,
            clocks: count + 1,
        };
        assert_eq!(call(&mut chain, &clocks).number, 0);
        assert_eq!(chain[0].blink, count);
        send(&mut chain, 16, &[0x84, 0x00]);
        assert_eq!(send(&mut chain, 0, &[]), []);
        assert_eq!(chain[0].shift, 0x8400 + p + 4 * u16::from(b));
    }
}

#[test]
fn example_10() {
    let mut record = Record::power_up();
    record.s = 1;
    record.fitted = 0;
    for (byte, glyph, lit) in [
        (0, 0x8000, 0),
        (0, 0x4000, 1),
        (0, 0x2000, 4),
        (0x80, 0, 18),
    ] {
        record.p0[2] = byte;
        let mut expected = [3; 19];
        expected[2] = 1;
        expected[3] = 0;
        expected[lit] = 2;
        assert_eq!(pins(&record, 2, glyph), expected);
    }
}

#[test]
fn example_11() {
    let mut record = Record::power_up();
    record.s = 1;
    record.decode = 0;
    record.p0[6] = 0x80;
    assert_eq!(pins(&record, 6, 0)[5..9], [2, 1, 0, 3]);
    record.p0[6] = 0x04;
    assert_eq!(pins(&record, 6, 0)[5..9], [3, 1, 0, 2]);
}

#[test]
fn example_12() {
    let mut chain = power_up(1);
    let (sent, mut answer) = ([0; 513], [0; 513]);
    assert_eq!(access(&mut chain, 4096, &sent, &mut answer), 0);
    assert_eq!(access(&mut chain, 4097, &sent, &mut answer), 3);
}
