//! "Errors this trade makes", and the numbers.

use second_double::{access, call, Call, Record};

/// Accesses of one word each on a chain of one; the words answered.
fn words(record: &mut Record, sent: &[u16]) -> Vec<u16> {
    let mut answered = Vec::new();
    for word in sent {
        let mut answer = [0; 2];
        let chain = std::slice::from_mut(record);
        assert_eq!(access(chain, 16, &word.to_be_bytes(), &mut answer), 0);
        answered.push(u16::from_be_bytes(answer));
    }
    answered
}

fn scans(record: &mut Record, keys: &[u8]) {
    for a in keys {
        let scan = Call::Scan {
            driver: 1,
            keys: [*a, 0, 0, 0],
        };
        assert_eq!(call(std::slice::from_mut(record), &scan).number, 0);
    }
}

#[test]
fn a_read_is_answered_in_the_next_access() {
    let mut record = Record::power_up();
    assert_eq!(words(&mut record, &[0x8100, 0x0000]), [0x0000, 0x81FF]);
}

#[test]
fn no_clocks_still_take_the_word() {
    let mut record = Record::power_up();
    record.shift = 0x0305;
    assert_eq!(
        access(std::slice::from_mut(&mut record), 0, &[], &mut []),
        0
    );
    assert_eq!(record.limit, 5);
}

#[test]
fn debounced_data_is_loaded_and_then_cleared() {
    let mut record = Record::power_up();
    record.ports = 0x20;
    scans(&mut record, &[0x81, 0x81]);
    let answered = words(&mut record, &[0x8800, 0x8800, 0x0000]);
    assert_eq!(answered[1..], [0x8881, 0x8800]);
}

#[test]
fn pressed_keys_are_read_where_digit_type_is_written() {
    let mut record = Record::power_up();
    record.ports = 0x20;
    scans(&mut record, &[0x42]);
    let answered = words(&mut record, &[0x0C07, 0x8C00, 0x0000]);
    assert_eq!((record.types, answered[2]), (0x07, 0x8C42));
}

#[test]
fn the_highest_nibble_is_15_sixteenths() {
    let mut record = Record::power_up();
    record.s = 1;
    record.global = 0xF;
    let brightness = Call::Brightness {
        driver: 1,
        digit: 0,
    };
    assert_eq!(call(&mut [record], &brightness).back, [15, 1]);
}

#[test]
fn a_held_key_counts_once() {
    let mut record = Record::power_up();
    record.ports = 0x20;
    scans(&mut record, &[0x01, 0x01]);
    words(&mut record, &[0x8800]);
    scans(&mut record, &[0x01, 0x01]);
    assert_eq!(record.debounced[0], 0);
}

/// An access of zeros with so many sent bytes and bytes of room.
fn zeros(clocks: usize, sent: usize, room: usize) -> Call {
    Call::Access {
        clocks,
        sent: vec![0; sent],
        room: vec![9; room],
    }
}

fn pins(driver: usize, levels: u32) -> Call {
    Call::Pins { driver, levels }
}

#[test]
fn the_lowest_number_is_given_and_nothing_changes() {
    let unsound = Record {
        gpio: 32,
        ..Record::power_up()
    };
    let digit_16 = Call::Brightness {
        driver: 1,
        digit: 16,
    };
    let cases = [
        (0, zeros(5000, 0, 0), 1),
        (17, pins(0, 32), 1),
        (16, pins(17, 32), 2),
        (1, zeros(4097, 0, 0), 3),
        (1, zeros(17, 2, 2), 4),
        (1, zeros(17, 3, 2), 5),
        (1, pins(1, 32), 6),
        (1, digit_16, 6),
        (1, Call::Shown { driver: 1 }, 7),
        (1, zeros(17, 3, 4), 7),
    ];
    for (n, asked, number) in cases {
        let mut chain = vec![unsound.clone(); n];
        let reply = call(&mut chain, &asked);
        assert_eq!(reply.number, number, "{asked:?}");
        let unchanged = if let Call::Access { .. } = asked {
            9
        } else {
            0
        };
        assert!(reply.back.iter().all(|byte| *byte == unchanged));
        assert_eq!(chain, vec![unsound.clone(); n]);
    }
}
