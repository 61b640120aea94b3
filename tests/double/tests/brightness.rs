//! What rules a digit's brightness, and the digits of dark cathodes.

use second_double::{call, Call, Lone, Record};

/// A driver out of shutdown: global nibble 4, and its own nibble k for digit k.
fn lit() -> Record {
    Record {
        s: 1,
        global: 4,
        intensities: [0x10, 0x32, 0x54, 0x76, 0x98, 0xBA, 0xDC, 0xFE],
        ..Record::power_up()
    }
}

fn question(digit: usize) -> Call {
    Call::Brightness { driver: 1, digit }
}

/// A served question: the sixteenths and then what ruled.
fn ask(record: &Record, digit: usize) -> Vec<u8> {
    let mut chain = [record.clone()];
    let reply = call(&mut chain, &question(digit));
    assert_eq!((reply.number, &chain[0]), (0, record));
    reply.back
}

/// Whether some pin of the cathode is driven.
fn driven(record: &Record, cathode: usize) -> bool {
    let segments = Call::Segments {
        driver: 1,
        cathode,
        font14: vec![0; 128],
        font16: vec![0; 128],
    };
    let pins = call(&mut [record.clone()], &segments).back;
    pins.iter().any(|pin| *pin != 0)
}

#[test]
fn i_picks_the_global_register_or_the_digits_own() {
    let own = [1, 2, 3, 4, 5, 6, 7, 8, 9, 10, 11, 12, 13, 14, 15, 15];
    for (digit, sixteenths) in own.into_iter().enumerate() {
        assert_eq!(ask(&lit(), digit), [5, 1]);
        assert_eq!(ask(&Record { i: 1, ..lit() }, digit), [sixteenths, 2]);
    }
}

#[test]
fn nibbles_0_e_and_f_of_a_cathode_that_is_not_dark() {
    for (nibble, sixteenths) in [(0x0, 1), (0xE, 15), (0xF, 15)] {
        let global = Record {
            global: nibble,
            intensities: [0x66; 8],
            ..lit()
        };
        let own = Record {
            i: 1,
            intensities: [17 * nibble; 8],
            ..lit()
        };
        for digit in 0..16 {
            assert_eq!(ask(&global, digit), [sixteenths, 1]);
            assert_eq!(ask(&own, digit), [sixteenths, 2]);
        }
    }
}

#[test]
fn in_shutdown_every_digit_is_dark_and_names_what_would_have_ruled() {
    for digit in 0..16 {
        for (i, ruler) in [(0, 1), (1, 2)] {
            let record = Record { s: 0, i, ..lit() };
            assert_eq!(ask(&record, digit), [0, ruler]);
            assert_eq!(ask(&Record { limit: 0, ..record }, digit), [0, ruler]);
        }
        assert_eq!(ask(&Record::power_up(), digit), [0, 1]);
    }
}

#[test]
fn above_the_scan_limit_a_digit_and_its_a_digit_are_dark() {
    for limit in 0..8 {
        for cathode in 0..8 {
            let global = Record { limit, ..lit() };
            let own = Record { i: 1, ..global };
            for digit in [cathode, cathode + 8] {
                let dark = cathode > usize::from(limit);
                let nibble = (digit as u8 + 1).min(15);
                let (five, nibble) = if dark { (0, 0) } else { (5, nibble) };
                assert_eq!(ask(&global, digit), [five, 1]);
                assert_eq!(ask(&own, digit), [nibble, 2]);
            }
        }
    }
}

#[test]
fn display_test_rules_over_i_shutdown_and_scan_limit() {
    for (i, s, limit) in [(0, 0, 7), (1, 0, 7), (0, 1, 0), (1, 1, 0), (1, 0, 0)] {
        let record = Record {
            test: 1,
            i,
            s,
            limit,
            ..lit()
        };
        for digit in 0..16 {
            assert_eq!(ask(&record, digit), [7, 3]);
        }
    }
}

/// All cathodes with 7-segment pairs, 16-segment and 14-segment digits in turn.
#[test]
fn no_sixteenths_exactly_where_no_pin_of_the_cathode_is_driven() {
    for (types, fitted) in [(0x00, 0xFF), (0x00, 0x00), (0xFF, 0xFF), (0xFF, 0x00)] {
        for settings in 0..64 {
            let record = Record {
                types,
                fitted,
                test: settings % 2,
                s: settings / 2 % 2,
                i: settings / 4 % 2,
                limit: settings / 8,
                ..lit()
            };
            for digit in 0..16 {
                let answer = ask(&record, digit);
                assert_eq!(answer[0] > 0, driven(&record, digit % 8), "{record:?}");
            }
        }
    }
}

#[test]
fn a_refused_answer_has_no_sixteenths_and_names_none() {
    for (test, i) in [(0, 0), (0, 1), (1, 0), (1, 1)] {
        let record = Record { test, i, ..lit() };
        for (n, driver, digit, gpio, number) in [
            (0, 1, 0, 0, 1),
            (17, 1, 0, 0, 1),
            (2, 0, 0, 0, 2),
            (2, 3, 16, 0, 2),
            (2, 1, 16, 32, 6),
            (2, 1, 15, 32, 7),
        ] {
            let mut chain = vec![record.clone(); n];
            if let Some(last) = chain.last_mut() {
                last.gpio = gpio;
            }
            let reply = call(&mut chain, &Call::Brightness { driver, digit });
            assert_eq!((reply.number, reply.back), (number, vec![0, 0]));
        }
    }
}

#[test]
fn a_lone_driver_answers_what_ruled() {
    let mut lone = Lone::new(&[0], 1, Record::power_up());
    let steps = [
        (0x0000, [0, 1]),
        (0x0440, [0, 2]),
        (0x0701, [7, 3]),
        (0x0700, [0, 2]),
        (0x17A3, [0, 2]),
        (0x0441, [11, 2]),
        (0x0306, [0, 2]),
        (0x0307, [11, 2]),
        (0x0401, [1, 1]),
    ];
    for (word, answer) in steps {
        let access = Call::Access {
            clocks: 16,
            sent: u16::to_be_bytes(word).to_vec(),
            room: vec![0; 2],
        };
        assert!(lone.hear(&access).is_some());
        assert_eq!(
            lone.hear(&question(15)),
            Some(answer.to_vec()),
            "{word:04X}"
        );
    }
    assert_eq!(lone.hear(&question(16)), None);
}
