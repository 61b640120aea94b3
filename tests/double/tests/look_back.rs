//! A plane byte after a list of words: what writes it, what clears it, what leaves it, and the numbers.

use second_double::{call, Call, Record};

/// Planes whose bytes all differ, P0's from 0x80 on, P1's from 0xA0 on.
fn record() -> Record {
    Record {
        p0: std::array::from_fn(|d| 0x80 + d as u8),
        p1: std::array::from_fn(|d| 0xA0 + d as u8),
        ..Record::power_up()
    }
}

/// The number and the byte that a chain of two, the second with other planes, gives for driver 1; no record changes.
fn asked(plane: usize, digit: usize, words: &[u16]) -> (u8, Vec<u8>) {
    let mut chain = [record(), Record::power_up()];
    let look = Call::LookBack {
        driver: 1,
        plane,
        digit,
        words: words.to_vec(),
    };
    let reply = call(&mut chain, &look);
    assert_eq!(chain, [record(), Record::power_up()]);
    (reply.number, reply.back)
}

/// The byte of a served question.
fn byte(plane: usize, digit: usize, words: &[u16]) -> u8 {
    let (number, back) = asked(plane, digit, words);
    assert_eq!((number, back.len()), (0, 1));
    back[0]
}

#[test]
fn no_word_leaves_the_starting_record() {
    for digit in 0..16 {
        assert_eq!(byte(0, digit, &[]), 0x80 + digit as u8);
        assert_eq!(byte(1, digit, &[]), 0xA0 + digit as u8);
    }
}

#[test]
fn the_last_write_or_clear_decides() {
    let rows: [(&[u16], [u8; 2]); 9] = [
        (&[0x2311], [0x11, 0xA3]),
        (&[0x4311], [0x83, 0x11]),
        (&[0x6311], [0x11, 0x11]),
        (&[0x6311, 0x2322], [0x22, 0x11]),
        (&[0x2322, 0x6311, 0x4333], [0x11, 0x33]),
        (&[0x6311, 0x0420], [0x00, 0x00]),
        (&[0x0420, 0x4311], [0x00, 0x11]),
        (&[0x04FF], [0x00, 0x00]),
        (&[0x2311, 0x0420, 0x2344, 0x6255, 0x8300], [0x44, 0x00]),
    ];
    for (words, bytes) in rows {
        assert_eq!([0, 1].map(|plane| byte(plane, 3, words)), bytes);
    }
}

#[test]
fn other_words_leave_the_byte() {
    // Reads of the digit and of configuration, clears without R, the digits beside it, the addresses between the planes.
    let words = [
        0xA311, 0xC311, 0xE311, 0x84FF, 0x04DF, 0x2211, 0x2411, 0x4211, 0x4411, 0x6211, 0x6411,
        0x2B11, 0x3311, 0x5311, 0x7311, 0x1311, 0x0311,
    ];
    for word in words {
        assert_eq!([byte(0, 3, &[word]), byte(1, 3, &[word])], [0x83, 0xA3]);
    }
}

#[test]
fn the_named_drivers_record_is_asked() {
    let look = Call::LookBack {
        driver: 2,
        plane: 1,
        digit: 0,
        words: vec![0x2001],
    };
    let reply = call(&mut [record(), Record::power_up()], &look);
    assert_eq!((reply.number, reply.back), (0, vec![0x20]));
}

#[test]
fn the_lowest_number_is_given_with_a_byte_of_0() {
    let rows = [
        (0, 0, 2, 16, 1),
        (17, 0, 2, 16, 1),
        (2, 0, 2, 16, 2),
        (2, 3, 0, 0, 2),
        (2, 1, 2, 0, 6),
        (2, 1, usize::MAX, 0, 6),
        (2, 1, 0, 16, 6),
        (2, 1, 1, usize::MAX, 6),
        (2, 1, 1, 15, 7),
    ];
    for (n, driver, plane, digit, number) in rows {
        let unsound = Record {
            limit: 8,
            ..record()
        };
        let mut chain = vec![unsound; n];
        let look = Call::LookBack {
            driver,
            plane,
            digit,
            words: vec![0x6077, 0x6F77],
        };
        let reply = call(&mut chain, &look);
        assert_eq!((reply.number, reply.back), (number, vec![0]));
    }
}
