//! The answer mark: what decides it, what leaves it, and the question for it.

use second_double::{access, call, Call, Record};

/// Drivers with these shift words and answer marks, otherwise at power-up.
fn chain(drivers: &[(u16, u8)]) -> Vec<Record> {
    let record = |(shift, answer_mark): &(u16, u8)| Record {
        shift: *shift,
        answer_mark: *answer_mark,
        ..Record::power_up()
    };
    drivers.iter().map(record).collect()
}

fn marks(chain: &[Record]) -> Vec<u8> {
    chain.iter().map(|record| record.answer_mark).collect()
}

/// A served access with room for its answer.
fn send(chain: &mut [Record], clocks: usize, sent: &[u8]) {
    assert_eq!(access(chain, clocks, sent, &mut [0; 512]), 0);
}

#[test]
fn power_up_has_no_mark() {
    let mut chain = [Record::power_up()];
    assert_eq!(marks(&chain), [0]);
    send(&mut chain, 0, &[]);
    assert_eq!(marks(&chain), [0]);
}

#[test]
fn a_read_of_any_address_sets_it_and_a_write_clears_it() {
    for high in 0..=0xFF {
        for before in [0, 1] {
            let mut chain = chain(&[(0, before)]);
            send(&mut chain, 16, &[high, 0xFF]);
            assert_eq!(marks(&chain), [high / 0x80], "{high:02X}");
        }
    }
}

#[test]
fn no_clocks_decide_it_by_the_standing_word() {
    let mut chain = chain(&[(0x8000, 0), (0x0000, 1), (0xFF00, 1), (0x7FFF, 0)]);
    send(&mut chain, 0, &[]);
    assert_eq!(marks(&chain), [1, 0, 1, 0]);
}

#[test]
fn each_driver_has_the_mark_of_its_own_word() {
    let mut chain = chain(&[(0, 0); 2]);
    send(&mut chain, 32, &[0x00, 0x00, 0x81, 0x00]);
    assert_eq!(marks(&chain), [1, 0]);
    send(&mut chain, 16, &[0x01, 0xFF]);
    assert_eq!(marks(&chain), [0, 1]);
    send(&mut chain, 1, &[0x80]);
    assert_eq!(marks(&chain), [0, 0]);
    send(&mut chain, 15, &[0; 2]);
    assert_eq!(marks(&chain), [1, 0]);
}

/// Accesses refused with 3, 4 and 5.
fn refused_accesses() -> [Call; 3] {
    [(4097, 513, 513), (16, 1, 2), (16, 2, 1)].map(|(clocks, sent, room)| Call::Access {
        clocks,
        sent: vec![0x80; sent],
        room: vec![0; room],
    })
}

/// A call of every other kind, and some that are refused.
fn other_calls() -> Vec<Call> {
    let (driver, keys) = (1, [255; 4]);
    let plane = |last| Call::Plane {
        driver,
        p0: vec![0; 16],
        p1: vec![0; 16],
        first: 0,
        last,
    };
    let segments = |cathode| Call::Segments {
        driver,
        cathode,
        font14: vec![0; 128],
        font16: vec![0; 128],
    };
    let clocks = 4_000_001;
    vec![
        Call::Scan { driver, keys },
        Call::Scan { driver: 2, keys },
        Call::Pins { driver, levels: 31 },
        Call::Pins { driver, levels: 32 },
        Call::Clocks { driver, clocks },
        plane(15),
        plane(16),
        segments(7),
        segments(8),
        Call::Brightness { driver, digit: 0 },
        Call::Shown { driver },
        Call::Interrupt { driver },
        Call::AnswerMark { driver },
    ]
}

#[test]
fn nothing_else_touches_it() {
    for drivers in [[(0x0000, 1)], [(0x8100, 0)]] {
        let mut chain = chain(&drivers);
        for asked in other_calls().into_iter().chain(refused_accesses()) {
            call(&mut chain, &asked);
            let record = &chain[0];
            assert_eq!([(record.shift, record.answer_mark)], drivers, "{asked:?}");
        }
    }
}

#[test]
fn the_question_gives_the_named_drivers_mark() {
    let mut chain = chain(&[(0x8100, 0), (0x0000, 1)]);
    for (driver, mark) in [(1, 0), (2, 1)] {
        let reply = call(&mut chain, &Call::AnswerMark { driver });
        assert_eq!((reply.number, reply.back), (0, vec![mark]));
    }
}

#[test]
fn the_question_is_refused_in_the_one_order() {
    for (n, driver, number) in [(0, 1, 1), (17, 18, 1), (2, 0, 2), (16, 17, 2), (2, 1, 7)] {
        let mut chain = chain(&vec![(0x8100, 1); n]);
        if let Some(last) = chain.last_mut() {
            last.gpio = 32;
        }
        let reply = call(&mut chain, &Call::AnswerMark { driver });
        assert_eq!((reply.number, reply.back), (number, vec![0]));
    }
}

#[test]
fn a_mark_above_1_is_not_sound() {
    for (mark, number) in [(0, 0), (1, 0), (2, 7), (3, 7), (255, 7)] {
        let mut chain = chain(&[(0x0000, 0), (0x0000, mark)]);
        assert_eq!(chain[1].sound(), number == 0);
        assert_eq!(access(&mut chain, 0, &[], &mut []), number);
        assert_eq!(
            call(&mut chain, &Call::Interrupt { driver: 1 }).number,
            number
        );
    }
}
