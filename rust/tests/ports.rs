//! The MAX6957 through the safe calls: its registers, what its ports drive, transition detection, and chains of both families.
use ratchetelm::two_wire::{read, start, stop, write, Bus};
use ratchetelm::{
    access, add_clocks, answer_mark, brightness, interrupt, look_back, plan, plan_check, plane,
    ports, scan, segments, set_pins, shown, Device, Plane, PortConfig, PortRegisters, PortState,
    Refusal, Transition,
};
use PortState::{High, Led, Low, Undriven};

const FONT: [u16; 128] = [0; 128];

/// P24, the first that transition detection may watch, in pin levels.
const P24: u32 = 1 << 20;

/// Words to a chain of one in turn; gives the words that come out.
fn send(chain: &mut [Device; 1], words: &[u16]) -> Vec<u16> {
    let mut take = |word: &u16| {
        let mut answer = [0; 2];
        assert_eq!(access(chain, 16, &word.to_be_bytes(), &mut answer), Ok(()));
        u16::from_be_bytes(answer)
    };
    words.iter().map(&mut take).collect()
}

/// A MAX6957 that has taken these words.
fn after(words: &[u16]) -> [Device; 1] {
    let mut chain = [Device::max6957_power_up()];
    send(&mut chain, words);
    chain
}

/// What port p drives.
fn port(chain: &[Device; 1], p: usize) -> PortState {
    ports(chain, 1).unwrap()[p - 4]
}

/// What the ports drive where these do so, from port p on, and no other does.
fn only(p: usize, states: &[PortState]) -> Result<[PortState; 28], Refusal> {
    let mut all = [Undriven; 28];
    all[p - 4..][..states.len()].copy_from_slice(states);
    Ok(all)
}

#[test]
fn the_two_power_up_records_differ_in_family_alone() {
    let old = Device::power_up();
    assert_eq!((old.family, old.ports.pairs), (0, [0xAA; 7]));
    let new = Device { family: 1, ..old };
    assert_eq!(Device::max6957_power_up(), new);
}

#[test]
fn every_field_is_where_its_name_is() {
    let mut words = vec![0x0655, 0x0209, 0x0701, 0x5881, 0x24FF];
    words.extend((0..7).map(|k| 0x0910 + 0x101 * k));
    words.extend((0..14).map(|k| 0x1230 + 0x101 * k));
    let mut chain = after(&words);
    assert_eq!(set_pins(&mut chain, 1, 0x0430_0002), Ok(()));
    send(&mut chain, &[0x04C0, 0x8200]);
    let registers = PortRegisters {
        stored: 0x0810_0001,
        pins: 0x0430_0002,
        pairs: std::array::from_fn(|k| 0x10 + k as u8),
        currents: std::array::from_fn(|k| 0x30 + k as u8),
        global: 9,
        test: 1,
        config: PortConfig { m: 1, i: 1, s: 0 },
        transition: Transition {
            mask: 0x55,
            snapshot: 0x43,
            detecting: 1,
            interrupt: 0,
        },
    };
    let record = Device {
        shift: 0x8209,
        answer_mark: 1,
        ports: registers,
        ..Device::max6957_power_up()
    };
    assert_eq!(chain[0], record);
}

#[test]
fn each_configuration_bit_has_its_field() {
    let bits = |words: &[u16]| {
        let config = after(words)[0].ports.config;
        [config.m, config.i, config.s]
    };
    assert_eq!(bits(&[0x0480]), [1, 0, 0]);
    assert_eq!(bits(&[0x0440]), [0, 1, 0]);
    assert_eq!(bits(&[0x0401]), [0, 0, 1]);
    assert_eq!(bits(&[0x04FF, 0x043E]), [0; 3]);
}

#[test]
fn reads_are_answered_one_access_later() {
    let rows: [(&[u16], &[u16]); 4] = [
        (&[0x8900, 0x8400, 0x0000], &[0x0000, 0x89AA, 0x8400]),
        // 0x40 has P4 to P7 from D0 on.
        (
            &[
                0x0401, 0x0955, 0x0A55, 0x40F0, 0xC400, 0x40FF, 0xC400, 0xC000, 0x0000,
            ],
            &[
                0x0000, 0x0401, 0x0955, 0x0A55, 0x40F0, 0xC400, 0x40FF, 0xC40F, 0xC00F,
            ],
        ),
        (
            &[0x0401, 0x0955, 0x0A55, 0x43FF, 0xC400, 0x0000],
            &[0x0000, 0x0401, 0x0955, 0x0A55, 0x43FF, 0xC47F],
        ),
        // There is no port above P31.
        (
            &[0x0401, 0x0F55, 0x5CFF, 0xDC00, 0xD800, 0xC400, 0x0000],
            &[0x0000, 0x0401, 0x0F55, 0x5CFF, 0xDC0F, 0xD8F0, 0xC400],
        ),
    ];
    for (words, answers) in rows {
        let mut chain = [Device::max6957_power_up()];
        assert_eq!(send(&mut chain, words), answers, "{words:04X?}");
    }
}

#[test]
fn ports_drive_what_they_are_configured_for() {
    // Words from power-up; the first port that drives, and what it and the ports after it drive.
    let rows: [(&[u16], usize, &[PortState]); 8] = [
        (&[], 4, &[]),
        (&[0x0401, 0x0F55, 0x5CFF], 28, &[High; 4]),
        // The whole current is 16 sixteenths, by the global nibble and by the port's own.
        (&[0x0401, 0x0900, 0x02FF, 0x4003], 4, &[Led(16); 2]),
        (
            &[0x0441, 0x0900, 0x02FF, 0x12E3, 0x4003],
            4,
            &[Led(4), Led(15)],
        ),
        // Display test lights the LED ports alone, also in shutdown and whatever is stored.
        (&[0x0954, 0x0701, 0x2501], 4, &[Led(8)]),
        (
            &[0x0954, 0x0701, 0x2501, 0x0401],
            4,
            &[Led(8), High, Low, Low],
        ),
        (
            &[0x0954, 0x0701, 0x2501, 0x0401, 0x0700],
            5,
            &[High, Low, Low],
        ),
        // Inputs drive nothing, with a pull-up or without.
        (&[0x0401, 0x09FA, 0x44FF], 4, &[]),
    ];
    for (words, first, states) in rows {
        assert_eq!(
            ports(&after(words), 1),
            only(first, states),
            "after {words:04X?}"
        );
    }
}

#[test]
fn a_read_in_shutdown_finds_the_pins() {
    let mut chain = after(&[0x0955, 0x400F, 0xC000]);
    assert_eq!(set_pins(&mut chain, 1, 5), Ok(()));
    assert_eq!(send(&mut chain, &[0xC000]), [0xC000]);
    assert_eq!(ports(&chain, 1), only(4, &[]));
    assert_eq!(
        send(&mut chain, &[0x0401, 0xC000, 0x0000]),
        [0xC005, 0x0401, 0xC00F]
    );
    assert_eq!(ports(&chain, 1), only(4, &[High; 4]));
}

/// A MAX6957 that watches P24, with P31 as its INT output; and its event, P24 high.
fn raised() -> [Device; 1] {
    let mut chain = after(&[0x0601, 0x0F6A, 0x0481]);
    assert_eq!((port(&chain, 31), interrupt(&chain, 1)), (Low, Ok(false)));
    assert_eq!(set_pins(&mut chain, 1, P24), Ok(()));
    assert_eq!((port(&chain, 31), interrupt(&chain, 1)), (High, Ok(true)));
    chain
}

#[test]
fn an_event_is_latched_until_the_mask_is_read() {
    let mut chain = raised();
    assert_eq!(set_pins(&mut chain, 1, 0), Ok(()));
    assert_eq!(port(&chain, 31), High);
    send(&mut chain, &[0x8600]);
    assert_eq!(
        (port(&chain, 31), chain[0].shift, interrupt(&chain, 1)),
        (Low, 0x8601, Ok(false))
    );
    // Detection is off until configuration is written with M set, which it still is.
    assert_eq!(set_pins(&mut chain, 1, P24), Ok(()));
    assert_eq!(port(&chain, 31), Low);
    assert_eq!(send(&mut chain, &[0x8400, 0x0481]), [0x8601, 0x8481]);
    assert_eq!(set_pins(&mut chain, 1, 0), Ok(()));
    assert_eq!(port(&chain, 31), High);
}

#[test]
fn a_word_taken_again_takes_a_new_snapshot() {
    let mut chain = raised();
    // At 0 clocks the configuration is written again.
    assert_eq!(access(&mut chain, 0, &[], &mut []), Ok(()));
    assert_eq!(port(&chain, 31), Low);
    for (pins, state) in [(P24, Low), (0, High)] {
        assert_eq!(set_pins(&mut chain, 1, pins), Ok(()));
        assert_eq!(port(&chain, 31), state);
    }
}

#[test]
fn a_watched_output_raises_the_interrupt_too() {
    let mut chain = after(&[0x0601, 0x0F6A, 0x0EA9, 0x3801, 0x3F01, 0x0481]);
    assert_eq!(port(&chain, 31), Low);
    // A word, and what P31 drives after it: with M clear its own bit.
    for (word, state) in [(0x3800, High), (0x8600, Low), (0x0401, High)] {
        send(&mut chain, &[word]);
        assert_eq!(port(&chain, 31), state, "{word:04X}");
    }
}

/// A MAX6954, and a MAX6957 after it.
fn both() -> [Device; 2] {
    [Device::power_up(), Device::max6957_power_up()]
}

#[test]
fn each_family_obeys_its_own_words() {
    let mut chain = both();
    let words: [u32; 5] = [0x0203_0205, 0x8200_8200, 0x2007_2007, 0xA000_A000, 0];
    let answers = words.map(|word| {
        let mut answer = [0; 4];
        assert_eq!(
            access(&mut chain, 32, &word.to_be_bytes(), &mut answer),
            Ok(())
        );
        u32::from_be_bytes(answer)
    });
    assert_eq!(
        answers,
        [0, 0x0203_0205, 0x8203_8205, 0x2007_2007, 0xA000_A007]
    );
    // Each has changed in its own registers alone.
    assert_eq!(chain[0].ports, Device::power_up().ports);
    assert_eq!(chain[1].registers, Device::power_up().registers);
    assert_eq!([chain[0].family, chain[1].family], [0, 1]);
    access(&mut chain, 32, &[0x82, 0, 0, 0], &mut [0; 4]).unwrap();
    assert_eq!(
        [answer_mark(&chain, 1), answer_mark(&chain, 2)],
        [Ok(false), Ok(true)]
    );
}

/// A call's number.
fn number<T>(result: Result<T, Refusal>) -> u8 {
    result.map_or_else(Refusal::number, |_| 0)
}

/// The numbers of the calls that both families have, and of those that a MAX6957 lacks.
fn named(chain: &mut [Device], driver: usize) -> ([u8; 3], [u8; 7]) {
    let planes = [0; 16];
    (
        [
            number(set_pins(chain, driver, 31)),
            number(interrupt(chain, driver)),
            number(answer_mark(chain, driver)),
        ],
        [
            number(scan(chain, driver, [1; 4])),
            number(add_clocks(chain, driver, 1)),
            number(plane(chain, driver, &planes, &planes, 0, 15)),
            number(segments(chain, driver, 7, &FONT, &FONT)),
            number(brightness(chain, driver, 15)),
            number(shown(chain, driver)),
            number(look_back(chain, driver, Plane::P0, 15, &[0x6077])),
        ],
    )
}

/// The numbers of the calls that every driver of a chain must have: the planner's, with these wanted bytes, and the bus's.
fn of_all(chain: &mut [Device], wanted: &[u8], straps: [u8; 16]) -> [u8; 6] {
    [
        number(plan(chain, wanted, &mut [0; 512])),
        number(plan_check(chain, wanted, &[])),
        number(start(chain, Bus::IDLE, straps)),
        number(write(chain, Bus::IDLE, straps, 0xC0)),
        number(read(chain, Bus::IDLE, straps)),
        number(stop(chain, Bus::IDLE, straps)),
    ]
}

/// Straps that differ.
fn straps() -> [u8; 16] {
    std::array::from_fn(|k| 0x60 + k as u8)
}

#[test]
fn a_driver_lacks_what_the_other_family_has() {
    let mut chain = both();
    assert_eq!(named(&mut chain, 1), ([0; 3], [0; 7]));
    assert_eq!(ports(&chain, 1), Err(Refusal::Lacked));
    let before = chain;
    assert_eq!(named(&mut chain, 2).1, [14; 7]);
    assert_eq!(of_all(&mut chain, &[0; 64], straps()), [14; 6]);
    // 14 comes after 10 and 11, and before 12.
    assert_eq!(of_all(&mut chain, &[0; 63], [0x60; 16])[..3], [14, 14, 10]);
    assert_eq!(
        of_all(
            &mut chain,
            &[0; 63],
            [0x60, 0xE0].repeat(8).try_into().unwrap()
        )[2..],
        [11; 4]
    );
    assert_eq!(chain[0], before[0]);
    assert_eq!(named(&mut chain, 2).0, [0; 3]);
    assert_eq!(ports(&chain, 2), only(4, &[]));
    assert_eq!(ports(&chain, 3), Err(Refusal::DriverNumber));
}

#[test]
fn arguments_are_tested_before_the_family() {
    let mut chain = both();
    let before = chain;
    for (driver, levels, refused) in [(1, 32, 6), (2, 1 << 28, 6), (3, 0, 2)] {
        assert_eq!(number(set_pins(&mut chain, driver, levels)), refused);
    }
    assert_eq!(number(brightness(&chain, 2, 16)), 6);
    assert_eq!(chain, before);
    assert_eq!(set_pins(&mut chain, 2, (1 << 28) - 1), Ok(()));
    assert_eq!(chain[1].ports.pins, (1 << 28) - 1);
    assert_eq!(chain[1].registers.pins, 0);
}

#[test]
fn an_unknown_family_is_refused_by_every_call() {
    for family in [2, 128, 255] {
        let mut chain = both();
        chain[0].family = family;
        // Nothing of it is tested, not even its pin levels.
        chain[0].registers.blink = 4_000_000;
        (chain[0].ports.global, chain[0].answer_mark) = (16, 2);
        let before = chain;
        assert_eq!(number(access(&mut chain, 32, &[0; 4], &mut [0; 4])), 14);
        assert_eq!(number(access(&mut chain, 32, &[0; 3], &mut [0; 4])), 4);
        for driver in [1, 2] {
            assert_eq!(named(&mut chain, driver), ([14; 3], [14; 7]));
            assert_eq!(ports(&chain, driver), Err(Refusal::Lacked));
        }
        assert_eq!(of_all(&mut chain, &[0; 64], straps()), [14; 6]);
        assert_eq!(number(set_pins(&mut chain, 1, u32::MAX)), 14);
        assert_eq!(number(set_pins(&mut chain, 2, 1 << 28)), 6);
        assert_eq!(chain, before);
    }
}

#[test]
fn a_record_is_sound_by_its_own_family() {
    let mut chain = both();
    chain[0].ports.global = 16;
    (chain[1].registers.blink, chain[1].command) = (4_000_000, 128);
    assert_eq!(access(&mut chain, 32, &[0; 4], &mut [0; 4]), Ok(()));
    // 7 comes before 14, whichever record it is of.
    let damages: [fn(&mut Device); 9] = [
        |d| d.answer_mark = 2,
        |d| d.ports.stored = 1 << 28,
        |d| d.ports.pins = 1 << 28,
        |d| d.ports.global = 16,
        |d| d.ports.test = 2,
        |d| d.ports.config.s = 2,
        |d| d.ports.transition.mask = 128,
        |d| d.ports.transition.snapshot = 128,
        |d| d.ports.transition.detecting = 2,
    ];
    for damage in damages {
        let mut chain = both();
        chain[0].family = 2;
        damage(&mut chain[1]);
        let before = chain;
        assert_eq!(number(access(&mut chain, 32, &[0; 4], &mut [0; 4])), 7);
        assert_eq!(named(&mut chain, 1), ([7; 3], [7; 7]));
        assert_eq!(ports(&chain, 2), Err(Refusal::Unsound));
        assert_eq!(chain, before);
    }
}
