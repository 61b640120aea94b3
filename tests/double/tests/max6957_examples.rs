//! The MAX6957's eleven worked examples.

use second_double::{access, call, plan, Call, Record};

/// One word in an access of its own on a row of one; the word answered.
fn word(row: &mut [Record], word: u16) -> u16 {
    let mut answer = [0; 2];
    assert_eq!(access(row, 16, &word.to_be_bytes(), &mut answer), 0);
    u16::from_be_bytes(answer)
}

/// Words in turn; the words answered.
fn words(row: &mut [Record], sent: &[u16]) -> Vec<u16> {
    sent.iter().map(|sent| word(row, *sent)).collect()
}

fn power_up() -> [Record; 1] {
    [Record::port_driver_power_up()]
}

fn pins(row: &mut [Record], levels: u32) {
    let pins = Call::Pins { driver: 1, levels };
    assert_eq!(call(row, &pins).number, 0);
}

/// The own call's answer as text: the driven ports alone.
fn driven(row: &mut [Record]) -> String {
    let reply = call(row, &Call::Ports { driver: 1 });
    assert_eq!((reply.number, reply.back.len()), (0, 28));
    let mut text = Vec::new();
    for (k, state) in reply.back.iter().enumerate() {
        match state {
            0 => {}
            1 => text.push(format!("P{} low", k + 4)),
            2 => text.push(format!("P{} high", k + 4)),
            _ => text.push(format!("P{} LED {}", k + 4, state - 2)),
        }
    }
    text.join(", ")
}

#[test]
fn example_1_power_up() {
    let mut row = power_up();
    let answers = words(&mut row, &[0x8900, 0x8400, 0x0000]);
    assert_eq!(answers, [0x0000, 0x89AA, 0x8400]);
    assert_eq!(driven(&mut row), "");
}

#[test]
fn example_2_low_end() {
    let mut row = power_up();
    let sent = [
        0x0401, 0x0955, 0x0A55, 0x40F0, 0xC400, 0x40FF, 0xC400, 0xC000, 0x0000,
    ];
    let answers = [
        0x0000, 0x0401, 0x0955, 0x0A55, 0x40F0, 0xC400, 0x40FF, 0xC40F, 0xC00F,
    ];
    assert_eq!(words(&mut row, &sent), answers);
    let answers = words(&mut row, &[0x43FF, 0xC400, 0x0000]);
    assert_eq!(answers, [0x0000, 0x43FF, 0xC47F]);
}

#[test]
fn example_3_upper_end() {
    let mut row = power_up();
    let sent = [0x0401, 0x0F55, 0x5CFF, 0xDC00, 0xD800, 0xC400, 0x0000];
    let answers = [0x0000, 0x0401, 0x0F55, 0x5CFF, 0xDC0F, 0xD8F0, 0xC400];
    assert_eq!(words(&mut row, &sent), answers);
    assert_eq!(driven(&mut row), "P28 high, P29 high, P30 high, P31 high");
}

#[test]
fn example_4_currents() {
    let mut row = power_up();
    words(&mut row, &[0x0401, 0x0900, 0x02FF, 0x4003]);
    assert_eq!(driven(&mut row), "P4 LED 16, P5 LED 16");
    let mut row = power_up();
    words(&mut row, &[0x0441, 0x0900, 0x02FF, 0x12E3, 0x4003]);
    assert_eq!(driven(&mut row), "P4 LED 4, P5 LED 15");
}

#[test]
fn example_5_display_test() {
    let mut row = power_up();
    words(&mut row, &[0x0954, 0x0701, 0x2501]);
    assert_eq!(driven(&mut row), "P4 LED 8");
    word(&mut row, 0x0401);
    assert_eq!(driven(&mut row), "P4 LED 8, P5 high, P6 low, P7 low");
    word(&mut row, 0x0700);
    assert_eq!(driven(&mut row), "P5 high, P6 low, P7 low");
}

#[test]
fn example_6_shutdown() {
    let mut row = power_up();
    words(&mut row, &[0x0955, 0x400F, 0xC000]);
    pins(&mut row, 5);
    assert_eq!(word(&mut row, 0xC000), 0xC000);
    assert_eq!(driven(&mut row), "");
    assert_eq!(word(&mut row, 0x0401), 0xC005);
    assert_eq!(driven(&mut row), "P4 high, P5 high, P6 high, P7 high");
    word(&mut row, 0xC000);
    assert_eq!(word(&mut row, 0x0000), 0xC00F);
}

#[test]
fn example_7_an_event() {
    let mut row = power_up();
    words(&mut row, &[0x0601, 0x0F6A, 0x0481]);
    assert_eq!(driven(&mut row), "P31 low");
    pins(&mut row, 0x0010_0000);
    assert_eq!(driven(&mut row), "P31 high");
    pins(&mut row, 0);
    assert_eq!(driven(&mut row), "P31 high");
    word(&mut row, 0x8600);
    assert_eq!(driven(&mut row), "P31 low");
    assert_eq!(word(&mut row, 0x0000), 0x8601);
    pins(&mut row, 0x0010_0000);
    assert_eq!(driven(&mut row), "P31 low");
    word(&mut row, 0x8400);
    assert_eq!(word(&mut row, 0x0481), 0x8481);
    pins(&mut row, 0);
    assert_eq!(driven(&mut row), "P31 high");
}

#[test]
fn example_8_no_clocks_take_a_snapshot() {
    let mut row = power_up();
    words(&mut row, &[0x0601, 0x0F6A, 0x0481]);
    pins(&mut row, 0x0010_0000);
    assert_eq!(driven(&mut row), "P31 high");
    assert_eq!(access(&mut row, 0, &[], &mut []), 0);
    assert_eq!(driven(&mut row), "P31 low");
    pins(&mut row, 0x0010_0000);
    assert_eq!(driven(&mut row), "P31 low");
    pins(&mut row, 0);
    assert_eq!(driven(&mut row), "P31 high");
}

#[test]
fn example_9_a_watched_output() {
    let mut row = power_up();
    let sent = [0x0601, 0x0F6A, 0x0EA9, 0x3801, 0x3F01, 0x0481];
    words(&mut row, &sent);
    assert_eq!(driven(&mut row), "P24 high, P31 low");
    word(&mut row, 0x3800);
    assert_eq!(driven(&mut row), "P24 low, P31 high");
    word(&mut row, 0x8600);
    assert_eq!(driven(&mut row), "P24 low, P31 low");
    word(&mut row, 0x0401);
    assert_eq!(driven(&mut row), "P24 low, P31 high");
}

/// Driver 1 a MAX6954, driver 2 a MAX6957.
fn mixed() -> [Record; 2] {
    [Record::power_up(), Record::port_driver_power_up()]
}

#[test]
fn example_10_a_mixed_row() {
    let mut row = mixed();
    let accesses: [(u32, u32); 5] = [
        (0x0203_0205, 0x0000_0000),
        (0x8200_8200, 0x0203_0205),
        (0x2007_2007, 0x8203_8205),
        (0xA000_A000, 0x2007_2007),
        (0x0000_0000, 0xA000_A007),
    ];
    for (sent, answered) in accesses {
        let mut answer = [0; 4];
        assert_eq!(access(&mut row, 32, &sent.to_be_bytes(), &mut answer), 0);
        assert_eq!(u32::from_be_bytes(answer), answered);
    }
}

/// The number of a call on the row, which a refusal leaves as it was.
fn number(row: &[Record], asked: Call) -> u8 {
    let mut copy = row.to_vec();
    let reply = call(&mut copy, &asked);
    assert!(reply.number == 0 || copy == row);
    reply.number
}

fn levels(driver: usize, levels: u32) -> Call {
    Call::Pins { driver, levels }
}

#[test]
fn example_11_numbers() {
    let row = mixed();
    let digit = |driver, digit| Call::Brightness { driver, digit };
    let own = |driver| Call::Ports { driver };
    assert_eq!(number(&row, levels(1, 32)), 6);
    assert_eq!(number(&row, levels(2, 0x0FFF_FFFF)), 0);
    assert_eq!(number(&row, levels(2, 0x1000_0000)), 6);
    assert_eq!(number(&row, digit(2, 15)), 14);
    assert_eq!(number(&row, digit(2, 16)), 6);
    assert_eq!([1, 2, 3].map(|k| number(&row, own(k))), [14, 0, 2]);
    assert_eq!(plan(&row, &[0; 63], &mut []).number, 14);
}

#[test]
fn example_11_numbers_with_an_unknown_family() {
    let unknown = Record {
        family: 2,
        ..Record::power_up()
    };
    let mut row = [unknown.clone(), Record::port_driver_power_up()];
    assert_eq!(access(&mut row, 32, &[0; 4], &mut [0; 4]), 14);
    assert_eq!(number(&row, levels(1, 0xFFFF_FFFF)), 14);
    assert_eq!(number(&row, levels(2, 0x1000_0000)), 6);
    let unsound = Record {
        limit: 8,
        ..Record::power_up()
    };
    let mut row = [unknown, unsound, Record::port_driver_power_up()];
    assert_eq!(access(&mut row, 48, &[0; 6], &mut [0; 6]), 7);
}
