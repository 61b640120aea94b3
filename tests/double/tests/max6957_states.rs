//! The MAX6957's own call: the decision table port by port, and the currents.

use second_double::{call, Call, PortDriver, Record};

fn states(driver: PortDriver) -> Vec<u8> {
    let record = Record {
        port_driver: driver,
        ..Record::port_driver_power_up()
    };
    let mut row = [record.clone()];
    let reply = call(&mut row, &Call::Ports { driver: 1 });
    assert_eq!(reply.number, 0);
    assert_eq!(row, [record]);
    reply.back
}

/// One port with this pair and bit; the others have another pair and the other bit.
fn one_port(port: usize, pair: u8, bit: bool) -> PortDriver {
    let mut driver = PortDriver::power_up();
    for other in 4..32 {
        let pair = if other == port { pair } else { (pair + 1) % 4 };
        driver.pairs[(other - 4) / 4] |= 0xFF << (2 * (other % 4));
        driver.pairs[(other - 4) / 4] &= !((3 - pair) << (2 * (other % 4)));
        if (other == port) == bit {
            driver.stored |= 1 << (other - 4);
        }
    }
    driver
}

const UNDRIVEN: u8 = 0;
const LOW: u8 = 1;
const HIGH: u8 = 2;
const LED_8: u8 = 10;
const LED_12: u8 = 14;

/// A row of the decision table: pair, test, S, bit and whether it is P31 with M=1, 2 being any; the answer, with INT low and high.
type Row = ([u8; 5], [u8; 2]);

/// The first row that fits. A current of its own is 12 sixteenths here.
const ROWS: [Row; 9] = [
    ([0, 1, 2, 2, 2], [LED_8, LED_8]),
    ([2, 2, 0, 2, 2], [UNDRIVEN, UNDRIVEN]),
    ([0, 0, 1, 0, 2], [UNDRIVEN, UNDRIVEN]),
    ([0, 0, 1, 1, 2], [LED_12, LED_12]),
    ([1, 2, 1, 2, 1], [LOW, HIGH]),
    ([1, 2, 1, 0, 0], [LOW, LOW]),
    ([1, 2, 1, 1, 0], [HIGH, HIGH]),
    ([3, 2, 1, 2, 2], [UNDRIVEN, UNDRIVEN]),
    ([4, 2, 1, 2, 2], [UNDRIVEN, UNDRIVEN]),
];

/// The pairs 10 and 11 are 3 and 4 here, as 2 is any.
fn expected(case: [u8; 5], interrupt: u8) -> u8 {
    let fits = |row: &&Row| row.0.iter().zip(case).all(|(r, c)| *r == 2 || *r == c);
    let row = ROWS.iter().find(fits).expect("every case has a row");
    row.1[usize::from(interrupt)]
}

/// The port's state under all of the controls is the table's.
fn try_port(port: usize, pair: u8, bit: u8) {
    for controls in 0..32 {
        let [test, s, m, interrupt, i] = [1, 2, 4, 8, 16].map(|k| u8::from(controls & k != 0));
        let mut driver = one_port(port, pair, bit == 1);
        (driver.test, driver.s, driver.m, driver.i) = (test, s, m, i);
        driver.interrupt = interrupt;
        (driver.global, driver.currents) = (11, [0xBB; 14]);
        let is_int = u8::from(port == 31 && m == 1);
        let row_pair = if pair > 1 { pair + 1 } else { pair };
        let case = [row_pair, test, s, bit, is_int];
        assert_eq!(states(driver)[port - 4], expected(case, interrupt));
    }
}

#[test]
fn the_decision_table_at_every_port() {
    for port in 4..32 {
        for pair in 0..4 {
            try_port(port, pair, 0);
            try_port(port, pair, 1);
        }
    }
}

/// Awake with every port an LED driver that is on.
fn all_lit() -> PortDriver {
    PortDriver {
        pairs: [0; 7],
        stored: 0x0FFF_FFFF,
        s: 1,
        ..PortDriver::power_up()
    }
}

#[test]
fn the_global_current_is_a_sixteenth_more_than_its_code() {
    for v in 0..16 {
        let driver = PortDriver {
            global: v,
            currents: [0x55; 14],
            ..all_lit()
        };
        assert_eq!(states(driver), [2 + v + 1; 28]);
    }
}

#[test]
fn a_ports_own_current_is_in_its_own_nibble() {
    // Tables 10 to 12: P4 in D3 to D0 of 0x12, P5 in D7 to D4, and so on to P31 in D7 to D4 of 0x1F.
    for port in 4..32 {
        for v in 0..16 {
            let mut driver = PortDriver {
                i: 1,
                global: 5,
                ..all_lit()
            };
            let shift = if port % 2 == 1 { 16 } else { 1 };
            driver.currents[(port - 4) / 2] = v * shift;
            let mut expected = [3; 28];
            expected[port - 4] = 3 + v;
            assert_eq!(states(driver), expected);
        }
    }
}

#[test]
fn display_test_gives_8_sixteenths_whatever_the_current() {
    for v in [0, 7, 15] {
        for (i, s) in [(0, 0), (0, 1), (1, 0), (1, 1)] {
            let driver = PortDriver {
                test: 1,
                i,
                s,
                global: v,
                currents: [v * 17; 14],
                stored: 0x0555_5555,
                ..all_lit()
            };
            assert_eq!(states(driver), [LED_8; 28]);
        }
    }
}

#[test]
fn pin_levels_show_in_no_state() {
    for pins in [0, 0x0FFF_FFFF] {
        let driver = PortDriver {
            pins,
            pairs: [0xE4; 7],
            ..all_lit()
        };
        let expected = [3, HIGH, UNDRIVEN, UNDRIVEN].repeat(7);
        assert_eq!(states(driver), expected);
    }
}
