//! Transition detection of 004: when the snapshot is taken, what is an event, what clears it.

use second_double::{access, call, Call, PortDriver, Record};

/// Gives a record steps as text: four hex digits a word, p and hex digits pin levels, z an access of no clocks.
fn give(row: &mut [Record], text: &str) {
    for step in text.split_whitespace() {
        let number = if step == "z" {
            access(row, 0, &[], &mut [])
        } else if let Some(levels) = step.strip_prefix('p') {
            let levels = u32::from_str_radix(levels, 16).unwrap();
            call(row, &Call::Pins { driver: 1, levels }).number
        } else {
            let word = u16::from_str_radix(step, 16).unwrap();
            access(row, 16, &word.to_be_bytes(), &mut [0; 2])
        };
        assert_eq!(number, 0, "{step}");
    }
}

/// The MAX6957 after these steps from power-up.
fn after(text: &str) -> PortDriver {
    let mut row = [Record::port_driver_power_up()];
    give(&mut row, text);
    assert!(row[0].sound());
    let interrupt = call(&mut row, &Call::Interrupt { driver: 1 });
    assert_eq!(interrupt.back, [row[0].port_driver.interrupt]);
    row[0].port_driver
}

/// INT and whether detection is enabled.
fn latch(text: &str) -> [u8; 2] {
    let driver = after(text);
    [driver.interrupt, driver.detecting]
}

const QUIET: [u8; 2] = [0, 1];
const RAISED: [u8; 2] = [1, 0];
const OFF: [u8; 2] = [0, 0];

/// P31 in the own call: 0 undriven, 1 low, 2 high.
fn p31(text: &str) -> u8 {
    let mut row = [Record::port_driver_power_up()];
    give(&mut row, text);
    call(&mut row, &Call::Ports { driver: 1 }).back[27]
}

/// The data of the last word, a read.
fn data(text: &str) -> u8 {
    let mut row = [Record::port_driver_power_up()];
    give(&mut row, text);
    assert_eq!(row[0].answer_mark, 1);
    row[0].shift as u8
}

#[test]
fn c1_every_write_with_m_set_takes_a_snapshot() {
    assert_eq!(after("0481").snapshot, 0);
    assert_eq!(after("p2A00000 0481").snapshot, 0x2A);
    assert_eq!(after("0481 p2A00000 0481").snapshot, 0x2A);
    assert_eq!(after("0481 p2A00000 z").snapshot, 0x2A);
    assert_eq!(after("p2A00000 0480").snapshot, 0x2A);
    assert_eq!(after("p2A00000 0401").snapshot, 0);
    assert_eq!(after("0481 p2A00000 8481").snapshot, 0);
    // Too few clocks: the word is made of what was received before.
    let mut row = [Record::port_driver_power_up()];
    give(&mut row, "p100000 4810");
    assert_eq!(access(&mut row, 12, &[0x04, 0x81], &mut [0; 2]), 0);
    assert_eq!(row[0].shift, 0x0048);
    give(&mut row, "0048");
    assert_eq!(access(&mut row, 4, &[0x10], &mut [0; 1]), 0);
    let driver = &row[0].port_driver;
    assert_eq!((row[0].shift, driver.snapshot), (0x0481, 1));
}

#[test]
fn c2_the_snapshot_is_of_all_seven_as_then_read() {
    // P24 to P30 pins 1, masked or not; P23 and P31 are no part of it.
    assert_eq!(after("pFFFFFFF 0481").snapshot, 0x7F);
    assert_eq!(after("p80FFFFF 0481").snapshot, 0);
    // Outputs give their stored bits, as soon as this very write ends shutdown.
    let outputs = "067F 0E55 0F15 583F";
    assert_eq!(after(&format!("{outputs} p4000000 0480")).snapshot, 0x40);
    assert_eq!(after(&format!("{outputs} p4000000 0481")).snapshot, 0x3F);
    assert_eq!(latch(&format!("{outputs} p4000000 0481")), QUIET);
    // LED drivers give theirs too.
    assert_eq!(after("0E00 0F00 587F 0481").snapshot, 0x7F);
}

#[test]
fn c3_detection_ends_by_a_clear_m_or_an_event() {
    assert_eq!(latch("0601"), OFF);
    assert_eq!(latch("0601 0481"), QUIET);
    assert_eq!(latch("0601 0480"), QUIET);
    assert_eq!(latch("0601 0481 0401"), OFF);
    assert_eq!(latch("0601 0481 0401 p100000"), OFF);
    assert_eq!(after("p2A00000 0481 0401").snapshot, 0x2A);
    assert_eq!(latch("0601 0481 p100000"), RAISED);
    for text in [
        "0481 8400",
        "0601 0481 p100000 8400",
        "0601 0481 p100000 8600 8400",
    ] {
        assert_eq!(data(text), 0x81);
    }
    assert_eq!(data("0601 04C0 p100000 8600 8400"), 0xC0);
}

#[test]
fn c4_each_watched_port_by_its_own_mask_bit() {
    for port in 0..28 {
        for mask in [
            0x00, 0x01, 0x02, 0x04, 0x08, 0x10, 0x20, 0x40, 0x55, 0x7F, 0xFF,
        ] {
            let seen = (20..27).contains(&port) && mask >> (port - 20) & 1 == 1;
            let change = format!("06{mask:02X} 0481 p{:X}", 1 << port);
            assert_eq!(latch(&change), if seen { RAISED } else { QUIET });
            let fall = format!(
                "pFFFFFFF 06{mask:02X} 0481 p{:X}",
                0x0FFF_FFFF - (1 << port)
            );
            assert_eq!(latch(&fall), if seen { RAISED } else { QUIET });
        }
    }
}

#[test]
fn c4_changes_by_words() {
    // A watched output, GPIO or LED, single or by eight; one that isn't watched.
    for pairs in ["0EA9", "0EA8"] {
        for write in ["3801", "5801", "5180", "5440"] {
            let raised = if write == "5440" { QUIET } else { RAISED };
            assert_eq!(latch(&format!("0601 {pairs} 0481 {write}")), raised);
        }
        assert_eq!(latch(&format!("0602 {pairs} 0481 3801")), QUIET);
        assert_eq!(latch(&format!("0601 {pairs} 0481 3800")), QUIET);
    }
    // The stored bit of an input, and of an output in shutdown.
    assert_eq!(latch("0601 0481 3801"), QUIET);
    assert_eq!(latch("0601 0EA9 0480 3801"), QUIET);
    // A port configuration write that changes what is read, or doesn't.
    assert_eq!(latch("0601 3801 0481 0EA9"), RAISED);
    assert_eq!(latch("0601 3801 0481 0EAB"), QUIET);
    assert_eq!(latch("0601 0481 0EA9"), QUIET);
    // A mask write that begins to watch a port that differs.
    assert_eq!(latch("0602 0481 p100000"), QUIET);
    assert_eq!(latch("0602 0481 p100000 0603"), RAISED);
    assert_eq!(latch("0602 0481 p100000 p0 0603"), QUIET);
    // A configuration write takes its own snapshot, so no change of S is an event.
    assert_eq!(latch("067F 0E55 583F 0480 0481 0480"), QUIET);
}

#[test]
fn c4_no_event_while_off_or_by_a_level_given_again() {
    assert_eq!(latch("0601 p100000 p0"), OFF);
    assert_eq!(latch("0601 p100000 0481 p100000 p100000"), QUIET);
    assert_eq!(latch("0601 0481 p80FFFFF pFEFFFFF"), QUIET);
    assert_eq!(latch("0601 0481 p80FFFFF pFFFFFFF"), RAISED);
}

#[test]
fn c4_a_lent_record_that_differs_is_raised_by_its_next_step() {
    for step in ["0000", "8400", "p1", "z", "0601", "8600"] {
        let mut row = [Record::port_driver_power_up()];
        row[0].port_driver.snapshot = 1;
        row[0].port_driver.mask = 1;
        row[0].port_driver.detecting = 1;
        give(&mut row, step);
        let driver = row[0].port_driver;
        assert_eq!([driver.interrupt, driver.detecting], RAISED, "{step}");
    }
}

#[test]
fn c5_int_is_latched() {
    assert_eq!(latch("0601 0481 p100000 p0"), RAISED);
    assert_eq!(latch("0601 0481 p100000 p0 p100000 0000 8400"), RAISED);
    // A pulse on two ports, one after the other, is one event.
    assert_eq!(latch("0603 0481 p100000 p300000 p0"), RAISED);
}

#[test]
fn c6_p31_is_int_while_m_is_set() {
    // 01: INT whatever its stored bit; the bit stands unaltered.
    for bit in ["3F00", "3F01"] {
        let start = format!("0601 0F6A {bit}");
        assert_eq!(p31(&format!("{start} 0481")), 1);
        assert_eq!(p31(&format!("{start} 0481 p100000")), 2);
        assert_eq!(p31(&format!("{start} 0481 p100000 8600")), 1);
        assert_eq!(p31(&format!("{start} 0480 p100000")), 0);
        let own = if bit == "3F01" { 2 } else { 1 };
        assert_eq!(p31(&format!("{start} 0401")), own);
        assert_eq!(p31(&format!("{start} 0481 p100000 0401")), own);
    }
    // 00, 10, 11: an LED port or an input, and INT is latched all the same.
    for (pairs, states) in [("0F2A", [0, 3]), ("0FAA", [0, 0]), ("0FEA", [0, 0])] {
        for (bit, state) in ["3F00", "3F01"].iter().zip(states) {
            let text = format!("0601 {pairs} {bit} 0481 p100000");
            assert_eq!((p31(&text), latch(&text)), (state, RAISED));
        }
    }
}

#[test]
fn c7_a_read_of_p31_gives_its_stored_bit() {
    for (bit, read) in [("3F00", 0), ("3F01", 1)] {
        for step in ["", "p100000", "p8100000", "p100000 8600"] {
            let text = format!("0601 0F6A {bit} 0481 {step}");
            assert_eq!(data(&format!("{text} BF00")), read);
            assert_eq!(data(&format!("{text} DF00")), read);
        }
    }
    assert_eq!(data("0601 0481 p8100000 BF00"), 1);
}

#[test]
fn c8_what_clears_int() {
    let raised = "0601 0481 p100000";
    for clears in ["8600", "0600", "0601", "067F"] {
        assert_eq!(latch(&format!("{raised} {clears}")), OFF, "{clears}");
    }
    for arms in ["0481", "0480", "04C1"] {
        assert_eq!(latch(&format!("{raised} {arms}")), QUIET, "{arms}");
    }
    assert_eq!(latch(&format!("{raised} 0401")), RAISED);
    assert_eq!(latch(&format!("{raised} 0401 0481")), QUIET);
    // No other word and no pin level.
    for high in 0..=255 {
        if ![0x04, 0x06, 0x86].contains(&high) {
            assert_eq!(latch(&format!("{raised} {high:02X}00")), RAISED);
        }
    }
    assert_eq!(latch(&format!("{raised} p0")), RAISED);
}

#[test]
fn c9_the_mask_as_read() {
    assert_eq!(data("06FF 8600"), 0x7F);
    assert_eq!(data("0680 86FF"), 0x00);
    assert_eq!(data("0655 0481 p100000 8600"), 0x55);
    assert_eq!(data("0655 0481 p100000 8600 8600"), 0x55);
    // Taken again at 0 clocks, a read of the mask clears a later event again.
    let mut row = [Record::port_driver_power_up()];
    give(&mut row, "0601 0481 8600 p100000");
    assert_eq!(row[0].port_driver.interrupt, 1);
    give(&mut row, "z");
    assert_eq!(row[0].port_driver.interrupt, 0);
}

#[test]
fn c10_one_shot() {
    let cleared = "0601 0481 p100000 8600";
    assert_eq!(latch(cleared), OFF);
    for later in ["p0", "p0 p100000", "3801", "067F p7F00000", "0401 p0"] {
        assert_eq!(latch(&format!("{cleared} {later}")), OFF, "{later}");
    }
    assert_eq!(latch(&format!("{cleared} 0481 p100000")), QUIET);
    assert_eq!(latch(&format!("{cleared} 0481 p0")), RAISED);
    // The mask set or read while armed disarms nothing.
    for access in ["8600", "0601", "0603", "8600 8600"] {
        assert_eq!(latch(&format!("0601 0481 {access}")), QUIET);
        assert_eq!(latch(&format!("0601 0481 {access} p100000")), RAISED);
    }
    // The write that clears compares nothing: detection is off.
    assert_eq!(latch("0601 0481 p300000 0602"), OFF);
    // A lent record with both 1.
    for access in ["8600", "0601"] {
        let mut row = [Record::port_driver_power_up()];
        row[0].port_driver.interrupt = 1;
        row[0].port_driver.detecting = 1;
        row[0].port_driver.snapshot = 0x7F;
        give(&mut row, access);
        let driver = row[0].port_driver;
        assert_eq!([driver.interrupt, driver.detecting], OFF);
    }
}

#[test]
fn c11_detection_works_in_shutdown() {
    let text = "0601 0F6A 0E55 0480 p100000";
    assert_eq!(latch(text), RAISED);
    assert_eq!(p31(text), 0);
}

#[test]
fn c12_reads_of_ports_neither_clear_nor_raise() {
    for high in 0x80..=255_u8 {
        if high != 0x86 {
            let read = format!("{high:02X}00");
            assert_eq!(latch(&format!("067F 0481 {read}")), QUIET);
            assert_eq!(latch(&format!("067F 0481 p100000 {read}")), RAISED);
        }
    }
}

#[test]
fn display_test_is_no_event_and_changes_no_read() {
    for start in ["067F 0E00 0F00 0480", "067F 0E00 587F 0481"] {
        assert_eq!(latch(&format!("{start} 0701")), QUIET);
        assert_eq!(
            data(&format!("{start} D800")),
            data(&format!("{start} 0701 D800"))
        );
    }
}
