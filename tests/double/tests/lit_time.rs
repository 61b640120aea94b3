//! Lit time: each clock under its own phase, what counts and what doesn't, early stops and refusals.

use second_double::{lit_time, report, LitTime};

/// The configuration bits I, R, E, B and S.
const I: u16 = 0x40;
const R: u16 = 0x20;
const E: u16 = 0x08;
const B: u16 = 0x04;
const S: u16 = 0x01;

/// One record of a script.
fn entry(kind: u8, body: &[u8]) -> Vec<u8> {
    [&[0x5A, 0xC3, kind, 0, body.len() as u8], body].concat()
}

/// An access with a word for each driver, driver 1's last.
fn send(words: &[u16]) -> Vec<u8> {
    let words: Vec<u8> = words.iter().flat_map(|word| word.to_be_bytes()).collect();
    let clocks = 8 * words.len() as u8;
    entry(2, &[&[0, clocks], &words[..]].concat())
}

/// Accesses of one word each.
fn write(words: &[u16]) -> Vec<u8> {
    words.iter().flat_map(|word| send(&[*word])).collect()
}

fn give(driver: u8, clocks: u32) -> Vec<u8> {
    entry(5, &[&[driver], &clocks.to_be_bytes()[..]].concat())
}

/// All totals of a script that is served.
fn totals(entries: &[Vec<u8>]) -> Vec<u64> {
    let mut room = vec![9; 128];
    let answer = lit_time(&entries.concat(), &mut room);
    assert_eq!(answer.number, 0);
    let after = room.split_off(8 * answer.drivers);
    assert!(after.iter().all(|total| *total == 9));
    room
}

/// The totals of one driver that comes to a blink count in shutdown, takes these words and is then given clocks.
fn alone(count: u32, words: &[u16], clocks: u32) -> Vec<u64> {
    totals(&[
        entry(1, &[1]),
        give(1, count),
        write(words),
        give(1, clocks),
    ])
}

/// The total of cathode 0 alone, where P0 lights one segment and P1 three.
fn blinking(count: u32, rate: u16, clocks: u32) -> u64 {
    let words = [0x0400 | R | E | S | rate, 0x0100, 0x2001, 0x4007];
    let found = alone(count, &words, clocks);
    assert_eq!(found[1..], [0; 7]);
    found[0]
}

/// The total of cathode 0 after one clock.
fn one_clock(words: &[u16]) -> u64 {
    alone(0, words, 1)[0]
}

#[test]
fn each_clock_counts_under_its_own_phase() {
    let p0_first = [0, 1, 4, 7];
    let p1_first = [0, 3, 4, 5];
    let edges = [
        (0, 1_999_999, p0_first),
        (0, 3_999_999, p1_first),
        (B, 999_999, p0_first),
        (B, 1_999_999, p1_first),
        (B, 2_999_999, p0_first),
        (B, 3_999_999, p1_first),
    ];
    for (rate, count, expected) in edges {
        for (clocks, total) in (0..).zip(expected) {
            assert_eq!(blinking(count, rate, clocks), total, "{rate} {count}");
        }
    }
    for inside in [999_999, 2_999_999] {
        let p = if inside < 2_000_000 { 1 } else { 3 };
        assert_eq!(blinking(inside, 0, 3), 3 * p);
    }
}

#[test]
fn a_whole_period_is_half_and_half() {
    for count in [0, 1, 999_999, 1_000_000, 1_999_999, 3_000_001, 3_999_999] {
        assert_eq!(blinking(count, 0, 4_000_000), 8_000_000);
        assert_eq!(blinking(count, B, 4_000_000), 8_000_000);
        assert_eq!(blinking(count, B, 2_000_000), 4_000_000);
    }
    assert_eq!(blinking(0, 0, 2_000_000), 2_000_000);
    assert_eq!(blinking(2_000_000, 0, 2_000_000), 6_000_000);
    let rest = 2_000_000 + 3 * 967_295;
    assert_eq!(blinking(0, 0, u32::MAX), 1073 * 8_000_000 + rest);
    let rest = 4_000_000 + 967_295;
    assert_eq!(blinking(0, B, u32::MAX), 1073 * 8_000_000 + rest);
}

#[test]
fn without_e_the_first_plane_counts() {
    let words = [0x0400 | R | S, 0x0100, 0x2001, 0x4007];
    assert_eq!(alone(1_999_998, &words, 4_000_000)[0], 4_000_000);
}

#[test]
fn a_row_of_records_adds_up() {
    let words = write(&[0x0400 | R | E | S, 0x0100, 0x2001, 0x4007]);
    let script = [
        entry(1, &[1]),
        words,
        give(1, 1_999_999),
        give(1, 0),
        give(1, 2),
        give(1, 2_000_000),
        give(1, u32::MAX),
        give(1, u32::MAX),
    ];
    // In the first cycle half and half. From count 1 on, 2,147 cycles and 1,934,590 clocks of the P0 phase.
    let first = 2_000_001 + 3 * 2_000_000;
    let rest = 2147 * 8_000_000 + 1_934_590;
    assert_eq!(totals(&script)[0], first + rest);
}

#[test]
fn display_test_counts_every_segment_at_7() {
    // Pairs of 7 with both dp; 14 and dp. In shutdown, above the scan limit, blank planes, full intensity.
    for words in [[0x0701, 0x0701], [0x0701, 0x0300], [0x0420, 0x0701]] {
        let words = [&words[..], &[0x020F, 0x0C0F]].concat();
        let found = alone(0, &words, 1_000_000);
        let [fourteen, pair] = [15, 16].map(|segments| 7 * segments * 1_000_000);
        assert_eq!(found[..4], [fourteen; 4]);
        assert_eq!(found[4..], [pair; 4]);
    }
}

#[test]
fn a_dark_cathode_adds_nothing() {
    assert_eq!(alone(0, &[0x020F], u32::MAX), [0; 8]);
    let limited = alone(0, &[0x0400 | S, 0x0302], 5);
    assert_eq!(limited, [60, 60, 60, 0, 0, 0, 0, 0]);
}

#[test]
fn each_digit_of_a_pair_has_its_own_brightness() {
    // 0: dp, f and g; 0a: dp and g; their nibbles 4 and 9, the global one 14.
    let planes = [0x0100, 0x2083, 0x2881];
    let own = [0x0400 | R | I | S, 0x10F4, 0x14F9, 0x020E];
    assert_eq!(one_clock(&[&own[..], &planes].concat()), 3 * 5 + 2 * 10);
    let global = [0x0400 | R | S, 0x10F4, 0x14F9, 0x020E];
    assert_eq!(one_clock(&[&global[..], &planes].concat()), 5 * 15);
    // A single digit of 14 segments has digit 0's alone.
    let single = [&own[..], &planes, &[0x0C01, 0x20FF]].concat();
    assert_eq!(one_clock(&single), 13 * 5);
}

#[test]
fn the_test_table_lights_what_has_a_pin() {
    // Glyph 4141 is a2, f, g2 and m; with dp. Digits of 14 segments have no a2.
    assert_eq!(one_clock(&[0x0400 | R | S, 0x0C01, 0x20C1]), 4);
}

#[test]
fn hex_digits_and_blanks() {
    // At power-up both digits of a pair show 0; 8A is A with dp; 90 is dp alone.
    assert_eq!(alone(0, &[0x0400 | S], 1), [12; 8]);
    assert_eq!(one_clock(&[0x0400 | S, 0x208A, 0x2890]), 7 + 1);
}

#[test]
fn clocks_count_for_their_driver_alone_and_refused_ones_for_none() {
    let awake = [send(&[0x0400 | S; 2]), send(&[0x0200, 0x0202])];
    let script = [
        entry(1, &[2]),
        awake.concat(),
        give(0, 1_000),
        give(1, 10),
        give(2, 7),
        give(3, 1_000),
        give(1, 1),
        give(255, u32::MAX),
    ];
    let expected = [[11 * 12 * 3; 8], [7 * 12; 8]].concat();
    assert_eq!(totals(&script), expected);
}

#[test]
fn other_records_add_nothing() {
    let before = [entry(1, &[1]), write(&[0x0400 | S]), give(1, 3)];
    let others = [
        entry(2, &[0x00, 0x10, 0x00, 0x00]),
        entry(2, &[0x10, 0x00]),
        entry(2, &[0x00, 0x00]),
        entry(3, &[1, 255, 255, 255, 255]),
        entry(4, &[1, 31]),
        entry(4, &[1, 32]),
        entry(6, &[1, 0]),
        entry(6, &[1, 8]),
    ];
    assert_eq!(totals(&[&before[..], &others].concat()), [36; 8]);
}

#[test]
fn what_ran_before_an_8_counts() {
    let start = [entry(1, &[1]), write(&[0x0400 | S]), give(1, 3)];
    let stops = [
        entry(1, &[1]),
        entry(7, &[]),
        entry(5, &[1, 0, 0, 0]),
        entry(5, &[1, 0, 0, 0, 9, 9]),
        vec![0x5A, 0xC4],
        vec![0x5A],
    ];
    for stop in stops {
        let script = [&start[..], &[stop, give(1, 9)]].concat();
        assert_eq!(totals(&script), [36; 8]);
    }
    for cut in 1..10 {
        let last = give(1, 9)[..cut].to_vec();
        assert_eq!(totals(&[&start[..], &[last]].concat()), [36; 8]);
    }
}

#[test]
fn without_a_chain_record_there_are_four_drivers() {
    let awake = send(&[0x0400 | S; 4]);
    let found = totals(&[awake, give(4, 2)]);
    assert_eq!(found, [[0; 24].as_slice(), &[24; 8]].concat());
    for first in [
        vec![],
        vec![0],
        entry(1, &[2, 2]),
        entry(1, &[1])[..5].to_vec(),
    ] {
        assert_eq!(totals(&[first]), [0; 32]);
    }
}

#[test]
fn a_refused_script_changes_no_total() {
    let chain = |n: u8| [entry(1, &[n]), give(1, 1)].concat();
    let long = |n: u8| [chain(n), vec![0; 65_537]].concat();
    let cases = [
        (long(1), 128, 9),
        (long(0), 0, 9),
        (vec![0; 65_537], 0, 9),
        (chain(0), 128, 1),
        (chain(17), 135, 1),
        (chain(255), 0, 1),
        (chain(1), 7, 5),
        (chain(16), 127, 5),
        (chain(2), 0, 5),
        (vec![], 31, 5),
        (entry(1, &[]), 31, 5),
        (vec![0; 65_536], 31, 5),
    ];
    for (script, length, number) in cases {
        let mut room = vec![7; length];
        let answer = lit_time(&script, &mut room);
        assert_eq!(answer, LitTime { number, drivers: 0 });
        assert_eq!(room, vec![7; length]);
    }
}

#[test]
fn the_room_is_written_up_to_the_last_total() {
    for (n, length) in [(1, 8), (1, 9), (3, 24), (3, 31), (16, 128), (16, 200)] {
        let mut room = vec![7; length];
        let answer = lit_time(&entry(1, &[n]), &mut room);
        let drivers = usize::from(n);
        assert_eq!(answer, LitTime { number: 0, drivers });
        let (written, after) = room.split_at(8 * drivers);
        assert!(written.iter().all(|total| *total == 0));
        assert!(after.iter().all(|total| *total == 7));
    }
}

#[test]
fn the_report_has_a_line_for_each_driver_and_cathode() {
    let script = [
        entry(1, &[2]),
        send(&[0x0400 | S, 0x0000]),
        send(&[0x0302, 0x0000]),
        give(2, u32::MAX),
    ];
    let printed = |script: &[u8]| String::from_utf8(report(script)).unwrap();
    let mut lines = String::new();
    for driver in 1..=2 {
        for cathode in 0..8 {
            let lit = driver == 2 && cathode <= 2;
            let total = if lit { 12 * u64::from(u32::MAX) } else { 0 };
            lines += &format!("{driver} {cathode} {total}\n");
        }
    }
    assert_eq!(printed(&script.concat()), lines);
    assert!(lines.contains("2 2 51539607540\n"));
    assert_eq!(printed(&[]).lines().count(), 32);
    assert_eq!(printed(&[0x5A]).lines().last(), Some("4 7 0"));
    assert_eq!(printed(&entry(1, &[17])), "R 1\n");
    assert_eq!(printed(&[0; 65_537]), "R 9\n");
}
