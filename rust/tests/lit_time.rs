//! The lit time of whole scripts through the safe call: what a clock adds, blinking, refused records, early stops, and every
//! refusal.
use ratchetelm::{
    access, add_clocks, brightness, lit_time, segments, Device, Pin, Refusal, CATHODES, MOST_TOTALS,
};

/// What is in the room before a call.
const STAYS: u64 = 0xEEEE_EEEE_EEEE_EEEE;

fn record(kind: u8, body: &[u8]) -> Vec<u8> {
    let [high, low] = (body.len() as u16).to_be_bytes();
    [&[0x5A, 0xC3, kind, high, low], body].concat()
}

fn chain(n: u8) -> Vec<u8> {
    record(1, &[n])
}

/// The bits of an access: a word to each driver, driver 1's first.
fn bits(words: &[u16]) -> Vec<u8> {
    words
        .iter()
        .rev()
        .flat_map(|word| word.to_be_bytes())
        .collect()
}

fn send(words: &[u16]) -> Vec<u8> {
    let clocks = 16 * words.len() as u16;
    record(2, &[clocks.to_be_bytes().to_vec(), bits(words)].concat())
}

fn clocks(driver: u8, count: u32) -> Vec<u8> {
    record(5, &[&[driver][..], &count.to_be_bytes()].concat())
}

/// The totals of each driver; those after them stay.
fn totals(records: &[Vec<u8>]) -> Vec<[u64; CATHODES]> {
    let mut room = [STAYS; MOST_TOTALS];
    let drivers = lit_time(&records.concat(), &mut room).unwrap();
    let (given, rest) = room.split_at(CATHODES * drivers);
    assert!(rest.iter().all(|&total| total == STAYS), "room after them");
    let each = given.chunks_exact(CATHODES);
    each.map(|eight| eight.try_into().unwrap()).collect()
}

/// The totals of a chain of one that takes these words in turn, and then so many clocks.
fn after(words: &[u16], count: u32) -> [u64; CATHODES] {
    let mut records = vec![chain(1)];
    records.extend(words.iter().map(|&word| send(&[word])));
    records.push(clocks(1, count));
    totals(&records)[0]
}

/// So much for cathode 0, and for the others.
fn first(total: u64, others: u64) -> [u64; CATHODES] {
    let mut all = [others; CATHODES];
    all[0] = total;
    all
}

#[test]
fn a_clock_adds_lit_segments_times_sixteenths() {
    // At power-up each cathode has a pair in the hex font that shows 0 twice: 12 segments.
    let rows: [(&[u16], [u64; CATHODES]); 14] = [
        (&[], [0; CATHODES]),
        (&[0x0401], [12; CATHODES]),
        (&[0x0401, 0x0302], [12, 12, 12, 0, 0, 0, 0, 0]),
        (&[0x0401, 0x0209], [120; CATHODES]),
        (&[0x0401, 0x020F], [180; CATHODES]),
        // Own brightness: digit 0 has 2, digit 1 4, digit 0a 1, digit 1a 9 sixteenths.
        (&[0x0441, 0x1031, 0x1480], [18, 78, 12, 12, 12, 12, 12, 12]),
        // 8 and its point, and 1; blank, and blank with its point.
        (&[0x0401, 0x2088, 0x2801], first(10, 12)),
        (&[0x0401, 0x2010, 0x2890], first(1, 12)),
        // A bit for each segment: digits 1 to 7 hold 20.
        (&[0x0401, 0x0100, 0x20FF, 0x2803], first(10, 1)),
        // 14 segments: a word of the test table and the point. Bits 14 and 10 light none, nor does digit 0a.
        (&[0x0401, 0x0C01, 0x20B3, 0x28FF], first(9, 12)),
        (&[0x0401, 0x0C01, 0x2044], first(2, 12)),
        (&[0x0441, 0x0C01, 0x207F, 0x1004, 0x1407], first(60, 12)),
        // Display test, also in shutdown and above the scan limit: every segment at 7 sixteenths.
        (&[0x0701, 0x0300, 0x020F], [112; CATHODES]),
        (&[0x0701, 0x0C01], first(105, 112)),
    ];
    for (words, expected) in rows {
        assert_eq!(after(words, 1), expected, "{words:04X?}");
        let thousand = expected.map(|total| 1000 * total);
        assert_eq!(after(words, 1000), thousand, "{words:04X?}");
    }
}

/// Cathode 0 alone, of which 8 in P0 lights seven segments and 1 in P1 two; then this configuration.
fn blinking(configuration: u16) -> Vec<Vec<u8>> {
    let words = [0x0300, 0x6810, 0x2008, 0x4001, configuration];
    let sent = words.iter().map(|&word| send(&[word]));
    [chain(1)].into_iter().chain(sent).collect()
}

/// Its total after these counts of clocks, a record each.
fn blinked(configuration: u16, counts: &[u32]) -> u64 {
    let mut records = blinking(configuration);
    records.extend(counts.iter().map(|&count| clocks(1, count)));
    totals(&records)[0][0]
}

#[test]
fn each_clock_counts_under_its_own_phase() {
    // The configuration, counts of clocks, and how many of them are in the P0 phase and in the P1 phase.
    let rows: [(u16, &[u32], u64, u64); 10] = [
        (0x0401, &[3_000_000], 3_000_000, 0),
        (0x0409, &[1_999_999], 1_999_999, 0),
        (0x0409, &[1_999_999, 1], 2_000_000, 0),
        (0x0409, &[1_999_999, 1, 1], 2_000_000, 1),
        (0x0409, &[3_999_999, 2], 2_000_001, 2_000_000),
        (0x0409, &[3_000_000, 2_000_000], 3_000_000, 2_000_000),
        (0x040D, &[1_000_000, 1], 1_000_000, 1),
        (0x040D, &[1_500_001], 1_000_000, 500_001),
        (0x0409, &[u32::MAX], 2_148_000_000, 2_146_967_295),
        (0x040D, &[u32::MAX], 2_147_967_295, 2_147_000_000),
    ];
    for (configuration, counts, p0, p1) in rows {
        let given = blinked(configuration, counts);
        assert_eq!(given, 7 * p0 + 2 * p1, "{configuration:04X} {counts:?}");
    }
}

#[test]
fn the_count_goes_on_in_shutdown_and_begins_anew_with_t() {
    let mut records = blinking(0x0408);
    records.extend([clocks(1, 2_000_000), send(&[0x0409]), clocks(1, 10)]);
    assert_eq!(totals(&records)[0][0], 2 * 10);
    records.extend([send(&[0x0419]), clocks(1, 10)]);
    assert_eq!(totals(&records)[0][0], 2 * 10 + 7 * 10);
}

#[test]
fn each_driver_has_its_own_clocks() {
    let records = [
        chain(3),
        send(&[0x0401, 0x0000, 0x0401]),
        clocks(3, 5),
        clocks(2, 100),
        send(&[0x0000, 0x0000, 0x0201]),
        clocks(3, 1),
        clocks(1, 2),
    ];
    let expected = [[24; CATHODES], [0; CATHODES], [84; CATHODES]];
    assert_eq!(totals(&records), expected);
}

#[test]
fn a_refused_record_adds_nothing() {
    let lit = [chain(1), send(&[0x0401]), clocks(1, 3)];
    let refused = [
        clocks(0, 1000),
        clocks(2, 1000),
        record(2, &[0x10, 0x01]),       // 4,097 clocks
        record(2, &[0x00, 0x10, 0x04]), // bytes for half of them
        record(3, &[2, 0, 0, 0, 0]),
        record(4, &[1, 32]),
        record(6, &[1, 8]),
    ];
    let records = [&lit[..], &refused[..], &[clocks(1, 4)][..]].concat();
    assert_eq!(totals(&records), [[84; CATHODES]]);
}

#[test]
fn a_run_that_stops_early_counts_what_ran() {
    let lit = [chain(2), send(&[0x0401, 0x0401]), clocks(2, 10)];
    let stops = [
        vec![0x5A],
        vec![0x5A, 0xC2, 5, 0, 5, 2, 0, 0, 0, 1],
        record(0, &[]),
        record(7, &[2, 0]),
        record(5, &[2, 0, 0, 1]),
        record(2, &[16]),
        chain(2),
        chain(0),
    ];
    let expected = [[0; CATHODES], [120; CATHODES]];
    for stop in stops {
        let records = [&lit[..], &[stop.clone(), clocks(2, 1000)]].concat();
        assert_eq!(totals(&records), expected, "{stop:02X?}");
    }
    // A record that is cut.
    for length in 0..10 {
        let cut = clocks(2, 1000)[..length].to_vec();
        assert_eq!(totals(&[&lit[..], &[cut]].concat()), expected);
    }
}

#[test]
fn a_script_without_a_chain_record_is_of_four() {
    assert_eq!(totals(&[]), [[0; CATHODES]; 4]);
    assert_eq!(totals(&[record(1, &[2, 2])]), [[0; CATHODES]; 4]);
    let records = [send(&[0x0401; 4]), clocks(4, 1), clocks(5, 1)];
    let mut expected = [[0; CATHODES]; 4];
    expected[3] = [12; CATHODES];
    assert_eq!(totals(&records), expected);
}

#[test]
fn each_refusal_comes_in_its_order_and_changes_nothing() {
    let lit = |n: u8| [chain(n), send(&[0x0401; 16]), clocks(1, 1)].concat();
    let long = |n: u8, length: usize| {
        let mut script = lit(n);
        script.resize(length, 0);
        script
    };
    // A script, its room; the refusal.
    let rows = [
        (long(17, 65_537), 0, Refusal::ScriptTooLong),
        (long(1, 65_537), MOST_TOTALS, Refusal::ScriptTooLong),
        (long(17, 65_536), 0, Refusal::ChainLength),
        (lit(0), MOST_TOTALS, Refusal::ChainLength),
        (lit(17), MOST_TOTALS, Refusal::ChainLength),
        (lit(255), 7, Refusal::ChainLength),
        (lit(1), 0, Refusal::AnswerTooShort),
        (lit(1), 7, Refusal::AnswerTooShort),
        (lit(16), 127, Refusal::AnswerTooShort),
        (vec![], 31, Refusal::AnswerTooShort),
    ];
    for (script, room, refusal) in rows {
        let mut totals = [STAYS; MOST_TOTALS];
        assert_eq!(lit_time(&script, &mut totals[..room]), Err(refusal));
        assert_eq!(totals, [STAYS; MOST_TOTALS]);
    }
    for (script, room) in [
        (lit(1), 8),
        (lit(16), 128),
        (vec![], 32),
        (long(1, 65_536), 8),
    ] {
        let mut totals = [STAYS; MOST_TOTALS + 1];
        assert_eq!(lit_time(&script, &mut totals[..room]), Ok(room / 8));
        assert_eq!(totals[room], STAYS);
    }
}

/// What a clock adds to a cathode: its lit pins, each with its digit's sixteenths. Of the pins that carry a pair's segments the
/// first nine are digit d's, the others digit da's.
fn added(chain: &[Device], driver: usize, cathode: usize) -> u64 {
    let table: [u16; 128] = std::array::from_fn(|k| 257 * k as u16);
    let shown = segments(chain, driver, cathode, &table, &table).unwrap();
    let pair = chain[driver - 1].registers.controls.types >> cathode & 1 == 0;
    let sixteenths = |digit| u64::from(brightness(chain, driver, digit).unwrap().sixteenths);
    let pins = (0..19).filter(|pin| pin / 2 != cathode / 2);
    let lit = pins.enumerate().filter(|&(_, pin)| shown[pin] == Pin::Lit);
    lit.map(|(k, _)| sixteenths(if pair && k >= 9 { cathode + 8 } else { cathode }))
        .sum()
}

#[test]
fn the_totals_are_what_the_calls_show_clock_by_clock() {
    // Driver 1 has own brightness, fast blinking and every other pair in the hex font, driver 2 slow blinking and 14 segments.
    let words = [
        [0x044D, 0x0409],
        [0x0155, 0x0C0F],
        [0x1021, 0x0207],
        [0x1543, 0x2077],
        [0x2285, 0x41B6],
        [0x4A9E, 0x4C13],
        [0x63F7, 0x6D3C],
    ];
    let mut panel = [Device::power_up(); 2];
    let mut records = vec![chain(2)];
    for pair in words {
        access(&mut panel, 32, &bits(&pair), &mut [0; 4]).unwrap();
        records.push(send(&pair));
    }
    // Clocks up to shortly before a phase ends, and then over its end, one by one.
    let steps = [(1, 999_990, 25), (2, 1_999_995, 12), (1, 999_980, 30)];
    for (driver, before, count) in steps {
        add_clocks(&mut panel, driver, before).unwrap();
        records.push(clocks(driver as u8, before));
        let mut expected = totals(&records);
        for _ in 0..count {
            for (cathode, total) in expected[driver - 1].iter_mut().enumerate() {
                *total += added(&panel, driver, cathode);
            }
            add_clocks(&mut panel, driver, 1).unwrap();
        }
        records.push(clocks(driver as u8, count));
        assert_eq!(totals(&records), expected, "driver {driver}");
    }
}
