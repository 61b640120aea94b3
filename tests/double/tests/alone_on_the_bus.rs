//! Lists of two-wire calls: each part has the record and the answers that it has alone, given its own calls only.

use second_double::{bus_call, call, Bus, BusCall, Call, LonePart, Record, Step, Straps};

/// Parts at these addresses; the straps past them are 255.
fn strapped(addresses: &[u8]) -> Straps {
    let mut straps = [255; 16];
    straps[..addresses.len()].copy_from_slice(addresses);
    straps
}

/// Calls as text: S a start, P a stop, R a byte asked for, K a scan of part 1, L of part 2, two hex digits a byte given.
fn steps(text: &str) -> Vec<Step> {
    let scan = |driver| {
        Step::Other(Call::Scan {
            driver,
            keys: [1; 4],
        })
    };
    let step = |word| match word {
        "S" => Step::Bus(BusCall::Start),
        "P" => Step::Bus(BusCall::Stop),
        "R" => Step::Bus(BusCall::Read),
        "K" => scan(1),
        "L" => scan(2),
        byte => Step::Bus(BusCall::Write(u8::from_str_radix(byte, 16).unwrap())),
    };
    text.split_whitespace().map(step).collect()
}

/// Part i of a row of these families.
fn part_of(families: &[u8], i: usize, straps: Straps) -> LonePart {
    LonePart {
        families: families.to_vec(),
        i,
        straps,
    }
}

/// The calls of a list that are part i's of two at 60 and 61, as text.
fn own(i: usize, part: usize, phase: u8, list: &str) -> String {
    let straps = strapped(&[0x60, 0x61]);
    let words: Vec<&str> = list.split_whitespace().collect();
    let lone = part_of(&[0, 0], i, straps);
    let own = lone.own(Bus { part, phase }, &steps(list));
    let own: Vec<&str> = own.iter().map(|(place, _)| words[*place]).collect();
    own.join(" ")
}

#[test]
fn a_transaction_is_of_the_part_that_its_slave_byte_names() {
    let list = "S C0 04 01 S C2 R P S C1 R";
    assert_eq!(own(1, 0, 0, list), "S C0 04 01 S C1 R");
    assert_eq!(own(2, 0, 0, list), "S C2 R P");
    // A start that opens nothing is nobody's, and so are bytes after an unmatched one.
    let list = "S P C0 S S 88 C0 R P S R C0 R K L 05 P R S";
    assert_eq!(own(1, 0, 0, list), "S R C0 R K 05 P");
    assert_eq!(own(2, 0, 0, list), "L");
}

#[test]
fn a_transaction_open_at_the_start_counts_for_the_part_it_names() {
    assert_eq!(own(1, 1, 0, "04 01 R S 88"), "04 01 R");
    assert_eq!(own(2, 1, 0, "04 01 R S 88"), "");
    assert_eq!(own(1, 0, 1, "R C0 04 P C0"), "R C0 04 P");
    assert_eq!(own(2, 0, 1, "R C0 04 P C0"), "");
    assert_eq!(own(1, 0, 2, "C0 04 S C0"), "S C0");
    assert_eq!(own(1, 0, 1, "P C0"), "");
}

#[test]
fn refused_calls_are_nobodys() {
    let straps = strapped(&[0x60, 0x60]);
    let lone = part_of(&[0, 0], 1, straps);
    let mut list = steps("S C0 K 04 01 P");
    list.push(Step::Other(Call::Pins {
        driver: 1,
        levels: 32,
    }));
    let own = lone.own(Bus { part: 0, phase: 0 }, &list);
    let own: Vec<usize> = own.iter().map(|(place, _)| *place).collect();
    assert_eq!(own, [2]);
}

/// The records and what each call answers.
fn run(parts: &mut [Record], mut bus: Bus, straps: &Straps, list: &[Step]) -> Vec<(u8, Vec<u8>)> {
    let mut answers = Vec::new();
    for step in list {
        answers.push(match step {
            Step::Bus(asked) => {
                let reply = bus_call(parts, bus, straps, *asked);
                bus = reply.bus;
                (reply.number, reply.back)
            }
            Step::Other(asked) => {
                let reply = call(parts, asked);
                (reply.number, reply.back)
            }
        });
    }
    answers
}

/// Every list of so many of these calls.
fn lists(calls: &[Step], length: usize) -> Vec<Vec<Step>> {
    (0..length).fold(vec![vec![]], |shorter, _| {
        let longer = |list: &Vec<Step>| {
            let longer = calls
                .iter()
                .map(|call| [&list[..], std::slice::from_ref(call)].concat());
            longer.collect::<Vec<_>>()
        };
        shorter.iter().flat_map(longer).collect()
    })
}

/// Records at power-up of these families.
fn row(families: &[u8]) -> Vec<Record> {
    let record = |family: &u8| Record {
        family: *family,
        ..Record::power_up()
    };
    families.iter().map(record).collect()
}

/// Two parts of these families at 60 and 61 end and answer as each of them does alone.
fn agree(families: &[u8; 2], bus: Bus, list: &[Step]) {
    let straps = strapped(&[0x60, 0x61]);
    let mut parts = row(families);
    let answers = run(&mut parts, bus, &straps, list);
    for i in 1..=2 {
        let lone = part_of(families, i, straps);
        let own = lone.own(bus, list);
        let steps: Vec<Step> = own.iter().map(|(_, step)| step.clone()).collect();
        let mut record = row(&families[i - 1..i]);
        let alone = strapped(&[straps[i - 1]]);
        let lone_answers = run(&mut record, lone.view(bus), &alone, &steps);
        let own_answers = own.iter().map(|(place, _)| answers[*place].clone());
        assert!(own_answers.eq(lone_answers), "{list:?} from {bus:?}");
        assert_eq!(record[0], parts[i - 1], "{list:?} from {bus:?}");
    }
}

/// Every sound state of a bus of two.
fn states() -> Vec<Bus> {
    let phases = |part| (0..3).map(move |phase| Bus { part, phase });
    (0..3).flat_map(phases).collect()
}

#[test]
fn the_bus_is_its_lone_parts_in_every_short_list() {
    let calls = steps("S P R C0 C1 C2 C3 04 L");
    for list in (0..=4).flat_map(|length| lists(&calls, length)) {
        for bus in states() {
            agree(&[0, 0], bus, &list);
        }
    }
}

/// A start, bytes either way, scans, pin levels and questions of two parts.
fn shared_calls() -> Vec<Step> {
    let mut calls = steps("S C0 R K L");
    for driver in 1..=2 {
        let levels = 0x0800_0000;
        calls.push(Step::Other(Call::Pins { driver, levels }));
        calls.push(Step::Other(Call::Pins { driver, levels: 9 }));
        calls.push(Step::Other(Call::Clocks { driver, clocks: 7 }));
        calls.push(Step::Other(Call::Interrupt { driver }));
        calls.push(Step::Other(Call::Ports { driver }));
    }
    calls
}

#[test]
fn with_a_max6957_the_other_calls_go_by_the_table() {
    for families in [[0, 1], [1, 0], [1, 1], [0, 2], [2, 1]] {
        for list in (0..=3).flat_map(|length| lists(&shared_calls(), length)) {
            agree(&families, Bus { part: 1, phase: 0 }, &list);
        }
    }
}

#[test]
fn a_row_with_a_max6957_has_no_transactions() {
    let straps = strapped(&[0x60, 0x61]);
    let list = [steps("S C0 04 01 P R"), shared_calls()].concat();
    let own = |families: &[u8], i| -> Vec<usize> {
        let own = part_of(families, i, straps).own(Bus { part: 0, phase: 0 }, &list);
        own.into_iter().map(|(place, _)| place).collect()
    };
    assert_eq!(own(&[0, 0], 1), [0, 1, 2, 3, 4, 6, 7, 8, 9, 12, 13, 14]);
    assert_eq!(own(&[0, 1], 1), [9, 12, 13, 14]);
    assert_eq!(own(&[0, 1], 2), [16, 17, 19, 20]);
    assert_eq!(own(&[2, 1], 1), []);
    assert_eq!(own(&[2, 1], 2), []);
}
