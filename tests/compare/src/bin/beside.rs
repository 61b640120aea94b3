//! Times the library beside the second double, and the programs on scripts of full length.
//!   beside accesses         for each size: drivers, clocks, and the ns of the library and of the second double
//!   beside count N CLOCKS   ten accesses of the second double, to be counted by callgrind
//!   beside programs         for panel and report: the ms of an empty script, and of a mixed one and one of clocks alone of full length
//!   beside clocks           the ns of a clocks record in a script's lit time

use compare::drafts::{fill, record, LONGEST};
use compare::programs::Program;
use compare::random::Random;
use ratchetelm::Device;
use second_double::Record;
use std::env;
use std::hint::black_box;
use std::time::Instant;

const ROUNDS: usize = 9;
const LENGTHS: [usize; 3] = [1, 2, 16];
const CLOCKS: [usize; 4] = [0, 16, 256, 4096];
const CLOCKS_RECORD: usize = 10;

fn main() {
    let arguments: Vec<String> = env::args().skip(1).collect();
    let words: Vec<&str> = arguments.iter().map(String::as_str).collect();
    match words[..] {
        ["accesses"] => accesses(),
        ["count", n, clocks] => count(n.parse().expect("N"), clocks.parse().expect("CLOCKS")),
        ["programs"] => programs(),
        ["clocks"] => clocks_records(),
        _ => panic!("beside accesses, count N CLOCKS, programs or clocks"),
    }
}

fn accesses() {
    for n in LENGTHS {
        for clocks in CLOCKS {
            let sent = digit_writes(clocks);
            let mut answer = vec![0; sent.len()];
            let turns = if clocks > 256 { 100 } else { 1000 };
            let mut chain = vec![Device::power_up(); n];
            let ours = best(turns, || {
                let served = ratchetelm::access(&mut chain, clocks, &sent, &mut answer);
                assert!(black_box(served).is_ok());
            });
            let mut chain = vec![Record::power_up(); n];
            let second = best(turns, || {
                assert!(second_access(&mut chain, clocks, &sent, &mut answer) == 0);
            });
            println!("{n} {clocks} {} {}", ours * 1e9, second * 1e9);
        }
    }
}

/// Sent bytes: writes to every digit in turn.
fn digit_writes(clocks: usize) -> Vec<u8> {
    let words = (0..clocks).flat_map(|word| [0x20 + word % 16, 74 * word + 37]);
    let bytes = words.take(clocks.div_ceil(8));
    bytes.map(|byte| byte as u8).collect()
}

/// The best of several rounds, in seconds a turn.
fn best(turns: usize, mut turn: impl FnMut()) -> f64 {
    let round = |_| {
        let start = Instant::now();
        (0..turns).for_each(|_| turn());
        start.elapsed().as_secs_f64() / turns as f64
    };
    (0..ROUNDS).map(round).fold(f64::MAX, f64::min)
}

/// The second double's access under a name that callgrind can be told.
#[no_mangle]
#[inline(never)]
fn second_access(chain: &mut [Record], clocks: usize, sent: &[u8], answer: &mut [u8]) -> u8 {
    black_box(second_double::access(chain, clocks, sent, answer))
}

fn count(n: usize, clocks: usize) {
    let sent = digit_writes(clocks);
    let mut answer = vec![0; sent.len()];
    let mut chain = vec![Record::power_up(); n];
    for _ in 0..10 {
        second_access(&mut chain, clocks, &sent, &mut answer);
    }
}

fn programs() {
    let scripts = [vec![], mixed_script(), clocks_script()];
    for program in [Program::panel(), Program::report()] {
        let times = scripts.each_ref().map(|script| {
            best(5, || {
                let output = program.run(script).expect("the program runs");
                assert!(output.status.success() && output.stderr.is_empty());
            })
        });
        println!("{}", times.map(|time| (time * 1e3).to_string()).join(" "));
    }
}

fn clocks_records() {
    let (script, mut totals) = (clocks_script(), [0; ratchetelm::MOST_TOTALS]);
    let time = best(5, || {
        let drivers = ratchetelm::lit_time(&script, &mut totals);
        assert_eq!(black_box(drivers), Ok(16));
    });
    println!("{}", time * 1e9 / (script.len() / CLOCKS_RECORD) as f64);
}

/// Sixteen drivers that take a configuration.
fn started(configuration: u8) -> Vec<Vec<u8>> {
    let awake = [&[0x01, 0x00][..], &[0x04, configuration].repeat(16)].concat();
    vec![record(1, &[16]), record(2, &awake)]
}

/// Sixteen drivers in normal operation, then accesses, shows, scans, pins and clocks.
fn mixed_script() -> Vec<u8> {
    let mut pieces = started(0x01);
    let mut random = Random::of(6954, "beside", 0);
    fill(&mut random, 16, &mut pieces, LONGEST);
    pieces.concat()
}

/// Sixteen drivers that blink, then clocks of 32 bits to each in turn.
fn clocks_script() -> Vec<u8> {
    let mut script = started(0x09).concat();
    let mut random = Random::of(6954, "clocks", 0);
    for driver in (1..=16).cycle() {
        if script.len() + CLOCKS_RECORD > LONGEST {
            break;
        }
        script.extend(record(5, &[&[driver][..], &random.bytes(4)].concat()));
    }
    script
}
