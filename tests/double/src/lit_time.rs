//! The lit time of a script's run (request 13), and the report of it.

use crate::blink::{add_clocks, CYCLE};
use crate::brightness::brightness;
use crate::calls::{call, Call};
use crate::record::Record;
use crate::script::{refusal_line, test_table, Script};
use crate::segments::lit_digits;

/// Up to so many clocks of one call are counted one by one.
const FEW: u32 = 1_000;

/// At either rate no phase ends inside a quarter of the blink cycle.
const QUARTER: u32 = CYCLE / 4;

/// A driver's totals, cathode 0's first.
type Totals = [u64; 8];

/// The number, and how many drivers' totals were written.
#[derive(Clone, Copy, Debug, PartialEq, Eq)]
pub struct LitTime {
    pub number: u8,
    pub drivers: usize,
}

/// Writes the totals of every driver, driver 1's first, to the front of the room: 9, 1, then 5 where it has under 8 a driver.
pub fn lit_time(script: &[u8], room: &mut [u64]) -> LitTime {
    let (rows, _) = room.as_chunks_mut();
    let (number, drivers) = match Script::read(script) {
        Err(number) => (number, 0),
        Ok(script) if rows.len() < script.n => (5, 0),
        Ok(script) => {
            sum(&script, &mut rows[..script.n]);
            (0, script.n)
        }
    };
    LitTime { number, drivers }
}

/// Adds what each served call adds to its driver's totals, from 0 on.
fn sum(script: &Script, rows: &mut [Totals]) {
    rows.fill([0; 8]);
    for given in clocks_given(script) {
        let added = added(&given.before, given.clocks);
        for (total, more) in rows[given.driver - 1].iter_mut().zip(added) {
            *total += more;
        }
    }
}

/// Master clocks that a driver was given, and its record before them.
pub struct Given {
    pub driver: usize,
    pub before: Record,
    pub clocks: u32,
}

/// The clocks of a script's run that are served, in order.
pub fn clocks_given(script: &Script) -> Vec<Given> {
    let mut chain = script.chain();
    let mut all = Vec::new();
    for asked in &script.calls {
        let before = chain.clone();
        let served = call(&mut chain, asked).number == 0;
        match *asked {
            Call::Clocks { driver, clocks } if served => all.push(Given {
                driver,
                before: before[driver - 1].clone(),
                clocks,
            }),
            _ => {}
        }
    }
    all
}

/// What clocks given to a driver add to its totals.
fn added(record: &Record, clocks: u32) -> Totals {
    if clocks <= FEW {
        by_clock(record, clocks)
    } else {
        by_quarter(record, clocks)
    }
}

/// One clock after the other, each as the driver shines before it is added.
pub fn by_clock(record: &Record, clocks: u32) -> Totals {
    let (mut record, mut totals) = (record.clone(), [0; 8]);
    for _ in 0..clocks {
        shine(&record, 1, &mut totals);
        add_clocks(&mut record, 1);
    }
    totals
}

/// By the clocks that fall into each quarter of the blink cycle, as the driver shines at that quarter's start.
pub fn by_quarter(record: &Record, clocks: u32) -> Totals {
    let (mut record, mut totals) = (record.clone(), [0; 8]);
    let start = record.blink;
    for quarter in 0..4 {
        record.blink = quarter * QUARTER;
        let before = counts_in(quarter, u64::from(start));
        let all = counts_in(quarter, u64::from(start) + u64::from(clocks));
        shine(&record, all - before, &mut totals);
    }
    totals
}

/// How many of the counts below an end, cycle after cycle, are in a quarter.
fn counts_in(quarter: u32, end: u64) -> u64 {
    let [cycle, length] = [CYCLE, QUARTER].map(u64::from);
    let in_last = (end % cycle).saturating_sub(u64::from(quarter) * length);
    end / cycle * length + in_last.min(length)
}

/// Adds so many clocks of what a driver shines now: its lit segments, each times its own digit's sixteenths.
fn shine(record: &Record, clocks: u64, totals: &mut Totals) {
    let table = test_table();
    for (cathode, total) in totals.iter_mut().enumerate() {
        for digit in lit_digits(record, cathode, &table, &table) {
            *total += clocks * u64::from(brightness(record, digit).sixteenths);
        }
    }
}

/// What the report program prints for this standard input.
pub fn report(script: &[u8]) -> Vec<u8> {
    let mut totals = [0; 8 * 16];
    let LitTime { number, drivers } = lit_time(script, &mut totals);
    if number != 0 {
        return refusal_line(number).into_bytes();
    }
    let totals = totals.iter().take(8 * drivers).enumerate();
    let lines = totals.map(|(place, total)| format!("{} {} {total}\n", place / 8 + 1, place % 8));
    String::from_iter(lines).into_bytes()
}
