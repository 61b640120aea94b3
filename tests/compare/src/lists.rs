//! Lists of calls on a chain of the library, of both families, each driver beside a lone driver of the second double.

use crate::asks;
use crate::convert::{self, hex, unlike};
use crate::kinds::spelled;
use crate::port_met::PortMet;
use crate::proved;
use crate::random::Random;
use crate::report::{shrink, Lines, Part};
use crate::rows;
use ratchetelm::Device;
use second_double::{named_driver, Call, Lone, Record, Reply};

const LISTS: usize = 27_000;
const LONGEST: usize = 60;

/// The checks.
const ANSWERS: usize = 0;
const RECORDS: usize = 1;
const MET: usize = 2;

/// Whatever lists met they met so often.
const OFTEN: usize = 20;

/// What differs: the check, and what a driver has in the chain and alone.
struct Difference {
    check: usize,
    driver: usize,
    chained: String,
    alone: String,
}

/// What was met: rows by what they are of, answers by drivers of each family, and what MAX6957s met.
struct Met {
    rows: [usize; rows::KINDS.len()],
    answers: [usize; 2],
    ports: PortMet,
}

/// The part: a check of every answer, one of every record after the list, and one of what was met.
pub fn compare(seed: u64, times: usize) -> Part {
    let mut part = Part::new("lists", seed, &["answers", "records", "met"]);
    let (mut drivers, mut calls) = (0, 0);
    let mut met = Met::new();
    for case in 0..LISTS * times {
        if part.enough() {
            break;
        }
        let mut random = Random::of(seed, "lists", case);
        let n = 1 + random.below(16);
        let row = rows::row(&mut random, n);
        let list = list(&mut random, &rows::families(&row));
        met.rows[rows::kind_of(&row)] += 1;
        match hear(&row, &list, &mut met) {
            Ok(()) => {
                part.count(ANSWERS, case, None);
                part.count(RECORDS, case, None);
                (drivers, calls) = (drivers + n, calls + list.len());
            }
            Err(difference) => part.count(difference.check, case, Some(told(&row, list))),
        }
    }
    let lists = part.checks[RECORDS].cases;
    let met = met.judged(&mut part);
    part.end(&format!(
        "{lists} lists, {calls} calls, {drivers} lone drivers, {met}"
    ));
    part
}

impl Met {
    fn new() -> Met {
        Met {
            rows: [0; rows::KINDS.len()],
            answers: [0; 2],
            ports: PortMet::new(),
        }
    }

    /// Counts whether all was met; how often.
    fn judged(&self, part: &mut Part) -> String {
        let [old, ports] = self.answers;
        let answers = [("old answers", old), ("MAX6957 answers", ports)];
        let answers = part.met_each(MET, &answers, OFTEN);
        let rows: Vec<_> = rows::KINDS.into_iter().zip(self.rows).collect();
        let rows = part.met_each(MET, &rows, OFTEN);
        let ports = self.ports.judged(part, MET, OFTEN);
        format!("{answers}; rows {rows}; {ports}")
    }
}

/// Random calls in which no access is accepted with other than 16 clocks for each driver.
fn list(random: &mut Random, families: &[u8]) -> Vec<Call> {
    let length = 1 + random.below(LONGEST);
    let call = |_| asks::call(random, families);
    let mut calls: Vec<Call> = (0..length).map(call).collect();
    for call in &mut calls {
        if let Call::Access { clocks, .. } = call {
            if *clocks <= 4096 {
                *clocks = 16 * families.len();
            }
        }
    }
    calls
}

/// Makes the calls on a chain and tells each lone driver their arguments; what the same answers met.
fn hear(row: &[Record], list: &[Call], met: &mut Met) -> Result<(), Difference> {
    let (n, families) = (row.len(), rows::families(row));
    let mut chain = convert::devices(row);
    let lone = |(driver, record): (usize, &Record)| Lone::new(&families, driver, record.clone());
    let mut lones: Vec<Lone> = (1..).zip(row).map(lone).collect();
    for call in list {
        let reply = proved::call(&mut chain, call);
        for (driver, lone) in (1..).zip(&mut lones) {
            let before = lone.record.port_driver;
            let (chained, alone) = (own_answer(n, driver, call, &reply), lone.hear(call));
            if chained != alone {
                let [chained, alone] = [chained, alone].map(answer_text);
                return Err(Difference {
                    check: ANSWERS,
                    driver,
                    chained,
                    alone,
                });
            }
            if alone.is_some() {
                met.answers[usize::from(lone.record.family)] += 1;
            }
            met.ports.count(driver, call, &reply, &before, &lone.record);
        }
    }
    same_records(&chain, &lones)
}

/// Whether each driver of the chain has the record that it has alone.
fn same_records(chain: &[Device], lones: &[Lone]) -> Result<(), Difference> {
    for (driver, (device, lone)) in (1..).zip(chain.iter().zip(lones)) {
        let (chained, alone) = (convert::record(device), &lone.record);
        if chained != *alone {
            return Err(Difference {
                check: RECORDS,
                driver,
                chained: unlike(&chained, alone),
                alone: unlike(alone, &chained),
            });
        }
    }
    Ok(())
}

/// What a driver answers of a reply: its word of an access, or all where the call names it.
fn own_answer(n: usize, driver: usize, call: &Call, reply: &Reply) -> Option<Vec<u8>> {
    if reply.number != 0 {
        return None;
    }
    if let Call::Access { .. } = call {
        let first = 2 * (n - driver);
        return Some(reply.back[first..first + 2].to_vec());
    }
    let own = named_driver(call) == Some(driver) && !reply.back.is_empty();
    own.then(|| reply.back.clone())
}

fn answer_text(answer: Option<Vec<u8>>) -> String {
    answer.map_or("no answer".to_string(), |back| {
        format!("answer {}", hex(&back))
    })
}

/// The row, simplified, the calls that are needed for a difference, and the driver's two results.
fn told(row: &[Record], list: Vec<Call>) -> Lines {
    let hear = |row: &[Record], list: &[Call]| hear(row, list, &mut Met::new());
    let list = shrink(list, |fewer| hear(row, fewer).is_err());
    let row = rows::simplify(row, |row| hear(row, &list).is_err());
    let mut lines = rows::told(&row);
    for call in &list {
        lines.push(("call", spelled(call)));
    }
    if let Err(difference) = hear(&row, &list) {
        lines.push(("driver", difference.driver.to_string()));
        lines.push(("library", difference.chained));
        lines.push(("second, alone", difference.alone));
    }
    lines
}
