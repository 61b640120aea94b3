//! Every exported call on random rows of both families, sound and unsound, beside the second double.

use crate::asks;
use crate::call_met::CallMet;
use crate::convert::{self, hex, unlike};
use crate::kinds::{kind_of, spelled, KINDS};
use crate::lent::Lent;
use crate::proved;
use crate::random::Random;
use crate::report::{Lines, Part};
use crate::rows;
use crate::spoils;
use ratchetelm::Device;
use second_double::{Call, Record, Reply};

const ROWS: usize = 135_000;
const CALLS_ON_A_ROW: usize = 12;

/// The checks, after one for each kind of call.
const NUMBERS: usize = KINDS.len();
const POWER_UP: usize = NUMBERS + 1;
const MET: usize = NUMBERS + 2;

/// What a call does by the library, and by the second double.
fn ask(lent: &mut Lent, call: &Call) -> [Outcome; 2] {
    let (library, row) = lent.rows();
    let (ours, our_part) = (proved::call(library, call), proved::part(library, call));
    let second = second_double::call(row, call);
    let second_part = part(row, call, second.number);
    let [our_records, second_records] = lent.records();
    [
        Outcome {
            reply: ours,
            part: our_part,
            records: our_records,
        },
        Outcome {
            reply: second,
            part: second_part,
            records: second_records,
        },
    ]
}

/// What the second double has for `proved::part`: the number of a part, and that with the plane shown, 0 where refused.
fn part(row: &mut [Record], call: &Call, number: u8) -> Option<(u8, Reply)> {
    let Call::Plane { driver, .. } = *call else {
        return None;
    };
    let back = match number {
        0 => second_double::call(row, &Call::Shown { driver }).back,
        _ => vec![0],
    };
    Some((number, Reply { number, back }))
}

/// The reply to a call, what is said of its part, and the records after it with the guards.
#[derive(PartialEq)]
struct Outcome {
    reply: Reply,
    part: Option<(u8, Reply)>,
    records: Vec<Record>,
}

impl Outcome {
    /// The reply, and the fields of the records that are otherwise in another outcome.
    fn beside(&self, other: &Outcome) -> String {
        let Reply { number, back } = &self.reply;
        let mut line = format!("number {number}, back {}", hex(back));
        if let Some((alone, Reply { number, back })) = &self.part {
            let plane = hex(back);
            line.push_str(&format!(", part {alone}, {number} of plane {plane}"));
        }
        for (driver, (own, other)) in self.records.iter().zip(&other.records).enumerate() {
            if own != other {
                line.push_str(&format!(", record {driver}{}", unlike(own, other)));
            }
        }
        line
    }
}

/// The part: a check for each kind of call, one that each gave every number that it may give, one of the records at power-up,
/// and one of what was met.
pub fn compare(seed: u64, times: usize) -> Part {
    let checks = [&KINDS[..], &["numbers", "power-up", "met"]].concat();
    let mut part = Part::new("calls", seed, &checks);
    let mut met = CallMet::new();
    at_power_up(&mut part);
    for case in 0..ROWS * times {
        if part.enough() {
            break;
        }
        run(&mut part, &mut met, case);
    }
    let numbers = met.numbers(&mut part, NUMBERS);
    let rest = met.judged(&mut part, MET);
    part.end(&format!("{numbers}; {rest}"));
    part
}

/// The records at power-up.
fn at_power_up(part: &mut Part) {
    let ours = [Device::power_up(), Device::max6957_power_up()];
    let second = [Record::power_up(), Record::port_driver_power_up()];
    for (ours, second) in convert::records(&ours).into_iter().zip(second) {
        let differ = || {
            vec![
                ("library", unlike(&ours, &second)),
                ("second", unlike(&second, &ours)),
            ]
        };
        part.count(POWER_UP, 0, (ours != second).then(differ));
    }
}

/// One row under several calls; one in eight is made on a damaged copy of it.
fn run(part: &mut Part, met: &mut CallMet, case: usize) {
    let mut random = Random::of(part.seed, "calls", case);
    let n = rows::length(&mut random);
    let row = rows::row(&mut random, n);
    met.row(&row);
    let (mut lent, families) = (Lent::of(&row), rows::families(&row));
    for _ in 0..CALLS_ON_A_ROW {
        let call = asks::call(&mut random, &families);
        let mut before = lent.row().to_vec();
        let (mut damaged, mut damage) = (None, None);
        if random.one_in(8) {
            damage = spoils::spoil(&mut random, &mut before);
            damaged = Some(Lent::of(&before));
        }
        let on = damaged.as_mut().unwrap_or(&mut lent);
        let outcomes = ask(on, &call);
        let reply = &outcomes[1].reply;
        met.call(&call, reply, &before, on.row());
        if let Some(damage) = damage {
            met.damage(damage, reply.number);
        }
        let differ = outcomes[0] != outcomes[1];
        let kind = kind_of(&call);
        part.count(kind, case, differ.then(|| told(&before, &call)));
        if differ {
            return;
        }
    }
}

/// The row before the call, simplified, the call, and the two outcomes: of the records, where they differ.
fn told(before: &[Record], call: &Call) -> Lines {
    let ask = |row: &[Record]| ask(&mut Lent::of(row), call);
    let row = rows::simplify(before, |row| {
        let [ours, second] = ask(row);
        ours != second
    });
    let [ours, second] = ask(&row);
    let mut lines = rows::told(&row);
    lines.push(("call", spelled(call)));
    lines.push(("library", ours.beside(&second)));
    lines.push(("second", second.beside(&ours)));
    lines
}
