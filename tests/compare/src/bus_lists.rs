//! Lists of calls on a two-wire bus of the library, each part beside a part of the second double alone on its bus.
//! With a MAX6957 among them the bus is refused, and the other calls are still a part's own.

use crate::asks;
use crate::bus_drafts;
use crate::bus_list_met::Met;
use crate::convert::{self, hex, unlike};
use crate::kinds::{questions, spelled};
use crate::proved;
use crate::proved_bus;
use crate::random::Random;
use crate::report::{shrink, Lines, Part};
use crate::rows;
use ratchetelm::Device;
use second_double::{Bus, BusCall, LonePart, Record, Step, Straps};

const LISTS: usize = 13_500;
const LONGEST: usize = 60;

/// The checks.
const ANSWERS: usize = 0;
const RECORDS: usize = 1;
const OUTPUTS: usize = 2;
const REFUSED: usize = 3;
const MET: usize = 4;

/// A number and what is given back.
type Answer = (u8, Vec<u8>);

/// A bus, a list of calls on it, and fifteen straps of no account for the lone ones.
struct Draft {
    row: Vec<Record>,
    bus: Bus,
    straps: Straps,
    rest: Straps,
    list: Vec<Step>,
}

/// What differs: the check, and what a part has on the bus and alone.
struct Difference {
    check: usize,
    part: usize,
    shared: String,
    alone: String,
}

/// The part: a check of every answer, one of every record after the list, one of every output, one of buses that are refused
/// throughout, and one of what was met.
pub fn compare(seed: u64, times: usize) -> Part {
    let checks = ["answers", "records", "outputs", "refused", "met"];
    let mut part = Part::new("bus lists", seed, &checks);
    let (mut calls, mut met) = (0, Met::default());
    for case in 0..LISTS * times {
        if part.enough() {
            break;
        }
        let draft = Draft::new(&mut Random::of(seed, "bus lists", case));
        match draft.hear() {
            Ok(heard) => {
                [ANSWERS, RECORDS, OUTPUTS, REFUSED]
                    .into_iter()
                    .for_each(|check| part.count(check, case, None));
                calls += draft.list.len();
                met.count(&draft.row, draft.bus_number(), draft.bus_calls(), heard);
            }
            Err(difference) => part.count(difference.check, case, Some(draft.told())),
        }
    }
    let lists = part.checks[RECORDS].cases;
    let met = met.judged(&mut part, MET);
    part.end(&format!("{lists} lists, {calls} calls, {met}"));
    part
}

impl Draft {
    /// Sound records and bus state; in one list of twelve the straps clash or pass 127, so that the bus is refused throughout.
    fn new(random: &mut Random) -> Draft {
        let n = 1 + random.below(16);
        let mut straps = bus_drafts::straps(random, n);
        if random.one_in(12) {
            bus_drafts::damage_straps(random, n, &mut straps);
        }
        let length = 1 + random.below(LONGEST);
        let row = match random.below(4) {
            0 => rows::known(random, n),
            _ => rows::old(random, n),
        };
        let families = rows::families(&row);
        Draft {
            row,
            bus: bus_drafts::bus(random, n),
            straps,
            rest: [(); 16].map(|()| random.byte()),
            list: bus_drafts::list(random, &families, &straps, length, asks::other),
        }
    }

    /// The number of every call of the bus, by the second double: the straps and the families stay.
    fn bus_number(&self) -> u8 {
        let mut row = self.row.clone();
        second_double::bus_call(&mut row, self.bus, &self.straps, BusCall::Start).number
    }

    /// Makes the calls on the library's bus, and for each part its own on its lone bus; how many were a part's own.
    fn hear(&self) -> Result<usize, Difference> {
        let mut parts = convert::devices(&self.row);
        let (answers, bus) = shared(&mut parts, self.bus, &self.straps, &self.list);
        self.same_refusals(&answers, bus)?;
        let mut heard = 0;
        for part in 1..=self.row.len() {
            heard += self.hear_alone(part, &parts, &answers)?;
        }
        Ok(heard)
    }

    fn bus_calls(&self) -> usize {
        self.list.iter().filter(|step| on_bus(step)).count()
    }

    /// Whether a bus that is refused is refused throughout, with one number, and stays as it is.
    fn same_refusals(&self, answers: &[Answer], bus: Bus) -> Result<(), Difference> {
        let number = self.bus_number();
        let steps = self.list.iter().zip(answers);
        let mut calls = steps.filter(|(step, _)| on_bus(step));
        let other = calls.find(|(_, answer)| answer.0 != number);
        if other.is_none() && (number == 0 || bus == self.bus) {
            return Ok(());
        }
        let given = other.map_or(number, |(_, answer)| answer.0);
        Err(Difference {
            check: REFUSED,
            part: 0,
            shared: format!("number {given}, at last {bus:?}"),
            alone: format!("number {number}"),
        })
    }

    /// Whether a part has the answers, the record and the outputs that it has alone.
    fn hear_alone(
        &self,
        part: usize,
        parts: &[Device],
        answers: &[Answer],
    ) -> Result<usize, Difference> {
        let lone = LonePart {
            families: rows::families(&self.row),
            i: part,
            straps: self.straps,
        };
        let own = lone.own(self.bus, &self.list);
        let mut straps = self.rest;
        straps[0] = self.straps[part - 1];
        let mut record = [self.row[part - 1].clone()];
        let mut bus = lone.view(self.bus);
        for (place, step) in &own {
            let (answer, alone) = (
                &answers[*place],
                second(&mut record, &mut bus, &straps, step),
            );
            if *answer != alone || alone.0 != 0 {
                let [shared, alone] = [answer, &alone].map(answer_text);
                return Err(Difference {
                    check: ANSWERS,
                    part,
                    shared,
                    alone,
                });
            }
        }
        same_record(part, parts, &record)?;
        same_outputs(part, parts, &mut record)?;
        Ok(own.len())
    }

    fn with(&self, row: &[Record], list: &[Step]) -> Draft {
        Draft {
            row: row.to_vec(),
            list: list.to_vec(),
            ..*self
        }
    }

    /// The row, simplified, the calls that are needed for a difference, and the part's two results.
    fn told(&self) -> Lines {
        let list = shrink(self.list.clone(), |fewer| {
            self.with(&self.row, fewer).hear().is_err()
        });
        let row = rows::simplify(&self.row, |row| self.with(row, &list).hear().is_err());
        let mut lines = rows::told(&row);
        lines.extend(bus_drafts::told(self.bus, &self.straps, &list));
        if let Err(difference) = self.with(&row, &list).hear() {
            lines.push(("part", difference.part.to_string()));
            lines.push(("library", difference.shared));
            lines.push(("second, alone", difference.alone));
        }
        lines
    }
}

/// The answers of the library's bus to a list, and its state after it.
fn shared(
    parts: &mut [Device],
    mut bus: Bus,
    straps: &Straps,
    list: &[Step],
) -> (Vec<Answer>, Bus) {
    let mut answers = Vec::new();
    for step in list {
        answers.push(match step {
            Step::Bus(call) => {
                let reply = proved_bus::call(parts, bus, straps, *call);
                bus = reply.bus;
                (reply.number, reply.back)
            }
            Step::Other(call) => {
                let reply = proved::call(parts, call);
                (reply.number, reply.back)
            }
        });
    }
    (answers, bus)
}

fn on_bus(step: &Step) -> bool {
    matches!(step, Step::Bus(_))
}

/// The answer of the second double's lone bus to a call.
fn second(record: &mut [Record; 1], bus: &mut Bus, straps: &Straps, step: &Step) -> Answer {
    match step {
        Step::Bus(call) => {
            let reply = second_double::bus_call(record, *bus, straps, *call);
            *bus = reply.bus;
            (reply.number, reply.back)
        }
        Step::Other(call) => {
            let reply = second_double::call(record, call);
            (reply.number, reply.back)
        }
    }
}

fn same_record(part: usize, parts: &[Device], record: &[Record; 1]) -> Result<(), Difference> {
    let (shared, alone) = (convert::record(&parts[part - 1]), &record[0]);
    if shared == *alone {
        return Ok(());
    }
    Err(Difference {
        check: RECORDS,
        part,
        shared: unlike(&shared, alone),
        alone: unlike(alone, &shared),
    })
}

/// Whether the library's part shows what the lone one does.
fn same_outputs(part: usize, parts: &[Device], record: &mut [Record; 1]) -> Result<(), Difference> {
    for (shared, alone) in questions(part).into_iter().zip(questions(1)) {
        let ours = proved::call(&mut parts.to_vec(), &shared);
        let second = second_double::call(record, &alone);
        if ours != second {
            let [ours, second] =
                [ours, second].map(|reply| answer_text(&(reply.number, reply.back)));
            let asked = spelled(&shared);
            return Err(Difference {
                check: OUTPUTS,
                part,
                shared: format!("{ours} to {asked}"),
                alone: second,
            });
        }
    }
    Ok(())
}

fn answer_text((number, back): &Answer) -> String {
    format!("number {number}, back {}", hex(back))
}
