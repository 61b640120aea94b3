//! Two-wire calls on random rows, sound and unsound, between accesses and all other calls, beside the second double.

use crate::asks;
use crate::bus_drafts;
use crate::convert::{hex, unlike};
use crate::lent::Lent;
use crate::proved;
use crate::proved_bus;
use crate::random::Random;
use crate::records::OLD;
use crate::report::{Lines, Part};
use crate::rows;
use crate::spoils;
use second_double::{Bus, BusCall, BusReply, Record, Reply, Step, Straps};

const LISTS: usize = 21_500;
const LENGTH: usize = 30;

/// The calls of the bus, and the states that it is in: none is named, or a part is.
const CALLS: [&str; 4] = ["start", "stop", "write", "read"];
const STATES: [&str; 6] = ["idle", "slave", "unmatched", "command", "writes", "reads"];

/// The numbers that each may give.
const GIVEN: [u8; 6] = [0, 1, 7, 10, 11, 14];

/// Those that come before 14, on rows where it applies too.
const BEFORE_14: [u8; 4] = [1, 7, 10, 11];

/// The checks, after one for each call.
const OTHERS: usize = 4;
const NUMBERS: usize = 5;
const MET: usize = 6;

/// Every number is given so often by every call, and every call is met so often in every state.
const OFTEN: usize = 500;

/// Every number is given so often where 14 applies too.
const SELDOM: usize = 100;

/// What was met: each call's numbers, those where 14 applies, each call served in each state, and whose slave bytes were.
#[derive(Default)]
struct Met {
    numbers: [[usize; 15]; 4],
    where_14: [usize; 15],
    states: [[usize; 6]; 4],
    slaves: [usize; 2],
}

/// A bus with its rows, its state and its straps.
struct Panel {
    lent: Lent,
    bus: Bus,
    straps: Straps,
}

/// The number, the bus state and what is given back, and the records after it with the guards.
#[derive(PartialEq)]
struct Outcome {
    reply: BusReply,
    records: Vec<Record>,
}

/// The part: a check for each call and one for the others between them, one of the numbers, one of what was met.
pub fn compare(seed: u64, times: usize) -> Part {
    let checks = [&CALLS[..], &["others", "numbers", "met"]].concat();
    let mut part = Part::new("bus calls", seed, &checks);
    let mut met = Met::default();
    for case in 0..LISTS * times {
        if part.enough() {
            break;
        }
        run(&mut part, &mut met, case);
    }
    let counts = met.judged(&mut part);
    let others = part.checks[OTHERS].cases;
    part.end(&format!("{counts}; {others} other calls"));
    part
}

/// One list on a row; one call in eight is made on a damaged copy of what there is.
fn run(part: &mut Part, met: &mut Met, case: usize) {
    let mut random = Random::of(part.seed, "bus calls", case);
    let n = rows::length(&mut random);
    let straps = bus_drafts::straps(&mut random, n);
    let row = rows::mostly_old(&mut random, n);
    let mut panel = Panel {
        lent: Lent::of(&row),
        bus: bus_drafts::bus(&mut random, n),
        straps,
    };
    let length = 1 + random.below(LENGTH);
    let families = rows::families(&row);
    for step in bus_drafts::list(&mut random, &families, &straps, length, asks::call) {
        let mut damaged = random.one_in(8).then(|| panel.damaged(&mut random));
        let on = damaged.as_mut().unwrap_or(&mut panel);
        let before = on.with(on.lent.row());
        let [ours, second] = on.make(&step);
        met.count(&before, &step, &second.reply);
        let differ = ours != second;
        let check = bus_call_of(&step).map_or(OTHERS, place);
        part.count(check, case, differ.then(|| before.told(&step)));
        if differ {
            return;
        }
    }
}

impl Panel {
    /// The same bus with these records.
    fn with(&self, row: &[Record]) -> Panel {
        Panel {
            lent: Lent::of(row),
            ..*self
        }
    }

    /// With the straps, the bus state or a record damaged, sometimes the first two.
    fn damaged(&self, random: &mut Random) -> Panel {
        let n = self.lent.row().len();
        let mut row = self.lent.row().to_vec();
        let Panel {
            mut bus,
            mut straps,
            ..
        } = *self;
        let kind = random.below(8);
        if kind < 5 {
            bus_drafts::damage_straps(random, n, &mut straps);
        }
        if kind == 4 || kind == 5 {
            bus = bus_drafts::damaged_bus(random, n);
        }
        if kind > 5 {
            spoils::spoil(random, &mut row);
        }
        Panel {
            lent: Lent::of(&row),
            bus,
            straps,
        }
    }

    /// Makes a call; what the library does, and the second double.
    fn make(&mut self, step: &Step) -> [Outcome; 2] {
        let (bus, straps) = (self.bus, self.straps);
        let (library, second) = self.lent.rows();
        let replies = match step {
            Step::Bus(call) => [
                proved_bus::call(library, bus, &straps, *call),
                second_double::bus_call(second, bus, &straps, *call),
            ],
            Step::Other(call) => [
                proved::call(library, call),
                second_double::call(second, call),
            ]
            .map(|Reply { number, back }| BusReply { number, bus, back }),
        };
        self.bus = replies[1].bus;
        let [ours, second] = replies;
        let [our_records, second_records] = self.lent.records();
        [(ours, our_records), (second, second_records)]
            .map(|(reply, records)| Outcome { reply, records })
    }

    /// The row before the call, simplified, the bus and the call, and the two outcomes: of the records, where they differ.
    fn told(&self, step: &Step) -> Lines {
        let row = rows::simplify(self.lent.row(), |row| {
            let [ours, second] = self.with(row).make(step);
            ours != second
        });
        let mut panel = self.with(&row);
        let mut lines = rows::told(&row);
        lines.extend(bus_drafts::told(
            self.bus,
            &self.straps,
            std::slice::from_ref(step),
        ));
        let [ours, second] = panel.make(step);
        lines.push(("library", ours.beside(&second)));
        lines.push(("second", second.beside(&ours)));
        lines
    }
}

impl Outcome {
    /// The reply, and the fields of the records that are otherwise in another outcome.
    fn beside(&self, other: &Outcome) -> String {
        let BusReply { number, bus, back } = &self.reply;
        let Bus { part, phase } = bus;
        let back = hex(back);
        let mut line = format!("number {number}, bus part {part} phase {phase}, back {back}");
        for (part, (own, other)) in self.records.iter().zip(&other.records).enumerate() {
            if own != other {
                line.push_str(&format!(", record {part}{}", unlike(own, other)));
            }
        }
        line
    }
}

impl Met {
    fn count(&mut self, before: &Panel, step: &Step, reply: &BusReply) {
        let Some(call) = bus_call_of(step) else {
            return;
        };
        let (row, bus, number) = (before.lent.row(), before.bus, usize::from(reply.number));
        let lacked = row.iter().any(|record| record.family != OLD);
        self.numbers[place(call)][number] += 1;
        self.where_14[number] += usize::from(lacked);
        if number != 0 {
            return;
        }
        let state = usize::from(bus.phase) + if bus.part == 0 { 0 } else { 3 };
        self.states[place(call)][state] += 1;
        if let (BusCall::Write(_), 1) = (call, state) {
            self.slaves[usize::from(reply.back[0])] += 1;
        }
    }

    /// Counts whether all was met; how often.
    fn judged(&self, part: &mut Part) -> String {
        let mut counts = Vec::new();
        for (call, name) in CALLS.into_iter().enumerate() {
            let numbers = part.given(NUMBERS, &GIVEN, &self.numbers[call], OFTEN);
            for (state, of) in STATES.into_iter().zip(self.states[call]) {
                part.met(MET, &format!("{name} in {state}"), of, OFTEN);
            }
            counts.push(format!("{name}: numbers {numbers}"));
        }
        let early = part.given(MET, &BEFORE_14, &self.where_14, SELDOM);
        counts.push(format!("where 14 applies {early}"));
        let [nobody, matched] = self.slaves;
        part.met(MET, "slave bytes of nobody", nobody, OFTEN);
        part.met(MET, "slave bytes of a part", matched, OFTEN);
        counts.push(format!("slave bytes matched/not: {matched}/{nobody}"));
        counts.join("; ")
    }
}

fn bus_call_of(step: &Step) -> Option<BusCall> {
    match step {
        Step::Bus(call) => Some(*call),
        Step::Other(_) => None,
    }
}

/// The place of a call among `CALLS`.
fn place(call: BusCall) -> usize {
    match call {
        BusCall::Start => 0,
        BusCall::Stop => 1,
        BusCall::Write(_) => 2,
        BusCall::Read => 3,
    }
}
