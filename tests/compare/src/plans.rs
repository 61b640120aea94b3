//! The planner on random chains and wanted planes, beside the second double. Which list it gives is free: both checks judge it.

use crate::convert::{self, hex, hex_words};
use crate::guards::guarded;
use crate::plan_order::Order;
use crate::planner;
use crate::random::Random;
use crate::report::{Lines, Part};
use crate::rows;
use crate::wanted;
use ratchetelm::MOST_ACCESSES;
use second_double::{Checked, Planned, Record};

const PLANS: usize = 42_000;

/// The checks.
const ANSWERS: usize = 0;
const LISTS: usize = 1;
const NUMBERS: usize = 2;

/// The numbers that a planner may give.
const GIVEN: [u8; 6] = [0, 1, 7, 12, 13, 14];

/// Every number is given at least so often, and so is one where another applies too.
const OFTEN: usize = 100;

/// A chain, wanted planes, and the lent room before the call.
struct Ask {
    row: Vec<Record>,
    wanted: Vec<u8>,
    room: Vec<u16>,
}

/// A planner's answer, the room after it and the records after it.
struct Plan {
    planned: Planned,
    room: Vec<u16>,
    records: Vec<Record>,
}

/// The part: a check of every answer and of what stays, one of the lists, and one that every number was given.
pub fn compare(seed: u64, times: usize) -> Part {
    let mut part = Part::new("plans", seed, &["answers", "lists", "numbers"]);
    let (mut given, mut accesses) = ([0; 15], [0; MOST_ACCESSES + 1]);
    let mut order = Order::default();
    for case in 0..PLANS * times {
        if part.enough() {
            break;
        }
        let ask = Ask::draft(&mut Random::of(seed, "plans", case));
        let [ours, second] = ask.made();
        given[usize::from(second.planned.number)] += 1;
        order.count(&ask.row, &ask.wanted, second.planned.number);
        accesses[second.planned.accesses] += 1;
        let same = ask.same(&ours, &second);
        part.count(ANSWERS, case, (!same).then(|| ask.told()));
        if same && second.planned.number == 0 {
            let accepted = ask.accepted(&ours) && ask.accepted(&second);
            part.count(LISTS, case, (!accepted).then(|| ask.told()));
        }
    }
    let numbers = part.given(NUMBERS, &GIVEN, &given, OFTEN);
    let order = order.judged(&mut part, NUMBERS, OFTEN);
    let lengths = accesses.iter().filter(|count| **count > 0).count();
    part.end(&format!(
        "numbers {numbers}; {order}; {lengths} lengths of 0 to 32 accesses"
    ));
    part
}

impl Ask {
    fn draft(random: &mut Random) -> Ask {
        let (row, wanted) = wanted::any(random);
        let mut room = vec![0; MOST_ACCESSES * row.len()];
        let least = second_double::plan(&row, &wanted, &mut room).accesses * row.len();
        let length = match random.below(8) {
            0 => 0,
            1 => least.saturating_sub(1),
            2 => random.below(least + 1),
            3 => least + 1,
            4 => least + random.below(40),
            5 => room.len(),
            _ => least,
        };
        let room = (0..length).map(|_| random.number() as u16).collect();
        Ask { row, wanted, room }
    }

    /// What the library does, and the second double.
    fn made(&self) -> [Plan; 2] {
        let chain = convert::devices(&self.row);
        let lend = |lent: &mut [u16]| planner::plan(&chain, &self.wanted, lent);
        let (planned, room) = guarded(0xA5A5, &self.room, lend);
        let ours = Plan {
            planned,
            room,
            records: convert::records(&chain),
        };
        let mut room = self.room.clone();
        let planned = second_double::plan(&self.row, &self.wanted, &mut room);
        let records = self.row.clone();
        [
            ours,
            Plan {
                planned,
                room,
                records,
            },
        ]
    }

    /// Whether both give the same number and accesses and leave the same.
    fn same(&self, ours: &Plan, second: &Plan) -> bool {
        ours.planned == second.planned && self.stays(ours) && self.stays(second)
    }

    /// Whether the records and the room after the list are as before, all of it where refused.
    fn stays(&self, plan: &Plan) -> bool {
        let words = plan.planned.accesses * self.row.len();
        let [before, after] = [&self.room, &plan.room].map(|room| room.get(words..));
        before.is_some() && before == after && plan.records == self.row
    }

    /// Whether the library and the second double accept the list of a plan.
    fn accepted(&self, plan: &Plan) -> bool {
        let accepted = Checked {
            number: 0,
            accepted: 1,
        };
        self.verdicts(plan) == [accepted; 2]
    }

    fn verdicts(&self, plan: &Plan) -> [Checked; 2] {
        let words = plan.planned.accesses * self.row.len();
        let list = plan.room.get(..words).unwrap_or(&plan.room);
        planner::verdicts(&self.row, &self.wanted, list)
    }

    fn differs(&self) -> bool {
        let [ours, second] = self.made();
        let lists = || self.accepted(&ours) && self.accepted(&second);
        !self.same(&ours, &second) || second.planned.number == 0 && !lists()
    }

    /// The row, simplified, what is lent, and what the two do.
    fn told(&self) -> Lines {
        let with = |row: &[Record]| Ask {
            row: row.to_vec(),
            wanted: self.wanted.clone(),
            room: self.room.clone(),
        };
        let ask = with(&rows::simplify(&self.row, |row| with(row).differs()));
        let mut lines = rows::told(&ask.row);
        lines.push(("wanted", hex(&ask.wanted)));
        lines.push(("room", format!("{} words", ask.room.len())));
        let [ours, second] = ask.made();
        lines.push(("library", ask.spelled(&ours)));
        lines.push(("second", ask.spelled(&second)));
        lines
    }

    fn spelled(&self, plan: &Plan) -> String {
        let Planned { number, accesses } = plan.planned;
        let stays = if self.stays(plan) { "stays" } else { "CHANGED" };
        let verdicts = self.verdicts(plan).map(|verdict| verdict.accepted);
        let room = hex_words(&plan.room);
        format!("number {number}, {accesses} accesses, the rest {stays}, checked {verdicts:?}, room {room}")
    }
}
