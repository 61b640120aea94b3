//! How often random calls on rows of both families gave each number, and what they met.

use crate::kinds::{kind_of, KINDS};
use crate::port_met::PortMet;
use crate::records::{OLD, PORTS};
use crate::report::Part;
use crate::rows;
use crate::spoils;
use second_double::{named_driver, Call, Record, Reply};

/// The numbers that each kind of call may give.
const NUMBERS: [&[usize]; KINDS.len()] = [
    &[0, 1, 3, 4, 5, 7, 14],
    &[0, 1, 2, 7, 14],
    &[0, 1, 2, 6, 7, 14],
    &[0, 1, 2, 7, 14],
    &[0, 1, 2, 6, 7, 14],
    &[0, 1, 2, 6, 7, 14],
    &[0, 1, 2, 6, 7, 14],
    &[0, 1, 2, 7, 14],
    &[0, 1, 2, 7, 14],
    &[0, 1, 2, 7, 14],
    &[0, 1, 2, 6, 7, 14],
    &[0, 1, 2, 7, 14],
];

/// The numbers that are given where 14 applies too.
const BEFORE_14: [u8; 8] = [1, 2, 3, 4, 5, 6, 7, 14];

/// What each kind of damage must have given: other fields don't count, and 7 comes before 14.
const BY_DAMAGE: [usize; spoils::KINDS.len()] = [7, 0, 14, 7];

/// Whatever was met was met so often.
const OFTEN: usize = 20;

/// How often a number was given.
type Given = [usize; 15];

pub struct CallMet {
    given: [Given; KINDS.len()],
    /// How often each kind was served by a MAX6957.
    by_ports: [usize; KINDS.len()],
    where_14: Given,
    rows: [usize; rows::KINDS.len()],
    /// After each kind of damage, to a record of either family.
    damaged: [[Given; 2]; spoils::KINDS.len()],
    ports: PortMet,
}

impl CallMet {
    pub fn new() -> CallMet {
        CallMet {
            given: [[0; 15]; KINDS.len()],
            by_ports: [0; KINDS.len()],
            where_14: [0; 15],
            rows: [0; rows::KINDS.len()],
            damaged: [[[0; 15]; 2]; spoils::KINDS.len()],
            ports: PortMet::new(),
        }
    }

    pub fn row(&mut self, row: &[Record]) {
        self.rows[rows::kind_of(row)] += 1;
    }

    /// The number of a call on a damaged row.
    pub fn damage(&mut self, (kind, family): (usize, u8), number: u8) {
        if family <= PORTS {
            self.damaged[kind][usize::from(family)][usize::from(number)] += 1;
        }
    }

    /// A call and the reply to it, by the row before and after.
    pub fn call(&mut self, call: &Call, reply: &Reply, before: &[Record], after: &[Record]) {
        let (kind, number) = (kind_of(call), usize::from(reply.number));
        let index = named_driver(call).map(|driver| driver.wrapping_sub(1));
        let named = index.and_then(|index| after.get(index));
        let family = named.map(|record| record.family);
        self.given[kind][number] += 1;
        self.by_ports[kind] += usize::from(number == 0 && family == Some(PORTS));
        let unknown = after.iter().any(|record| record.family > PORTS);
        let lacked = family.is_some_and(|family| lacks(family, call));
        self.where_14[number] += usize::from(unknown || lacked);
        for (driver, (before, after)) in (1..).zip(before.iter().zip(after)) {
            let before = &before.port_driver;
            self.ports.count(driver, call, reply, before, after);
        }
    }

    /// Counts whether each kind of call gave every number that it may; served, by a MAX6957, refused, with 14.
    pub fn numbers(&self, part: &mut Part, check: usize) -> String {
        let mut counts = Vec::new();
        for (kind, name) in KINDS.into_iter().enumerate() {
            let given = &self.given[kind];
            for number in NUMBERS[kind] {
                part.met(check, &format!("{name}, {number}"), given[*number], 1);
            }
            let (ports, refused) = (self.by_ports[kind], given[1..].iter().sum::<usize>());
            counts.push(format!(
                "{name} {} {ports}/{refused} {}",
                given[0], given[14]
            ));
        }
        let calls: usize = self.given.iter().flatten().sum();
        format!(
            "{calls} calls; served, by a MAX6957/refused, with 14: {}",
            counts.join(", ")
        )
    }

    /// Counts whether all else was met; how often.
    pub fn judged(&self, part: &mut Part, check: usize) -> String {
        let rows: Vec<_> = rows::KINDS.into_iter().zip(self.rows).collect();
        let rows = part.met_each(check, &rows, OFTEN);
        let where_14 = part.given(check, &BEFORE_14, &self.where_14, OFTEN);
        let mut damaged = Vec::new();
        for (kind, name) in spoils::KINDS.into_iter().enumerate() {
            let number = BY_DAMAGE[kind];
            let [old, ports] = self.damaged[kind].map(|given| given[number]);
            part.met(check, &format!("{name} of the old family"), old, OFTEN);
            part.met(check, &format!("{name} of a MAX6957"), ports, OFTEN);
            damaged.push(format!("{name} {number} {old}/{ports}"));
        }
        let ports = self.ports.judged(part, check, OFTEN);
        format!(
            "rows {rows}; where 14 applies {where_14}; damage old/MAX6957: {}; {ports}",
            damaged.join(", ")
        )
    }
}

/// Whether a driver of a family lacks a call.
fn lacks(family: u8, call: &Call) -> bool {
    match call {
        Call::Access { .. }
        | Call::Pins { .. }
        | Call::Interrupt { .. }
        | Call::AnswerMark { .. } => false,
        Call::Ports { .. } => family == OLD,
        _ => family == PORTS,
    }
}
