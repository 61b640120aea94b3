//! A part alone on a two-wire bus (request 3): which calls of a list are its own, told by their arguments alone.

use crate::bus::{straps_number, Bus, BusCall, Straps};
use crate::calls::{named_driver, to_driver, Call};
use crate::numbers::{any_lacks_number, chain_length_bad, number_alone};

/// A call of a list: one of the bus, or another that names a part.
#[derive(Clone, Debug, PartialEq, Eq)]
pub enum Step {
    Bus(BusCall),
    Other(Call),
}

/// Part i of a row of these families on a bus with these straps.
pub struct LonePart {
    pub families: Vec<u8>,
    pub i: usize,
    pub straps: Straps,
}

/// Whether the open transaction names the part. It knows no phase: fresh is before its slave byte.
#[derive(Clone, Copy)]
enum Turn {
    Closed,
    Fresh,
    Ours,
}

impl LonePart {
    /// The bus state that the part alone begins in: as given where that names none, its own phase, or idle where it is another's.
    pub fn view(&self, bus: Bus) -> Bus {
        match bus.part {
            0 => bus,
            part if part == self.i => Bus { part: 1, ..bus },
            _ => Bus { part: 0, phase: 0 },
        }
    }

    /// The accepted calls that are the part's own, each with its place in the list, as part 1 is given them.
    pub fn own(&self, bus: Bus, list: &[Step]) -> Vec<(usize, Step)> {
        let mut turn = self.first_turn(bus);
        let mut own = Vec::new();
        for (place, step) in list.iter().enumerate() {
            if !self.accepted(step) {
                continue;
            }
            if self.owns(turn, &list[place..]) {
                own.push((place, alone(step)));
            }
            turn = self.next_turn(turn, step);
        }
        own
    }

    /// The number of a call is 0 by its arguments and the families; records and bus state are sound.
    fn accepted(&self, step: &Step) -> bool {
        match step {
            Step::Bus(_) => self.bus_accepted(),
            Step::Other(call) => number_alone(&self.families, call) == 0,
        }
    }

    /// Starts, bytes and stops are refused for the row, the straps or a driver that has no such bus.
    fn bus_accepted(&self) -> bool {
        let n = self.families.len();
        !chain_length_bad(n)
            && straps_number(n, &self.straps) == 0
            && any_lacks_number(&self.families) == 0
    }

    fn first_turn(&self, bus: Bus) -> Turn {
        match (bus.part, bus.phase) {
            (0, 1) => Turn::Fresh,
            (part, _) if part == self.i => Turn::Ours,
            _ => Turn::Closed,
        }
    }

    fn next_turn(&self, turn: Turn, step: &Step) -> Turn {
        match (turn, step) {
            (_, Step::Bus(BusCall::Start)) => Turn::Fresh,
            (_, Step::Bus(BusCall::Stop)) => Turn::Closed,
            (Turn::Fresh, Step::Bus(BusCall::Write(byte))) if self.addressed(*byte) => Turn::Ours,
            (Turn::Fresh, Step::Bus(BusCall::Write(_))) => Turn::Closed,
            _ => turn,
        }
    }

    fn addressed(&self, slave_byte: u8) -> bool {
        self.straps[self.i - 1] == slave_byte / 2
    }

    /// Whether the first of these calls is the part's: a start is of the transaction that it opens.
    fn owns(&self, turn: Turn, list: &[Step]) -> bool {
        match &list[0] {
            Step::Bus(BusCall::Start) => self.named(&list[1..]),
            Step::Bus(_) => match turn {
                Turn::Closed => false,
                Turn::Fresh => self.named(list),
                Turn::Ours => true,
            },
            Step::Other(call) => named_driver(call) == Some(self.i),
        }
    }

    /// Whether the slave byte that comes next names the part, before a start or a stop.
    fn named(&self, list: &[Step]) -> bool {
        for step in list.iter().filter(|step| self.accepted(step)) {
            match step {
                Step::Bus(BusCall::Start | BusCall::Stop) => return false,
                Step::Bus(BusCall::Write(byte)) => return self.addressed(*byte),
                Step::Bus(BusCall::Read) | Step::Other(_) => {}
            }
        }
        false
    }
}

/// A call as the part alone is given it: it is part 1.
fn alone(step: &Step) -> Step {
    match step {
        Step::Bus(call) => Step::Bus(*call),
        Step::Other(call) => Step::Other(to_driver(call, 1)),
    }
}
