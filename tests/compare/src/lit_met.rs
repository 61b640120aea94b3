//! What the scripts of lit times met.

use crate::report::Part;
use second_double::{by_clock, by_quarter, clocks_given, Call, Given, LitTime, Script};
use std::collections::BTreeMap;

/// The numbers that may be given.
const NUMBERS: [u8; 4] = [0, 1, 5, 9];

/// Whatever was met was met so often.
const OFTEN: usize = 40;

#[derive(Default)]
pub struct Met {
    given: [usize; 10],
    kinds: BTreeMap<&'static str, usize>,
}

impl Met {
    /// A script, what is given for it, and the room after that.
    pub fn count(&mut self, bytes: &[u8], answer: LitTime, room: &[u64]) {
        self.given[usize::from(answer.number)] += 1;
        match (answer.number, Script::read(bytes)) {
            (0, Ok(script)) => self.served(&script, room.split_at(8 * answer.drivers)),
            (1, _) => self.add("1 where 5 applies", room.len() < 8 * usize::from(bytes[5])),
            (9, _) => self.add("9 where 1 applies", Script::read(&bytes[..6]).is_err()),
            _ => {}
        }
    }

    fn served(&mut self, script: &Script, (totals, after): (&[u64], &[u64])) {
        self.add("exact room", after.is_empty());
        self.add("room to spare", !after.is_empty());
        for total in totals {
            self.add("total above 0", *total > 0);
            self.add("total above 32 bits", *total > u64::from(u32::MAX));
        }
        self.add("over 4 drivers", script.n > 4);
        let asked = script.calls.iter();
        let clocks = asked.filter(|call| matches!(call, Call::Clocks { .. }));
        let given = clocks_given(script);
        self.add("refused clocks", given.len() < clocks.count());
        self.add(
            "stopped after lit clocks",
            script.stops && given.iter().any(lit),
        );
        for given in given.iter().filter(|given| given.clocks > 0) {
            self.clocks(given);
        }
    }

    /// One or more clocks. They blink where not all of them shine like the first.
    fn clocks(&mut self, given: &Given) {
        let (record, clocks) = (&given.before, given.clocks);
        let like_first = by_clock(record, 1).map(|total| total * u64::from(clocks));
        let blinks = by_quarter(record, clocks) != like_first;
        self.add("blinking slow", blinks && record.b == 0);
        self.add("blinking fast", blinks && record.b == 1);
        self.add("blinking within 5 clocks", blinks && clocks <= 5);
        let lit = lit(given);
        self.add("dark", !lit);
        self.add("display test", record.test == 1);
        self.add("own nibbles", lit && record.test == 0 && record.i == 1);
        self.add("14 segments", lit && record.types > 0);
        self.add("31 bits of clocks", lit && clocks >= 1 << 31);
    }

    fn add(&mut self, kind: &'static str, holds: bool) {
        *self.kinds.entry(kind).or_default() += usize::from(holds);
    }

    /// Counts whether all was met; how often.
    pub fn judged(&self, part: &mut Part, check: usize) -> String {
        let numbers = part.given(check, &NUMBERS, &self.given, OFTEN);
        let kinds: Vec<(&str, usize)> = self.kinds.clone().into_iter().collect();
        let kinds = part.met_each(check, &kinds, OFTEN);
        format!("numbers {numbers}; {kinds}")
    }
}

/// Whether the first clock adds to a total.
fn lit(given: &Given) -> bool {
    given.clocks > 0 && by_clock(&given.before, 1) != [0; 8]
}
