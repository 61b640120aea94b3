//! What lists of calls on a two-wire bus met.

use crate::report::Part;
use crate::rows;
use second_double::Record;

/// The numbers that a bus may be refused with throughout, and 0.
const GIVEN: [u8; 4] = [0, 10, 11, 14];

/// Own calls on rows of each kind, and buses of each number, are met so often.
const OFTEN: usize = 500;

/// Lone parts and their own calls by what their rows are of, and calls of the bus by the number that it gives throughout.
#[derive(Default)]
pub struct Met {
    parts: [usize; rows::KINDS.len()],
    own: [usize; rows::KINDS.len()],
    given: [usize; 15],
}

impl Met {
    /// A list on a row: the number of its calls of the bus, how many they are, and how many calls were a part's own.
    pub fn count(&mut self, row: &[Record], number: u8, bus_calls: usize, own: usize) {
        let kind = rows::kind_of(row);
        self.parts[kind] += row.len();
        self.own[kind] += own;
        self.given[usize::from(number)] += bus_calls;
    }

    /// Counts whether all was met; how often. No row has an unknown family.
    pub fn judged(&self, part: &mut Part, check: usize) -> String {
        let mut rows = Vec::new();
        for (kind, name) in rows::KINDS.into_iter().enumerate().take(3) {
            let (parts, own) = (self.parts[kind], self.own[kind]);
            part.met(check, &format!("own calls on rows of {name}"), own, OFTEN);
            rows.push(format!("{name} {parts} {own}"));
        }
        let given = part.given(check, &GIVEN, &self.given, OFTEN);
        format!(
            "lone parts and their own calls by row: {}; calls of the bus by number {given}",
            rows.join(", ")
        )
    }
}
