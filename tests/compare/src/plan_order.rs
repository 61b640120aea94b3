//! How often the planner and its check gave 7, 14 or 12 where a later one of them applies too.

use crate::records::OLD;
use crate::report::Part;
use second_double::Record;

#[derive(Default)]
pub struct Order {
    unsound: usize,
    by_one: usize,
    wanted: usize,
}

impl Order {
    /// The number given for a row and wanted planes.
    pub fn count(&mut self, row: &[Record], wanted: &[u8], number: u8) {
        let others = row.iter().filter(|record| record.family != OLD).count();
        let misfits = wanted.len() != 32 * row.len();
        self.unsound += usize::from(number == 7 && others > 0);
        self.by_one += usize::from(number == 14 && others == 1 && row.len() > 1);
        self.wanted += usize::from(number == 14 && misfits);
    }

    /// Counts whether all was met; how often.
    pub fn judged(&self, part: &mut Part, check: usize, often: usize) -> String {
        let counts = [
            ("7 where 14 applies", self.unsound),
            ("14 by one driver of several", self.by_one),
            ("14 where 12 applies", self.wanted),
        ];
        part.met_each(check, &counts, often)
    }
}
