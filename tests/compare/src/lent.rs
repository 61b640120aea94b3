//! One row lent to both doubles, a guard record on either side, one of each family.

use crate::convert;
use ratchetelm::Device;
use second_double::Record;

pub struct Lent {
    library: Vec<Device>,
    second: Vec<Record>,
}

impl Lent {
    pub fn of(row: &[Record]) -> Lent {
        let guards = [Record::power_up(), Record::port_driver_power_up()];
        let second = [&guards[..1], row, &guards[1..]].concat();
        Lent {
            library: convert::devices(&second),
            second,
        }
    }

    /// The row by the second double, without the guards.
    pub fn row(&self) -> &[Record] {
        &self.second[1..self.second.len() - 1]
    }

    /// The row of each, to be called on.
    pub fn rows(&mut self) -> (&mut [Device], &mut [Record]) {
        let row = 1..self.second.len() - 1;
        (&mut self.library[row.clone()], &mut self.second[row])
    }

    /// The records of each with the guards, the library's first.
    pub fn records(&self) -> [Vec<Record>; 2] {
        [convert::records(&self.library), self.second.clone()]
    }
}
