//! The lone driver ("Demand 3's list and lone driver").

use crate::calls::{named_driver, serve, Call};
use crate::numbers::number_alone;
use crate::record::Record;
use crate::registers::obey;

/// Driver i of a row, alone with its record and told the row's families.
pub struct Lone {
    pub record: Record,
    families: Vec<u8>,
    i: usize,
}

impl Lone {
    /// Driver `driver` of a row of these families, driver 1's first, with the driver's own record.
    pub fn new(families: &[u8], driver: usize, record: Record) -> Lone {
        Lone {
            record,
            families: families.to_vec(),
            i: driver,
        }
    }

    /// Hears a call's arguments; what this driver answers, if it does. Accepted is number 0, all records being sound.
    pub fn hear(&mut self, call: &Call) -> Option<Vec<u8>> {
        let there = self.i > 0 && self.i <= self.families.len();
        if !there || number_alone(&self.families, call) != 0 {
            return None;
        }
        if let Call::Access { clocks, sent, .. } = call {
            return self.hear_access(*clocks, sent);
        }
        if named_driver(call) != Some(self.i) {
            return None;
        }
        let answer = serve(&mut self.record, call);
        (!answer.is_empty()).then_some(answer)
    }

    /// Of the n words sent the first is driver n's, the last driver 1's; lists hold no other length.
    fn hear_access(&mut self, clocks: usize, sent: &[u8]) -> Option<Vec<u8>> {
        let n = self.families.len();
        if clocks != 16 * n {
            return None;
        }
        let answered = self.record.shift;
        let first = 2 * (n - self.i);
        let word = u16::from_be_bytes([sent[first], sent[first + 1]]);
        obey(&mut self.record, word);
        Some(answered.to_be_bytes().to_vec())
    }
}
