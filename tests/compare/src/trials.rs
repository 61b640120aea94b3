//! A program on scripts made by hand and on random ones, beside the second double.

use crate::by_hand;
use crate::drafts::Pieces;
use crate::programs::Program;
use crate::report::Part;
use std::collections::BTreeMap;

/// The checks.
const BY_HAND: usize = 0;
const BY_CHANCE: usize = 1;
const LINES: usize = 2;

/// A trial of a program: the random scripts by seed and case, and the kinds of lines that have to be printed.
pub struct Trial {
    pub name: &'static str,
    pub program: Program,
    pub draft: fn(u64, usize) -> Pieces,
    pub kind: fn(&str) -> String,
    pub kinds: &'static [&'static str],
}

/// The part, and how many lines of each kind were printed.
struct Count {
    part: Part,
    printed: BTreeMap<String, usize>,
}

impl Trial {
    /// A check of the scripts by hand, one of the random ones, one that every kind of line was printed.
    pub fn compare(&self, seed: u64, cases: usize) -> Part {
        let mut count = Count {
            part: Part::new(self.name, seed, &["by hand", "random", "lines"]),
            printed: BTreeMap::new(),
        };
        if let Some(missing) = self.program.missing() {
            count.part.count(BY_HAND, 0, Some(missing));
            count.part.end("none run");
            return count.part;
        }
        for (case, script) in by_hand::scripts().enumerate() {
            self.run(&mut count, BY_HAND, case, vec![script]);
        }
        for case in 0..cases {
            self.run(&mut count, BY_CHANCE, case, (self.draft)(seed, case));
        }
        count.end(self.kinds);
        count.part
    }

    /// Runs one script, unless there have been differences enough.
    fn run(&self, count: &mut Count, check: usize, case: usize, pieces: Pieces) {
        if count.part.enough() {
            return;
        }
        let [ours, second] = self.program.results(&pieces);
        for line in String::from_utf8_lossy(&second).lines() {
            *count.printed.entry((self.kind)(line)).or_default() += 1;
        }
        let difference = (ours != second).then(|| self.program.told(pieces));
        count.part.count(check, case, difference);
    }
}

impl Count {
    fn end(&mut self, kinds: &[&str]) {
        let stopped = self.part.enough();
        for kind in kinds.iter().filter(|_| !stopped) {
            let never = vec![("line", format!("{kind} was never printed"))];
            let printed = self.printed.contains_key(*kind);
            self.part.count(LINES, 0, (!printed).then_some(never));
        }
        let lines = self
            .printed
            .iter()
            .map(|(kind, count)| format!(", {kind} {count}"));
        let [by_hand, by_chance] = [BY_HAND, BY_CHANCE].map(|check| self.part.checks[check].cases);
        let lines = String::from_iter(lines);
        self.part.end(&format!(
            "{by_hand} by hand, {by_chance} random; lines{lines}"
        ));
    }
}
