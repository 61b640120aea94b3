//! What a part of the comparison counts and prints.

/// A part stops after this many differences.
const ENOUGH: usize = 5;

/// No line of a difference is longer.
const WIDEST: usize = 6000;

/// A case is made shorter in at most so many tries.
const TRIES: usize = 400;

/// A case that differs: what it is and the two results, each line by its name.
pub type Lines = Vec<(&'static str, String)>;

/// One check: its cases and those that differ.
pub struct Check {
    pub name: String,
    pub cases: usize,
    pub differ: usize,
}

impl Check {
    pub fn holds(&self) -> bool {
        self.cases > 0 && self.differ == 0
    }
}

/// A part of the comparison with its checks.
pub struct Part {
    name: &'static str,
    pub seed: u64,
    pub checks: Vec<Check>,
}

impl Part {
    pub fn new(name: &'static str, seed: u64, checks: &[&str]) -> Part {
        let checks = checks.iter().map(|check| Check {
            name: format!("{name}, {check}"),
            cases: 0,
            differ: 0,
        });
        Part {
            name,
            seed,
            checks: checks.collect(),
        }
    }

    /// Counts a case of a check, and prints it where it differs.
    pub fn count(&mut self, check: usize, case: usize, difference: Option<Lines>) {
        self.checks[check].cases += 1;
        let Some(lines) = difference else { return };
        self.checks[check].differ += 1;
        println!(
            "DIFFERENCE in {}: seed {}, case {case}",
            self.checks[check].name, self.seed
        );
        for (name, line) in lines {
            println!("  {name}: {}", cut(&line));
        }
    }

    /// Counts whether something was met often enough, unless the part stopped early.
    pub fn met(&mut self, check: usize, what: &str, times: usize, least: usize) {
        if !self.enough() {
            let seldom = format!("{what}: met {times} times, not {least}");
            let difference = (times < least).then(|| vec![("case", seldom)]);
            self.count(check, 0, difference);
        }
    }

    /// Counts whether each of these was met often enough; how often each was.
    pub fn met_each(&mut self, check: usize, counts: &[(&str, usize)], least: usize) -> String {
        let mut told = Vec::new();
        for (what, times) in counts {
            self.met(check, what, *times, least);
            told.push(format!("{what} {times}"));
        }
        told.join(", ")
    }

    /// Counts whether each number was given often enough; how often each was.
    pub fn given(&mut self, check: usize, numbers: &[u8], given: &[usize], least: usize) -> String {
        let mut counts = Vec::new();
        for number in numbers {
            let times = given[usize::from(*number)];
            self.met(check, &format!("number {number}"), times, least);
            counts.push(format!("{number} {times}"));
        }
        counts.join(", ")
    }

    /// Whether there have been differences enough.
    pub fn enough(&self) -> bool {
        self.checks.iter().map(|check| check.differ).sum::<usize>() >= ENOUGH
    }

    /// Prints the part's line and its failed checks.
    pub fn end(&self, counts: &str) {
        println!("{}: {counts}", self.name);
        for check in self.checks.iter().filter(|check| !check.holds()) {
            println!(
                "FAILED: {}: {} of {} differ",
                check.name, check.differ, check.cases
            );
        }
    }
}

fn cut(line: &str) -> String {
    match line.get(..WIDEST) {
        Some(start) if line.len() > WIDEST => format!("{start}.. ({} in all)", line.len()),
        _ => line.to_string(),
    }
}

/// Leaves items out as long as the rest still differ, within so many tries.
pub fn shrink<T: Clone>(mut items: Vec<T>, differ: impl Fn(&[T]) -> bool) -> Vec<T> {
    let (mut size, mut tries) = (items.len(), 0);
    while size > 0 {
        let mut at = 0;
        while at < items.len() && tries < TRIES {
            tries += 1;
            let end = items.len().min(at + size);
            let fewer = [&items[..at], &items[end..]].concat();
            if differ(&fewer) {
                items = fewer;
            } else {
                at = end;
            }
        }
        size /= 2;
    }
    items
}
