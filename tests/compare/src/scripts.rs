//! Scripts through the panel program and through the second double.

use crate::damage::damage;
use crate::drafts::{lengthen, script, Pieces};
use crate::programs::Program;
use crate::random::Random;
use crate::report::Part;
use crate::trials::Trial;

const RANDOM: usize = 10_000;

/// The lines that scripts print, by how they begin; shows by their mark too.
const KINDS: [&str; 11] = [
    "chain", "A", "S f", "S s", "R 1", "R 2", "R 3", "R 4", "R 6", "R 8", "R 9",
];

/// The part: the panel program's trial.
pub fn compare(seed: u64, times: usize) -> Part {
    let trial = Trial {
        name: "scripts",
        program: Program::panel(),
        draft,
        kind,
        kinds: &KINDS,
    };
    trial.compare(seed, RANDOM * times)
}

/// The kind of a line: a refusal whole, a show by its mark, another by its first word.
fn kind(line: &str) -> String {
    let words: Vec<&str> = line.split(' ').collect();
    match words[..] {
        ["S", _, mark] => format!("S {mark}"),
        ["R", _] => line.to_string(),
        _ => words[0].to_string(),
    }
}

/// A random script: one in three damaged, some as long as a script may be or longer.
fn draft(seed: u64, case: usize) -> Pieces {
    let mut random = Random::of(seed, "scripts", case);
    let (n, mut pieces) = script(&mut random);
    lengthen(&mut random, case, n, &mut pieces);
    if random.one_in(3) {
        damage(&mut random, &mut pieces);
    }
    pieces
}
