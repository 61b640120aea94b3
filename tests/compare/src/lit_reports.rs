//! Scripts through the report program and through the second double.

use crate::lit_drafts::draft;
use crate::programs::Program;
use crate::report::Part;
use crate::trials::Trial;

const RANDOM: usize = 900;

/// The lines that reports have.
const KINDS: [&str; 4] = ["lit", "dark", "R 1", "R 9"];

/// The part: the report program's trial.
pub fn compare(seed: u64, times: usize) -> Part {
    let trial = Trial {
        name: "reports",
        program: Program::report(),
        draft,
        kind,
        kinds: &KINDS,
    };
    trial.compare(seed, RANDOM * times)
}

/// The kind of a line: a refusal whole, another by its total.
fn kind(line: &str) -> String {
    let words: Vec<&str> = line.split(' ').collect();
    match words[..] {
        ["R", _] => line.to_string(),
        [_, _, "0"] => "dark".to_string(),
        _ => "lit".to_string(),
    }
}
