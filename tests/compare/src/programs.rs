//! The built programs that read a script from standard input, each beside what the second double prints for it.

use crate::convert::hex;
use crate::drafts::Pieces;
use crate::report::{shrink, Lines};
use std::io::Write;
use std::path::{Path, PathBuf};
use std::process::{Command, Output, Stdio};
use std::{env, io, thread};

const BUILT: &str = concat!(env!("CARGO_MANIFEST_DIR"), "/../../target/bin");

pub struct Program {
    name: &'static str,
    path: PathBuf,
    second: fn(&[u8]) -> Vec<u8>,
}

impl Program {
    /// The program that tools/prove panel makes; COMPARE_PANEL names another.
    pub fn panel() -> Program {
        Program::new("panel", "COMPARE_PANEL", second_double::run)
    }

    /// The program that tools/prove report makes; COMPARE_REPORT names another.
    pub fn report() -> Program {
        Program::new("report", "COMPARE_REPORT", second_double::report)
    }

    fn new(name: &'static str, setting: &str, second: fn(&[u8]) -> Vec<u8>) -> Program {
        let built = Path::new(BUILT).join(name);
        Program {
            name,
            path: env::var_os(setting).map_or(built, PathBuf::from),
            second,
        }
    }

    /// What is told where the program isn't there.
    pub fn missing(&self) -> Option<Lines> {
        let (name, path) = (self.name, self.path.display());
        let missing = format!("{path} isn't there: tools/prove {name} makes it");
        (!self.path.is_file()).then(|| vec![(name, missing)])
    }

    /// Runs it. It may end before it has read all of a script that is too long.
    pub fn run(&self, script: &[u8]) -> io::Result<Output> {
        let mut command = Command::new(&self.path);
        command
            .stdin(Stdio::piped())
            .stdout(Stdio::piped())
            .stderr(Stdio::piped());
        let mut child = command.spawn()?;
        let input = child.stdin.take();
        thread::scope(|scope| {
            scope.spawn(move || input.map(|mut input| input.write_all(script)));
            child.wait_with_output()
        })
    }

    /// What the program prints for a script, and the second double.
    pub fn results(&self, pieces: &[Vec<u8>]) -> [Vec<u8>; 2] {
        let script = pieces.concat();
        let ours = match self.run(&script) {
            Ok(output) if output.status.success() && output.stderr.is_empty() => output.stdout,
            Ok(output) => format!("failed: {output:?}").into_bytes(),
            Err(error) => format!("failed: {error}").into_bytes(),
        };
        [ours, (self.second)(&script)]
    }

    /// The records that are needed for a difference, in hex, and what the two print for them.
    pub fn told(&self, pieces: Pieces) -> Lines {
        let pieces = shrink(pieces, |pieces| {
            let [ours, second] = self.results(pieces);
            ours != second
        });
        let [ours, second] = self
            .results(&pieces)
            .map(|lines| String::from_utf8_lossy(&lines).replace('\n', " / "));
        vec![
            ("script", spelled(&pieces)),
            (self.name, ours),
            ("second", second),
        ]
    }
}

/// A script's pieces in hex.
pub fn spelled(pieces: &[Vec<u8>]) -> String {
    let pieces: Vec<String> = pieces.iter().map(|piece| hex(piece)).collect();
    pieces.join(" ")
}
