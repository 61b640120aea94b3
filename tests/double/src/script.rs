//! A script as its calls, and what the panel program prints for it ("Script program").

use crate::calls::{call, Call};
use crate::numbers::chain_length_bad;
use crate::record::Record;
use crate::wire::bytes_needed;

/// Number 9 is given to a longer script.
const LONGEST: usize = 65_536;

/// The chain of a script that doesn't begin with a chain record, or whose first record gives 8.
const ASSUMED_CHAIN: usize = 4;

/// One record of a script: its kind, its body and the bytes after it.
type Entry<'a> = (u8, &'a [u8], &'a [u8]);

/// A script that runs: the length of its chain, its calls in order, and whether 8 stops it after them.
pub struct Script {
    pub n: usize,
    pub calls: Vec<Call>,
    pub stops: bool,
}

impl Script {
    /// The script of these bytes, or the number that precludes a run: 9, then 1.
    pub fn read(bytes: &[u8]) -> Result<Script, u8> {
        if bytes.len() > LONGEST {
            return Err(9);
        }
        let (n, mut rest) = match first_entry(bytes) {
            Some((1, body, after)) => (usize::from(body[0]), after),
            _ => (ASSUMED_CHAIN, bytes),
        };
        if chain_length_bad(n) {
            return Err(1);
        }
        let mut calls = Vec::new();
        while let Some((kind @ 2.., body, after)) = first_entry(rest) {
            calls.push(call_of(kind, body));
            rest = after;
        }
        let stops = !rest.is_empty();
        Ok(Script { n, calls, stops })
    }

    /// Its chain at power-up.
    pub fn chain(&self) -> Vec<Record> {
        vec![Record::power_up(); self.n]
    }

    fn lines(&self) -> String {
        let mut chain = self.chain();
        let mut lines = format!("chain {}\n", self.n);
        for asked in &self.calls {
            lines.push_str(&line(&mut chain, asked));
        }
        if self.stops {
            lines.push_str(&refusal_line(8));
        }
        lines
    }
}

/// The lines printed for this standard input.
pub fn run(script: &[u8]) -> Vec<u8> {
    let lines = match Script::read(script) {
        Ok(script) => script.lines(),
        Err(number) => refusal_line(number),
    };
    lines.into_bytes()
}

pub fn refusal_line(number: u8) -> String {
    format!("R {number}\n")
}

/// The first record, or none where 8 is given: mark, kind, cut, length.
fn first_entry(script: &[u8]) -> Option<Entry<'_>> {
    if script.len() < 5 || script[0] != 0x5A || script[1] != 0xC3 {
        return None;
    }
    let kind = script[2];
    let length = usize::from(script[3]) * 256 + usize::from(script[4]);
    let fits = match kind {
        1 => length == 1,
        2 => length >= 2,
        3 | 5 => length == 5,
        4 | 6 => length == 2,
        _ => false,
    };
    let after = &script[5..];
    if !fits || after.len() < length {
        return None;
    }
    let (body, rest) = after.split_at(length);
    Some((kind, body, rest))
}

/// The call of a record of kind 2 to 6, whose body length fits.
fn call_of(kind: u8, body: &[u8]) -> Call {
    let driver = usize::from(body[0]);
    match kind {
        2 => access_of(
            usize::from(body[0]) * 256 + usize::from(body[1]),
            &body[2..],
        ),
        3 => Call::Scan {
            driver,
            keys: [body[1], body[2], body[3], body[4]],
        },
        4 => Call::Pins {
            driver,
            levels: u32::from(body[1]),
        },
        5 => Call::Clocks {
            driver,
            clocks: u32::from_be_bytes([body[1], body[2], body[3], body[4]]),
        },
        _ => Call::Segments {
            driver,
            cathode: usize::from(body[1]),
            font14: test_table(),
            font16: test_table(),
        },
    }
}

/// An access with room for all its answer bytes.
fn access_of(clocks: usize, bits: &[u8]) -> Call {
    Call::Access {
        clocks,
        sent: bits.to_vec(),
        room: vec![0; bytes_needed(clocks)],
    }
}

/// Entry k is 257 times k.
pub fn test_table() -> Vec<u16> {
    (0..128).map(|k| 257 * k).collect()
}

/// The line of one call; empty for a served scan, pins or clocks.
fn line(chain: &mut [Record], asked: &Call) -> String {
    let reply = call(chain, asked);
    if reply.number != 0 {
        return refusal_line(reply.number);
    }
    match asked {
        Call::Access { .. } if reply.back.is_empty() => "A\n".to_string(),
        Call::Access { .. } => format!("A {}\n", hexadecimal(&reply.back)),
        Call::Segments { driver, .. } => {
            let pins = letters(&reply.back);
            format!("S {pins} {}\n", mark_letter(chain, *driver))
        }
        _ => String::new(),
    }
}

/// The end of a show line: `f` where the shown driver's answer mark is set, otherwise `s`.
fn mark_letter(chain: &mut [Record], driver: usize) -> char {
    if call(chain, &Call::AnswerMark { driver }).back == [1] {
        'f'
    } else {
        's'
    }
}

/// Upper-case hex in whole bytes.
fn hexadecimal(bytes: &[u8]) -> String {
    bytes.iter().map(|byte| format!("{byte:02X}")).collect()
}

/// One letter a pin, O0 first.
fn letters(pins: &[u8]) -> String {
    pins.iter()
        .map(|pin| match pin {
            1 => 'C',
            2 => '1',
            3 => '0',
            _ => '-',
        })
        .collect()
}
