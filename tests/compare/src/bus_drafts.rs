//! Random two-wire buses: straps, bus states, and lists of calls that are mostly whole transactions.

use crate::convert::hex;
use crate::kinds::spelled;
use crate::random::Random;
use crate::report::Lines;
use crate::words;
use second_double::{Bus, BusCall, Call, Step, Straps};

/// Straps of which the first n are distinct and at most 127, often the maker's or the ends; the others are any.
pub fn straps(random: &mut Random, n: usize) -> Straps {
    let mut straps = [(); 16].map(|()| random.byte());
    for k in 0..n.min(16) {
        while straps[k] > 127 || straps[..k].contains(&straps[k]) {
            let any = random.byte() % 128;
            straps[k] = random.pick(&[any, 0x60 + any % 16, 0, 127]);
        }
    }
    straps
}

/// Two of the first n alike, one of them above 127, or both.
pub fn damage_straps(random: &mut Random, n: usize, straps: &mut Straps) {
    let [one, other] = [(); 2].map(|()| random.below(n.clamp(1, 16)));
    let high = random.pick(&[128, 200, 255, straps[one] | 0x80]);
    match random.below(4) {
        0 => straps[one] = high,
        1 => straps[one] = straps[other],
        2 => [straps[one], straps[other]] = [high; 2],
        _ => {
            let third = random.below(n.clamp(1, 16));
            [straps[one], straps[other]] = [straps[third], high];
        }
    }
}

/// A sound bus state of n parts.
pub fn bus(random: &mut Random, n: usize) -> Bus {
    Bus {
        part: random.below(n + 1),
        phase: random.byte() % 3,
    }
}

/// One that names a part above n, or has a phase above 2.
pub fn damaged_bus(random: &mut Random, n: usize) -> Bus {
    let Bus { part, phase } = bus(random, n);
    let high = random
        .pick(&[n + 1, 17, 1 << 32 | part, usize::MAX])
        .max(n + 1);
    match random.below(2) {
        0 => Bus { part: high, phase },
        _ => Bus {
            part,
            phase: random.pick(&[3, 4, 128, 255]),
        },
    }
}

/// At least so many calls: transactions, with odd calls of the bus and others between.
pub fn list(
    random: &mut Random,
    families: &[u8],
    straps: &Straps,
    length: usize,
    other: impl Fn(&mut Random, &[u8]) -> Call,
) -> Vec<Step> {
    let (n, mut list) = (families.len(), Vec::new());
    while list.len() < length {
        for call in phrase(random, n, straps) {
            list.push(Step::Bus(call));
            if random.one_in(12) {
                list.push(Step::Bus(odd(random, n, straps)));
            }
            if random.one_in(5) {
                list.push(Step::Other(other(random, families)));
            }
        }
    }
    list
}

/// A transaction, often cut short or without a stop, or some odd calls.
fn phrase(random: &mut Random, n: usize, straps: &Straps) -> Vec<BusCall> {
    let slave = slave_byte(random, n, straps) & 0xFE;
    let [command, data] = words::word(random);
    let to = [
        BusCall::Start,
        BusCall::Write(slave),
        BusCall::Write(command),
    ];
    let from = [BusCall::Start, BusCall::Write(slave | 1)];
    let reads = vec![BusCall::Read; random.below(6)];
    let mut phrase = match random.below(8) {
        0..=2 => {
            let more = (0..random.below(4))
                .map(|_| random.byte())
                .collect::<Vec<u8>>();
            let data = [&[data], &more[..]].concat();
            [
                &to[..],
                &data.into_iter().map(BusCall::Write).collect::<Vec<_>>(),
            ]
            .concat()
        }
        3 => [&from[..], &reads].concat(),
        4 | 5 => [&to[..], &from, &reads].concat(),
        _ => (0..1 + random.below(3))
            .map(|_| odd(random, n, straps))
            .collect(),
    };
    if random.one_in(6) {
        phrase.truncate(1 + random.below(phrase.len()));
    }
    if random.one_in(2) {
        phrase.push(BusCall::Stop);
    }
    phrase
}

/// Mostly of one of the n parts; otherwise of one past them, or any.
fn slave_byte(random: &mut Random, n: usize, straps: &Straps) -> u8 {
    let parts = match random.below(8) {
        0 => return random.byte(),
        1 => 16,
        _ => n.clamp(1, 16),
    };
    straps[random.below(parts)].wrapping_mul(2) + random.byte() % 2
}

/// A call of the bus wherever it may stand.
fn odd(random: &mut Random, n: usize, straps: &Straps) -> BusCall {
    match random.below(5) {
        0 => BusCall::Start,
        1 => BusCall::Stop,
        2 => BusCall::Read,
        3 => BusCall::Write(slave_byte(random, n, straps)),
        _ => BusCall::Write(random.byte()),
    }
}

/// A bus state, its straps and the calls of a list in words.
pub fn told(bus: Bus, straps: &Straps, list: &[Step]) -> Lines {
    let mut lines = vec![
        ("bus", format!("part {}, phase {}", bus.part, bus.phase)),
        ("straps", hex(straps)),
    ];
    lines.extend(list.iter().map(|step| ("call", step_text(step))));
    lines
}

fn step_text(step: &Step) -> String {
    match step {
        Step::Bus(BusCall::Write(byte)) => format!("write {byte:02X}"),
        Step::Bus(call) => format!("{call:?}").to_lowercase(),
        Step::Other(call) => spelled(call),
    }
}
