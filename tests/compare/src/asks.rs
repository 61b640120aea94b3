//! Random calls to drivers of either family, with long, short and damaged arguments.

use crate::looks;
use crate::port_words;
use crate::random::Random;
use crate::records::PORTS;
use crate::rows;
use crate::words;
use second_double::Call;

/// A call on a row of these families, mostly one that is served.
pub fn call(random: &mut Random, families: &[u8]) -> Call {
    match random.below(5) {
        0 | 1 => access(random, families),
        _ => other(random, families),
    }
}

/// One that isn't an access; to a MAX6957 mostly one that it has.
pub fn other(random: &mut Random, families: &[u8]) -> Call {
    let driver = driver(random, families.len());
    let ports = rows::family(families, driver) == Some(PORTS);
    if ports && !random.one_in(4) {
        return had_by_ports(random, driver);
    }
    match random.below(9) {
        0 | 1 => Call::Scan {
            driver,
            keys: words::keys(random),
        },
        2 => pins(random, driver, ports),
        3 => Call::Clocks {
            driver,
            clocks: words::master_clocks(random),
        },
        4 => plane(random, driver),
        5 => segments(random, driver),
        6 => Call::Brightness {
            driver,
            digit: within(random, 16, usize::MAX),
        },
        7 => look_back(random, driver),
        _ => flag(random, driver),
    }
}

/// A question with a driver alone, seldom that of a MAX6957.
fn flag(random: &mut Random, driver: usize) -> Call {
    match random.below(31) {
        0..=9 => Call::Shown { driver },
        10..=19 => Call::Interrupt { driver },
        20..=29 => Call::AnswerMark { driver },
        _ => Call::Ports { driver },
    }
}

/// A call that a MAX6957 has.
fn had_by_ports(random: &mut Random, driver: usize) -> Call {
    match random.below(8) {
        0..=3 => pins(random, driver, true),
        4 | 5 => Call::Ports { driver },
        6 => Call::Interrupt { driver },
        _ => Call::AnswerMark { driver },
    }
}

/// Pin levels for the driver's family, seldom for the other.
fn pins(random: &mut Random, driver: usize, ports: bool) -> Call {
    let levels = if ports != random.one_in(24) {
        port_words::levels(random)
    } else {
        within(random, 32, u32::MAX as usize) as u32
    };
    Call::Pins { driver, levels }
}

/// Mostly below n; otherwise n, the largest, or a number that looks small in its low half.
fn within(random: &mut Random, n: usize, largest: usize) -> usize {
    match random.below(40) {
        0 => n,
        1 => largest,
        2 => (1 << 32 | random.below(n)) & largest,
        3 => random.number() as usize & largest,
        _ => random.below(n),
    }
}

/// A driver in 1..n, sometimes another.
fn driver(random: &mut Random, n: usize) -> usize {
    within(random, n.max(1), usize::MAX).wrapping_add(1)
}

/// A length: mostly the one given, otherwise one less, more, or none.
fn length(random: &mut Random, exact: usize) -> usize {
    match random.below(24) {
        0 => exact.saturating_sub(1),
        1 => exact + 1,
        2 => 0,
        3..=7 => exact + random.below(9),
        _ => exact,
    }
}

fn access(random: &mut Random, families: &[u8]) -> Call {
    let clocks = match random.below(60) {
        0 => usize::MAX - random.below(9),
        1 => 1 << 32 | random.below(4097),
        _ => words::clocks(random, families.len()),
    };
    let needed = clocks.min(4104).div_ceil(8);
    let (sent, room) = (length(random, needed), length(random, needed));
    Call::Access {
        clocks,
        sent: words::bits_to(random, families, sent),
        room: random.bytes(room),
    }
}

fn plane(random: &mut Random, driver: usize) -> Call {
    let ends = [(); 2].map(|()| within(random, 16, usize::MAX));
    let (mut first, mut last) = (ends[0].min(ends[1]), ends[0].max(ends[1]));
    if random.one_in(12) {
        (first, last) = (last, first);
    }
    let (l0, l1) = (table_length(random, 16), table_length(random, 16));
    Call::Plane {
        driver,
        p0: random.bytes(l0),
        p1: random.bytes(l1),
        first,
        last,
    }
}

fn segments(random: &mut Random, driver: usize) -> Call {
    Call::Segments {
        driver,
        cathode: within(random, 8, usize::MAX),
        font14: font(random),
        font16: font(random),
    }
}

fn look_back(random: &mut Random, driver: usize) -> Call {
    let (plane, digit) = (
        within(random, 2, usize::MAX),
        within(random, 16, usize::MAX),
    );
    let length = random.below(30);
    Call::LookBack {
        driver,
        plane,
        digit,
        words: looks::list(random, plane % 2, (digit % 16) as u8, length),
    }
}

fn font(random: &mut Random) -> Vec<u16> {
    let length = table_length(random, 128);
    (0..length).map(|_| random.number() as u16).collect()
}

/// Mostly the length that a plane or table must have.
fn table_length(random: &mut Random, exact: usize) -> usize {
    match random.below(60) {
        0 => exact - 1,
        1 => exact + 1,
        2 => 0,
        _ => exact,
    }
}
