//! A made-up list of calls: the row, mixed or not, and its lone drivers agree, and no call panics.

use second_double::{call, run, Call, Lone, PortDriver, Record, Reply};

/// A small repeatable source of numbers.
struct Source(u64);

impl Source {
    fn below(&mut self, limit: usize) -> usize {
        self.0 = self
            .0
            .wrapping_mul(6_364_136_223_846_793_005)
            .wrapping_add(1);
        ((self.0 >> 33) as usize) % limit
    }

    fn bytes(&mut self, count: usize) -> Vec<u8> {
        (0..count).map(|_| self.below(256) as u8).collect()
    }

    fn table(&mut self) -> Vec<u16> {
        (0..128).map(|_| self.below(65_536) as u16).collect()
    }
}

/// First bytes of words that reach a MAX6957's configuration, mask, watched ports and INT.
const WATCHING: [u8; 12] = [
    0x04, 0x84, 0x06, 0x86, 0x0E, 0x0F, 0x38, 0x3B, 0x58, 0xB8, 0xD8, 0x07,
];

fn any_access(source: &mut Source, n: usize) -> Call {
    let mut sent = source.bytes(2 * n);
    for high in sent.iter_mut().step_by(2) {
        *high = match source.below(4) {
            0 | 1 => *high % 0x90,
            2 => WATCHING[source.below(12)],
            _ => *high,
        };
    }
    Call::Access {
        clocks: 16 * n,
        sent,
        room: vec![7; 2 * n],
    }
}

fn any_call(source: &mut Source, n: usize) -> Call {
    let driver = source.below(n + 2);
    match source.below(18) {
        0..=3 => any_step(source, driver),
        4..=12 => any_question(source, driver),
        _ => any_access(source, n),
    }
}

fn any_step(source: &mut Source, driver: usize) -> Call {
    match source.below(4) {
        0 => Call::Scan {
            driver,
            keys: [source.below(4) as u8; 4],
        },
        1 => Call::Pins {
            driver,
            levels: source.below(34) as u32,
        },
        2 => Call::Pins {
            driver,
            levels: source.below(0x1200_0000) as u32,
        },
        _ => Call::Clocks {
            driver,
            clocks: u32::MAX - source.below(9_000_000) as u32,
        },
    }
}

fn any_question(source: &mut Source, driver: usize) -> Call {
    match source.below(9) {
        0 => Call::Plane {
            driver,
            p0: source.bytes(16),
            p1: source.bytes(16),
            first: source.below(17),
            last: source.below(17),
        },
        1 | 2 => Call::Segments {
            driver,
            cathode: source.below(9),
            font14: source.table(),
            font16: source.table(),
        },
        3 => Call::Brightness {
            driver,
            digit: source.below(17),
        },
        4 => Call::Shown { driver },
        5 => Call::Interrupt { driver },
        6 => Call::AnswerMark { driver },
        7 => Call::LookBack {
            driver,
            plane: source.below(3),
            digit: source.below(17),
            words: source.table(),
        },
        _ => Call::Ports { driver },
    }
}

/// What driver i answered, cut out of the chain's reply; none where the call is refused or isn't its own.
fn share(n: usize, i: usize, asked: &Call, reply: &Reply) -> Option<Vec<u8>> {
    if reply.number != 0 {
        return None;
    }
    let own = match asked {
        Call::Access { .. } => return Some(reply.back[2 * (n - i)..][..2].to_vec()),
        Call::Scan { .. } | Call::Pins { .. } | Call::Clocks { .. } => return None,
        Call::Plane { driver, .. }
        | Call::Segments { driver, .. }
        | Call::Brightness { driver, .. }
        | Call::Shown { driver }
        | Call::Interrupt { driver }
        | Call::AnswerMark { driver }
        | Call::LookBack { driver, .. }
        | Call::Ports { driver } => *driver == i,
    };
    own.then(|| reply.back.clone())
}

/// Records at power-up of these families.
fn row(families: &[u8]) -> Vec<Record> {
    let record = |family: &u8| Record {
        family: *family,
        ..Record::power_up()
    };
    families.iter().map(record).collect()
}

/// The records and answers of a row of these families are its lone drivers' in a list of 2000 calls; the replies.
fn agree(source: &mut Source, families: &[u8]) -> Vec<(Call, Reply)> {
    let n = families.len();
    let mut chain = row(families);
    let lone = |(index, record): (usize, &Record)| Lone::new(families, index + 1, record.clone());
    let mut lone: Vec<Lone> = chain.iter().enumerate().map(lone).collect();
    let mut replies = Vec::new();
    for _ in 0..2000 {
        let asked = any_call(source, n);
        let reply = call(&mut chain, &asked);
        for (index, driver) in lone.iter_mut().enumerate() {
            assert_eq!(driver.hear(&asked), share(n, index + 1, &asked, &reply));
            assert_eq!(driver.record, chain[index]);
            assert_eq!(driver.record.family, families[index]);
        }
        assert!(chain.iter().all(Record::sound));
        replies.push((asked, reply));
    }
    replies
}

#[test]
fn the_chain_is_its_lone_drivers() {
    let mut source = Source(1);
    for n in [1, 2, 3, 16] {
        agree(&mut source, &vec![0; n]);
    }
}

#[test]
fn a_mixed_row_is_its_lone_drivers() {
    let mut source = Source(3);
    let sixteen: Vec<u8> = (0..16).map(|_| source.below(2) as u8).collect();
    let rows: [&[u8]; 8] = [
        &[1],
        &[0, 1],
        &[1, 0],
        &[1, 1],
        &[0, 1, 0],
        &[1, 0, 1],
        &[1; 16],
        &sixteen,
    ];
    let mut states = [false; 19];
    let mut raised_often = 0;
    for families in rows {
        let replies = agree(&mut source, families);
        let raised = replies.iter().filter(|reply| raised(families, reply));
        raised_often += raised.count();
        for (asked, reply) in replies {
            if let Call::Ports { .. } = asked {
                reply.back.iter().for_each(|k| states[*k as usize] = true);
            }
        }
    }
    assert_eq!(states, [true; 19]);
    assert!(raised_often > 20, "{raised_often}");
}

/// A MAX6957 of the row answers that INT is raised.
fn raised(families: &[u8], (asked, reply): &(Call, Reply)) -> bool {
    match asked {
        Call::Interrupt { driver } => reply.back == [1] && families[*driver - 1] == 1,
        _ => false,
    }
}

#[test]
fn a_row_with_an_unknown_family_stands_still() {
    let mut source = Source(4);
    for families in [&[2, 1][..], &[0, 255], &[3], &[1, 0, 2]] {
        let replies = agree(&mut source, families);
        assert!(replies.iter().all(|(_, reply)| reply.number != 0));
    }
}

/// A record of a family whose fields don't fit.
fn wild(family: u8) -> Record {
    Record {
        family,
        global: 255,
        limit: 255,
        blink: u32::MAX,
        port_driver: PortDriver {
            stored: u32::MAX,
            pins: u32::MAX,
            pairs: [0xE4; 7],
            global: 255,
            m: 255,
            s: 255,
            mask: 255,
            snapshot: 255,
            detecting: 255,
            interrupt: 255,
            ..PortDriver::power_up()
        },
        ..Record::power_up()
    }
}

#[test]
fn odd_drivers_and_scripts_are_heard_without_panic() {
    let mut source = Source(2);
    for (n, i) in [(0, 0), (1, 0), (2, 3), (17, 1), (3, 2), (4096, 1)] {
        for family in [0, 1, 2] {
            let mut lone = Lone::new(&vec![family; n], i, wild(family));
            for _ in 0..500 {
                let asked = any_call(&mut source, 3);
                let answer = lone.hear(&asked);
                assert!(answer.is_none() || n == 3);
            }
        }
    }
    for _ in 0..500 {
        let mut script = Vec::new();
        for _ in 0..source.below(6) {
            let length = source.below(6);
            script.extend([0x5A, 0xC3, source.below(8) as u8, 0, length as u8]);
            script.extend(source.bytes(length));
        }
        assert_eq!(run(&script).last(), Some(&b'\n'));
    }
}
