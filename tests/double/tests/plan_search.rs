//! The planner against the search and the check, on small pictures from a seeded generator.

use std::slice::from_ref;

use second_double::{check, fewest_words, least_accesses, plan, Picture, Record};

/// A row of numbers fixed by its seed (xorshift).
struct Seeded(u64);

impl Seeded {
    fn below(&mut self, limit: usize) -> usize {
        self.0 ^= self.0 << 13;
        self.0 ^= self.0 >> 7;
        self.0 ^= self.0 << 17;
        (self.0 >> 16) as usize % limit
    }

    fn pick(&mut self, bytes: &[u8]) -> u8 {
        bytes[self.below(bytes.len())]
    }

    /// A dark driver with its own I, E, B and S, shift word, answer mark and blink count.
    fn driver(&mut self) -> Record {
        let [i, e, b, s, answer_mark] = [0; 5].map(|_| self.pick(&[0, 1]));
        Record {
            i,
            e,
            b,
            s,
            answer_mark,
            p0: [0; 16],
            p1: [0; 16],
            shift: self.below(65_536) as u16,
            blink: self.below(4_000_000) as u32,
            ..Record::power_up()
        }
    }

    /// A driver and a wanted picture, both 0 but at so many places, where their bytes are picked from a few.
    fn small_case(&mut self, digits: usize, bytes: &[u8]) -> (Record, Picture) {
        let mut record = self.driver();
        let mut wanted = [0; 32];
        for _ in 0..digits {
            let d = self.below(16);
            record.p0[d] = self.pick(bytes);
            record.p1[d] = self.pick(bytes);
            wanted[d] = self.pick(bytes);
            wanted[16 + d] = self.pick(bytes);
        }
        (record, wanted)
    }
}

const UNUSED: u16 = 0xABCD;

/// The accesses of a served plan, once its list is accepted and the room after it stands.
fn planned(chain: &[Record], wanted: &[u8]) -> usize {
    let mut room = [UNUSED; 100];
    let plan = plan(chain, wanted, &mut room);
    let (list, after) = room.split_at(plan.accesses * chain.len());
    assert_eq!(plan.number, 0);
    assert_eq!(check(chain, wanted, list).accepted, 1, "{list:04X?}");
    assert!(after.iter().all(|word| *word == UNUSED));
    plan.accesses
}

#[test]
fn a_driver_needs_what_the_search_finds() {
    let mut seeded = Seeded(6954);
    let mut cases_of = [0; 9];
    for case in 0..3000 {
        let bytes: &[u8] = [&[0, 1][..], &[0, 0x20, 0xFF], &[0x20, 1, 2, 3]][case % 3];
        let digits = if case % 16 == 0 { 4 } else { seeded.below(4) };
        let (record, wanted) = seeded.small_case(digits, bytes);
        let accesses = planned(from_ref(&record), &wanted);
        let least = least_accesses(from_ref(&record), &wanted);
        assert_eq!(Some(accesses), least, "{record:?} {wanted:?}");
        cases_of[accesses] += 1;
    }
    assert!(cases_of[..8].iter().all(|cases| *cases > 5));
}

#[test]
fn a_chain_needs_what_the_search_finds() {
    let mut seeded = Seeded(6955);
    for case in 0..500 {
        let (chain, wanted): (Vec<Record>, Vec<Picture>) = (0..1 + case % 5)
            .map(|_| seeded.small_case(2, &[0, 0x20, 1]))
            .unzip();
        let wanted = wanted.concat();
        assert_eq!(
            Some(planned(&chain, &wanted)),
            least_accesses(&chain, &wanted)
        );
    }
}

/// Every write of these bytes at these digits, the no-op and the configuration writes that keep I, E, B and S at 0.
fn every_word(digits: &[u8], bytes: &[u8]) -> Vec<u16> {
    let mut words = vec![0x0000, 0x0400, 0x0420];
    for d in digits {
        for first in [0x20, 0x40, 0x60] {
            words.extend(bytes.iter().map(|b| u16::from_be_bytes([first + d, *b])));
        }
    }
    words
}

/// All pairs of bytes out of these.
fn pairs(bytes: &[u8]) -> Vec<(u8, u8)> {
    let with = |a: &u8| bytes.iter().map(|b| (*a, *b)).collect::<Vec<_>>();
    bytes.iter().flat_map(with).collect()
}

/// Digit 3 from the one pair of bytes to the other, and in P0 digit 4a from the first of a pair to the second.
fn two_digits(start: (u8, u8), wanted: (u8, u8), other: (u8, u8)) -> (Record, Picture) {
    let mut record = Record {
        p0: [0; 16],
        p1: [0; 16],
        ..Record::power_up()
    };
    let mut picture = [0; 32];
    (record.p0[3], record.p1[3]) = start;
    (picture[3], picture[19]) = wanted;
    (record.p0[12], picture[12]) = other;
    (record, picture)
}

#[test]
fn words_that_the_search_leaves_out_save_nothing() {
    let words = every_word(&[3, 12], &[0, 1, 2, 7]);
    for start in pairs(&[0, 1, 2]) {
        for wanted in pairs(&[0, 1, 2]) {
            for other in pairs(&[0, 1]) {
                let (record, picture) = two_digits(start, wanted, other);
                let fewest = fewest_words(&record, &picture, |_| words.clone());
                assert_eq!(fewest, least_accesses(&[record], &picture));
            }
        }
    }
}

/// Of all 65,536 words none alone is accepted where the planner needs two, and some are where it needs one.
#[test]
fn no_word_does_the_work_of_two() {
    let mut seeded = Seeded(6957);
    let mut cases_of = [0; 3];
    while cases_of[1] < 6 || cases_of[2] < 6 {
        let (record, wanted) = seeded.small_case(3, &[0, 1, 0x20]);
        let chain = [record];
        let accesses = planned(&chain, &wanted);
        if !(1..=2).contains(&accesses) || cases_of[accesses] == 6 {
            continue;
        }
        cases_of[accesses] += 1;
        let accepted = (0..=0xFFFF).any(|word| check(&chain, &wanted, &[word]).accepted == 1);
        assert_eq!(accepted, accesses == 1);
    }
}

/// A fast driver can't lend a slow one its words: every pair of words in one access is refused.
#[test]
fn no_access_serves_a_driver_that_needs_two() {
    let chain = vec![Record::power_up(); 2];
    let mut wanted = [[0x20; 8], [0; 8], [0x20; 8], [0; 8]].concat().repeat(2);
    (wanted[3], wanted[19], wanted[32]) = (1, 2, 7);
    let words = every_word(&[0, 3], &[0, 1, 2, 7, 0x20]);
    for _ in 0..2 {
        assert_eq!(planned(&chain, &wanted), 2);
        for first in &words {
            let lists = words.iter().map(|second| [*first, *second]);
            let accepted = lists.map(|list| check(&chain, &wanted, &list).accepted);
            assert_eq!(accepted.max(), Some(0));
        }
        wanted.rotate_left(32);
    }
}
