//! What clocks add to a driver's totals: digits of 16 segments, which no script has, and clock by clock beside quarter by quarter.

use second_double::{by_clock, by_quarter, Record};

#[test]
fn sixteen_segments() {
    // In display test all of them and dp, at 7.
    let lit = Record {
        s: 1,
        fitted: 0,
        p0: [0xC1; 16],
        ..Record::power_up()
    };
    let test = Record {
        test: 1,
        ..lit.clone()
    };
    for clocks in [1, 1_500_000] {
        assert_eq!(by_quarter(&test, clocks), [u64::from(7 * 17 * clocks); 8]);
    }
    assert_eq!(by_clock(&test, 2), [7 * 17 * 2; 8]);
    // Glyph 4141 is a2, f, g2 and m; with dp.
    assert_eq!(by_clock(&lit, 1), [5; 8]);
}

/// A row of numbers fixed by its seed (xorshift).
struct Seeded(u64);

impl Seeded {
    fn below(&mut self, limit: u32) -> u32 {
        self.0 ^= self.0 << 13;
        self.0 ^= self.0 >> 7;
        self.0 ^= self.0 << 17;
        (self.0 >> 16) as u32 % limit
    }

    fn byte(&mut self) -> u8 {
        self.below(256) as u8
    }

    /// A driver that mostly shines and blinks, at a count up to 40 before the end of a quarter.
    fn driver(&mut self) -> Record {
        let [e, b, i] = [0; 3].map(|_| self.byte() % 2);
        let quarter = 1_000_000 * (1 + self.below(4));
        Record {
            e,
            b,
            i,
            s: u8::from(self.below(8) > 0),
            test: u8::from(self.below(8) == 0),
            limit: 7 - self.byte() % 3,
            types: self.byte(),
            fitted: self.byte(),
            decode: self.byte(),
            global: self.byte() % 16,
            intensities: [0; 8].map(|_| self.byte()),
            p0: [0; 16].map(|_| self.byte()),
            p1: [0; 16].map(|_| self.byte()),
            blink: quarter - 1 - self.below(40),
            ..Record::power_up()
        }
    }
}

#[test]
fn clock_by_clock_is_quarter_by_quarter() {
    let mut seeded = Seeded(6954);
    let mut both_phases = 0;
    for _ in 0..400 {
        let (record, clocks) = (seeded.driver(), seeded.below(80));
        let found = by_clock(&record, clocks);
        assert_eq!(found, by_quarter(&record, clocks), "{record:?} {clocks}");
        let first = by_clock(&record, 1).map(|total| total * u64::from(clocks));
        both_phases += u32::from(found != first);
    }
    assert!(both_phases > 40, "{both_phases}");
}

#[test]
fn clocks_in_parts_are_quarter_by_quarter() {
    let mut seeded = Seeded(13);
    for _ in 0..300 {
        let record = seeded.driver();
        let [a, b] = [0; 2].map(|_| seeded.below(1 << 31));
        let blink = (u64::from(record.blink) + u64::from(a)) % 4_000_000;
        let later = Record {
            blink: blink as u32,
            ..record.clone()
        };
        let parts = by_quarter(&record, a)
            .into_iter()
            .zip(by_quarter(&later, b));
        let sums = parts.map(|(first, second)| first + second);
        assert!(sums.eq(by_quarter(&record, a + b)), "{record:?} {a} {b}");
    }
}
