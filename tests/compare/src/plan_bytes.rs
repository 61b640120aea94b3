//! The bytes of any access of any list, beside the second double.

use crate::convert::{hex, hex_words};
use crate::planner;
use crate::random::Random;
use crate::report::{Lines, Part};

const ASKS: usize = 100_000;

/// The checks.
const BYTES: usize = 0;
const NUMBERS: usize = 1;

/// The numbers that may be given.
const GIVEN: [u8; 4] = [0, 1, 4, 5];

/// Every number is given at least so often.
const OFTEN: usize = 1_000;

/// The length of a chain, a list, an access of it, and the lent room before the call.
struct Ask {
    n: usize,
    list: Vec<u16>,
    access: usize,
    room: Vec<u8>,
}

/// The part: a check of the numbers and bytes, and one that every number was given.
pub fn compare(seed: u64, times: usize) -> Part {
    let mut part = Part::new("plan bytes", seed, &["bytes", "numbers"]);
    let mut given = [0; 6];
    for case in 0..ASKS * times {
        if part.enough() {
            break;
        }
        let ask = Ask::draft(&mut Random::of(seed, "plan bytes", case));
        let [ours, second] = ask.made();
        given[usize::from(second.0)] += 1;
        part.count(BYTES, case, (ours != second).then(|| ask.told()));
    }
    let numbers = part.given(NUMBERS, &GIVEN, &given, OFTEN);
    part.end(&format!("numbers {numbers}"));
    part
}

impl Ask {
    /// Mostly an access of the list and room enough; the ends of each often, and numbers that look small in their low half.
    fn draft(random: &mut Random) -> Ask {
        let n = match random.below(40) {
            0 => usize::MAX,
            1 => 1 << 32 | random.below(17),
            _ => random.below(18),
        };
        let least = n.min(18);
        let (words, bytes) = (random.below(6) * least, 2 * least);
        let length = words + random.below(least + 1);
        let list = (0..length).map(|_| random.number() as u16).collect();
        let accesses = words / least.max(1);
        let access = match random.below(20) {
            0 => accesses,
            1 => usize::MAX / least.max(1) + random.below(3),
            2 => 1 << 60 | random.below(accesses + 1),
            3 => random.number() as usize,
            _ => random.below(accesses + 1),
        };
        let room = match random.below(8) {
            0 => bytes.saturating_sub(1),
            1 => random.below(bytes + 1),
            2..=4 => bytes + random.below(9),
            _ => bytes,
        };
        let room = random.bytes(room);
        Ask {
            n,
            list,
            access,
            room,
        }
    }

    fn made(&self) -> [(u8, Vec<u8>); 2] {
        planner::bytes(self.n, &self.list, self.access, &self.room)
    }

    fn told(&self) -> Lines {
        let [ours, second] = self
            .made()
            .map(|(number, room)| format!("number {number}, room {}", hex(&room)));
        vec![
            ("n", self.n.to_string()),
            ("list", hex_words(&self.list)),
            ("access", self.access.to_string()),
            ("room", hex(&self.room)),
            ("library", ours),
            ("second", second),
        ]
    }
}
