//! The lit time of scripts, beside the second double: the number, the drivers, every total and the room after them.

use crate::by_hand;
use crate::drafts::Pieces;
use crate::exported;
use crate::guards::guarded;
use crate::lit_drafts::draft;
use crate::lit_met::Met;
use crate::programs::spelled;
use crate::random::Random;
use crate::report::{shrink, Lines, Part};
use second_double::{LitTime, Script};

const RANDOM: usize = 6_000;

/// The totals of the longest chain.
const MOST: usize = 8 * 16;

/// The checks.
const BY_HAND: usize = 0;
const BY_CHANCE: usize = 1;
const MET: usize = 2;

/// A script, and the lent room before the call.
struct Ask {
    pieces: Pieces,
    room: Vec<u64>,
}

/// What is given, and the room after it.
type Made = (LitTime, Vec<u64>);

/// The part: a check of the scripts by hand, one of random ones, and one of what these met.
pub fn compare(seed: u64, times: usize) -> Part {
    let mut part = Part::new("lit times", seed, &["by hand", "random", "met"]);
    for (case, script) in by_hand::scripts().enumerate() {
        if part.enough() {
            break;
        }
        let (pieces, room) = (vec![script], vec![u64::MAX; MOST]);
        Ask { pieces, room }.compare(&mut part, BY_HAND, case);
    }
    let mut met = Met::default();
    for case in 0..RANDOM * times {
        if part.enough() {
            break;
        }
        let ask = Ask::draft(seed, case);
        let (answer, room) = ask.compare(&mut part, BY_CHANCE, case);
        met.count(&ask.pieces.concat(), answer, &room);
    }
    let met = met.judged(&mut part, MET);
    part.end(&met);
    part
}

impl Ask {
    /// A random script with a room that mostly does, exactly or with more to spare.
    fn draft(seed: u64, case: usize) -> Ask {
        let pieces = draft(seed, case);
        let mut random = Random::of(seed, "lit rooms", case);
        let needed = Script::read(&pieces.concat()).map_or(MOST, |script| 8 * script.n);
        let length = match random.below(16) {
            0 => 0,
            1 => needed - 1,
            2 => random.below(needed),
            3..=6 => needed + random.below(20),
            7..=8 => MOST,
            _ => needed,
        };
        let room = (0..length).map(|_| random.number()).collect();
        Ask { pieces, room }
    }

    /// Counts whether both make the same; what the second double makes.
    fn compare(&self, part: &mut Part, check: usize, case: usize) -> Made {
        let [ours, second] = self.made();
        part.count(check, case, (ours != second).then(|| self.told()));
        second
    }

    /// What the library makes, and the second double.
    fn made(&self) -> [Made; 2] {
        let script = self.pieces.concat();
        let lend = |lent: &mut [u64]| exported::lit_time(&script, lent);
        let ours = guarded(0xA5A5_A5A5_A5A5_A5A5, &self.room, lend);
        let mut room = self.room.clone();
        let answer = second_double::lit_time(&script, &mut room);
        [ours, (answer, room)]
    }

    /// The records that are needed for a difference, the room, and where the two differ.
    fn told(&self) -> Lines {
        let with = |pieces: &[Vec<u8>]| Ask {
            pieces: pieces.to_vec(),
            room: self.room.clone(),
        };
        let ask = with(&shrink(self.pieces.clone(), |pieces| {
            let [ours, second] = with(pieces).made();
            ours != second
        }));
        let [ours, second] = ask.made();
        vec![
            ("script", spelled(&ask.pieces)),
            ("room", format!("{} totals", ask.room.len())),
            ("library", unlike(&ours, &second)),
            ("second", unlike(&second, &ours)),
        ]
    }
}

/// What is given, and the totals that another has otherwise, each at its place.
fn unlike((answer, room): &Made, (_, other): &Made) -> String {
    let LitTime { number, drivers } = answer;
    let places = room.iter().enumerate();
    let totals = places
        .filter(|(place, total)| other.get(*place) != Some(total))
        .map(|(place, total)| format!(", at {place} {total}"));
    let totals = String::from_iter(totals);
    format!("number {number}, {drivers} drivers{totals}")
}
