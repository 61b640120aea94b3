//! A look back at a plane byte, beside the second double, with the stopping word at every place of a list, and at none.

use crate::convert::{self, hex, hex_words};
use crate::looks::{self, STOPS};
use crate::proved;
use crate::random::Random;
use crate::report::{shrink, Lines, Part};
use crate::rows;
use second_double::{Call, Record, Reply};

const ROUNDS: usize = 60;
const LONGEST: usize = 24;

/// The lengths of long lists, one round of each.
const LONG: [usize; 6] = [100, 255, 256, 1_000, 4_097, 65_537];

/// The checks.
const BYTES: usize = 0;
const ALIKE: usize = 1;

/// A chain, and a question to one of its drivers.
struct Ask {
    row: Vec<Record>,
    driver: usize,
    plane: usize,
    digit: u8,
    words: Vec<u16>,
}

/// The part: a check of every byte with the records, and one that nothing before the stopping word matters.
pub fn compare(seed: u64, times: usize) -> Part {
    let mut part = Part::new("look back", seed, &["bytes", "alike"]);
    let (mut asked, mut longest) = (0, 0);
    let short = (0..=LONGEST).flat_map(|length| vec![length; ROUNDS * times]);
    for (case, length) in short.chain(LONG).enumerate() {
        let mut random = Random::of(seed, "look back", case);
        for (place, kind) in places(length) {
            if part.enough() {
                break;
            }
            let ask = Ask::draft(&mut random, length, place, kind);
            part.count(BYTES, case, ask.differs().then(|| ask.told()));
            if let Some(place) = place {
                let other = ask.with_other_start(&mut random, place);
                let unlike = ask.reply() != other.reply();
                part.count(ALIKE, case, unlike.then(|| ask.beside(&other)));
            }
            (asked, longest) = (asked + 1, longest.max(length));
        }
    }
    let alike = part.checks[ALIKE].cases;
    part.end(&format!(
        "{asked} lists of up to {longest} words, {alike} of them with another start"
    ));
    part
}

/// Every place of a short list with every kind of stopping word, the ends of a long one, and no place.
fn places(length: usize) -> Vec<(Option<usize>, usize)> {
    let all: Vec<usize> = if length <= LONGEST {
        (0..length).collect()
    } else {
        vec![0, length / 2, length - 1]
    };
    let stops = all
        .into_iter()
        .flat_map(|place| (0..STOPS.len()).map(move |kind| (Some(place), kind)));
    stops.chain([(None, 0)]).collect()
}

impl Ask {
    /// A list whose last stopping word is at this place; before it stand any words.
    fn draft(random: &mut Random, length: usize, place: Option<usize>, kind: usize) -> Ask {
        let n = 1 + random.below(16);
        let (plane, digit) = (random.below(2), random.byte() % 16);
        let mut words = looks::list(random, plane, digit, place.unwrap_or(0));
        if place.is_some() {
            words.push(looks::stop(random, kind, plane, digit));
        }
        while words.len() < length {
            words.push(looks::pass(random, plane, digit));
        }
        let driver = 1 + random.below(n);
        Ask {
            row: rows::around(random, n, driver),
            driver,
            plane,
            digit,
            words,
        }
    }

    /// Another record and other words before the stopping one.
    fn with_other_start(&self, random: &mut Random, place: usize) -> Ask {
        let before = random.below(place + 3);
        let start = looks::list(random, self.plane, self.digit, before);
        Ask {
            row: rows::around(random, self.row.len(), self.driver),
            words: [&start, &self.words[place..]].concat(),
            ..*self
        }
    }

    fn call(&self) -> Call {
        Call::LookBack {
            driver: self.driver,
            plane: self.plane,
            digit: usize::from(self.digit),
            words: self.words.clone(),
        }
    }

    /// The library's reply.
    fn reply(&self) -> Reply {
        proved::call(&mut convert::devices(&self.row), &self.call())
    }

    /// Whether the replies differ, or the library changed a record.
    fn differs(&self) -> bool {
        let mut chain = convert::devices(&self.row);
        let ours = proved::call(&mut chain, &self.call());
        ours != self.second() || convert::records(&chain) != self.row
    }

    fn second(&self) -> Reply {
        second_double::call(&mut self.row.clone(), &self.call())
    }

    /// The words that are needed for a difference, the row, simplified, and the two replies.
    fn told(&self) -> Lines {
        let with = |row: &[Record], words: &[u16]| Ask {
            row: row.to_vec(),
            words: words.to_vec(),
            ..*self
        };
        let words = shrink(self.words.clone(), |words| with(&self.row, words).differs());
        let row = rows::simplify(&self.row, |row| with(row, &words).differs());
        let ask = with(&row, &words);
        let mut lines = ask.asked();
        lines.push(("library", spelled(&ask.reply())));
        lines.push(("second", spelled(&ask.second())));
        lines
    }

    /// The two lists and what the library gives for each.
    fn beside(&self, other: &Ask) -> Lines {
        let mut lines = Vec::new();
        for ask in [self, other] {
            lines.extend(ask.asked());
            lines.push(("library", spelled(&ask.reply())));
        }
        lines
    }

    fn asked(&self) -> Lines {
        let Ask {
            driver,
            plane,
            digit,
            ..
        } = self;
        let mut lines = rows::told(&self.row);
        lines.push((
            "asked",
            format!("driver {driver}, plane {plane}, digit {digit}"),
        ));
        lines.push(("words", hex_words(&self.words)));
        lines
    }
}

fn spelled(Reply { number, back }: &Reply) -> String {
    format!("number {number}, byte {}", hex(back))
}
