//! The planner's check on good and on damaged lists, beside the second double's.

use crate::convert::{hex, hex_words};
use crate::plan_damage::{self, KINDS};
use crate::plan_order::Order;
use crate::planner;
use crate::random::Random;
use crate::report::{shrink, Lines, Part};
use crate::rows;
use crate::wanted;
use second_double::{Checked, Record};

const LISTS: usize = 63_000;

/// The checks.
const VERDICTS: usize = 0;
const BOTH: usize = 1;
const NUMBERS: usize = 2;

/// The numbers that refuse a check.
const REFUSED: [u8; 4] = [1, 7, 12, 14];

/// Lists of each kind of damage are accepted, and are not, at least so often; a number is given so often.
const OFTEN: usize = 100;

/// A chain, wanted planes and a list.
struct Ask {
    row: Vec<Record>,
    wanted: Vec<u8>,
    list: Vec<u16>,
}

/// The part: a check of every verdict, one that both verdicts are met under each kind of damage, and one of the numbers.
pub fn compare(seed: u64, times: usize) -> Part {
    let mut part = Part::new("plan checks", seed, &["verdicts", "both", "numbers"]);
    let (mut met, mut given) = ([[0; 2]; KINDS.len()], [0; 15]);
    let mut order = Order::default();
    for case in 0..LISTS * times {
        if part.enough() {
            break;
        }
        let mut random = Random::of(seed, "plan checks", case);
        let kind = random.below(KINDS.len());
        let ask = Ask::draft(&mut random, KINDS[kind]);
        let [ours, second] = ask.verdicts();
        order.count(&ask.row, &ask.wanted, second.number);
        match second.number {
            0 => met[kind][usize::from(second.accepted)] += 1,
            number => given[usize::from(number)] += 1,
        }
        part.count(VERDICTS, case, (ours != second).then(|| ask.told()));
    }
    let mut counts = Vec::new();
    for (kind, [not, accepted]) in KINDS.into_iter().zip(met) {
        part.met(BOTH, &format!("{kind}, accepted"), accepted, OFTEN);
        part.met(BOTH, &format!("{kind}, not accepted"), not, OFTEN);
        counts.push(format!("{kind} {accepted}/{not}"));
    }
    let numbers = part.given(NUMBERS, &REFUSED, &given, OFTEN);
    let order = order.judged(&mut part, NUMBERS, OFTEN);
    part.end(&format!(
        "accepted/not: {}; refused with {numbers}; {order}",
        counts.join(", ")
    ));
    part
}

impl Ask {
    /// The library's list or a random one, then damaged.
    /// The wanted planes are often those that it leaves, or that a random one left before the damage.
    fn draft(random: &mut Random, kind: &str) -> Ask {
        let (row, mut wanted) = wanted::any(random);
        let planned = random.one_in(2);
        let mut list = if planned {
            planner::list(&row, &wanted)
        } else {
            plan_damage::list(random, &row)
        };
        let before = list.clone();
        plan_damage::damage(random, kind, &row, &mut list);
        let fits = wanted.len() == 32 * row.len();
        if fits && random.one_in(2) {
            wanted = left(&row, &list);
        } else if fits && !planned {
            wanted = left(&row, &before);
        }
        Ask { row, wanted, list }
    }

    fn verdicts(&self) -> [Checked; 2] {
        planner::verdicts(&self.row, &self.wanted, &self.list)
    }

    /// The row, simplified, the words that are needed for a difference, and the two verdicts.
    fn told(&self) -> Lines {
        let differ = |row: &[Record], list: &[u16]| {
            let [ours, second] = planner::verdicts(row, &self.wanted, list);
            ours != second
        };
        let list = shrink(self.list.clone(), |list| differ(&self.row, list));
        let row = rows::simplify(&self.row, |row| differ(row, &list));
        let [ours, second] = planner::verdicts(&row, &self.wanted, &list);
        let mut lines = rows::told(&row);
        lines.push(("wanted", hex(&self.wanted)));
        lines.push(("list", hex_words(&list)));
        lines.push(("library", format!("{ours:?}")));
        lines.push(("second", format!("{second:?}")));
        lines
    }
}

/// The planes that the whole accesses of a list leave, by the second double.
fn left(row: &[Record], list: &[u16]) -> Vec<u8> {
    let mut row = row.to_vec();
    let n = row.len();
    let (mut sent, mut answer) = (vec![0; 2 * n], vec![0; 2 * n]);
    let mut access = 0;
    while second_double::plan_bytes(n, list, access, &mut sent) == 0 {
        second_double::access(&mut row, 16 * n, &sent, &mut answer);
        access += 1;
    }
    wanted::held(&row)
}
