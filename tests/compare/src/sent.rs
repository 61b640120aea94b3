//! The library's plans sent over the wire, access by access, to its own chain and to the second double's.

use crate::convert::{self, hex, hex_words, unlike};
use crate::planner;
use crate::proved;
use crate::random::Random;
use crate::report::{Lines, Part};
use crate::rows;
use crate::wanted;
use second_double::{Call, Record, Reply};

const PLANS: usize = 4_000;

/// The one check.
const ENDS: usize = 0;

/// The part: a check that both chains take the same bytes, answer alike and end in the wanted planes.
pub fn compare(seed: u64, times: usize) -> Part {
    let mut part = Part::new("sent", seed, &["ends"]);
    let (mut drivers, mut accesses) = (0, 0);
    for case in 0..PLANS * times {
        if part.enough() {
            break;
        }
        let mut random = Random::of(seed, "sent", case);
        let n = 1 + random.below(16);
        let (row, wanted) = wanted::sound(&mut random, n);
        match send(&row, &wanted) {
            Ok(sent) => {
                part.count(ENDS, case, None);
                (drivers, accesses) = (drivers + n, accesses + sent);
            }
            Err(_) => part.count(ENDS, case, Some(told(&row, &wanted))),
        }
    }
    let plans = part.checks[ENDS].cases;
    part.end(&format!(
        "{plans} plans, {drivers} drivers, {accesses} accesses"
    ));
    part
}

/// Gives every access of the library's list to both; how many there were, or what differs.
fn send(row: &[Record], wanted: &[u8]) -> Result<usize, Lines> {
    let n = row.len();
    let (mut ours, mut second) = (convert::devices(row), row.to_vec());
    let list = planner::list(row, wanted);
    let accesses = list.len() / n;
    for access in 0..accesses {
        let sent = planner::bytes(n, &list, access, &vec![0; 2 * n]);
        alike(access, &sent)?;
        let [(_, sent), _] = sent;
        let call = Call::Access {
            clocks: 16 * n,
            sent,
            room: vec![0; 2 * n],
        };
        let replies = [
            proved::call(&mut ours, &call),
            second_double::call(&mut second, &call),
        ];
        alike(
            access,
            &replies.map(|Reply { number, back }| (number, back)),
        )?;
    }
    ends(row, wanted, "library", &convert::records(&ours))?;
    ends(row, wanted, "second", &second)?;
    Ok(accesses)
}

/// Whether both serve and give the same bytes.
fn alike(access: usize, given: &[(u8, Vec<u8>); 2]) -> Result<(), Lines> {
    let [ours, second] = given;
    if ours == second && ours.0 == 0 {
        return Ok(());
    }
    let [ours, second] = [ours, second].map(|(number, back)| format!("{number}, {}", hex(back)));
    Err(vec![
        ("access", access.to_string()),
        ("library", ours),
        ("second", second),
    ])
}

/// Whether the records have the wanted planes and else stayed, shift words and answer marks apart.
fn ends(row: &[Record], wanted: &[u8], whose: &'static str, after: &[Record]) -> Result<(), Lines> {
    let before = row.iter().zip(wanted.chunks(32));
    for (driver, (after, (before, planes))) in (1..).zip(after.iter().zip(before)) {
        let mut aim = before.clone();
        aim.p0.copy_from_slice(&planes[..16]);
        aim.p1.copy_from_slice(&planes[16..]);
        (aim.shift, aim.answer_mark) = (after.shift, after.answer_mark);
        if *after != aim {
            let fields = unlike(after, &aim);
            return Err(vec![(whose, format!("driver {driver} ends with{fields}"))]);
        }
    }
    Ok(())
}

/// The row, simplified, what is wanted, the list and what differs.
fn told(row: &[Record], wanted: &[u8]) -> Lines {
    let row = rows::simplify(row, |row| send(row, wanted).is_err());
    let mut lines = rows::told(&row);
    lines.push(("wanted", hex(wanted)));
    lines.push(("list", hex_words(&planner::list(&row, wanted))));
    lines.extend(send(&row, wanted).err().unwrap_or_default());
    lines
}
