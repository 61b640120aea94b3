//! The check: the words it allows, whole accesses, the planes at the end, lists of any length and its refusals.

use second_double::{access, check, Checked, Record};

/// The planes of each driver, P0 and then P1.
fn held(chain: &[Record]) -> Vec<u8> {
    let planes = chain.iter().flat_map(|record| [record.p0, record.p1]);
    planes.flatten().collect()
}

fn accepts(chain: &[Record], wanted: &[u8], list: &[u16]) -> bool {
    let checked = check(chain, wanted, list);
    assert_eq!(checked.number, 0);
    checked.accepted == 1
}

/// Whether one word is accepted where the planes it leaves are the wanted ones.
fn word_accepted(record: &Record, word: u16) -> bool {
    let mut after = [record.clone()];
    assert_eq!(access(&mut after, 16, &word.to_be_bytes(), &mut [0; 2]), 0);
    accepts(std::slice::from_ref(record), &held(&after), &[word])
}

/// Of all 65,536: the no-op, 48 digit addresses with any data, and two configuration writes for each record.
#[test]
fn no_other_word_is_allowed() {
    let shut_down = Record {
        i: 1,
        b: 1,
        ..Record::power_up()
    };
    let blinking = Record {
        e: 1,
        s: 1,
        ..Record::power_up()
    };
    let records = [(shut_down, [0x0444, 0x0464]), (blinking, [0x0409, 0x0429])];
    for (record, configuration) in records {
        for word in 0..=0xFFFF {
            let digits = [0x20, 0x40, 0x60].contains(&(word >> 8 & 0xF0)) && word < 0x8000;
            let allowed = word == 0 || digits || configuration.contains(&word);
            assert_eq!(word_accepted(&record, word), allowed, "{word:04X}");
        }
    }
}

/// A word that isn't allowed spoils a list also where later words leave the wanted planes.
#[test]
fn one_word_not_allowed_spoils_the_list() {
    let chain = [Record::power_up()];
    let wanted = held(&chain);
    assert!(accepts(&chain, &wanted, &[0x2107, 0x0400, 0x0000, 0x6120]));
    for word in [0x0001, 0x8000, 0x00FF, 0xA100, 0x0410, 0x0480, 0x0402] {
        assert!(!accepts(&chain, &wanted, &[word]), "{word:04X}");
        assert!(!accepts(&chain, &wanted, &[word, 0x2120]), "{word:04X}");
        assert!(!accepts(&chain, &wanted, &[0x2120, word]), "{word:04X}");
    }
    for word in [0x0401, 0x0440, 0x0408, 0x0404, 0x0107, 0x30FF, 0x7020] {
        assert!(!accepts(&chain, &wanted, &[word, 0x0400]), "{word:04X}");
        assert!(!accepts(&chain, &wanted, &[0x0400, word]), "{word:04X}");
    }
}

#[test]
fn each_word_is_judged_by_its_own_driver() {
    let lit = Record {
        s: 1,
        ..Record::power_up()
    };
    let chain = [Record::power_up(), lit];
    let mut wanted = vec![0; 64];
    assert!(accepts(&chain, &wanted, &[0x0420, 0x0421]));
    assert!(!accepts(&chain, &wanted, &[0x0421, 0x0420]));
    assert!(!accepts(&chain, &wanted, &[0x0420, 0x0420]));
    wanted[36] = 5;
    assert!(accepts(&chain, &wanted, &[0x0420, 0x0421, 0x0000, 0x2405]));
    assert!(!accepts(&chain, &wanted, &[0x0420, 0x0421, 0x2405, 0x0000]));
    assert!(!accepts(&chain, &wanted, &[0x0420, 0x2405, 0x0000, 0x0421]));
}

#[test]
fn a_part_of_an_access_is_not_accepted() {
    let chain = vec![Record::power_up(); 3];
    let wanted = held(&chain);
    for words in 0..=100 {
        let list = vec![0x0000; words];
        assert_eq!(accepts(&chain, &wanted, &list), words % 3 == 0, "{words}");
    }
}

#[test]
fn the_empty_list_keeps_the_picture() {
    let chain = vec![Record::power_up(); 2];
    let mut wanted = held(&chain);
    assert!(accepts(&chain, &wanted, &[]));
    for place in 0..64 {
        wanted[place] += 1;
        assert!(!accepts(&chain, &wanted, &[]), "{place}");
        wanted[place] -= 1;
    }
}

#[test]
fn long_lists_are_accepted() {
    let chain = [Record::power_up()];
    let mut wanted = [0; 32];
    wanted[31] = 0xFF;
    let mut list: Vec<u16> = (0..=0xFF).map(|byte| 0x6F00 + byte).collect();
    list.extend([0x0420, 0x0000, 0x4FFF]);
    assert!(accepts(&chain, &wanted, &list));
    assert!(!accepts(&chain, &wanted, &list.repeat(300)[1..76_000]));
    assert!(accepts(&chain, &wanted, &list.repeat(300)));
}

#[test]
fn the_first_refusal_that_applies_is_given() {
    let cases = [
        (0, true, 0, 1),
        (0, true, 32, 1),
        (17, false, 17 * 32, 1),
        (17, true, 17 * 32, 1),
        (2, false, 63, 7),
        (2, false, 64, 7),
        (2, true, 0, 12),
        (2, true, 63, 12),
        (2, true, 65, 12),
        (2, true, 96, 12),
        (2, true, 64, 0),
        (16, true, 512, 0),
    ];
    for (n, sound, length, number) in cases {
        let mut chain = vec![Record::power_up(); n];
        let wanted = held(&vec![Record::power_up(); 17]);
        if let (false, Some(last)) = (sound, chain.last_mut()) {
            last.blink = 4_000_000;
        }
        for list in [vec![], vec![0x0000; n]] {
            let checked = check(&chain, &wanted[..length], &list);
            let accepted = u8::from(number == 0);
            assert_eq!(checked, Checked { number, accepted }, "{n} {length}");
        }
    }
}
