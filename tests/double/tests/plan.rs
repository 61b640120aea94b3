//! The planner: its accesses on known pictures, its list sent over the wire, its refusals and the room after the list.

use second_double::{access, plan, plan_bytes, Planned, Record};

const UNUSED: u16 = 0xABCD;

/// The planes at power-up: blank characters at digits 0 to 7.
fn blank() -> Vec<u8> {
    [[0x20; 8], [0; 8], [0x20; 8], [0; 8]].concat()
}

/// The list of a served plan, and its accesses.
fn planned(chain: &[Record], wanted: &[u8]) -> (Vec<u16>, usize) {
    let mut room = vec![UNUSED; 32 * chain.len()];
    let plan = plan(chain, wanted, &mut room);
    assert_eq!(plan.number, 0);
    room.truncate(plan.accesses * chain.len());
    (room, plan.accesses)
}

/// The accesses of a driver at power-up whose blank picture is changed at some bytes, P1's at 16 and above.
fn from_blank(changes: &[(usize, u8)]) -> usize {
    let mut wanted = blank();
    for (place, byte) in changes {
        wanted[*place] = *byte;
    }
    planned(&[Record::power_up()], &wanted).1
}

#[test]
fn digits_that_differ_need_one_or_two() {
    assert_eq!(from_blank(&[]), 0);
    assert_eq!(from_blank(&[(3, 1)]), 1);
    assert_eq!(from_blank(&[(31, 1)]), 1);
    assert_eq!(from_blank(&[(3, 1), (19, 1)]), 1);
    assert_eq!(from_blank(&[(3, 1), (19, 2)]), 2);
    assert_eq!(from_blank(&[(3, 0), (19, 0)]), 1);
    assert_eq!(from_blank(&[(3, 1), (20, 1)]), 2);
}

#[test]
fn a_clear_is_used_where_it_saves() {
    let chain = [Record::power_up()];
    let mut wanted = [0; 32];
    assert_eq!(planned(&chain, &wanted), (vec![0x0420], 1));
    wanted[9] = 1;
    assert_eq!(planned(&chain, &wanted), (vec![0x0420, 0x2901], 2));
    let lit = [Record {
        i: 1,
        e: 1,
        b: 1,
        s: 1,
        ..Record::power_up()
    }];
    assert_eq!(planned(&lit, &[0; 32]), (vec![0x046D], 1));
}

#[test]
fn thirty_two_accesses_are_the_most() {
    let chain = vec![Record::power_up(); 16];
    let mut wanted: Vec<u8> = (0..512).map(|place| 1 + place as u8 % 32).collect();
    assert_eq!(planned(&chain, &wanted).1, 32);
    wanted.truncate(32);
    wanted[0] = 0;
    assert_eq!(planned(&chain[..1], &wanted).1, 32);
    wanted[1] = 0;
    assert_eq!(planned(&chain[..1], &wanted).1, 31);
}

/// Driver k+1 wants 2k bytes changed and the last k dark.
fn mixed_chain(n: usize) -> (Vec<Record>, Vec<u8>) {
    let mut chain = vec![Record::power_up(); n];
    let mut wanted = Vec::new();
    for (k, record) in chain.iter_mut().enumerate() {
        (record.i, record.s, record.b) = (k as u8 % 2, k as u8 / 2 % 2, k as u8 / 4 % 2);
        record.p1 = [3 * k as u8; 16];
        let mut picture = [record.p0, record.p1].concat();
        picture.iter_mut().take(2 * k).for_each(|byte| *byte += 1);
        picture[32 - k..].fill(0);
        wanted.extend(picture);
    }
    (chain, wanted)
}

/// Nothing but planes, shift word and answer mark may differ.
fn assert_alike_but_for_planes(before: &Record, after: &Record) {
    let planes_back = Record {
        p0: before.p0,
        p1: before.p1,
        shift: before.shift,
        answer_mark: before.answer_mark,
        ..after.clone()
    };
    assert_eq!(*before, planes_back);
}

#[test]
fn the_list_sent_over_the_wire_ends_in_the_wanted_planes() {
    for n in 1..=16 {
        let (before, wanted) = mixed_chain(n);
        let (list, accesses) = planned(&before, &wanted);
        let mut chain = before.clone();
        for k in 0..accesses {
            let (mut sent, mut answer) = (vec![0; 2 * n], vec![0; 2 * n]);
            assert_eq!(plan_bytes(n, &list, k, &mut sent), 0);
            assert_eq!(access(&mut chain, 16 * n, &sent, &mut answer), 0);
        }
        let held = chain.iter().flat_map(|record| [record.p0, record.p1]);
        assert_eq!(held.flatten().collect::<Vec<u8>>(), wanted);
        for (record, after) in before.iter().zip(&chain) {
            assert_alike_but_for_planes(record, after);
        }
    }
}

/// One driver of n wants a digit changed in both planes, so that 2n words are needed.
#[test]
fn the_first_refusal_that_applies_is_given_and_no_word_changes() {
    let cases = [
        (0, true, 0, 0, 1),
        (17, false, 1, 0, 1),
        (17, true, 17 * 32, 100, 1),
        (3, false, 0, 0, 7),
        (16, false, 16 * 32, 100, 7),
        (3, true, 0, 0, 12),
        (3, true, 95, 5, 12),
        (3, true, 97, 100, 12),
        (3, true, 64, 100, 12),
        (3, true, 128, 100, 12),
        (3, true, 96, 0, 13),
        (3, true, 96, 5, 13),
        (3, true, 96, 6, 0),
    ];
    for (n, sound, length, words, number) in cases {
        let mut chain = vec![Record::power_up(); n];
        if let (false, Some(last)) = (sound, chain.last_mut()) {
            last.gpio = 32;
        }
        let mut wanted = blank().repeat(20);
        (wanted[3], wanted[19]) = (1, 2);
        let mut room = vec![UNUSED; words];
        let reply = plan(&chain, &wanted[..length], &mut room);
        let accesses = if number == 0 { 2 } else { 0 };
        assert_eq!(reply, Planned { number, accesses }, "{n} {length} {words}");
        let changed = room.iter().filter(|word| **word != UNUSED).count();
        assert_eq!(changed, accesses * n);
    }
}

#[test]
fn room_after_the_list_stays() {
    let chain = vec![Record::power_up(); 2];
    let mut wanted = blank().repeat(2);
    let mut room = [UNUSED; 5];
    assert_eq!(plan(&chain, &wanted, &mut room).accesses, 0);
    assert_eq!(room, [UNUSED; 5]);
    assert_eq!(plan(&chain, &wanted, &mut []).number, 0);
    (wanted[0], wanted[62]) = (1, 9);
    assert_eq!(plan(&chain, &wanted, &mut room).accesses, 1);
    assert_eq!(room, [0x2001, 0x4E09, UNUSED, UNUSED, UNUSED]);
    wanted[33] = 7;
    assert_eq!(plan(&chain, &wanted, &mut room[..4]).accesses, 2);
    assert_eq!(room, [0x2001, 0x2107, 0x0000, 0x4E09, UNUSED]);
}
