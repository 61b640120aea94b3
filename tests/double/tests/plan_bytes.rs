//! The bytes to send for an access of a list: their order, the numbers and the room after them.

use second_double::plan_bytes;

const LIST: [u16; 7] = [0x2001, 0x4E09, 0x0420, 0x2107, 0x0000, 0x6F80, 0x2222];

/// The number, and the room that held 9s.
fn sent(n: usize, access: usize, room: usize) -> (u8, Vec<u8>) {
    let mut bytes = vec![9; room];
    let number = plan_bytes(n, &LIST, access, &mut bytes);
    (number, bytes)
}

#[test]
fn the_last_drivers_word_comes_first() {
    assert_eq!(sent(1, 6, 2), (0, vec![0x22, 0x22]));
    assert_eq!(sent(2, 0, 4), (0, vec![0x4E, 0x09, 0x20, 0x01]));
    assert_eq!(sent(2, 2, 4), (0, vec![0x6F, 0x80, 0x00, 0x00]));
    assert_eq!(
        sent(3, 1, 8),
        (0, vec![0x6F, 0x80, 0x00, 0x00, 0x21, 0x07, 9, 9])
    );
}

#[test]
fn the_first_refusal_that_applies_is_given_and_no_byte_changes() {
    let cases = [
        (0, 9, 0, 1),
        (0, 0, 100, 1),
        (17, 9, 0, 1),
        (usize::MAX, 0, 0, 1),
        (1, 7, 0, 4),
        (2, 3, 100, 4),
        (8, 0, 100, 4),
        (16, 0, 100, 4),
        (4, usize::MAX, 100, 4),
        (2, usize::MAX / 2, 100, 4),
        (1, 6, 1, 5),
        (7, 0, 13, 5),
        (2, 2, 0, 5),
    ];
    for (n, access, room, number) in cases {
        assert_eq!(
            sent(n, access, room),
            (number, vec![9; room]),
            "{n} {access}"
        );
    }
}

#[test]
fn sixteen_drivers_are_served() {
    let list: Vec<u16> = (0..32).map(|word| 0x2000 + word).collect();
    let mut bytes = [9; 33];
    assert_eq!(plan_bytes(16, &list, 1, &mut bytes), 0);
    let words = bytes.chunks(2).map(<[u8]>::to_vec);
    let expected = (0..16).map(|k| vec![0x20, 31 - k]).chain([vec![9]]);
    assert!(words.eq(expected));
}
