//! The library through the safe calls: each call served and refused, and every field where its name is.
use ratchetelm::{
    access, add_clocks, answer_mark, brightness, interrupt, look_back, plan, plan_bytes,
    plan_check, plane, scan, segments, set_pins, shown, Brightness, Config, Controls, Device,
    Group, Pin, Plane, Refusal, Ruler, CATHODES, MOST_ACCESSES, MOST_TOTALS, WANTED_SIZE,
};
use std::mem::size_of;

const FONT: [u16; 128] = [0; 128];

/// A word to driver 2 of 2 and a no-op to driver 1; gives the word that comes out in driver 2's place.
fn send(chain: &mut [Device; 2], word: u16) -> u16 {
    let [high, low] = word.to_be_bytes();
    let mut answer = [0xEE; 5];
    assert_eq!(access(chain, 32, &[high, low, 0, 0], &mut answer), Ok(()));
    assert_eq!(answer[4], 0xEE, "bytes after the answer stay");
    u16::from_be_bytes([answer[0], answer[1]])
}

/// Two drivers, of which driver 2 has taken these words.
fn chain_after(words: &[u16]) -> [Device; 2] {
    let mut chain = [Device::power_up(); 2];
    for &word in words {
        send(&mut chain, word);
    }
    chain
}

/// Driver 2 has been given something for every register, its keys, pins and blink count; its last word is a read.
fn filled() -> [Device; 2] {
    let mut chain = chain_after(&[
        0x0111, 0x0202, 0x0303, 0x044D, 0x0515, 0x0680, 0x0701, 0x0C88,
    ]);
    for k in 0..4 {
        send(&mut chain, 0x0801 + 0x101 * k);
    }
    for k in 0..8 {
        send(&mut chain, 0x1030 + 0x101 * k);
    }
    for k in 0..16 {
        send(&mut chain, 0x2060 + 0x101 * k);
        send(&mut chain, 0x4080 + 0x101 * k);
    }
    send(&mut chain, 0x8100);
    assert_eq!(scan(&mut chain, 2, [0x11, 0x20, 0x40, 0x80]), Ok(()));
    assert_eq!(scan(&mut chain, 2, [0x11, 0x28, 0x42, 0x84]), Ok(()));
    assert_eq!(set_pins(&mut chain, 2, 21), Ok(()));
    assert_eq!(add_clocks(&mut chain, 2, 4_000_007), Ok(()));
    chain
}

fn group(mask: u8, debounced: u8, pressed: u8) -> Group {
    let held = debounced;
    Group {
        mask,
        debounced,
        pressed,
        held,
    }
}

#[test]
fn every_field_is_where_its_name_is() {
    let [first, second] = filled();
    assert_eq!(first, Device::power_up());
    assert_eq!((second.shift, second.fitted), (0x8111, 255));
    assert_eq!(second.answer_mark, 1);
    let r = second.registers;
    let controls = Controls {
        decode: 0x11,
        global: 2,
        limit: 3,
        gpio: 0x15,
        ports: 0x80,
        test: 1,
        types: 0x88,
    };
    assert_eq!(r.controls, controls);
    assert_eq!([r.config.i, r.config.e, r.config.b, r.config.s], [1; 4]);
    assert_eq!(r.intensities, std::array::from_fn(|k| 0x30 + k as u8));
    assert_eq!(
        (r.keys.a, r.keys.b),
        (group(1, 0x11, 0x11), group(2, 0x20, 0x28))
    );
    assert_eq!(
        (r.keys.c, r.keys.d),
        (group(3, 0x40, 0x42), group(4, 0x80, 0x84))
    );
    assert_eq!(r.keys.interrupt, 1);
    assert_eq!(r.planes.p0, std::array::from_fn(|k| 0x60 + k as u8));
    assert_eq!(r.planes.p1, std::array::from_fn(|k| 0x80 + k as u8));
    assert_eq!((r.pins, r.blink), (21, 7));
}

#[test]
fn each_configuration_bit_has_its_field() {
    let off = Device::power_up().registers.config;
    let bits = [
        (0x0440, Config { i: 1, ..off }),
        (0x0408, Config { e: 1, ..off }),
        (0x0404, Config { b: 1, ..off }),
        (0x0401, Config { s: 1, ..off }),
    ];
    for (word, config) in bits {
        assert_eq!(
            chain_after(&[word])[1].registers.config,
            config,
            "{word:04X}"
        );
    }
}

#[test]
fn a_key_stays_held_after_its_debounced_register_is_read() {
    let mut chain = chain_after(&[0x0620]);
    for _ in 0..2 {
        assert_eq!(scan(&mut chain, 2, [4, 0, 0, 0]), Ok(()));
    }
    send(&mut chain, 0x8800);
    assert_eq!(
        chain[1].registers.keys.a,
        Group {
            mask: 0,
            debounced: 0,
            pressed: 4,
            held: 4
        }
    );
}

#[test]
fn a_read_is_answered_one_access_later() {
    let mut chain = chain_after(&[0x0401]);
    assert_eq!(send(&mut chain, 0x8400), 0x0401);
    assert_eq!(send(&mut chain, 0x0000), 0x8481);
    assert_eq!(send(&mut chain, 0x0000), 0x0000);
}

#[test]
fn every_access_decides_the_answer_mark() {
    let marks = |chain: &[Device]| [answer_mark(chain, 1), answer_mark(chain, 2)];
    let mut chain = chain_after(&[0x0401]);
    assert_eq!(marks(&chain), [Ok(false); 2]);
    send(&mut chain, 0xFF00);
    assert_eq!(marks(&chain), [Ok(false), Ok(true)]);
    // At 0 clocks each driver takes its word again.
    (chain[0].answer_mark, chain[1].answer_mark) = (1, 0);
    assert_eq!(access(&mut chain, 0, &[], &mut []), Ok(()));
    assert_eq!(marks(&chain), [Ok(false), Ok(true)]);
    // The other calls leave it.
    assert_eq!(scan(&mut chain, 2, [0; 4]), Ok(()));
    assert_eq!(set_pins(&mut chain, 2, 1), Ok(()));
    assert_eq!(add_clocks(&mut chain, 2, 1), Ok(()));
    assert_eq!(marks(&chain), [Ok(false), Ok(true)]);
    send(&mut chain, 0x0000);
    assert_eq!(marks(&chain), [Ok(false); 2]);
}

#[test]
fn a_cathode_shows_its_pins() {
    let mut chain = chain_after(&[0x0401, 0x208A]);
    let numbers = [1, 0, 2, 4, 2, 2, 3, 2, 2, 2, 2, 2, 2, 2, 2, 2, 2, 3, 3];
    let kinds = [
        Pin::NotDriven,
        Pin::Cathode,
        Pin::Lit,
        Pin::Unlit,
        Pin::NoSegment,
    ];
    let pins = numbers.map(|k: usize| kinds[k]);
    assert_eq!(segments(&chain, 2, 0, &FONT, &FONT), Ok(pins));
    assert_eq!(
        segments(&chain, 1, 0, &FONT, &FONT),
        Ok([Pin::NotDriven; 19])
    );
    chain[1].fitted = 0;
    assert_eq!(
        segments(&chain, 2, 0, &FONT, &[0xFFFF; 128]).map(|pins| pins[3]),
        Ok(Pin::Lit)
    );
    assert_eq!(
        segments(&chain, 2, 0, &[0xFFFF; 128], &FONT).map(|pins| pins[3]),
        Ok(Pin::Unlit)
    );
}

#[test]
fn questions_are_answered() {
    let mut chain = chain_after(&[0x0408, 0x0620, 0x0801]);
    assert_eq!(shown(&chain, 2), Ok(Plane::P0));
    assert_eq!(add_clocks(&mut chain, 2, 2_000_000), Ok(()));
    assert_eq!(shown(&chain, 2), Ok(Plane::P1));
    assert_eq!(scan(&mut chain, 2, [1, 0, 0, 0]), Ok(()));
    assert_eq!(interrupt(&chain, 2), Ok(false));
    assert_eq!(scan(&mut chain, 2, [1, 0, 0, 0]), Ok(()));
    assert_eq!(interrupt(&chain, 2), Ok(true));
}

#[test]
fn brightness_names_its_ruler() {
    // Words to driver 2 after global intensity E and own nibbles 0 to F; a digit, its sixteenths and what rules them.
    let rows = [
        (&[][..], 0, 0, Ruler::Global),
        (&[0x0440], 0, 0, Ruler::Own),
        (&[0x0701], 0, 7, Ruler::Test),
        (&[0x0440, 0x0701], 15, 7, Ruler::Test),
        (&[0x0401], 0, 15, Ruler::Global),
        (&[0x0441], 0, 1, Ruler::Own),
        (&[0x0441], 9, 10, Ruler::Own),
        (&[0x0441], 14, 15, Ruler::Own),
        (&[0x0441], 15, 15, Ruler::Own),
        (&[0x0441, 0x0303], 3, 4, Ruler::Own),
        (&[0x0441, 0x0303], 4, 0, Ruler::Own),
        (&[0x0441, 0x0303], 11, 12, Ruler::Own),
        (&[0x0441, 0x0303], 12, 0, Ruler::Own),
    ];
    for (words, digit, sixteenths, ruler) in rows {
        let mut all = vec![0x020E];
        all.extend((0..8).map(|k| 0x1010 + 0x122 * k));
        all.extend(words);
        assert_eq!(
            brightness(&chain_after(&all), 2, digit),
            Ok(Brightness { sixteenths, ruler }),
            "digit {digit} after {words:04X?}"
        );
    }
}

#[test]
fn the_returned_part_is_uncopied() {
    let (p0, p1) = ([1; 16], [2; 16]);
    let mut chain = chain_after(&[0x0408]);
    let part = plane(&chain, 2, &p0, &p1, 3, 5).unwrap();
    assert_eq!(part.as_ptr_range(), p0[3..6].as_ptr_range());
    assert_eq!(add_clocks(&mut chain, 2, 2_000_000), Ok(()));
    let part = plane(&chain, 2, &p0, &p1, 0, 15).unwrap();
    assert_eq!(part.as_ptr_range(), p1.as_ptr_range());
}

#[test]
fn a_byte_is_found_by_looking_back() {
    let chain = filled();
    // Words; then the bytes of digit 3 of driver 2 in P0 and in P1.
    let rows: [(&[u16], [u8; 2]); 6] = [
        (&[], [0x63, 0x83]),
        (&[0x2311, 0x6422, 0xA300], [0x11, 0x83]),
        (&[0x6311, 0x4322], [0x11, 0x22]),
        (&[0x6311, 0x0420], [0, 0]),
        (&[0x0460, 0x4322], [0, 0x22]),
        (&[0x6311, 0x04DF], [0x11, 0x11]),
    ];
    for (words, [p0, p1]) in rows {
        assert_eq!(look_back(&chain, 2, Plane::P0, 3, words), Ok(p0));
        assert_eq!(look_back(&chain, 2, Plane::P1, 3, words), Ok(p1));
    }
    assert_eq!(look_back(&chain, 1, Plane::P0, 3, &[]), Ok(0x20));
}

/// The planes of each driver, as a plan is asked for them.
fn pictures(chain: &[Device]) -> Vec<u8> {
    let planes = chain.iter().map(|d| d.registers.planes);
    planes.flat_map(|p| [p.p0, p.p1].concat()).collect()
}

/// Three drivers that need one access, none and three: a write to both planes, nothing, and a clear with a digit's two bytes.
fn to_redraw() -> ([Device; 3], Vec<u8>) {
    let mut chain = [Device::power_up(); 3];
    chain[2].registers.config.s = 1;
    let mut wanted = pictures(&chain);
    (wanted[9], wanted[25]) = (0x7F, 0x7F);
    wanted[64..].fill(0);
    (wanted[69], wanted[85]) = (1, 2);
    (chain, wanted)
}

const REDRAWN: [u16; 9] = [0x697F, 0, 0x0421, 0, 0, 0x2501, 0, 0, 0x4502];

#[test]
fn a_plan_is_made_accepted_and_sent() {
    let (mut chain, wanted) = to_redraw();
    let mut list = [0xEEEE; 3 * MOST_ACCESSES];
    assert_eq!(plan(&chain, &wanted, &mut list), Ok(3));
    assert_eq!(list[..9], REDRAWN);
    assert_eq!(list[9..], [0xEEEE; 3 * MOST_ACCESSES - 9]);
    assert_eq!(plan_check(&chain, &wanted, &list[..9]), Ok(true));
    for k in 0..3 {
        let (mut bytes, mut answer) = ([0xEE; 7], [0; 6]);
        assert_eq!(plan_bytes(3, &list, k, &mut bytes), Ok(()));
        assert_eq!(bytes[6], 0xEE, "bytes after them stay");
        assert_eq!(access(&mut chain, 48, &bytes[..6], &mut answer), Ok(()));
    }
    assert_eq!(pictures(&chain), wanted);
    assert_eq!(plan(&chain, &wanted, &mut []), Ok(0));
    assert_eq!(plan_check(&chain, &wanted, &[]), Ok(true));
}

#[test]
fn the_check_accepts_no_wrong_list() {
    let (chain, wanted) = to_redraw();
    let with = |at: usize, word| {
        let mut list = REDRAWN.to_vec();
        list[at] = word;
        list
    };
    let lists = [
        with(2, 0x0431),       // T set
        with(2, 0x0420),       // S of another value
        with(2, 0x8421),       // a read
        with(8, 0x4503),       // another byte
        REDRAWN[..8].to_vec(), // a part of an access
        vec![],
    ];
    for list in lists {
        assert_eq!(plan_check(&chain, &wanted, &list), Ok(false), "{list:04X?}");
    }
}

/// A call's number.
fn number<T>(result: Result<T, Refusal>) -> u8 {
    result.map_or_else(Refusal::number, |_| 0)
}

#[test]
fn a_plan_is_refused_by_its_number() {
    let (chain, wanted) = to_redraw();
    let (mut unsound, long) = (chain, [Device::power_up(); 17]);
    unsound[1].registers.blink = 4_000_000;
    // Records, wanted bytes, room; the number of the plan, and of the check.
    let rows = [
        (&chain[..0], 95, 8, 1, 1),
        (&long[..], 95, 8, 1, 1),
        (&unsound[..], 95, 8, 7, 7),
        (&chain[..], 95, 8, 12, 12),
        (&chain[..], 96, 8, 13, 0),
        (&chain[..], 96, 9, 0, 0),
    ];
    for (records, length, room, planned, checked) in rows {
        let (wanted, mut list) = (&wanted[..length], [0xEEEE; 9]);
        assert_eq!(number(plan(records, wanted, &mut list[..room])), planned);
        assert_eq!(
            list == [0xEEEE; 9],
            planned != 0,
            "a refused plan changes no word"
        );
        assert_eq!(number(plan_check(records, wanted, &REDRAWN)), checked);
    }
}

#[test]
fn bytes_to_send_are_refused_by_their_number() {
    let mut bytes = [0xEE; 6];
    // Drivers, access, room; the number.
    let rows = [
        (0, 3, 5, 1),
        (17, 3, 5, 1),
        (3, 3, 5, 4),
        (3, usize::MAX, 6, 4),
        (2, 4, 6, 4),
        (3, 2, 5, 5),
    ];
    for (n, access, room, expected) in rows {
        let given = plan_bytes(n, &REDRAWN, access, &mut bytes[..room]);
        assert_eq!((number(given), bytes), (expected, [0xEE; 6]));
    }
    assert_eq!(plan_bytes(3, &REDRAWN, 1, &mut bytes), Ok(()));
    assert_eq!(bytes, [0x25, 0x01, 0, 0, 0, 0]);
}

/// The number of each call. Pin levels, last digit, cathode and digit are so far above the highest that is served.
fn numbers(
    chain: &mut [Device],
    driver: usize,
    clocks: usize,
    sent: &[u8],
    above: usize,
    font: &[u16],
) -> [u8; 11] {
    let planes = [0; 16];
    [
        number(access(chain, clocks, sent, &mut [0; 2])),
        number(scan(chain, driver, [1; 4])),
        number(set_pins(chain, driver, 31 + above as u32)),
        number(add_clocks(chain, driver, 1)),
        number(plane(chain, driver, &planes, &planes, 0, 15 + above)),
        number(segments(chain, driver, 7 + above, font, font)),
        number(brightness(chain, driver, 15 + above)),
        number(shown(chain, driver)),
        number(interrupt(chain, driver)),
        number(answer_mark(chain, driver)),
        number(look_back(chain, driver, Plane::P1, 15 + above, &[0x6077])),
    ]
}

#[test]
fn each_call_is_refused_by_its_number() {
    let fresh = [Device::power_up(); 17];
    let (mut late, mut high, mut marked) = (fresh, fresh, fresh);
    late[2].registers.blink = 4_000_000;
    high[2].registers.pins = 1 << 31;
    marked[2].answer_mark = 2;
    // 2, but for an access, which names no driver.
    let no_driver = |access: u8| {
        let mut numbers = [2; 11];
        numbers[0] = access;
        numbers
    };
    let rows = [
        (&fresh[..0], 1, 16, 2, 0, 128, [1; 11]),
        (&fresh[..], 1, 16, 2, 0, 128, [1; 11]),
        (&fresh[..3], 0, 4097, 0, 1, 128, no_driver(3)),
        (&fresh[..3], 4, 17, 2, 1, 128, no_driver(4)),
        (
            &late[..3],
            1,
            17,
            3,
            1,
            128,
            [5, 7, 6, 7, 6, 6, 6, 7, 7, 7, 6],
        ),
        (
            &high[..3],
            3,
            16,
            2,
            0,
            127,
            [7, 7, 7, 7, 7, 6, 7, 7, 7, 7, 7],
        ),
        (&marked[..3], 1, 16, 2, 0, 128, [7; 11]),
    ];
    for (records, driver, clocks, length, above, font, expected) in rows {
        let mut chain = records.to_vec();
        let given = numbers(
            &mut chain,
            driver,
            clocks,
            &[0x02; 3][..length],
            above,
            &FONT[..font],
        );
        assert_eq!((given, &chain[..]), (expected, records));
    }
    let mut chain = fresh;
    assert_eq!(
        numbers(&mut chain[..16], 16, 16, &[0; 2], 0, &FONT),
        [0; 11]
    );
    assert_eq!(access(&mut chain[..1], 0, &[], &mut []), Ok(()));
}

const HEADER: &str = include_str!("../../include/ratchetelm.h");

/// A number that the header defines.
fn defined(name: &str) -> Option<usize> {
    let line = HEADER
        .lines()
        .find_map(|line| line.strip_prefix(&format!("#define {name} ")));
    line.and_then(|number| number.parse().ok())
}

#[test]
fn the_header_has_this_version_and_these_sizes() {
    let version = env!("CARGO_PKG_VERSION").split('.');
    let version = version.fold(0, |sum, part| 100 * sum + part.parse::<usize>().unwrap());
    assert_eq!(defined("RATCHETELM_VERSION"), Some(version));
    assert_eq!(defined("MAX6954_DEVICE_SIZE"), Some(size_of::<Device>()));
    assert_eq!(defined("MAX6954_WANTED_SIZE"), Some(WANTED_SIZE));
    assert_eq!(defined("MAX6954_MOST_ACCESSES"), Some(MOST_ACCESSES));
    assert_eq!(defined("MAX6954_CATHODES"), Some(CATHODES));
    assert_eq!(defined("MAX6954_MOST_TOTALS"), Some(MOST_TOTALS));
}

#[test]
fn rulers_have_the_numbers_of_the_header() {
    let rulers = [
        ("GLOBAL", Ruler::Global),
        ("OWN", Ruler::Own),
        ("TEST", Ruler::Test),
    ];
    for (name, ruler) in rulers {
        let words = format!("MAX6954_RULED_BY_{name} = {}", ruler as u8);
        assert!(HEADER.contains(&words), "{words}");
    }
}

#[test]
fn refusals_have_the_numbers_and_words_of_the_header() {
    let header: Vec<&str> = HEADER.split_whitespace().collect();
    let header = header.join(" ");
    let refusals = [
        (9, Refusal::ScriptTooLong),
        (1, Refusal::ChainLength),
        (2, Refusal::DriverNumber),
        (3, Refusal::TooManyClocks),
        (4, Refusal::SentTooShort),
        (5, Refusal::AnswerTooShort),
        (6, Refusal::OutOfRange),
        (7, Refusal::Unsound),
        (10, Refusal::OneAddress),
        (11, Refusal::AddressTooHigh),
        (14, Refusal::Lacked),
        (12, Refusal::WantedLength),
        (13, Refusal::ListTooShort),
    ];
    // Two strings side by side are one.
    let given = header.replace("\" \"", "");
    for (number, refusal) in refusals {
        assert_eq!(refusal.number(), number);
        let words = format!(" {number} {refusal}");
        assert!(header.contains(&words), "{words}");
        let words = format!(" case {number}: return \"{refusal}\";");
        assert!(given.contains(&words), "{words}");
    }
}
