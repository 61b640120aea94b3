//! The pins O0 to O18 of a cathode ("Segments and brightness", Tables 2 to 4, 10 to 13).

use crate::bits::bit;
use crate::blink::shown_byte;
use crate::record::Record;

const NOT_DRIVEN: u8 = 0;
const CATHODE: u8 = 1;
const LIT: u8 = 2;
const UNLIT: u8 = 3;
const CARRIES_NONE: u8 = 4;

/// The answer of a dark cathode and of a refused call.
pub const NO_PIN_DRIVEN: [u8; 19] = [NOT_DRIVEN; 19];

/// The segments of the 17 pins that are left to them, in rising order.
const SIXTEEN: [&str; 17] = [
    "a1", "a2", "b", "c", "d1", "d2", "e", "f", "g1", "g2", "h", "i", "j", "k", "l", "m", "dp",
];
const FOURTEEN: [&str; 17] = [
    "a", "none", "b", "c", "d", "none", "e", "f", "g1", "g2", "h", "i", "j", "k", "l", "m", "dp",
];
const SEVEN: [&str; 17] = [
    "1a", "none", "1b", "1c", "1d", "1dp", "1e", "1f", "1g", "2a", "2b", "2c", "2d", "2e", "2f",
    "2g", "2dp",
];

/// A lent table's word, bit 15 first.
const WORD: [&str; 16] = [
    "a1", "a2", "b", "c", "d1", "d2", "e", "f", "g1", "g2", "h", "i", "j", "k", "l", "m",
];

/// Table 10: D7 first.
const DIRECT: [&str; 8] = ["dp", "a", "b", "c", "d", "e", "f", "g"];

/// Table 11: the lit segments of 0 to F.
const HEXADECIMAL: [&str; 16] = [
    "abcdef", "bc", "abdeg", "abcdg", "bcfg", "acdfg", "acdefg", "abc", "abcdefg", "abcdfg",
    "abcefg", "cdefg", "adef", "bcdeg", "adefg", "aefg",
];

/// D6 to D0 of a hex digit that is dark (decode-mode section of 000).
const BLANK: u8 = 0b001_0000;

/// What a cathode drives.
#[derive(Clone, Copy, Debug, PartialEq, Eq)]
enum Display {
    Sixteen,
    Fourteen,
    SevenPair,
}

/// Digit-type bit d set is 14-segment (Table 13); clear, the fitted byte tells 7 from 16.
fn display(record: &Record, cathode: usize) -> Display {
    if bit(record.types, cathode) {
        Display::Fourteen
    } else if bit(record.fitted, cathode) {
        Display::SevenPair
    } else {
        Display::Sixteen
    }
}

/// The names on O0 to O18: "CC" the cathode, "off" its partner, "none" no segment.
fn names(display: Display, cathode: usize) -> Vec<&'static str> {
    let segments = match display {
        Display::Sixteen => SIXTEEN,
        Display::Fourteen => FOURTEEN,
        Display::SevenPair => SEVEN,
    };
    let partner = if cathode % 2 == 1 {
        cathode - 1
    } else {
        cathode + 1
    };
    let mut left = segments.into_iter();
    let mut row = Vec::new();
    for pin in 0..19 {
        if pin == cathode {
            row.push("CC");
        } else if pin == partner {
            row.push("off");
        } else {
            row.extend(left.next());
        }
    }
    row
}

/// With display test off, a cathode is dark in shutdown or above the scan limit.
pub fn dark(record: &Record, cathode: usize) -> bool {
    record.test != 1 && (record.s == 0 || cathode > usize::from(record.limit))
}

/// The nineteen pins of one cathode under the lent glyph tables of 128 words.
pub fn pins(record: &Record, cathode: usize, font14: &[u16], font16: &[u16]) -> Vec<u8> {
    if dark(record, cathode) {
        return NO_PIN_DRIVEN.to_vec();
    }
    let test = record.test == 1;
    let display = display(record, cathode);
    let lights = |name: &str| match display {
        Display::Sixteen => glyph_lit(shown_byte(record, cathode), font16, name),
        Display::Fourteen => glyph_lit(shown_byte(record, cathode), font14, name),
        Display::SevenPair => pair_lit(record, cathode, name),
    };
    let mut answer = Vec::new();
    for name in names(display, cathode) {
        answer.push(match name {
            "CC" => CATHODE,
            "off" => NOT_DRIVEN,
            "none" => CARRIES_NONE,
            _ if test || lights(name) => LIT,
            _ => UNLIT,
        });
    }
    answer
}

/// For each lit segment of a cathode the digit that it is of, 0 to 7 and then 0a to 7a.
pub fn lit_digits(record: &Record, cathode: usize, font14: &[u16], font16: &[u16]) -> Vec<usize> {
    let names = names(display(record, cathode), cathode).into_iter();
    let lit = names
        .zip(pins(record, cathode, font14, font16))
        .filter(|(_, pin)| *pin == LIT);
    lit.map(|(name, _)| digit_of(name, cathode)).collect()
}

/// Names in 2 are digit da's, all others digit d's.
fn digit_of(name: &str, cathode: usize) -> usize {
    if name.starts_with('2') {
        cathode + 8
    } else {
        cathode
    }
}

/// A segment of a 14- or 16-segment digit: D7 is dp, D6 to D0 pick the glyph.
fn glyph_lit(byte: u8, font: &[u16], name: &str) -> bool {
    if name == "dp" {
        return bit(byte, 7);
    }
    let word_name = match name {
        "a" => "a1",
        "d" => "d1",
        other => other,
    };
    let glyph = font[usize::from(byte % 128)];
    WORD.iter()
        .zip((0..16).rev())
        .any(|(segment, place)| *segment == word_name && bit(glyph, place))
}

/// A segment of a 7-segment pair, by the byte of its own digit.
fn pair_lit(record: &Record, cathode: usize, name: &str) -> bool {
    let byte = shown_byte(record, digit_of(name, cathode));
    let segment = name.trim_start_matches(['1', '2']);
    if bit(record.decode, cathode) {
        hexadecimal_lit(byte, segment)
    } else {
        direct_lit(byte, segment)
    }
}

/// Hexadecimal font: D7 for dp; a blank digit lights none of a to g, others ignore D6 to D4.
fn hexadecimal_lit(byte: u8, segment: &str) -> bool {
    if segment == "dp" {
        bit(byte, 7)
    } else if byte % 128 == BLANK {
        false
    } else {
        HEXADECIMAL[usize::from(byte % 16)].contains(segment)
    }
}

/// Direct control: D7 to D0 are dp a b c d e f g.
fn direct_lit(byte: u8, segment: &str) -> bool {
    DIRECT
        .iter()
        .zip((0..8).rev())
        .any(|(name, place)| *name == segment && bit(byte, place))
}

#[cfg(test)]
mod tests {
    use super::*;

    /// Tables 2 to 4 row by row; "-" is the partner or a pin that carries none.
    const TABLES: [(Display, [&str; 8]); 3] = [
        (
            Display::Sixteen,
            [
                "CC - a1 a2 b c d1 d2 e f g1 g2 h i j k l m dp",
                "- CC a1 a2 b c d1 d2 e f g1 g2 h i j k l m dp",
                "a1 a2 CC - b c d1 d2 e f g1 g2 h i j k l m dp",
                "a1 a2 - CC b c d1 d2 e f g1 g2 h i j k l m dp",
                "a1 a2 b c CC - d1 d2 e f g1 g2 h i j k l m dp",
                "a1 a2 b c - CC d1 d2 e f g1 g2 h i j k l m dp",
                "a1 a2 b c d1 d2 CC - e f g1 g2 h i j k l m dp",
                "a1 a2 b c d1 d2 - CC e f g1 g2 h i j k l m dp",
            ],
        ),
        (
            Display::Fourteen,
            [
                "CC - a - b c d - e f g1 g2 h i j k l m dp",
                "- CC a - b c d - e f g1 g2 h i j k l m dp",
                "a - CC - b c d - e f g1 g2 h i j k l m dp",
                "a - - CC b c d - e f g1 g2 h i j k l m dp",
                "a - b c CC - d - e f g1 g2 h i j k l m dp",
                "a - b c - CC d - e f g1 g2 h i j k l m dp",
                "a - b c d - CC - e f g1 g2 h i j k l m dp",
                "a - b c d - - CC e f g1 g2 h i j k l m dp",
            ],
        ),
        (
            Display::SevenPair,
            [
                "CC - 1a - 1b 1c 1d 1dp 1e 1f 1g 2a 2b 2c 2d 2e 2f 2g 2dp",
                "- CC 1a - 1b 1c 1d 1dp 1e 1f 1g 2a 2b 2c 2d 2e 2f 2g 2dp",
                "1a - CC - 1b 1c 1d 1dp 1e 1f 1g 2a 2b 2c 2d 2e 2f 2g 2dp",
                "1a - - CC 1b 1c 1d 1dp 1e 1f 1g 2a 2b 2c 2d 2e 2f 2g 2dp",
                "1a - 1b 1c CC - 1d 1dp 1e 1f 1g 2a 2b 2c 2d 2e 2f 2g 2dp",
                "1a - 1b 1c - CC 1d 1dp 1e 1f 1g 2a 2b 2c 2d 2e 2f 2g 2dp",
                "1a - 1b 1c 1d 1dp CC - 1e 1f 1g 2a 2b 2c 2d 2e 2f 2g 2dp",
                "1a - 1b 1c 1d 1dp - CC 1e 1f 1g 2a 2b 2c 2d 2e 2f 2g 2dp",
            ],
        ),
    ];

    #[test]
    fn the_rule_gives_tables_2_to_4() {
        for (display, rows) in TABLES {
            for (cathode, row) in rows.iter().enumerate() {
                let found = names(display, cathode).join(" ");
                assert_eq!(found.replace("off", "-").replace("none", "-"), *row);
            }
        }
    }
}
