//! The example script and the script refusals.

use second_double::run;

/// One record of a script.
fn entry(kind: u8, body: &[u8]) -> Vec<u8> {
    let mut bytes = vec![0x5A, 0xC3, kind, 0, body.len() as u8];
    bytes.extend(body);
    bytes
}

fn printed(entries: &[Vec<u8>]) -> String {
    String::from_utf8(run(&entries.concat())).unwrap_or_default()
}

#[test]
fn the_example_script() {
    let script = [
        entry(1, &[1]),
        entry(2, &[0x00, 0x10, 0x04, 0x01]),
        entry(2, &[0x00, 0x10, 0x84, 0x00]),
        entry(2, &[0x00, 0x10, 0x00, 0x00]),
    ];
    assert_eq!(printed(&script), "chain 1\nA 0000\nA 0401\nA 8481\n");
}

#[test]
fn the_first_line_and_the_stops() {
    let show = entry(6, &[1, 0]);
    let cases = [
        (vec![], "chain 4\n"),
        (vec![entry(1, &[0]), show.clone()], "R 1\n"),
        (vec![entry(1, &[17])], "R 1\n"),
        (vec![entry(1, &[2, 2]), show.clone()], "chain 4\nR 8\n"),
        (vec![entry(1, &[1])[..5].to_vec()], "chain 4\nR 8\n"),
        (
            vec![entry(1, &[16]), entry(1, &[16]), show.clone()],
            "chain 16\nR 8\n",
        ),
        (vec![entry(3, &[1; 6])], "chain 4\nR 8\n"),
        (vec![entry(2, &[0]), show.clone()], "chain 4\nR 8\n"),
        (vec![entry(7, &[]), show.clone()], "chain 4\nR 8\n"),
        (vec![show[..6].to_vec()], "chain 4\nR 8\n"),
        (vec![vec![0x5A, 0xC4], show], "chain 4\nR 8\n"),
        (vec![vec![0; 65_536]], "chain 4\nR 8\n"),
        (vec![vec![0; 65_537]], "R 9\n"),
    ];
    for (script, lines) in cases {
        assert_eq!(printed(&script), lines);
    }
}

#[test]
fn without_a_chain_record_there_are_4_drivers() {
    let words = [0x04, 0x01, 0x00, 0x00, 0x00, 0x00, 0x80, 0x00];
    let script = [
        entry(2, &[&[0x00, 0x40], &words[..]].concat()),
        entry(6, &[4, 0]),
        entry(6, &[1, 0]),
        entry(6, &[5, 0]),
        entry(2, &[&[0x00, 0x40], &[0; 8][..]].concat()),
        entry(1, &[1]),
    ];
    let (zeros, dark) = ("C-1-111011011111100", "-".repeat(19));
    let shown = format!("S {zeros} s\nS {dark} f\nR 2\n");
    let lines = format!("chain 4\nA 0000000000000000\n{shown}A 0401000000008000\nR 8\n");
    assert_eq!(printed(&script), lines);
}

#[test]
fn every_kind_prints_its_line() {
    let script = [
        entry(1, &[1]),
        entry(6, &[1, 0]),
        entry(2, &[0x00, 0x10, 0x04, 0x0D, 0xFF]),
        entry(6, &[1, 0]),
        entry(5, &[1, 0x00, 0x0F, 0x42, 0x40]),
        entry(3, &[1, 1, 0, 0, 0]),
        entry(4, &[1, 31]),
        entry(4, &[1, 32]),
        entry(6, &[2, 0]),
        entry(2, &[0x10, 0x01]),
        entry(2, &[0x00, 0x01]),
        entry(2, &[0x00, 0x00]),
    ];
    let lines = "chain 1\nS ------------------- s\nA 0000\nS C-1-111011011111100 s\nR 6\nR 2\nR 3\nR 4\nA\n";
    assert_eq!(printed(&script), lines);
}

#[test]
fn show_uses_the_test_table() {
    let script = [
        entry(1, &[1]),
        entry(2, &[0x00, 0x10, 0x04, 0x01]),
        entry(2, &[0x00, 0x10, 0x0C, 0x01]),
        entry(2, &[0x00, 0x10, 0x20, 0xC1]),
        entry(6, &[1, 0]),
    ];
    let lines = "chain 1\nA 0000\nA 0401\nA 0C01\nS C-0-000-01010000011 s\n";
    assert_eq!(printed(&script), lines);
}

#[test]
fn kinds_3_to_5_reach_the_driver() {
    let mut script = vec![
        entry(1, &[1]),
        entry(2, &[0x00, 0x10, 0x06, 0x7F]),
        entry(3, &[1, 0x11, 0x22, 0x33, 0x44]),
        entry(4, &[1, 31]),
        entry(5, &[1, 0x00, 0x1E, 0x84, 0x80]),
    ];
    for high in [0x85, 0x8C, 0x8D, 0x8E, 0x8F, 0x84, 0x00] {
        script.push(entry(2, &[0x00, 0x10, high, 0x00]));
    }
    let lines = "chain 1\nA 0000\nA 067F\nA 8508\nA 8C11\nA 8D22\nA 8E33\nA 8F00\nA 8400\n";
    assert_eq!(printed(&script), lines);
}

#[test]
fn a_show_ends_with_the_answer_mark() {
    let script = [
        entry(1, &[1]),
        entry(2, &[0x00, 0x10, 0x04, 0x01]),
        entry(2, &[0x00, 0x10, 0x84, 0x00]),
        entry(6, &[1, 0]),
        entry(2, &[0x00, 0x10, 0x00, 0x00]),
        entry(6, &[1, 0]),
    ];
    let zeros = "C-1-111011011111100";
    let lines = format!("chain 1\nA 0000\nA 0401\nS {zeros} f\nA 8481\nS {zeros} s\n");
    assert_eq!(printed(&script), lines);
}

#[test]
fn a_dark_show_has_its_own_drivers_mark() {
    let script = [
        entry(1, &[2]),
        entry(2, &[0x00, 0x20, 0x80, 0x00, 0x00, 0x00]),
        entry(3, &[2, 1, 1, 1, 1]),
        entry(4, &[2, 31]),
        entry(5, &[2, 0, 0, 0, 1]),
        entry(2, &[0x00, 0x10]),
        entry(6, &[2, 0]),
        entry(6, &[1, 0]),
        entry(6, &[2, 8]),
        entry(6, &[3, 0]),
    ];
    let dark = "-".repeat(19);
    let lines = format!("chain 2\nA 00000000\nR 4\nS {dark} f\nS {dark} s\nR 6\nR 2\n");
    assert_eq!(printed(&script), lines);
}
