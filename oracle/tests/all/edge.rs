//! The sheet that gets to the largest stack offset.

use oracle::edge;

use crate::common;

/// What the sheet prints, a call's lines together.
fn calls() -> Vec<Vec<String>> {
    let mut sheet = Vec::new();
    edge::write(&mut sheet).expect("a vector takes all that is written");
    let mut calls: Vec<Vec<String>> = Vec::new();
    for line in common::printed(&sheet).lines() {
        if line.starts_with("fresh") {
            calls.push(Vec::new());
        }
        calls.last_mut().expect("a fresh call comes first").push(line.to_string());
    }
    calls
}

/// The lines behind the first so many, each without this offset, with which it ends twice.
fn stays(call: &[String], first: usize, offset: u64) -> Vec<&str> {
    let offsets = format!(" {offset} {offset}");
    let lines = call[first..].iter();
    lines.map(|line| line.strip_suffix(&offsets).expect("the offset stays")).collect()
}

/// What is asked of row 0 when there is no room.
const WITHOUT_ROOM: [&str; 18] = [
    "direct 5 8 0 1 0 0",
    "refused 5 8 0 0 0 0 7",
    "ignore 5 8 0 0 0 0",
    "refused 5 8 0 0 0 0 7",
    "direct 4 8 0 1 0 0",
    "refused 4 8 0 0 0 0 7",
    "reference 3 8 0 1 0 0",
    "direct 1 8 0 2 0 0",
    "refused 1 8 0 0 0 0 7",
    "direct 0 8 0 1 0 0",
    "refused 0 8 0 0 0 0 7",
    "refused 0 8 0 0 0 0 7",
    "refused 0 8 0 0 0 0 7",
    "direct 0 7 0 0 0 1",
    "direct 0 7 0 0 0 0",
    "ignore 0 7 0 0 0 0",
    "refused 0 7 0 0 0 0 5",
    "marked 0 7 0 0 0 0",
];

#[test]
fn a_call_that_gets_to_the_largest_offset() {
    let [_, full, ..] = &calls()[..] else { panic!("there are more calls") };
    for (number, line) in full[1..=65_536].iter().enumerate() {
        let before = 16_777_216 * number;
        assert_eq!(*line, format!("memory 6 8 0 0 0 0 {before} {}", before + 16_777_216));
    }
    assert_eq!(stays(full, 65_537, 1 << 40), WITHOUT_ROOM);
}

#[test]
fn a_call_that_gets_a_byte_less_far() {
    let [_, _, short, _] = &calls()[..] else { panic!("there are four calls") };
    assert_eq!(short[65_536], "memory 6 8 0 0 0 0 1099494850560 1099511627775");
    assert_eq!(stays(short, 65_537, (1 << 40) - 1), WITHOUT_ROOM);
}

#[test]
fn a_call_with_a_word_left() {
    let [.., short] = &calls()[..] else { panic!("there is a last call") };
    let expected = [
        "memory 3 0 0 0 0 0 1099494850560 1099511627772",
        "direct 2 0 0 1 0 0 1099511627772 1099511627772",
        "refused 2 0 0 0 0 0 7 1099511627772 1099511627772",
        "refused 2 0 0 0 0 0 7 1099511627772 1099511627772",
        "direct 0 0 0 2 0 0 1099511627772 1099511627776",
        "refused 0 0 0 0 0 0 7 1099511627776 1099511627776",
        "refused 0 0 0 0 0 0 7 1099511627776 1099511627776",
        "ignore 0 0 0 0 0 0 1099511627776 1099511627776",
    ];
    assert_eq!(short[65_536..], expected);
}

#[test]
fn a_rounding_of_0() {
    let [first, ..] = &calls()[..] else { panic!("there is a first call") };
    let expected = [
        "direct 0 0 0 0 0 0 0 1",
        "memory 0 0 0 0 0 0 1 13",
        "direct 0 0 0 0 0 0 13 14",
        "memory 0 0 0 0 0 0 14 32",
    ];
    assert_eq!(first[17..], expected);
}
