//! The generated sheets: the same from the same seed, and hitting what matters.

use std::collections::HashSet;

use oracle::numbers::ROWS;
use oracle::records::{self, AGGREGATE, FRESH, MARK, PIECE, Record};
use oracle::values::MOST_PIECES;
use oracle::{damage, generate};

use crate::common;

fn good(seed: u64, count: u64) -> Vec<u8> {
    let mut sheet = Vec::new();
    generate::write(&mut sheet, seed, count).expect("a vector takes all that is written");
    sheet
}

fn damaged(seed: u64, count: u64) -> Vec<u8> {
    let mut sheet = Vec::new();
    damage::write(&mut sheet, seed, count).expect("a vector takes all that is written");
    sheet
}

#[test]
fn the_same_seed_gives_the_same_sheet() {
    for sheet in [good, damaged] {
        assert_eq!(sheet(5, 300), sheet(5, 300));
        assert_ne!(sheet(5, 300), sheet(6, 300));
    }
}

#[test]
fn a_good_sheet_has_a_line_for_each_operation() {
    for seed in 0..20 {
        let printed = common::printed(&good(seed, 1_000));
        assert_eq!(printed.lines().count(), 1_000);
        assert!(!printed.contains("stop"));
    }
}

#[test]
fn a_good_sheet_has_every_word_and_every_refusal() {
    let printed = common::printed(&good(1, 20_000));
    let words: HashSet<&str> = printed.lines().filter_map(|line| line.split(' ').next()).collect();
    let expected =
        ["fresh", "marked", "ignore", "direct", "pieces", "reference", "memory", "refused"];
    assert_eq!(words, HashSet::from(expected));
    let refusals: HashSet<&str> = printed.lines().filter_map(common::refusal).collect();
    assert_eq!(refusals, HashSet::from(["1", "4", "5", "6", "9"]));
}

/// The stack offset goes from line to line of a call, and never back.
#[test]
fn the_offsets_of_a_good_sheet_hang_together() {
    let printed = common::printed(&good(3, 20_000));
    let mut last = 0;
    let mut largest = 0;
    for line in printed.lines() {
        let (rest, after) = line.rsplit_once(' ').expect("the offset after");
        let (rest, before) = rest.rsplit_once(' ').expect("the offset before");
        let [before, after] = [before, after].map(|word| word.parse::<u64>().expect("a number"));
        let is_refused_fresh = rest == "refused 0 0 0 0 0 0 1";
        if rest.starts_with("fresh ") || is_refused_fresh {
            last = 0;
        }
        let stays =
            ["fresh", "refused", "marked", "ignore"].iter().any(|word| rest.starts_with(word));
        assert!(before == last && after >= before && !(stays && after > before), "{line}");
        last = after;
        largest = largest.max(after);
    }
    assert!(largest > 16_777_216, "{largest}");
}

/// The aggregates of a good sheet: size, pieces, and the refusal, 0 where there is none.
fn aggregates(sheet: &[u8]) -> Vec<(u64, Vec<Record>, u64)> {
    let printed = common::printed(sheet);
    let mut lines = printed.lines();
    let mut aggregates: Vec<(u64, Vec<Record>, u64)> = Vec::new();
    for record in sheet.as_chunks().0.iter().map(records::from_bytes) {
        if record[0] == PIECE {
            aggregates.last_mut().expect("a piece belongs to one").1.push(record);
            continue;
        }
        let line = lines.next().expect("a line for each operation");
        if ![FRESH, MARK].contains(&record[0]) && record[1] == AGGREGATE {
            let refusal =
                common::refusal(line).map_or(0, |number| number.parse().expect("a number"));
            aggregates.push((record[2], Vec::new(), refusal));
        }
    }
    aggregates
}

/// A piece's offset plus its size, or the largest number where these are refused anyway.
fn end(piece: &Record) -> u64 {
    piece[4].saturating_add(piece[2])
}

#[test]
fn pieces_end_at_the_size_and_past_it() {
    let aggregates = aggregates(&good(1, 20_000));
    let times = |refused: u64, past: u64| {
        let is_so = |(size, pieces, refusal): &&(u64, Vec<Record>, u64)| {
            *refusal == refused && pieces.iter().map(end).max() == size.checked_add(past)
        };
        aggregates.iter().filter(is_so).count()
    };
    // One byte is the difference.
    assert!(times(0, 0) > 1_000, "{}", times(0, 0));
    assert!(times(9, 1) > 50, "{}", times(9, 1));
    assert_eq!(times(0, 1) + times(9, 0), 0);
    let most = aggregates.iter().filter(|(_, pieces, _)| pieces.len() as u64 == MOST_PIECES);
    let accepted = most.clone().filter(|(_, _, refusal)| *refusal == 0).count();
    assert!(2 * accepted > most.clone().count(), "{accepted} of {}", most.count());
}

/// A number past its limit decides, whether the piece past the shape comes before it or after it.
#[test]
fn pieces_past_the_shape_stand_on_both_sides_of_a_number_past_its_limit() {
    let mut orders: HashSet<(u64, bool)> = HashSet::new();
    for (size, pieces, refusal) in aggregates(&good(1, 20_000)) {
        let is_bad = |piece: &Record| {
            piece[1] > 4 || piece[2] > 64 || piece[3] > 4_096 || piece[4] > 16_777_216
        };
        let Some(bad) = pieces.iter().position(is_bad) else { continue };
        let past = pieces.iter().position(|piece| !is_bad(piece) && end(piece) > size);
        orders.extend(past.map(|past| (refusal, past < bad)));
    }
    for refusal in [4, 5, 6] {
        assert!(
            orders.contains(&(refusal, true)) && orders.contains(&(refusal, false)),
            "{refusal}"
        );
    }
}

#[test]
fn a_good_sheet_opens_every_row() {
    let sheet = good(2, 20_000);
    let rows: HashSet<u64> = sheet
        .chunks(48)
        .filter(|record| record[..8] == [0; 8])
        .map(|record| u64::from_le_bytes(record[8..16].try_into().unwrap()))
        .filter(|row| *row < ROWS as u64)
        .collect();
    assert_eq!(rows.len(), ROWS);
}

#[test]
fn a_damaged_sheet_stops() {
    for seed in 0..2_000 {
        let printed = common::printed(&damaged(seed, 12));
        assert!(printed.ends_with("stop\n"), "seed {seed} prints\n{printed}");
        assert_eq!(printed.matches("stop").count(), 1);
    }
}
