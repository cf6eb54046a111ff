//! RISC-V by its own book, rows 30 to 32: each rule, and each departure from row 5, by hand.

use oracle::descriptions::Variadic;
use oracle::numbers;
use oracle::random::Random;
use oracle::refusals;
use oracle::rows;
use oracle::shapes;
use oracle::spending::{self, Before, Outcome, Points, Way};
use oracle::values::{Scalar, Value};

use crate::common::{self, last};

const LP64: u64 = 30;
const LP64F: u64 = 31;
const LP64D: u64 = 32;

/// Each row, with its float registers.
const ROWS: [(u64, u64); 3] = [(LP64, 0), (LP64F, 8), (LP64D, 8)];

/// Arguments: the first takes an integer register on each row, the second a float register on two of
/// them, the third on one.
const INT8: &[u64] = &[3, 1, 0, 8, 8];
const SINGLE: &[u64] = &[3, 1, 1, 4, 4];
const DOUBLE: &[u64] = &[3, 1, 2, 8, 8];

/// The line of one operation on a call of this row that has so many integer registers left.
fn with(row: u64, integers: usize, operation: &[&[u64]]) -> String {
    last(row, &[(INT8, 8 - integers)], operation)
}

/// The line of one operation on a call that has no float register left.
fn without_floats(row: u64, integers: usize, operation: &[&[u64]]) -> String {
    let floats = if row == LP64 { 0 } else { 8 };
    last(row, &[(SINGLE, floats), (INT8, 8 - integers)], operation)
}

// ---- the descriptions

#[test]
fn every_fact_of_the_three() {
    let mut out = Vec::new();
    rows::print(&mut out).expect("a vector takes all that is written");
    let printed = String::from_utf8(out).expect("lines are text");
    let of = |row: u64| {
        let start = format!("row {row} ");
        let lines = printed.lines().filter_map(move |line| line.strip_prefix(&start));
        lines.map(str::to_string).collect::<Vec<_>>()
    };
    let banks =
        [(LP64, "LP64", "0 0 8 0"), (LP64F, "LP64F", "8 0 8 4"), (LP64D, "LP64D", "8 0 8 8")];
    for (row, name, banks) in banks {
        let expected = [
            format!("name RISC-V {name} psABI"),
            format!("banks 8 {banks}"),
            "scalars 0 0 0 0 0 0 0 0 0 1".to_string(),
            "others 0 5 0 1 1 0".to_string(),
            "returns 0 1 0 0 0 0 0 0".to_string(),
            "returns 1 5 0 0 0 0 1 0".to_string(),
            "returns 2 3 16 0 0 0 2 0".to_string(),
            "returns 3 0 0 0 0 0 4 0".to_string(),
            "arguments 0 1 0 0 0 0 0 0".to_string(),
            "arguments 1 5 0 0 0 0 1 3".to_string(),
            "arguments 2 3 16 0 0 0 2 4".to_string(),
            "arguments 3 0 0 0 0 0 4 0".to_string(),
        ];
        assert_eq!(of(row)[..12], expected, "row {row}");
        let questions: Vec<String> =
            (0..=64).map(|size| format!("questions {size} 0 0 0")).collect();
        assert_eq!(of(row)[12..], questions, "row {row}");
    }
    assert_eq!(
        of(5)[..4],
        [
            "name RISC-V LP64D",
            "banks 8 8 0 8 8",
            "scalars 0 0 0 0 0 0 0 0 0 0",
            "others 0 4 0 1 1 0"
        ]
    );
    assert_eq!(of(5)[10], "arguments 2 3 16 0 0 0 2 2");
    assert_eq!(of(33), [""; 0]);
}

/// What the dots change, a row's field says: these fields are of these rows alone.
#[test]
fn which_row_has_which_dots() {
    let rows_of = |variadic| {
        let has = |row: &usize| numbers::row(*row).variadic == variadic;
        (0..numbers::ROWS).filter(has).collect::<Vec<_>>()
    };
    assert_eq!(rows_of(Variadic::AlwaysMemory), [2]);
    assert_eq!(rows_of(Variadic::IntegersOnly), [3]);
    assert_eq!(rows_of(Variadic::BothBanks), [4]);
    assert_eq!(rows_of(Variadic::UnnamedIntegers), [5]);
    assert_eq!(rows_of(Variadic::UnnamedIntegersEven), [30, 31, 32]);
}

#[test]
fn fresh_calls() {
    assert_eq!(last(LP64, &[], &[]), "fresh 8 0 0 0 0 0 0 0");
    assert_eq!(last(LP64F, &[], &[]), "fresh 8 8 0 0 0 0 0 0");
    assert_eq!(last(LP64D, &[], &[]), "fresh 8 8 0 0 0 0 0 0");
    assert_eq!(last(33, &[], &[]), "refused 0 0 0 0 0 0 1 0 0");
}

// ---- scalars

#[test]
fn floats_by_the_width() {
    assert_eq!(last(LP64, &[], &[SINGLE]), "direct 7 0 0 1 0 0 0 0");
    assert_eq!(last(LP64F, &[], &[SINGLE]), "direct 8 7 0 0 0 1 0 0");
    assert_eq!(last(LP64D, &[], &[SINGLE]), "direct 8 7 0 0 0 1 0 0");
    assert_eq!(last(LP64, &[], &[DOUBLE]), "direct 7 0 0 1 0 0 0 0");
    assert_eq!(last(LP64F, &[], &[DOUBLE]), "direct 7 8 0 1 0 0 0 0");
    assert_eq!(last(LP64D, &[], &[DOUBLE]), "direct 8 7 0 0 0 1 0 0");
    for (row, floats) in ROWS {
        let quad: &[u64] = &[3, 1, 4, 16, 16];
        assert_eq!(last(row, &[], &[quad]), format!("direct 6 {floats} 0 2 0 0 0 0"));
        assert_eq!(with(row, 1, &[quad]), format!("direct 0 {floats} 0 1 0 0 0 8"));
    }
}

#[test]
fn a_float_without_a_float_register() {
    for row in [LP64F, LP64D] {
        assert_eq!(without_floats(row, 8, &[SINGLE]), "direct 7 0 0 1 0 0 0 0");
        assert_eq!(without_floats(row, 1, &[SINGLE]), "direct 0 0 0 1 0 0 0 0");
        assert_eq!(without_floats(row, 0, &[SINGLE]), "direct 0 0 0 0 0 0 0 8");
    }
    assert_eq!(without_floats(LP64D, 8, &[DOUBLE]), "direct 7 0 0 1 0 0 0 0");
    assert_eq!(without_floats(LP64D, 0, &[DOUBLE]), "direct 0 0 0 0 0 0 0 8");
    // One that is left is taken; the integers stay.
    assert_eq!(last(LP64D, &[(DOUBLE, 7)], &[DOUBLE]), "direct 8 0 0 0 0 1 0 0");
    // On row 5 it goes to the stack, and registers are left.
    assert_eq!(last(5, &[(DOUBLE, 8)], &[DOUBLE]), "direct 8 0 0 0 0 0 0 8");
}

/// No wider than a width of 0 is a float of size 0 alone. It wants one register, and has no byte.
#[test]
fn a_float_of_no_size() {
    for kind in [1, 2, 3, 4] {
        let float: &[u64] = &[3, 1, kind, 0, 0];
        assert_eq!(last(LP64, &[], &[float]), "direct 7 0 0 1 0 0 0 0");
        assert_eq!(with(LP64, 0, &[float]), "direct 0 0 0 0 0 0 0 0");
        for row in [LP64F, LP64D] {
            assert_eq!(last(row, &[], &[float]), "direct 8 7 0 0 0 1 0 0");
            assert_eq!(without_floats(row, 8, &[float]), "direct 7 0 0 1 0 0 0 0");
            assert_eq!(without_floats(row, 0, &[float]), "direct 0 0 0 0 0 0 0 0");
        }
    }
}

#[test]
fn integers_are_as_on_row_5() {
    for (row, floats) in ROWS {
        assert_eq!(last(row, &[], &[&[3, 1, 0, 32, 16]]), format!("direct 4 {floats} 0 4 0 0 0 0"));
        assert_eq!(with(row, 3, &[&[3, 1, 0, 32, 16]]), format!("direct 0 {floats} 0 3 0 0 0 8"));
        assert_eq!(with(row, 7, &[&[3, 1, 0, 16, 16]]), format!("direct 5 {floats} 0 2 0 0 0 0"));
        assert_eq!(with(row, 1, &[&[3, 1, 0, 16, 16]]), format!("direct 0 {floats} 0 1 0 0 0 8"));
        assert_eq!(with(row, 0, &[&[3, 1, 0, 16, 16]]), format!("direct 0 {floats} 0 0 0 0 0 16"));
    }
}

// ---- splits

#[test]
fn two_words_and_one_register() {
    for (row, floats) in ROWS {
        for operation in [3, 4] {
            let of = |size, align| with(row, 1, &[&[operation, 2, size, align, 0, 0]]);
            assert_eq!(of(9, 1), format!("pieces 0 {floats} 0 1 0 0 0:0:8 0:8:1 0 8"));
            assert_eq!(of(16, 8), format!("pieces 0 {floats} 0 1 0 0 0:0:8 0:8:8 0 8"));
            assert_eq!(of(16, 32), format!("pieces 0 {floats} 0 1 0 0 0:0:8 0:8:8 0 8"));
            // One word fits, and three go by reference.
            assert_eq!(of(8, 8), format!("pieces 0 {floats} 0 1 0 0 0:0:8 0 0"));
            assert_eq!(of(17, 8), format!("reference 0 {floats} 0 1 0 0 0 0"));
        }
        let fixed = with(row, 1, &[&[3, 2, 16, 16, 0, 0]]);
        assert_eq!(fixed, format!("pieces 0 {floats} 0 1 0 0 0:0:8 0:8:8 0 8"));
    }
    assert_eq!(with(5, 1, &[&[3, 2, 9, 1, 0, 0]]), "memory 0 8 1 0 0 0 0 16");
}

#[test]
fn two_words_and_two_registers() {
    for (row, floats) in ROWS {
        for operation in [3, 4] {
            let line = with(row, 2, &[&[operation, 2, 9, 8, 0, 0]]);
            assert_eq!(line, format!("pieces 0 {floats} 0 2 0 0 0:0:8 0:8:1 0 0"));
        }
    }
}

#[test]
fn without_a_register_nothing_is_split() {
    for (row, floats) in ROWS {
        for operation in [3, 4] {
            for (size, bytes) in [(1, 8), (8, 8), (9, 16), (16, 16)] {
                let line = with(row, 0, &[&[operation, 2, size, 8, 0, 0]]);
                assert_eq!(line, format!("memory 0 {floats} 0 0 0 0 0 {bytes}"), "size {size}");
            }
            let line = with(row, 0, &[&[operation, 2, 17, 8, 0, 0]]);
            assert_eq!(line, format!("reference 0 {floats} 0 0 0 0 0 8"));
        }
    }
}

/// The other half is the first on the stack, and the rest stands behind it.
#[test]
fn what_comes_behind_a_split() {
    for (row, floats) in ROWS {
        let split: &[u64] = &[3, 2, 12, 4, 0, 0];
        let lines = |records: &[&[u64]]| {
            let fresh = [0, row];
            let mut sheet: Vec<&[u64]> = vec![&fresh];
            sheet.extend([INT8; 7]);
            sheet.push(split);
            sheet.extend(records);
            common::lines(&sheet).split_off(8)
        };
        let expected = [
            format!("pieces 0 {floats} 0 1 0 0 0:0:8 0:8:4 0 8"),
            format!("direct 0 {floats} 0 0 0 0 8 16"),
            format!("memory 0 {floats} 0 0 0 0 16 32"),
            format!("reference 0 {floats} 0 0 0 0 32 40"),
            // It starts at 48.
            format!("direct 0 {floats} 0 0 0 0 40 64"),
        ];
        assert_eq!(lines(&[INT8, split, &[2, 2, 17, 1, 0, 0], &[4, 1, 0, 16, 16]]), expected);
    }
}

#[test]
fn floats_are_looked_for_first() {
    let doubles: &[&[u64]] = &[&[3, 2, 16, 8, 0, 2], &[5, 2, 8, 8, 0], &[5, 2, 8, 8, 8]];
    assert_eq!(with(LP64, 1, doubles), "pieces 0 0 0 1 0 0 0:0:8 0:8:8 0 8");
    assert_eq!(with(LP64F, 1, doubles), "pieces 0 8 0 1 0 0 0:0:8 0:8:8 0 8");
    assert_eq!(with(LP64D, 1, doubles), "pieces 1 6 0 0 0 2 2:0:0 2:8:0 0 0");
    // With one float register they are two words.
    let one = last(LP64D, &[(DOUBLE, 7), (INT8, 7)], doubles);
    assert_eq!(one, "pieces 0 1 0 1 0 0 0:0:8 0:8:8 0 8");
    let none = last(LP64D, &[(DOUBLE, 7), (INT8, 8)], doubles);
    assert_eq!(none, "memory 0 1 0 0 0 0 0 16");

    let mixed: &[&[u64]] = &[&[3, 2, 16, 8, 0, 2], &[5, 1, 4, 4, 0], &[5, 0, 8, 8, 8]];
    assert_eq!(with(LP64, 1, mixed), "pieces 0 0 0 1 0 0 0:0:8 0:8:8 0 8");
    for row in [LP64F, LP64D] {
        assert_eq!(with(row, 1, mixed), "pieces 0 7 0 1 0 1 1:0:0 0:8:8 0 0");
        assert_eq!(with(row, 0, mixed), "memory 0 8 0 0 0 0 0 16");
        assert_eq!(without_floats(row, 1, mixed), "pieces 0 0 0 1 0 0 0:0:8 0:8:8 0 8");
    }

    let singles: &[&[u64]] = &[&[3, 2, 8, 4, 0, 2], &[5, 1, 4, 4, 0], &[5, 1, 4, 4, 4]];
    assert_eq!(last(LP64, &[], singles), "pieces 7 0 0 1 0 0 0:0:8 0 0");
    assert_eq!(last(LP64F, &[], singles), "pieces 8 6 0 0 0 2 1:0:0 1:4:0 0 0");
    assert_eq!(last(LP64D, &[], singles), "pieces 8 6 0 0 0 2 1:0:0 1:4:0 0 0");
}

/// Its slot is found, but there is no register for it.
#[test]
fn a_float_of_no_size_in_an_aggregate() {
    let piece: &[u64] = &[5, 1, 0, 1, 0];
    assert_eq!(last(LP64, &[], &[&[2, 2, 1, 1, 0, 1], piece]), "pieces 8 0 0 0 0 0 1:0:0 0 0");
    assert_eq!(last(LP64, &[], &[&[3, 2, 1, 1, 0, 1], piece]), "pieces 7 0 0 1 0 0 0:0:1 0 0");
    assert_eq!(last(LP64, &[], &[&[4, 2, 1, 1, 0, 1], piece]), "pieces 7 0 0 1 0 0 0:0:1 0 0");
    for row in [LP64F, LP64D] {
        assert_eq!(last(row, &[], &[&[2, 2, 1, 1, 0, 1], piece]), "pieces 8 8 0 0 0 0 1:0:0 0 0");
        assert_eq!(last(row, &[], &[&[3, 2, 1, 1, 0, 1], piece]), "pieces 8 7 0 0 0 1 1:0:0 0 0");
        assert_eq!(last(row, &[], &[&[4, 2, 1, 1, 0, 1], piece]), "pieces 7 8 0 1 0 0 0:0:1 0 0");
    }
}

// ---- after the dots

#[test]
fn integers_only_for_itself_alone() {
    for (row, floats) in ROWS {
        let dotted: &[u64] = &[4, 1, 1, 4, 4];
        assert_eq!(last(row, &[], &[dotted]), format!("pieces 7 {floats} 0 1 0 0 0:0:4 0 0"));
        assert_eq!(without_floats(row, 8, &[dotted]), "pieces 7 0 0 1 0 0 0:0:4 0 0");
        assert_eq!(without_floats(row, 0, &[dotted]), "pieces 0 0 0 0 0 0 0:0:4 0 8");
    }
    let dotted: &[u64] = &[4, 1, 2, 8, 8];
    assert_eq!(last(LP64D, &[], &[dotted, DOUBLE]), "direct 7 7 0 0 0 1 0 0");
    let doubles: &[&[u64]] = &[&[4, 2, 16, 8, 0, 2], &[5, 2, 8, 8, 0], &[5, 2, 8, 8, 8]];
    assert_eq!(last(LP64D, &[], doubles), "pieces 6 8 0 2 0 0 0:0:8 0:8:8 0 0");
}

#[test]
fn a_scalar_starts_at_an_even_register() {
    for (row, floats) in ROWS {
        let integer: &[&[u64]] = &[&[4, 1, 0, 16, 16]];
        let spent = [
            (8, "6", "0 2", 0),
            (7, "4", "1 2", 0),
            (6, "4", "0 2", 0),
            (5, "2", "1 2", 0),
            (4, "2", "0 2", 0),
            (3, "0", "1 2", 0),
            (2, "0", "0 2", 0),
            (1, "0", "1 0", 16),
            (0, "0", "0 0", 16),
        ];
        for (integers, left, spent, bytes) in spent {
            let expected = format!("direct {left} {floats} {spent} 0 0 0 {bytes}");
            assert_eq!(with(row, integers, integer), expected);
        }
        let quad: &[&[u64]] = &[&[4, 1, 4, 16, 16]];
        assert_eq!(with(row, 7, quad), format!("pieces 4 {floats} 1 2 0 0 0:0:8 0:8:8 0 0"));
        assert_eq!(with(row, 6, quad), format!("pieces 4 {floats} 0 2 0 0 0:0:8 0:8:8 0 0"));
        assert_eq!(with(row, 1, quad), format!("pieces 0 {floats} 1 0 0 0 0:0:8 0:8:8 0 16"));
    }
}

#[test]
fn an_aggregate_starts_at_an_even_register() {
    for (row, floats) in ROWS {
        let of = |integers| with(row, integers, &[&[4, 2, 16, 16, 0, 0]]);
        assert_eq!(of(8), format!("pieces 6 {floats} 0 2 0 0 0:0:8 0:8:8 0 0"));
        assert_eq!(of(7), format!("pieces 4 {floats} 1 2 0 0 0:0:8 0:8:8 0 0"));
        assert_eq!(of(3), format!("pieces 0 {floats} 1 2 0 0 0:0:8 0:8:8 0 0"));
        assert_eq!(of(2), format!("pieces 0 {floats} 0 2 0 0 0:0:8 0:8:8 0 0"));
        assert_eq!(of(1), format!("memory 0 {floats} 1 0 0 0 0 16"));
        assert_eq!(of(0), format!("memory 0 {floats} 0 0 0 0 0 16"));
        // What floats it has changes nothing.
        let doubles: &[&[u64]] = &[&[4, 2, 16, 16, 0, 2], &[5, 2, 8, 8, 0], &[5, 2, 8, 8, 8]];
        assert_eq!(with(row, 7, doubles), of(7));
        assert_eq!(with(row, 1, doubles), of(1));
    }
}

/// It need not have two words.
#[test]
fn sizes_up_to_two_words_start_evenly() {
    for (row, floats) in ROWS {
        let scalar = |kind, size| with(row, 7, &[&[4, 1, kind, size, 16]]);
        for size in [0, 1, 8] {
            assert_eq!(scalar(0, size), format!("direct 5 {floats} 1 1 0 0 0 0"), "size {size}");
        }
        assert_eq!(scalar(0, 9), format!("direct 4 {floats} 1 2 0 0 0 0"));
        assert_eq!(scalar(0, 17), format!("direct 4 {floats} 0 3 0 0 0 0"));
        assert_eq!(scalar(1, 0), format!("pieces 5 {floats} 1 1 0 0 0 0"));
        assert_eq!(scalar(1, 4), format!("pieces 5 {floats} 1 1 0 0 0:0:4 0 0"));
        assert_eq!(scalar(4, 17), format!("pieces 4 {floats} 0 3 0 0 0:0:8 0:8:8 0:16:1 0 0"));
        let shape = |integers, size| with(row, integers, &[&[4, 2, size, 16, 0, 0]]);
        assert_eq!(shape(7, 1), format!("pieces 5 {floats} 1 1 0 0 0:0:1 0 0"));
        assert_eq!(shape(1, 1), format!("memory 0 {floats} 1 0 0 0 0 8"));
        assert_eq!(shape(7, 9), format!("pieces 4 {floats} 1 2 0 0 0:0:8 0:8:1 0 0"));
        assert_eq!(shape(7, 17), format!("reference 6 {floats} 0 1 0 0 0 0"));
    }
}

#[test]
fn no_other_alignment_starts_evenly() {
    for (row, floats) in ROWS {
        for align in [0, 1, 8, 15, 17, 24, 32, 4_096] {
            let scalar = with(row, 7, &[&[4, 1, 0, 16, align]]);
            assert_eq!(scalar, format!("direct 5 {floats} 0 2 0 0 0 0"), "{align}");
            let shape = with(row, 7, &[&[4, 2, 16, align, 0, 0]]);
            assert_eq!(shape, format!("pieces 5 {floats} 0 2 0 0 0:0:8 0:8:8 0 0"), "{align}");
        }
    }
}

#[test]
fn what_is_ignored_has_no_start() {
    for (row, floats) in ROWS {
        for integers in [7, 1] {
            let expected = format!("ignore {integers} {floats} 0 0 0 0 0 0");
            for operation in [2, 3, 4] {
                assert_eq!(with(row, integers, &[&[operation, 2, 0, 16, 0, 0]]), expected);
                assert_eq!(with(row, integers, &[&[operation, 0]]), expected);
            }
        }
    }
}

/// Nor does row 5 have an even start after the dots.
#[test]
fn only_after_the_dots_does_anything_start_evenly() {
    for (row, floats) in [(5, 8)].into_iter().chain(ROWS) {
        let dots = if row == 5 { [3, 4].as_slice() } else { &[3] };
        for &operation in dots {
            let scalar = with(row, 7, &[&[operation, 1, 0, 16, 16]]);
            assert_eq!(scalar, format!("direct 5 {floats} 0 2 0 0 0 0"));
            let shape = with(row, 7, &[&[operation, 2, 16, 16, 0, 0]]);
            assert_eq!(shape, format!("pieces 5 {floats} 0 2 0 0 0:0:8 0:8:8 0 0"));
        }
        let returned = with(row, 7, &[&[2, 2, 16, 16, 0, 0]]);
        assert_eq!(returned, format!("pieces 7 {floats} 0 0 0 0 0:0:8 0:8:8 0 0"));
    }
}

/// What was passed over isn't found again.
#[test]
fn what_comes_behind_an_even_start() {
    for (row, floats) in ROWS {
        let wide: &[u64] = &[4, 1, 0, 16, 16];
        let second = with(row, 7, &[wide, INT8, wide]);
        assert_eq!(second, format!("direct 0 {floats} 1 2 0 0 0 0"));
        let last = with(row, 1, &[wide, INT8]);
        assert_eq!(last, format!("direct 0 {floats} 0 0 0 0 16 24"));
    }
}

// ---- returns and the mark

#[test]
fn returns_are_as_on_row_5() {
    for (row, floats) in ROWS {
        let large: &[u64] = &[2, 2, 17, 16, 0, 0];
        assert_eq!(last(row, &[], &[large]), format!("reference 7 {floats} 0 1 0 0 0 0"));
        assert_eq!(with(row, 7, &[large]), format!("reference 6 {floats} 0 1 0 0 0 0"));
        assert_eq!(with(row, 0, &[large]), format!("reference 0 {floats} 0 0 0 0 0 8"));
        let two_words: &[u64] = &[2, 2, 16, 8, 0, 0];
        for integers in [8, 1, 0] {
            let expected = format!("pieces {integers} {floats} 0 0 0 0 0:0:8 0:8:8 0 0");
            assert_eq!(with(row, integers, &[two_words]), expected);
        }
        for kind in [0, 1, 4] {
            let wide: &[u64] = &[2, 1, kind, 32, 16];
            assert_eq!(last(row, &[], &[wide]), format!("direct 8 {floats} 0 0 0 0 0 0"));
        }
        // There is no float register left, but a return has its own.
        assert_eq!(without_floats(row, 8, &[&[2, 1, 1, 4, 4]]), "direct 8 0 0 0 0 0 0 0");
    }
    let doubles: &[&[u64]] = &[&[2, 2, 16, 8, 0, 2], &[5, 2, 8, 8, 0], &[5, 2, 8, 8, 8]];
    assert_eq!(last(LP64, &[], doubles), "pieces 8 0 0 0 0 0 0:0:8 0:8:8 0 0");
    assert_eq!(last(LP64F, &[], doubles), "pieces 8 8 0 0 0 0 0:0:8 0:8:8 0 0");
    assert_eq!(last(LP64D, &[], doubles), "pieces 8 8 0 0 0 0 2:0:0 2:8:0 0 0");
}

#[test]
fn the_mark_changes_nothing() {
    for (row, floats) in ROWS {
        assert_eq!(last(row, &[], &[&[1]]), format!("marked 8 {floats} 0 0 0 0 0 0"));
        let operations: [&[&[u64]]; 4] =
            [&[SINGLE], &[&[3, 1, 0, 16, 16]], &[&[4, 1, 0, 16, 16]], &[&[3, 2, 9, 1, 0, 0]]];
        for operation in operations {
            for integers in [8, 7, 1] {
                let marked = [&[&[1][..]], operation].concat();
                assert_eq!(with(row, integers, &marked), with(row, integers, operation));
            }
        }
    }
}

// ---- row 5 beside row 32

/// Whether row 32 departs from row 5's outcome of an argument, in words.
fn departs(before: Before, dots: bool, value: &Value, on_row_5: Outcome) -> bool {
    let (size, align) = match value {
        Value::Void => return false,
        Value::Scalar(scalar) => (scalar.size, scalar.align),
        Value::Aggregate(shape) => (shape.size, shape.align),
    };
    let is_odd = before.integers % 2 == 1;
    if dots && is_odd && align == 16 && size <= 16 {
        // It starts evenly. What row 5 drains is then what is passed over, so in memory it is the same.
        return ![Way::Ignore, Way::Memory].contains(&on_row_5.way);
    }
    let is_float = matches!(value, Value::Scalar(scalar) if scalar.is_float());
    let falls = is_float && size <= 8 && !dots && before.floats == 0;
    let splits = on_row_5.way == Way::Memory;
    before.integers > 0 && (falls || splits)
}

#[test]
fn row_32_is_row_5_but_for_the_three_departures() {
    let mut random = Random::new(106);
    let mut values = vec![Value::Void];
    for kind in 0..=4 {
        for size in [0, 1, 4, 8, 9, 16, 17, 32, 64] {
            let aligned = [0, 8, 16, 32].map(|align| Value::Scalar(Scalar { kind, size, align }));
            values.extend(aligned);
        }
    }
    let shapes = (0..1_000).map(|_| shapes::shape(&mut random));
    values.extend(shapes.filter(|shape| refusals::of_shape(shape).is_none()).map(Value::Aggregate));
    let mut departures = 0;
    for (integers, floats) in (0..=8).flat_map(|i| (0..=8).map(move |f| (i, f))) {
        let on = |row| Before { row, integers, floats, integers_only: false };
        let points = &mut Points::new();
        for value in &values {
            assert_eq!(
                spending::returned(on(32), value, points),
                spending::returned(on(5), value, points)
            );
            for (dots, ask) in [
                (false, spending::argument as fn(Before, &Value, &mut Points) -> Outcome),
                (true, spending::variadic_argument),
            ] {
                let [theirs, ours] = [5, 32].map(|row| ask(on(row), value, points));
                let departs = departs(on(5), dots, value, theirs);
                assert_eq!(ours != theirs, departs, "{value:?} {:?} {theirs:?} {ours:?}", on(32));
                departures += u64::from(departs);
            }
        }
    }
    assert!(departures > 5_000, "{departures}");
}
