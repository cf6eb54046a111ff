//! Which rules a sheet decides by.

use oracle::numbers::ROWS;
use oracle::records::{self, FRESH, RETURN, Record, SCALAR, VARIADIC_ARGUMENT};
use oracle::{coverage, edge, generate};

/// The sheet that is stored beside callsheet.
fn stored() -> Vec<u8> {
    let mut sheet = Vec::new();
    generate::write(&mut sheet, 7, 50_000).expect("a vector takes all");
    sheet
}

/// The stored sheet with some of its records changed.
fn changed(change: impl Fn(&mut Record)) -> Vec<u8> {
    let mut records: Vec<Record> = stored().as_chunks().0.iter().map(records::from_bytes).collect();
    records.iter_mut().for_each(change);
    records::bytes(&records)
}

/// What is wrong with a sheet, a fault to a line.
fn faults(sheet: &[u8]) -> Vec<String> {
    let covered = coverage::print(&mut std::io::sink(), sheet).expect("a sink takes all");
    covered.err().map_or(vec![], |wrong| wrong.lines().map(str::to_string).collect())
}

#[test]
fn the_stored_sheet_decides_by_every_rule() {
    assert_eq!(faults(&stored()), Vec::<String>::new());
}

#[test]
fn an_empty_sheet_decides_by_none() {
    let faults = faults(&[]);
    assert!(faults.len() > 1_000);
    assert!(faults.iter().all(|fault| fault.starts_with("never: ")));
}

#[test]
fn a_row_that_is_left_out_is_named_and_no_other() {
    let faults = faults(&changed(|record| {
        if record[..2] == [FRESH, 17] {
            record[1] = 16;
        }
    }));
    assert!(faults.contains(&"never: row 17 argument rule 2 fits".to_string()));
    assert!(faults.contains(&"never: row 17 argument stack: scalar placed in part".to_string()));
    assert!(faults.iter().all(|fault| fault.starts_with("never: row 17 ")), "{faults:?}");
}

/// A scalar aligned to 16 goes where one aligned to 8 goes, but on the stack, and where it starts
/// evenly.
#[test]
fn a_rounding_that_is_left_out_is_named_on_every_row() {
    let faults = faults(&changed(|record| {
        let is_scalar = (RETURN..=VARIADIC_ARGUMENT).contains(&record[0]) && record[1] == SCALAR;
        if is_scalar && record[4] == 16 {
            record[4] = 8;
        }
    }));
    for row in 0..ROWS {
        let fault = format!("never: row {row} argument stack: scalar moved on to 16");
        assert!(faults.contains(&fault), "{fault}");
    }
    let after_dots = "never: row 2 after the dots stack: scalar moved on to 16";
    assert!(faults.contains(&after_dots.to_string()));
    let beside: Vec<&str> =
        faults.iter().map(String::as_str).filter(|fault| !fault.contains("stack: ")).collect();
    let even_starts = [
        "never: row 30 after the dots even start: scalar, direct",
        "never: row 30 after the dots even start: scalar, pieces",
        "never: row 31 after the dots even start: scalar, direct",
        "never: row 31 after the dots even start: scalar, pieces",
        "never: row 32 after the dots even start: scalar, direct",
        "never: row 32 after the dots even start: scalar, pieces",
    ];
    assert_eq!(beside, even_starts);
}

/// On row 5 instead nothing splits, falls or starts evenly.
#[test]
fn a_departure_that_is_left_out_is_named() {
    let faults = faults(&changed(|record| {
        if record[0] == FRESH && (30..33).contains(&record[1]) {
            record[1] = 5;
        }
    }));
    for row in 30..33 {
        for place in [
            "argument scalar line 6, fallen",
            "argument scalar line 6, fallen, none left",
            "argument rule 2 short, split",
            "argument rule 2 short, none left",
            "after the dots rule 2 short, split",
            "after the dots rule 2 short, none left",
            "after the dots even start: scalar, direct",
            "after the dots even start: scalar, pieces",
            "after the dots even start: aggregate, pieces",
            "after the dots even start: aggregate, memory",
            "argument stack: aggregate in slots, placed in part",
        ] {
            let fault = format!("never: row {row} {place}");
            assert!(faults.contains(&fault), "{fault}");
        }
    }
    let never = ["never: row 30 ", "never: row 31 ", "never: row 32 "];
    let of_the_three = |fault: &String| never.iter().any(|start| fault.starts_with(start));
    assert!(faults.iter().all(of_the_three), "{faults:?}");
    // LP64 has no float register, so no float is ever given one.
    for place in ["argument scalar line 6", "argument rule 1 fits"] {
        assert!(!faults.contains(&format!("never: row 30 {place}")));
        assert!(faults.contains(&format!("never: row 31 {place}")));
    }
}

/// Neither a random sheet nor the stored one gets there.
#[test]
fn a_full_stack_is_not_expected() {
    let mut sheet = Vec::new();
    edge::write(&mut sheet).expect("a vector takes all");
    let unexpected: Vec<String> =
        faults(&sheet).into_iter().filter(|fault| !fault.starts_with("never: ")).collect();
    assert_eq!(unexpected, ["not expected: refusal 7"]);
}
