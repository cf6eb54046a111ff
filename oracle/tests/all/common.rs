//! Sheets written by hand.

use oracle::records::{self, Record};
use oracle::sheet;

/// A record of these words, the others 0.
pub fn record(words: &[u64]) -> Record {
    std::array::from_fn(|at| words.get(at).copied().unwrap_or(0))
}

/// The bytes of a sheet of these records.
pub fn bytes(sheet: &[&[u64]]) -> Vec<u8> {
    let records: Vec<Record> = sheet.iter().map(|words| record(words)).collect();
    records::bytes(&records)
}

/// What these bytes print.
pub fn printed(bytes: &[u8]) -> String {
    let mut out = Vec::new();
    let agreed = sheet::print(&mut out, bytes).expect("a vector takes all that is written");
    agreed.expect("the Rust and the rules say the same");
    String::from_utf8(out).expect("lines are text")
}

/// The lines that a sheet of these records prints.
pub fn lines(sheet: &[&[u64]]) -> Vec<String> {
    printed(&bytes(sheet)).lines().map(str::to_string).collect()
}

/// The last line of a fresh call on this row, the arguments before, each so many times, and these
/// records.
pub fn last(row: u64, before: &[(&[u64], usize)], operation: &[&[u64]]) -> String {
    let fresh = [0, row];
    let mut sheet: Vec<&[u64]> = vec![&fresh];
    for (argument, times) in before {
        sheet.extend(vec![*argument; *times]);
    }
    sheet.extend(operation);
    lines(&sheet).pop().expect("a line for the operation")
}

/// The refusal of a line, if it has one: it stands before the two offsets.
pub fn refusal(line: &str) -> Option<&str> {
    line.starts_with("refused ").then(|| line.split(' ').nth_back(2)).flatten()
}
