//! Stands where original.rs would, for a driver that has the library alone.

use crate::values::Numbers;

pub const HERE: bool = false;

pub struct Row;

pub struct Given;

pub fn row(_: u64) -> &'static Row {
    &Row
}

pub fn given(_: &Numbers) -> Given {
    Given
}

pub fn turn(_: &'static Row, _: &Given) -> u64 {
    unreachable!("the original isn't here")
}
