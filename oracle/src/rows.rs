//! `oracle rows`: every fact of the thirty-three descriptions, one to a line (REFERENCE 5).

use std::io::{self, Write};

use crate::descriptions::{Description, Rule};
use crate::numbers::{self, flag, optional_format};

pub fn print(out: &mut impl Write) -> io::Result<()> {
    for number in 0..numbers::ROWS {
        let row = numbers::row(number);
        writeln!(out, "row {number} name {}", row.name)?;
        banks(out, number, row)?;
        scalars(out, number, row)?;
        others(out, number, row)?;
        rules(out, number, "returns", &row.returns)?;
        rules(out, number, "arguments", &row.arguments)?;
        questions(out, number, row)?;
    }
    Ok(())
}

fn banks(out: &mut impl Write, number: usize, row: &Description) -> io::Result<()> {
    let banks = row.banks;
    let numbers = [
        u64::from(banks.integer),
        u64::from(banks.float),
        flag(banks.shared),
        banks.integer_width,
        banks.float_width,
    ];
    writeln!(out, "row {number} banks {}", words(&numbers))
}

fn scalars(out: &mut impl Write, number: usize, row: &Description) -> io::Result<()> {
    let scalars = row.scalars;
    let numbers = [
        optional_format(scalars.in_memory),
        flag(scalars.wide_integer_is_all_or_nothing),
        flag(scalars.wide_integer_starts_even),
        flag(scalars.wide_integer_drains),
        flag(scalars.wide_is_by_reference),
        optional_format(scalars.wide_integer_returns_in),
        flag(scalars.wide_integer_in_memory),
        flag(scalars.decimal_in_integers),
        flag(scalars.quad_returns_by_reference),
        // The Rust has no such field, so it is no on its rows.
        flag(row.float_falls_to_integers),
    ];
    writeln!(out, "row {number} scalars {}", words(&numbers))
}

/// The fields that are choices, each as its place in its declaration.
fn others(out: &mut impl Write, number: usize, row: &Description) -> io::Result<()> {
    let numbers = [
        row.return_pointer as u64,
        row.variadic as u64,
        row.stack_args as u64,
        row.narrow as u64,
        row.bit_ints as u64,
        row.cleanup as u64,
    ];
    writeln!(out, "row {number} others {}", words(&numbers))
}

fn rules(out: &mut impl Write, number: usize, list: &str, rules: &[Rule]) -> io::Result<()> {
    for (at, rule) in rules.iter().enumerate() {
        let (test, parameters) = numbers::test(rule.when);
        let travel = numbers::travel(rule.then);
        let short = numbers::short(rule.short);
        let parameters = words(&parameters);
        writeln!(out, "row {number} {list} {at} {test} {parameters} {travel} {short}")?;
    }
    Ok(())
}

fn questions(out: &mut impl Write, number: usize, row: &Description) -> io::Result<()> {
    for size in 0..=64 {
        let numbers = [
            size,
            flag(row.in_rust.scalar_is_by_reference(size)),
            flag(row.in_rust.scalar_returns_by_reference(size)),
            optional_format(row.in_rust.wide_integer_returns_in(size)),
        ];
        writeln!(out, "row {number} questions {}", words(&numbers))?;
    }
    Ok(())
}

fn words(numbers: &[u64]) -> String {
    numbers.iter().map(u64::to_string).collect::<Vec<_>>().join(" ")
}
