//! `oracle edge`: a sheet of what random ones hardly or never reach, above all the largest stack
//! offset (REFERENCE 9.9).
//!
//! It takes 65,536 of the largest aggregates to get there, on a row that has them in memory. Row 2,
//! where stack arguments are packed, hasn't: an aggregate in memory has 256 bytes at most there, and
//! moves the offset on by 4,351 at most, so that it would take some 250 million.

use std::io::{self, Write};

use crate::records::{self, ARGUMENT, FRESH, MARK, RETURN, Record, VARIADIC_ARGUMENT};
use crate::stack::MOST_STACK;
use crate::values::{LARGEST_SHAPE, Piece, Scalar, Shape, Value};

/// How many of the largest aggregates fill a stack.
const FILLING: u64 = MOST_STACK / LARGEST_SHAPE;

/// Writes the sheet.
pub fn write(out: &mut impl Write) -> io::Result<()> {
    for call in [rounded_to_0(), full(), a_byte_short(), a_word_short()] {
        out.write_all(&records::bytes(&call))?;
    }
    Ok(())
}

/// Row 2 without a register left: equal floats that are aligned to 0 stand where they come, at 1, and
/// after the dots at a word. Where nothing is packed, no start is rounded to less than a word.
fn rounded_to_0() -> Vec<Record> {
    let mut call = fresh(2);
    for value in [integer(8), float(2, 8, 8)] {
        call.extend(times(8, &value));
    }
    let pieces = [0, 4, 8].map(|offset| piece(1, 4, offset)).to_vec();
    let singles = Value::Aggregate(Shape { align: 0, ..shape(12, pieces) });
    for operation in [ARGUMENT, VARIADIC_ARGUMENT] {
        call.extend(records::of_value(ARGUMENT, &integer(1)));
        call.extend(records::of_value(operation, &singles));
    }
    call
}

/// Row 0 at the largest offset itself.
fn full() -> Vec<Record> {
    let mut call = fresh(0);
    call.extend(times(FILLING, &bare(LARGEST_SHAPE)));
    call.extend(row_0_without_room());
    call
}

/// Row 0 a byte before the largest offset: an alignment that is odd leads there, for lengths are whole
/// words. Nothing is as short as that byte.
fn a_byte_short() -> Vec<Record> {
    let mut call = fresh(0);
    call.extend(times(FILLING - 1, &bare(LARGEST_SHAPE)));
    // The next multiple of 61 is 7 bytes on.
    let odd = Shape { align: 61, ..shape(LARGEST_SHAPE - 8, vec![]) };
    call.extend(records::of_value(ARGUMENT, &Value::Aggregate(odd)));
    call.extend(row_0_without_room());
    call
}

/// What a fresh call of row 0 is asked when its stack is full: what gets all its registers, or needs
/// none, is accepted; of the rest nothing is spent.
fn row_0_without_room() -> Vec<Record> {
    // It is in memory whatever registers are left.
    let x87_byte = Value::Aggregate(shape(1, vec![piece(3, 1, 0)]));
    let two_integers = shape(16, vec![piece(0, 8, 0), piece(0, 8, 8)]);
    let operations = [
        (ARGUMENT, integer(8)),
        (ARGUMENT, x87_byte),
        (ARGUMENT, Value::Void),
        (ARGUMENT, float(3, 16, 16)),
        (ARGUMENT, integer(8)),
        // It would be given the four that are left.
        (ARGUMENT, float(4, 64, 8)),
        (RETURN, bare(24)),
        (ARGUMENT, integer(16)),
        (ARGUMENT, Value::Aggregate(two_integers)),
        (ARGUMENT, integer(8)),
        // There is no integer register any more.
        (ARGUMENT, integer(1)),
        (RETURN, bare(24)),
        (VARIADIC_ARGUMENT, integer(8)),
        (VARIADIC_ARGUMENT, float(1, 4, 4)),
        (ARGUMENT, integer(0)),
        (ARGUMENT, bare(0)),
        // Its size is refused before its place.
        (ARGUMENT, bare(LARGEST_SHAPE + 1)),
    ];
    let mut records = of(&operations);
    records.push([MARK, 0, 0, 0, 0, 0]);
    records
}

/// Row 9, which has three registers of four bytes, with room for one word more.
fn a_word_short() -> Vec<Record> {
    // A Double in whatever size is in memory; others would be cut into four million slots first.
    let lone = |size| Value::Aggregate(shape(size, vec![piece(2, 8, 0)]));
    let mut call = fresh(9);
    call.extend(times(FILLING - 1, &lone(LARGEST_SHAPE)));
    call.extend(of(&[
        (ARGUMENT, lone(LARGEST_SHAPE - 4)),
        (ARGUMENT, integer(4)),
        // It would pass over the two that are left, and the next one be given both.
        (ARGUMENT, bare(12)),
        (ARGUMENT, float(3, 16, 4)),
        // Two registers, and the last word.
        (ARGUMENT, float(3, 12, 4)),
        (ARGUMENT, integer(4)),
        (RETURN, bare(12)),
        (ARGUMENT, Value::Void),
    ]));
    call
}

fn fresh(row: u64) -> Vec<Record> {
    vec![[FRESH, row, 0, 0, 0, 0]]
}

/// So many arguments of one value.
fn times(count: u64, value: &Value) -> Vec<Record> {
    records::of_value(ARGUMENT, value).repeat(count as usize)
}

fn of(operations: &[(u64, Value)]) -> Vec<Record> {
    operations.iter().flat_map(|(operation, value)| records::of_value(*operation, value)).collect()
}

/// An integer aligned to its size.
fn integer(size: u64) -> Value {
    Value::Scalar(Scalar { kind: 0, size, align: size })
}

fn float(kind: u64, size: u64, align: u64) -> Value {
    Value::Scalar(Scalar { kind, size, align })
}

/// A size without pieces.
fn bare(size: u64) -> Value {
    Value::Aggregate(shape(size, vec![]))
}

fn shape(size: u64, pieces: Vec<Piece>) -> Shape {
    Shape { size, align: 1, complex: false, floating: false, pieces }
}

fn piece(kind: u64, size: u64, offset: u64) -> Piece {
    Piece { scalar: Scalar { kind, size, align: size }, offset }
}
