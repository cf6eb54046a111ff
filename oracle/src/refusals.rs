//! Which refusal an operation of a sheet gets, if any, and a shape that is asked for its alignment in
//! memory (REFERENCE 3). The Rust has none. Those of a variable argument list are reader.rs's.
//!
//! A sheet's call is always one that its own operations led to, its lists are whole, and its
//! slots have room, so BAD_LIST has no place here, and BAD_CALL and NO_ROOM are given for the stack
//! alone, by stack.rs. BAD_EXTENT comes last.

use crate::numbers::ROWS;
use crate::values::{
    LARGEST_ALIGN, LARGEST_KIND, LARGEST_OFFSET, LARGEST_SCALAR, LARGEST_SHAPE, Piece, Scalar,
    Shape, Value,
};

pub const BAD_ABI: u64 = 1;
pub const BAD_CALL: u64 = 2;
pub const BAD_KIND: u64 = 4;
pub const BAD_SIZE: u64 = 5;
pub const BAD_ALIGN: u64 = 6;
pub const NO_ROOM: u64 = 7;
pub const BAD_AREA: u64 = 8;
pub const BAD_EXTENT: u64 = 9;

/// A fresh call: the description has to be one of those that there are.
pub fn of_fresh(description: u64) -> Option<u64> {
    first(&[(description >= ROWS as u64, BAD_ABI)])
}

/// A value: void has nothing to check, and an aggregate is checked whole, then piece by piece, and
/// then whether it holds them.
pub fn of_value(value: &Value) -> Option<u64> {
    match value {
        Value::Void => None,
        Value::Scalar(scalar) => of_scalar(*scalar),
        Value::Aggregate(shape) => of_shape(shape),
    }
}

/// A scalar: kind, size, alignment.
fn of_scalar(scalar: Scalar) -> Option<u64> {
    first(&[
        (scalar.kind > LARGEST_KIND, BAD_KIND),
        (scalar.size > LARGEST_SCALAR, BAD_SIZE),
        (scalar.align > LARGEST_ALIGN, BAD_ALIGN),
    ])
}

/// An aggregate: its size, its alignment, then its pieces from the first; and only where no number
/// of any piece is past its limit, whether each of them ends inside it.
pub fn of_shape(shape: &Shape) -> Option<u64> {
    let whole =
        first(&[(shape.size > LARGEST_SHAPE, BAD_SIZE), (shape.align > LARGEST_ALIGN, BAD_ALIGN)]);
    whole
        .or_else(|| shape.pieces.iter().find_map(|piece| of_piece(*piece)))
        .or_else(|| of_extents(shape))
}

/// A piece: kind, size, offset, alignment.
fn of_piece(piece: Piece) -> Option<u64> {
    first(&[
        (piece.scalar.kind > LARGEST_KIND, BAD_KIND),
        (piece.scalar.size > LARGEST_SCALAR, BAD_SIZE),
        (piece.offset > LARGEST_OFFSET, BAD_SIZE),
        (piece.scalar.align > LARGEST_ALIGN, BAD_ALIGN),
    ])
}

/// Whether a piece's offset plus its size is above the shape's size. A size of 0 adds 0, so that such
/// a piece may stand right at the end. Inside their limits the two add up without a wrap.
fn of_extents(shape: &Shape) -> Option<u64> {
    let sticks_out = |piece: &Piece| piece.offset + piece.scalar.size > shape.size;
    first(&[(shape.pieces.iter().any(sticks_out), BAD_EXTENT)])
}

/// The refusal of the first check that fails.
pub fn first(checks: &[(bool, u64)]) -> Option<u64> {
    checks.iter().find(|(fails, _)| *fails).map(|(_, refusal)| *refusal)
}
