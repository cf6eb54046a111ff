//! The records of a sheet: how operations stand in it (REFERENCE 11).

use crate::values::{Piece, Value};

/// Six words.
pub type Record = [u64; 6];

/// The first words of the records.
pub const FRESH: u64 = 0;
pub const MARK: u64 = 1;
pub const RETURN: u64 = 2;
pub const ARGUMENT: u64 = 3;
pub const VARIADIC_ARGUMENT: u64 = 4;
pub const PIECE: u64 = 5;

/// The second words of a return or an argument.
pub const VOID: u64 = 0;
pub const SCALAR: u64 = 1;
pub const AGGREGATE: u64 = 2;

/// The bytes of a record.
pub const BYTES: usize = 48;

/// The records of an operation on a value: its own, then one for each piece. Unread words are 0.
pub fn of_value(operation: u64, value: &Value) -> Vec<Record> {
    let shape = match value {
        Value::Void => return vec![[operation, VOID, 0, 0, 0, 0]],
        Value::Scalar(scalar) => {
            return vec![[operation, SCALAR, scalar.kind, scalar.size, scalar.align, 0]];
        }
        Value::Aggregate(shape) => shape,
    };
    let count = shape.pieces.len() as u64;
    let mut records = vec![[operation, AGGREGATE, shape.size, shape.align, shape.flags(), count]];
    records.extend(shape.pieces.iter().map(of_piece));
    records
}

fn of_piece(piece: &Piece) -> Record {
    let scalar = piece.scalar;
    [PIECE, scalar.kind, scalar.size, scalar.align, piece.offset, 0]
}

/// The place of a record's first unread word: it and those after it may hold anything.
pub fn first_unread(record: &Record) -> usize {
    match record[..2] {
        [FRESH, _] => 2,
        [MARK, _] => 1,
        [RETURN..=VARIADIC_ARGUMENT, VOID] => 2,
        [RETURN..=VARIADIC_ARGUMENT, SCALAR] | [PIECE, _] => 5,
        _ => 6,
    }
}

/// Records as they stand in a sheet: each word's low byte first.
pub fn bytes(records: &[Record]) -> Vec<u8> {
    records.iter().flatten().flat_map(|word| word.to_le_bytes()).collect()
}

/// The record that these bytes are.
pub fn from_bytes(bytes: &[u8; BYTES]) -> Record {
    let word = |at: usize| std::array::from_fn(|byte| bytes[8 * at + byte]);
    std::array::from_fn(|at| u64::from_le_bytes(word(at)))
}
