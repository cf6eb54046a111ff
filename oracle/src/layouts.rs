//! `oracle layouts`: what random shapes are aligned to in memory, and what records and pieces their
//! pieces make (REFERENCE 4.2, 4.3 and 9.7).

use std::io::{self, Write};

use rucc_abi::{Arg, Scalar};

use crate::numbers;
use crate::random::Random;
use crate::refusals::{self, BAD_ALIGN, BAD_SIZE};
use crate::shapes;
use crate::values::{LARGEST_SHAPE, Shape, ask_shape};

/// Three lines for each of the shapes that `oracle shapes` writes.
pub fn print(out: &mut impl Write, seed: u64, count: u64) -> io::Result<()> {
    let mut random = Random::new(seed);
    for _ in 0..count {
        let shape = shapes::shape(&mut random);
        for line in lines(&shape) {
            writeln!(out, "{line}")?;
        }
    }
    Ok(())
}

/// The three lines of a shape. One that the rules refuse has an alignment on no row, which is said
/// once; the Rust would have one for it. What its pieces make doesn't depend on it.
pub fn lines(shape: &Shape) -> [String; 3] {
    let refusal = refusals::of_shape(shape);
    ask_shape(shape, |arg| {
        let Arg::Aggregate(shape) = arg else { panic!("a shape is an aggregate") };
        let memory = match refusal {
            Some(refusal) => format!("memory refused {refusal}"),
            None => in_memory(shape),
        };
        [memory, record(shape.pieces), pieces(shape.pieces)]
    })
}

/// The alignment in the argument area, on each of the rows.
fn in_memory(shape: &rucc_abi::Shape<'_>) -> String {
    let mut line = "memory".to_string();
    for number in 0..numbers::ROWS {
        line += &format!(" {}", numbers::row(number).call().in_memory(shape));
    }
    line
}

/// The record that the pieces make. The Rust has no refusal; where no piece is aligned it panics.
fn record(pieces: &[rucc_abi::Piece]) -> String {
    if !pieces.is_empty() && pieces.iter().all(|piece| piece.scalar.align == 0) {
        return format!("record refused {BAD_ALIGN}");
    }
    let record = rucc_abi::record(pieces);
    if record.size > LARGEST_SHAPE {
        return format!("record refused {BAD_SIZE}");
    }
    format!("record {} {} {}", record.size, record.align, numbers::flag(record.floating))
}

/// The pieces' scalars as the members of a record, each where it is put.
fn pieces(pieces: &[rucc_abi::Piece]) -> String {
    let members: Vec<Scalar> = pieces.iter().map(|piece| piece.scalar).collect();
    let mut line = "pieces".to_string();
    for piece in rucc_abi::pieces(&members) {
        let scalar = piece.scalar;
        let kind = numbers::kind_number(scalar.kind);
        line += &format!(" {kind}:{}:{}:{}", scalar.size, scalar.align, piece.offset);
    }
    line
}
