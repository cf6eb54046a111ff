//! Random shapes that hit what the tests look at, and `oracle shapes`, which writes them.
//!
//! Every shape is inside the domain. The kinds of shape are those that C makes, and those that
//! only numbers can say: overlaps, holes, pieces without size, pieces past the shape.

use std::io::{self, Write};

use crate::random::Random;
use crate::records::{self, ARGUMENT};
use crate::values::{
    LARGEST_ALIGN, LARGEST_OFFSET, LARGEST_SCALAR, LARGEST_SHAPE, Piece, Scalar, Shape, Value,
};

/// Writes the shapes that `oracle find` answers for, each as an argument of a sheet.
pub fn write(out: &mut impl Write, seed: u64, count: u64) -> io::Result<()> {
    let mut random = Random::new(seed);
    for _ in 0..count {
        let value = Value::Aggregate(shape(&mut random));
        out.write_all(&records::bytes(&records::of_value(ARGUMENT, &value)))?;
    }
    Ok(())
}

/// The next shape.
pub fn shape(random: &mut Random) -> Shape {
    let mut shape = match random.between(0, 11) {
        0..=2 => c_record(random),
        3 => homogeneous(random),
        4 => complex(random),
        5 => lone(random),
        6 => union(random),
        7 => packed(random),
        8 => eightbytes(random),
        9 => float_pair(random),
        10 => bare(random),
        _ => wild(random),
    };
    if random.once_in(4) {
        spoil(random, &mut shape);
    }
    shape
}

/// Scalars as C has them, on one target or another.
const NATURAL: [Scalar; 12] = [
    Scalar { kind: 0, size: 1, align: 1 },
    Scalar { kind: 0, size: 2, align: 2 },
    Scalar { kind: 0, size: 4, align: 4 },
    Scalar { kind: 0, size: 8, align: 8 },
    Scalar { kind: 0, size: 8, align: 4 },
    Scalar { kind: 0, size: 16, align: 16 },
    Scalar { kind: 1, size: 4, align: 4 },
    Scalar { kind: 2, size: 8, align: 8 },
    Scalar { kind: 2, size: 8, align: 4 },
    Scalar { kind: 3, size: 12, align: 4 },
    Scalar { kind: 3, size: 16, align: 16 },
    Scalar { kind: 4, size: 16, align: 16 },
];

/// The common ones of them.
const COMMON: [Scalar; 6] =
    [NATURAL[0], NATURAL[1], NATURAL[2], NATURAL[3], NATURAL[6], NATURAL[7]];

/// The floats of them, and an x87 value of its bare ten bytes.
const FLOATS: [Scalar; 7] = [
    NATURAL[6],
    NATURAL[7],
    NATURAL[8],
    NATURAL[9],
    NATURAL[10],
    NATURAL[11],
    Scalar { kind: 3, size: 10, align: 2 },
];

/// Members in order, each at the next offset that it is aligned to, the size rounded up.
fn c_record(random: &mut Random) -> Shape {
    let from: &[Scalar] = if random.once_in(2) { &COMMON } else { &NATURAL };
    let count = member_count(random);
    let members: Vec<Scalar> = (0..count).map(|_| random.pick(from)).collect();
    laid_out(random, &members)
}

/// Floats of one type, now and then with one odd member.
fn homogeneous(random: &mut Random) -> Shape {
    let member = random.pick(&FLOATS);
    let count: usize = random.pick(&[1, 2, 3, 3, 4, 4, 5, 6, 7, 8, 9]);
    let mut members = vec![member; count];
    if random.once_in(4) {
        let odd = random.between(0, members.len() as u64 - 1) as usize;
        members[odd] = match random.between(0, 2) {
            0 => random.pick(&NATURAL),
            1 => Scalar { align: align(random), ..member },
            _ => Scalar { kind: random.between(0, 4), ..member },
        };
    }
    laid_out(random, &members)
}

/// A complex number, or a record of the same two floats.
fn complex(random: &mut Random) -> Shape {
    let member = random.pick(&FLOATS);
    let is_complex = !random.once_in(4);
    let mut shape = laid_out(random, &[member, member]);
    shape.complex = is_complex;
    shape.floating = is_complex || random.once_in(4);
    shape
}

/// One float or integer, which may fill the shape or not.
fn lone(random: &mut Random) -> Shape {
    let member = if random.once_in(4) { random.pick(&NATURAL) } else { random.pick(&FLOATS) };
    let mut shape = laid_out(random, &[member]);
    shape.floating = member.is_float() && !random.once_in(4);
    shape
}

/// Members that all stand at 0.
fn union(random: &mut Random) -> Shape {
    let count = random.between(1, 4);
    let from: &[Scalar] = if random.once_in(2) { &FLOATS } else { &NATURAL };
    let pieces = (0..count).map(|_| Piece { scalar: random.pick(from), offset: 0 }).collect();
    around(random, pieces)
}

/// Members one right after the other, some of which don't say that they are packed.
fn packed(random: &mut Random) -> Shape {
    let mut pieces = Vec::new();
    let mut offset = 0;
    for _ in 0..member_count(random) {
        let scalar = random.pick(&NATURAL);
        let align = if random.once_in(2) { 1 } else { scalar.align };
        pieces.push(Piece { scalar: Scalar { align, ..scalar }, offset });
        offset += scalar.size;
    }
    shape_of(offset, 1, pieces)
}

/// Aligned pieces within at most eight eightbytes, in any order, overlapping and with holes.
fn eightbytes(random: &mut Random) -> Shape {
    let eights = random.pick(&[1, 1, 2, 2, 2, 3, 4, 8]);
    let mut pieces = Vec::new();
    for _ in 0..random.between(1, 5) {
        let scalar = random.pick(&NATURAL);
        let room = (8 * eights / scalar.size).max(1) - 1;
        pieces.push(Piece { scalar, offset: scalar.align * random.between(0, room) });
    }
    let missing = if random.once_in(2) { 0 } else { random.between(0, 7) };
    shape_of(8 * eights - missing, 8, pieces)
}

/// One or two members of sizes around the widths of registers.
fn float_pair(random: &mut Random) -> Shape {
    let count = random.between(1, 2);
    let members: Vec<Scalar> = (0..count)
        .map(|_| {
            let size = random.pick(&[0, 3, 4, 5, 7, 8, 9, 15, 16, 17]);
            Scalar { kind: random.between(0, 4), size, align: random.pick(&[1, 4, 8]) }
        })
        .collect();
    laid_out(random, &members)
}

/// A size without pieces, or with one integer: what the tests of size look at.
fn bare(random: &mut Random) -> Shape {
    let scalar = Scalar { kind: 0, size: scalar_size(random), align: align(random) };
    let pieces = if random.once_in(2) { vec![] } else { vec![Piece { scalar, offset: 0 }] };
    shape_of(shape_size(random), align(random), pieces)
}

/// Anything inside the domain.
fn wild(random: &mut Random) -> Shape {
    let mut pieces = Vec::new();
    for _ in 0..member_count(random) {
        let kind = random.between(0, 4);
        let scalar = Scalar { kind, size: scalar_size(random), align: align(random) };
        pieces.push(Piece { scalar, offset: offset(random) });
    }
    let mut shape = shape_of(shape_size(random), align(random), pieces);
    shape.complex = random.once_in(4);
    shape.floating = random.once_in(4);
    shape
}

/// Changes one thing that the rest of the shape doesn't fit.
fn spoil(random: &mut Random, shape: &mut Shape) {
    if let Some(last) = shape.pieces.len().checked_sub(1) {
        let at = random.between(0, last as u64) as usize;
        let piece = &mut shape.pieces[at];
        match random.between(0, 11) {
            0 => piece.scalar.size = scalar_size(random),
            1 => piece.scalar.align = align(random),
            2 => piece.offset = offset(random),
            3 => piece.scalar.kind = random.between(0, 4),
            4 => piece.scalar.size = 0,
            5 => piece.offset = shape.size,
            6 => drop(shape.pieces.remove(at)),
            7 => shape.pieces.swap(at, 0),
            _ => spoil_whole(random, shape),
        }
    } else {
        spoil_whole(random, shape);
    }
}

fn spoil_whole(random: &mut Random, shape: &mut Shape) {
    match random.between(0, 4) {
        0 => shape.size = shape_size(random),
        1 => shape.size = shape.size.saturating_sub(1),
        2 => shape.size = (shape.size + 1).min(LARGEST_SHAPE),
        3 => shape.align = align(random),
        _ => (shape.complex, shape.floating) = (!shape.complex, random.once_in(2)),
    }
}

/// How many members: a few mostly, now and then up to 40.
fn member_count(random: &mut Random) -> u64 {
    let most = random.pick(&[2, 3, 4, 4, 5, 9]);
    if random.once_in(40) { random.between(10, 40) } else { random.between(0, most) }
}

/// A size that a rule or a register's width draws a line at, or one off it.
fn near_line(random: &mut Random) -> u64 {
    let line: u64 = random.pick(&[0, 1, 2, 4, 8, 12, 16, 20, 24, 32, 64]);
    match random.between(0, 3) {
        0 => line.saturating_sub(1),
        1 => line + 1,
        _ => line,
    }
}

/// A size of a scalar, 0 to 64.
pub fn scalar_size(random: &mut Random) -> u64 {
    if random.once_in(3) {
        random.between(0, LARGEST_SCALAR)
    } else {
        near_line(random).min(LARGEST_SCALAR)
    }
}

/// A size of a shape. Large ones are rare: the Rust cuts them into millions of slots.
pub fn shape_size(random: &mut Random) -> u64 {
    match random.between(0, 255) {
        0 => random.pick(&[LARGEST_SHAPE - 1, LARGEST_SHAPE]),
        1 => random.between(0, LARGEST_SHAPE),
        2..=17 => random.between(0, 4_200),
        18..=57 => random.between(0, 72),
        _ => near_line(random),
    }
}

pub fn align(random: &mut Random) -> u64 {
    match random.between(0, 15) {
        0 => random.between(0, LARGEST_ALIGN),
        1 => LARGEST_ALIGN,
        _ => random.pick(&[0, 1, 2, 4, 8, 8, 16]),
    }
}

/// An offset, inside a small shape mostly.
pub fn offset(random: &mut Random) -> u64 {
    match random.between(0, 31) {
        0 => random.between(0, LARGEST_OFFSET),
        1 => random.pick(&[LARGEST_OFFSET - 1, LARGEST_OFFSET]),
        2..=9 => random.between(0, 70),
        _ => 4 * random.between(0, 8),
    }
}

/// These members in order, each at the next offset that it is aligned to.
fn laid_out(random: &mut Random, members: &[Scalar]) -> Shape {
    let mut pieces = Vec::new();
    let mut offset: u64 = 0;
    for scalar in members {
        offset = offset.next_multiple_of(scalar.align.max(1));
        pieces.push(Piece { scalar: *scalar, offset });
        offset += scalar.size;
    }
    around(random, pieces)
}

/// The record around these pieces, as C would size and align it, now and then over-aligned.
fn around(random: &mut Random, pieces: Vec<Piece>) -> Shape {
    let widest = pieces.iter().map(|piece| piece.scalar.align).max().unwrap_or(1);
    let end = pieces.iter().map(|piece| piece.offset + piece.scalar.size).max().unwrap_or(0);
    let align = if random.once_in(16) { widest.max(16) } else { widest };
    shape_of(end.next_multiple_of(align.max(1)), align, pieces)
}

/// A shape that is neither complex nor floating.
pub fn shape_of(size: u64, align: u64, pieces: Vec<Piece>) -> Shape {
    Shape { size, align, complex: false, floating: false, pieces }
}
