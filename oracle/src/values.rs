//! Scalars, pieces and shapes as the numbers that a sheet has for them (REFERENCE 1 and 2).

use rucc_abi::Arg;

use crate::numbers;

/// The limits of the domain: each of these numbers is still inside.
pub const LARGEST_KIND: u64 = 4;
pub const LARGEST_SCALAR: u64 = 64;
pub const LARGEST_SHAPE: u64 = 16_777_216;
pub const LARGEST_OFFSET: u64 = 16_777_216;
pub const LARGEST_ALIGN: u64 = 4_096;
pub const MOST_PIECES: u64 = 1_024;

#[derive(Debug, Clone, Copy, PartialEq, Eq)]
pub struct Scalar {
    pub kind: u64,
    pub size: u64,
    pub align: u64,
}

#[derive(Debug, Clone, Copy, PartialEq, Eq)]
pub struct Piece {
    pub scalar: Scalar,
    pub offset: u64,
}

#[derive(Debug, Clone, PartialEq, Eq)]
pub struct Shape {
    pub size: u64,
    pub align: u64,
    pub complex: bool,
    pub floating: bool,
    pub pieces: Vec<Piece>,
}

/// What an operation is asked about.
#[derive(Debug, Clone, PartialEq, Eq)]
pub enum Value {
    Void,
    Scalar(Scalar),
    Aggregate(Shape),
}

impl Scalar {
    pub fn is_float(self) -> bool {
        self.kind != 0
    }

    fn in_rust(self) -> rucc_abi::Scalar {
        rucc_abi::Scalar { kind: numbers::kind(self.kind), size: self.size, align: self.align }
    }
}

impl Shape {
    /// Both flags in one number.
    pub fn flags(&self) -> u64 {
        numbers::flag(self.complex) + 2 * numbers::flag(self.floating)
    }
}

impl Value {
    /// Asks about this value, which has to be inside the domain, in the Rust's own types.
    pub fn ask<T>(&self, question: impl FnOnce(&Arg<'_>) -> T) -> T {
        match self {
            Self::Void => question(&Arg::Void),
            Self::Scalar(scalar) => question(&Arg::Scalar(scalar.in_rust())),
            Self::Aggregate(shape) => ask_shape(shape, question),
        }
    }
}

/// Asks about this shape, in the Rust's own types.
pub fn ask_shape<T>(shape: &Shape, question: impl FnOnce(&Arg<'_>) -> T) -> T {
    let in_rust =
        |piece: &Piece| rucc_abi::Piece { offset: piece.offset, scalar: piece.scalar.in_rust() };
    let pieces: Vec<rucc_abi::Piece> = shape.pieces.iter().map(in_rust).collect();
    question(&Arg::Aggregate(rucc_abi::Shape {
        size: shape.size,
        align: shape.align,
        pieces: &pieces,
        complex: shape.complex,
        floating: shape.floating,
        vector: false,
    }))
}
