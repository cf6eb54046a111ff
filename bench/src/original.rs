//! The original: what it takes, and a turn of it.

use rucc_abi::{AbiDescription, Arg, Format, Kind, Pass, Piece, Scalar, Shape, Slot, abis};

use crate::values::Numbers;

/// Whether it was built in.
pub const HERE: bool = true;

pub type Row = AbiDescription;

/// The Rust's own form of a value. Its pieces are never given back.
pub type Given = Arg<'static>;

pub fn row(number: u64) -> &'static Row {
    abis::DESCRIBED[number as usize]
}

pub fn given(numbers: &Numbers) -> Given {
    match *numbers {
        Numbers::Scalar { kind, size, align } => Arg::Scalar(scalar(kind, size, align)),
        Numbers::Aggregate { size, align, ref words } => {
            let of_words = |words: &[u64]| Piece {
                scalar: scalar(words[0], words[1], words[2]),
                offset: words[3],
            };
            let pieces: Vec<Piece> = words.chunks_exact(4).map(of_words).collect();
            let (complex, floating, vector) = (false, false, false);
            let pieces = pieces.leak();
            Arg::Aggregate(Shape { size, align, pieces, complex, floating, vector })
        }
    }
}

fn scalar(number: u64, size: u64, align: u64) -> Scalar {
    let kind = match number {
        0 => Kind::Integer,
        1 => Kind::Float(Format::Single),
        2 => Kind::Float(Format::Double),
        _ => Kind::Float(Format::X87Extended),
    };
    Scalar { kind, size, align }
}

// In line, so that nothing stands between a side and the original.
#[inline(always)]
pub fn turn(row: &'static Row, given: &Given) -> u64 {
    let mut call = row.call();
    let pass = call.argument(given);
    let left = u64::from(call.integer_left()) + 16 * u64::from(call.float_left());
    let said = match &pass {
        Pass::Ignore => 0,
        Pass::Direct => 1,
        Pass::Pieces(slots) => 2 + slots.iter().map(place).sum::<u64>(),
        Pass::Reference => 3,
        Pass::Memory => 4,
    };
    left + 256 * said
}

fn place(slot: &Slot) -> u64 {
    8 + match slot {
        Slot::Integer { offset, .. } | Slot::Float { offset, .. } => *offset,
        Slot::Vector { .. } => 0,
    }
}
