//! The numbers that stand for the Rust's types (REFERENCE 1, 5 and 6), in both directions.

use rucc_abi::{AbiDescription, Format, Kind, Pass, Slot, Test, Travel, abis};

use crate::descriptions::{self, Description, OF_THE_RUST, Short};

/// How many descriptions there are: the Rust's, and the three of RISC-V's own book.
pub const ROWS: usize = OF_THE_RUST + 3;

/// The description of this number.
pub fn row(number: usize) -> &'static Description {
    assert!(number < ROWS, "there is no row {number}");
    &descriptions::all()[number]
}

/// The number of this description, which is one of the Rust's own statics.
pub fn row_number(description: &AbiDescription) -> usize {
    let found = abis::DESCRIBED.iter().position(|known| std::ptr::eq(*known, description));
    found
        .filter(|number| *number < OF_THE_RUST)
        .expect("a lookup answers with one of the Rust's thirty rows")
}

pub fn flag(yes: bool) -> u64 {
    u64::from(yes)
}

/// A format as a kind.
pub fn format_kind(format: Format) -> u64 {
    match format {
        Format::Single => 1,
        Format::Double => 2,
        Format::X87Extended => 3,
        Format::Quad => 4,
        Format::DoubleDouble => panic!("no row and no value has this format"),
    }
}

/// A format as a kind, 0 for none.
pub fn optional_format(format: Option<Format>) -> u64 {
    format.map_or(0, format_kind)
}

/// The kind of this number, which has to be a known one.
pub fn kind(number: u64) -> Kind {
    match number {
        0 => Kind::Integer,
        1 => Kind::Float(Format::Single),
        2 => Kind::Float(Format::Double),
        3 => Kind::Float(Format::X87Extended),
        4 => Kind::Float(Format::Quad),
        _ => panic!("kind {number} should have been refused"),
    }
}

/// The number of this kind.
pub fn kind_number(kind: Kind) -> u64 {
    match kind {
        Kind::Integer => 0,
        Kind::Float(format) => format_kind(format),
    }
}

/// A test and its four parameters.
pub fn test(test: Test) -> (u64, [u64; 4]) {
    match test {
        Test::Anything => (0, [0; 4]),
        Test::Empty => (1, [0; 4]),
        Test::SizeOneOf(sizes) => (2, four(sizes)),
        Test::SizeAtMost(limit) => (3, [limit, 0, 0, 0]),
        Test::Homogeneous { limit } => (4, [limit as u64, 0, 0, 0]),
        Test::FloatPair => (5, [0; 4]),
        Test::X87Stack => (6, [0; 4]),
        Test::LoneFloat => (7, [0; 4]),
        Test::FloatingMode => (8, [0; 4]),
        Test::ComplexFloat => (9, [0; 4]),
        Test::Eightbytes { limit } => (10, [limit, 0, 0, 0]),
        Test::SingleScalar | Test::Vector | Test::WholeVector { .. } | Test::VariadicVector => {
            panic!("only the rows of wasm have {test:?}")
        }
    }
}

fn four(sizes: &[u64]) -> [u64; 4] {
    assert!(sizes.len() <= 4, "a rule names four sizes at most");
    std::array::from_fn(|at| sizes.get(at).copied().unwrap_or(0))
}

pub fn travel(travel: Travel) -> u64 {
    match travel {
        Travel::Ignore => 0,
        Travel::AsFound => 1,
        Travel::AsIntegers => 2,
        Travel::AsOneInteger => 3,
        Travel::ByReference => 4,
        Travel::InMemory => 5,
        Travel::InMemoryAndSpend => 6,
    }
}

pub fn short(short: Short) -> u64 {
    match short {
        Short::Unchanged => 0,
        Short::Memory => 1,
        Short::MemoryAndDrain => 2,
        Short::TryNextRule => 3,
        Short::Split => 4,
    }
}

/// A way, in the word that a sheet's line has for it.
pub fn way(pass: &Pass) -> &'static str {
    match pass {
        Pass::Ignore => "ignore",
        Pass::Direct => "direct",
        Pass::Pieces(_) => "pieces",
        Pass::Reference => "reference",
        Pass::Memory => "memory",
    }
}

/// A slot as it is printed: kind, offset, and size, which is 0 for a float.
pub fn slot(slot: &Slot) -> String {
    match *slot {
        Slot::Integer { offset, size } => format!("0:{offset}:{size}"),
        Slot::Float { offset, format } => format!("{}:{offset}:0", format_kind(format)),
        Slot::Vector { .. } => panic!("only the rows of wasm have a vector slot"),
    }
}
