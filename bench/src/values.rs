//! What both sides are asked about.

/// A value as the numbers that the library takes.
pub enum Numbers {
    Scalar { kind: u64, size: u64, align: u64 },
    Aggregate { size: u64, align: u64, words: Vec<u64> },
}

pub struct Value {
    pub name: &'static str,
    pub numbers: Numbers,
}

/// The rows that are measured.
pub const ROWS: [u64; 7] = [0, 1, 3, 4, 5, 9, 22];

/// Scalars; the records of the table of twelve calls; and two of sixteen members.
pub fn all() -> Vec<Value> {
    const INTEGER: u64 = 0;
    const SINGLE: u64 = 1;
    const DOUBLE: u64 = 2;
    const X87: u64 = 3;
    let bytes: Vec<[u64; 4]> = (0..16).map(|at| [INTEGER, 1, 1, at]).collect();
    let ints: Vec<[u64; 4]> = (0..16).map(|at| [INTEGER, 4, 4, 4 * at]).collect();
    let singles: Vec<[u64; 4]> = (0..5).map(|at| [SINGLE, 4, 4, 4 * at]).collect();
    let doubles: Vec<[u64; 4]> = (0..3).map(|at| [DOUBLE, 8, 8, 8 * at]).collect();
    vec![
        scalar("Int8", INTEGER, 8),
        scalar("Double", DOUBLE, 8),
        scalar("Int16", INTEGER, 16),
        aggregate("{Int8, Double}", 16, 8, &[[INTEGER, 8, 8, 0], [DOUBLE, 8, 8, 8]]),
        aggregate("{Int8, Int8}", 16, 8, &[[INTEGER, 8, 8, 0], [INTEGER, 8, 8, 8]]),
        aggregate("{X87}", 16, 16, &[[X87, 16, 16, 0]]),
        aggregate("three Singles", 12, 4, &singles[..3]),
        aggregate("five Singles", 20, 4, &singles),
        aggregate("three Doubles", 24, 8, &doubles),
        aggregate("size 0", 0, 1, &[]),
        aggregate("size 8, no pieces", 8, 8, &[]),
        aggregate("{Single, Int4}", 8, 4, &[[SINGLE, 4, 4, 0], [INTEGER, 4, 4, 4]]),
        aggregate("{Int4, Single}", 8, 4, &[[INTEGER, 4, 4, 0], [SINGLE, 4, 4, 4]]),
        aggregate("sixteen bytes", 16, 1, &bytes),
        aggregate("sixteen Int4", 64, 4, &ints),
    ]
}

fn scalar(name: &'static str, kind: u64, size: u64) -> Value {
    Value { name, numbers: Numbers::Scalar { kind, size, align: size } }
}

fn aggregate(name: &'static str, size: u64, align: u64, pieces: &[[u64; 4]]) -> Value {
    Value { name, numbers: Numbers::Aggregate { size, align, words: pieces.concat() } }
}
