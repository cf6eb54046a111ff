//! Alignments in memory, records and pieces, worked out by hand.

use oracle::layouts;
use oracle::values::{Piece, Scalar, Shape};

fn lines(size: u64, align: u64, pieces: &[[u64; 4]]) -> [String; 3] {
    let piece = |&[kind, size, align, offset]: &[u64; 4]| Piece {
        scalar: Scalar { kind, size, align },
        offset,
    };
    let pieces = pieces.iter().map(piece).collect();
    layouts::lines(&Shape { size, align, complex: false, floating: false, pieces })
}

/// The alignment on row 2, whose stack arguments are packed, and on row 0.
fn aligned(line: &str) -> [&str; 2] {
    let rows: Vec<&str> = line.split(' ').skip(1).collect();
    [rows[2], rows[0]]
}

#[test]
fn row_2_aligns_to_a_register_but_for_equal_floats() {
    let singles = [[1, 4, 4, 0], [1, 4, 4, 4]];
    assert_eq!(aligned(&lines(8, 4, &singles)[0]), ["4", "4"]);
    assert_eq!(aligned(&lines(12, 4, &singles)[0]), ["8", "4"]);
    assert_eq!(aligned(&lines(12, 16, &singles)[0]), ["16", "16"]);
}

/// What sticks out of a shape has it refused, on all rows at once; what the pieces make stays.
#[test]
fn a_piece_past_the_shape() {
    let refused =
        |record: &str, pieces: &str| ["memory refused 9", record, pieces].map(String::from);
    let eight = [[0, 8, 8, 1]];
    assert_eq!(lines(8, 8, &eight), refused("record 16 8 0", "pieces 0:8:8:0"));
    assert_eq!(lines(9, 8, &eight)[0], format!("memory{}", " 8".repeat(33)));
    let nothing = [[2, 0, 4, 8]];
    assert_eq!(lines(7, 4, &nothing), refused("record 12 4 0", "pieces 2:0:4:0"));
    assert_eq!(aligned(&lines(8, 4, &nothing)[0]), ["8", "4"]);
    assert_eq!(lines(0, 1, &[[0, 1, 0, 0]]), refused("record refused 6", "pieces 0:1:0:0"));
    let last = [[0, 1, 1, 16_777_216]];
    assert_eq!(lines(16_777_216, 1, &last), refused("record refused 5", "pieces 0:1:1:0"));
}

#[test]
fn records_and_pieces() {
    let [_, record, pieces] = lines(0, 0, &[[0, 1, 1, 0], [2, 8, 8, 8], [0, 0, 4, 16]]);
    assert_eq!(record, "record 24 8 0");
    assert_eq!(pieces, "pieces 0:1:1:0 2:8:8:8 0:0:4:16");
    assert_eq!(lines(0, 0, &[[2, 8, 8, 0]])[1], "record 8 8 1");
    assert_eq!(lines(0, 0, &[])[1..], ["record 0 1 0", "pieces"]);
    assert_eq!(lines(0, 0, &[[0, 1, 0, 0]])[1], "record refused 6");
    assert_eq!(lines(0, 0, &[[0, 1, 1, 16_777_216]])[1], "record refused 5");
}
