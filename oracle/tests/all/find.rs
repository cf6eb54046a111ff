//! What the tests find in shapes that were worked out by hand.

use oracle::find;
use oracle::numbers;
use oracle::values::{Piece, Scalar, Shape};

/// What a test finds in a shape of this size whose pieces are kind, size, alignment and offset.
fn found(question: &str, size: u64, complex: bool, pieces: &[[u64; 4]]) -> Option<String> {
    let piece = |&[kind, size, align, offset]: &[u64; 4]| Piece {
        scalar: Scalar { kind, size, align },
        offset,
    };
    let pieces = pieces.iter().map(piece).collect();
    let shape = Shape { size, align: 8, complex, floating: complex, pieces };
    let questions = find::questions();
    let (_, probe) = questions.iter().find(|(name, _)| name == question).expect("a question");
    let slots: Vec<String> = probe.find(&shape)?.iter().map(numbers::slot).collect();
    Some(slots.join(" "))
}

fn some(slots: &str) -> Option<String> {
    Some(slots.to_string())
}

#[test]
fn homogeneous_reads_the_limit_the_size_and_every_alignment() {
    let three = [[1, 4, 4, 0], [1, 4, 4, 4], [1, 4, 4, 8]];
    assert_eq!(found("homogeneous 3", 12, false, &three), some("1:0:0 1:4:0 1:8:0"));
    assert_eq!(found("homogeneous 2", 12, false, &three), None);
    assert_eq!(found("homogeneous 3", 16, false, &three), None);
    assert_eq!(found("homogeneous 4", 8, false, &[[1, 4, 4, 0], [1, 4, 1, 4]]), None);
}

#[test]
fn a_float_pair_reads_the_widths() {
    let pair = [[2, 8, 8, 0], [0, 8, 8, 8]];
    assert_eq!(found("float_pair 8 8", 16, false, &pair), some("2:0:0 0:8:8"));
    assert_eq!(found("float_pair 4 8", 16, false, &pair), None);
    assert_eq!(found("float_pair 8 16", 16, false, &[[4, 16, 16, 0]]), some("4:0:0"));
    assert_eq!(found("float_pair 8 8", 16, false, &[[4, 16, 16, 0]]), None);
    assert_eq!(found("float_pair 8 8", 16, false, &[[0, 8, 8, 0], [0, 8, 8, 8]]), None);
}

#[test]
fn two_x87_values_come_back_only_as_a_complex_number() {
    let two = [[3, 16, 16, 0], [3, 16, 16, 16]];
    assert_eq!(found("x87_stack", 32, true, &two), some("3:0:0 3:16:0"));
    assert_eq!(found("x87_stack", 32, false, &two), None);
    assert_eq!(found("lone_float", 16, false, &two[..1]), None);
}

#[test]
fn flags_alone_decide_the_floating_mode() {
    assert_eq!(found("floating_mode", 99, true, &[]), some(""));
    assert_eq!(found("floating_mode", 4, false, &[[1, 4, 4, 0]]), None);
    let two = [[1, 4, 4, 0], [1, 4, 4, 4]];
    assert_eq!(found("complex_float", 8, true, &two), some(""));
    assert_eq!(found("complex_float", 8, false, &two), None);
}

#[test]
fn eightbytes_merge() {
    let mixed = [[0, 4, 4, 0], [1, 4, 4, 4], [2, 8, 8, 8]];
    assert_eq!(found("eightbytes 16", 16, false, &mixed), some("0:0:8 2:8:0"));
    assert_eq!(found("eightbytes 8", 16, false, &mixed), None);
    assert_eq!(found("eightbytes 16", 12, false, &[[1, 12, 4, 0]]), some("4:0:0"));
    assert_eq!(
        found("eightbytes 16", 16, false, &[[4, 16, 16, 0], [0, 8, 8, 0]]),
        some("0:0:8 2:8:0")
    );
    assert_eq!(found("eightbytes 16", 16, false, &[[3, 16, 16, 0]]), None);
    assert_eq!(found("eightbytes 16", 16, false, &[[0, 8, 8, 4]]), None);
    assert_eq!(found("eightbytes 16", 16, false, &[[0, 8, 8, 16]]), None);
    assert_eq!(found("eightbytes 16", 16, false, &[]), some("0:0:8 0:8:8"));
}
