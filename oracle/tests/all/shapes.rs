//! The shapes: the same from the same seed, inside the domain, and hitting every test.

use std::collections::HashSet;

use oracle::random::Random;
use oracle::values::{
    LARGEST_ALIGN, LARGEST_KIND, LARGEST_OFFSET, LARGEST_SCALAR, LARGEST_SHAPE, MOST_PIECES, Shape,
};
use oracle::{find, records, shapes};

fn some_shapes(seed: u64, count: usize) -> Vec<Shape> {
    let mut random = Random::new(seed);
    (0..count).map(|_| shapes::shape(&mut random)).collect()
}

#[test]
fn the_same_seed_gives_the_same_shapes() {
    assert_eq!(some_shapes(7, 500), some_shapes(7, 500));
    assert_ne!(some_shapes(7, 500), some_shapes(8, 500));
}

/// A report names a sheet by its seed, so a seed's numbers may not change.
#[test]
fn the_numbers_of_a_seed_stay() {
    let mut random = Random::new(1);
    assert_eq!([random.word(), random.word()], [0x910a_2dec_8902_5cc1, 0xbeeb_8da1_658e_ec67]);
}

#[test]
fn every_shape_is_inside_the_domain() {
    for shape in some_shapes(3, 50_000) {
        assert!(shape.size <= LARGEST_SHAPE && shape.align <= LARGEST_ALIGN, "{shape:?}");
        assert!(shape.pieces.len() as u64 <= MOST_PIECES, "{shape:?}");
        for piece in &shape.pieces {
            let scalar = piece.scalar;
            assert!(scalar.kind <= LARGEST_KIND && scalar.size <= LARGEST_SCALAR, "{shape:?}");
            assert!(scalar.align <= LARGEST_ALIGN && piece.offset <= LARGEST_OFFSET, "{shape:?}");
        }
    }
}

#[test]
fn the_limits_themselves_are_reached() {
    let shapes = some_shapes(4, 50_000);
    assert!(shapes.iter().any(|shape| shape.size == LARGEST_SHAPE));
    assert!(shapes.iter().any(|shape| shape.align == LARGEST_ALIGN));
    assert!(shapes.iter().any(|shape| shape.pieces.len() == 40));
    let mut pieces = shapes.iter().flat_map(|shape| &shape.pieces);
    assert!(pieces.clone().any(|piece| piece.offset == LARGEST_OFFSET));
    assert!(pieces.any(|piece| piece.scalar.size == LARGEST_SCALAR));
}

/// How often a test finds each number of slots, and nothing, says whether the shapes are telling.
#[test]
fn every_test_finds_each_number_of_slots_and_nothing() {
    let shapes = some_shapes(5, 20_000);
    for (name, probe) in find::questions() {
        let answers: HashSet<Option<usize>> =
            shapes.iter().map(|shape| probe.find(shape).map(|slots| slots.len())).collect();
        let words: Vec<&str> = name.split(' ').collect();
        let counts = match words[..] {
            ["homogeneous", limit] => 1..=limit.parse().unwrap(),
            ["eightbytes", limit] => 0..=limit.parse::<usize>().unwrap() / 8,
            ["float_pair", ..] | ["x87_stack"] => 1..=2,
            ["lone_float"] => 1..=1,
            _ => 0..=0,
        };
        let expected = counts.map(Some).chain([None]).collect();
        assert_eq!(answers, expected, "{name}");
    }
}

#[test]
fn the_written_records_are_the_shapes_that_find_prints() {
    let mut written = Vec::new();
    shapes::write(&mut written, 9, 300).unwrap();
    let mut expected = Vec::new();
    let mut printed = Vec::new();
    find::print(&mut printed, 9, 300).unwrap();
    for line in String::from_utf8(printed).unwrap().lines() {
        let words: Vec<&str> = line.split(' ').collect();
        let numbers: Vec<u64> = words[1..].iter().filter_map(|word| word.parse().ok()).collect();
        match words[0] {
            "shape" => expected.push([3, 2, numbers[0], numbers[1], numbers[2], numbers[3]]),
            "piece" => expected.push([5, numbers[0], numbers[1], numbers[2], numbers[3], 0]),
            _ => {}
        }
    }
    assert_eq!(written, records::bytes(&expected));
}
