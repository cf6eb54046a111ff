//! Types with types inside: what `flatten` hands over and hands back, and what it refuses.

use barkpaddle::{
    Abi, Aggregate, Call, Entry, Kind, Piece, Refusal, Room, Scalar, Way, flatten, limits, pieces,
    record,
};

const BYTE: Entry = Entry::scalar(Scalar::integer(1));
const INT: Entry = Entry::scalar(Scalar::integer(4));
const LONG: Entry = Entry::scalar(Scalar::integer(8));
const DOUBLE: Entry = Entry::scalar(Scalar::new(Kind::Double, 8, 8));

/// What is in a buffer that nobody has written to.
const UNTOUCHED: Piece = Piece::new(Kind::Unnamed(99), 98, 97, 96);

fn integer(size: u64, offset: u64) -> Piece {
    Piece::new(Kind::Integer, size, size, offset)
}

/// The size and the alignment of a type, whose pieces these are; what is behind them stays.
fn flat(types: &[Entry], members: &[u64], expected: &[Piece]) -> (u64, u64) {
    let mut room = vec![UNTOUCHED; expected.len() + 2];
    let shape = flatten(types, members, &mut room).expect("accepted");
    assert_eq!(shape.pieces, expected);
    assert!(!shape.complex);
    let answer = (shape.size, shape.align);
    assert_eq!(room[expected.len()..], [UNTOUCHED; 2]);
    answer
}

/// Refused so, and nothing is written.
fn refused(types: &[Entry], members: &[u64], length: usize) -> Refusal {
    let mut room = vec![UNTOUCHED; length];
    let refusal = flatten(types, members, &mut room).expect_err("refused");
    assert_eq!(room, vec![UNTOUCHED; length]);
    refusal
}

/// An entry under so many levels of arrays of 1.
fn under_arrays(inside: Entry, levels: u64) -> Vec<Entry> {
    let arrays = (0..levels).map(|element| Entry::array(element, 1));
    [inside].into_iter().chain(arrays).collect()
}

#[test]
fn an_array_of_records() {
    let types = [BYTE, INT, Entry::record(0, 2), Entry::array(2, 3)];
    let six = [
        integer(1, 0),
        integer(4, 4),
        integer(1, 8),
        integer(4, 12),
        integer(1, 16),
        integer(4, 20),
    ];
    assert_eq!(flat(&types, &[0, 1], &six), (24, 4));
    for length in 0..6 {
        assert_eq!(refused(&types, &[0, 1], length), Refusal::NoRoom);
    }
}

#[test]
fn each_form() {
    assert_eq!(flat(&[LONG], &[], &[integer(8, 0)]), (8, 8));
    let wide = Piece::new(Kind::Integer, 12, 16, 0);
    assert_eq!(flat(&[Entry::scalar(wide.scalar())], &[], &[wide]), (16, 16));
    let two = [integer(1, 0), integer(4, 4)];
    assert_eq!(flat(&[BYTE, INT, Entry::record(0, 2)], &[0, 1], &two), (8, 4));
    let two = [integer(1, 0), integer(4, 0)];
    assert_eq!(flat(&[BYTE, INT, Entry::union(0, 2)], &[0, 1], &two), (4, 4));
    let two = [integer(4, 0), integer(4, 4)];
    assert_eq!(flat(&[BYTE, INT, Entry::array(1, 2)], &[], &two), (8, 4));
}

#[test]
fn nothing_has_no_piece() {
    assert_eq!(flat(&[Entry::record(9, 0)], &[], &[]), (0, 1));
    assert_eq!(flat(&[Entry::union(u64::MAX, 0)], &[], &[]), (0, 1));
    assert_eq!(flat(&[INT, Entry::array(0, 0)], &[], &[]), (0, 4));
    // It is aligned as its element is, all the same.
    let types = [BYTE, INT, Entry::array(1, 0), Entry::record(0, 2)];
    assert_eq!(flat(&types, &[0, 2], &[integer(1, 0)]), (4, 4));
    assert_eq!(flatten(&[Entry::record(0, 0)], &[], &mut []).map(|empty| empty.size), Ok(0));
}

#[test]
fn each_refusal() {
    let kind = Entry::scalar(Scalar::new(Kind::Unnamed(5), 1, 1));
    let size = Entry::scalar(Scalar::new(Kind::Integer, limits::LARGEST_SCALAR + 1, 1));
    let align = Entry::scalar(Scalar::new(Kind::Integer, 1, limits::LARGEST_ALIGN + 1));
    let count = Entry::array(0, limits::MOST_ELEMENTS + 1);
    let deep = under_arrays(BYTE, limits::MOST_LEVELS as u64);
    let cases: [(&[Entry], &[u64], Refusal); 13] = [
        (&[], &[], Refusal::BadList),
        (&[BYTE; limits::MOST_ENTRIES + 1], &[], Refusal::BadList),
        (&[BYTE], &[0; limits::MOST_MEMBERS + 1], Refusal::BadList),
        (&[Entry::array(0, 0)], &[], Refusal::BadType),
        (&[BYTE, Entry::record(0, 1), BYTE], &[2], Refusal::BadType),
        (&[BYTE, Entry::union(0, 2)], &[0], Refusal::BadType),
        (&[BYTE, Entry::record(u64::MAX, 2)], &[0], Refusal::BadType),
        (&deep, &[], Refusal::TooDeep),
        (&[kind, size], &[], Refusal::BadKind),
        (&[size, align], &[], Refusal::BadSize),
        (&[BYTE, count], &[], Refusal::BadSize),
        (&[align, kind], &[], Refusal::BadAlign),
        (&[BYTE], &[], Refusal::NoRoom),
    ];
    for (types, members, refusal) in cases {
        assert_eq!(refused(types, members, 0), refusal);
        if refusal != Refusal::NoRoom {
            assert_eq!(refused(types, members, limits::MOST_PIECES + 1), refusal);
        }
    }
}

#[test]
fn the_first_refusal_is_given() {
    let (own, kind) = (Entry::array(0, 1), Entry::scalar(Scalar::new(Kind::Unnamed(5), 1, 1)));
    let mut types = under_arrays(kind, limits::MOST_LEVELS as u64);
    let many = vec![u64::MAX; limits::MOST_MEMBERS + 1];
    types[1] = Entry::array(1, 1);
    assert_eq!(refused(&types, &many, 0), Refusal::BadList);
    assert_eq!(refused(&types, &[], 0), Refusal::BadType);
    types[1] = Entry::array(0, 1);
    assert_eq!(refused(&types, &[], 0), Refusal::TooDeep);
    types.pop();
    assert_eq!(refused(&types, &[], 0), Refusal::BadKind);
    types[0] = BYTE;
    assert_eq!(refused(&types, &[], 0), Refusal::NoRoom);
    assert_eq!(flat(&types, &[], &[integer(1, 0)]), (1, 1));
    assert_eq!(refused(&[own, kind], &[], 0), Refusal::BadType);
}

#[test]
fn as_many_as_there_may_be() {
    let bytes: Vec<Piece> = (0..limits::MOST_PIECES as u64).map(|at| integer(1, at)).collect();
    let most = [BYTE, Entry::array(0, limits::MOST_ELEMENTS)];
    assert_eq!(flat(&most, &[], &bytes), (1_024, 1));
    let more = [BYTE, Entry::array(0, limits::MOST_ELEMENTS), Entry::union(0, 2)];
    assert_eq!(refused(&more, &[0, 1], limits::MOST_PIECES + 1), Refusal::NoRoom);
    assert_eq!(flat(&[BYTE; limits::MOST_ENTRIES], &[], &[integer(1, 0)]), (1, 1));
    // Members that no entry has aren't looked at.
    assert_eq!(flat(&[BYTE], &[u64::MAX; limits::MOST_MEMBERS], &[integer(1, 0)]), (1, 1));
    let deepest = under_arrays(BYTE, limits::MOST_LEVELS as u64 - 1);
    assert_eq!(flat(&deepest, &[], &[integer(1, 0)]), (1, 1));
}

#[test]
fn a_record_of_scalars_is_what_pieces_and_record_make() {
    let scalars = [
        Scalar::integer(1),
        Scalar::new(Kind::Integer, 12, 16),
        Scalar::new(Kind::Integer, 0, 1),
        Scalar::new(Kind::X87Extended, 10, 3),
        Scalar::new(Kind::Single, 4, 0),
        Scalar::new(Kind::Double, 8, 8),
    ];
    let count = scalars.len();
    for number in 0..count * count * count {
        let members = [number % count, number / count % count, number / count / count];
        let mut types: Vec<Entry> = members.map(|at| Entry::scalar(scalars[at])).to_vec();
        types.push(Entry::record(0, 3));
        let (mut room, mut other_room) = ([UNTOUCHED; 4], [UNTOUCHED; 4]);
        let shape = flatten(&types, &[0, 1, 2], &mut room).expect("accepted");
        let placed = pieces(&members.map(|at| scalars[at]), &mut other_room).expect("accepted");
        assert_eq!(shape.pieces, placed);
        match record(placed) {
            Ok(made) => assert_eq!(shape, made),
            Err(refusal) => assert_eq!((refusal, shape.align), (Refusal::BadAlign, 1)),
        }
    }
}

/// Whether the last of these types is floating, and what `record` says of its pieces.
fn floating(types: &[Entry], members: &[u64]) -> (bool, Result<bool, Refusal>) {
    let mut room = [UNTOUCHED; 4];
    let shape = flatten(types, members, &mut room).expect("accepted");
    (shape.floating, record(shape.pieces).map(|made| made.floating))
}

#[test]
fn one_float_that_is_all_of_it_is_floating() {
    let mut deep = under_arrays(DOUBLE, 14);
    deep.push(Entry::record(0, 1));
    assert_eq!(floating(&deep, &[14]), (true, Ok(true)));
    assert_eq!(floating(&[DOUBLE, Entry::array(0, 2)], &[]), (false, Ok(false)));
    assert_eq!(floating(&[DOUBLE, Entry::union(0, 2)], &[0, 0]), (false, Ok(false)));
    assert_eq!(floating(&[LONG, Entry::record(0, 1)], &[0]), (false, Ok(false)));
    assert_eq!(floating(&[Entry::record(0, 0)], &[]), (false, Ok(false)));
    let padded = Entry::scalar(Scalar::new(Kind::X87Extended, 12, 16));
    assert_eq!(floating(&[padded, Entry::record(0, 1)], &[0]), (false, Ok(false)));

    // Pieces whose alignments are all 0 are no record's.
    let unaligned = Entry::scalar(Scalar::new(Kind::Double, 8, 0));
    let no_align = (true, Err(Refusal::BadAlign));
    assert_eq!(floating(&[unaligned, Entry::record(0, 1)], &[0]), no_align);
    // The pieces don't say that there is padding behind the float.
    let wide = Entry::scalar(Scalar::integer(16));
    let types = [DOUBLE, wide, Entry::array(1, 0), Entry::record(0, 2)];
    assert_eq!(floating(&types, &[0, 2]), (false, Ok(true)));
}

/// No operation refuses it, on any description.
fn ask_everywhere(shape: Aggregate<'_>) {
    for abi in (0..Abi::COUNT).map(Abi) {
        let call = Call::fresh(abi).expect("a description");
        let mut room = Room::new();
        assert_eq!(call.returns(shape, &mut room).err(), None, "{shape:?} on {abi}");
        assert_eq!(call.argument(shape, &mut room).err(), None, "{shape:?} on {abi}");
        assert_eq!(call.variadic_argument(shape, &mut room).err(), None, "{shape:?} on {abi}");
        assert_eq!(call.in_memory(shape).err(), None, "{shape:?} on {abi}");
    }
}

#[test]
fn a_call_takes_what_is_flattened() {
    // struct { long tag; union { struct { double value; } one; double other; } }
    let types = [LONG, DOUBLE, Entry::record(0, 1), Entry::union(1, 2), Entry::record(3, 2)];
    let members = [1, 2, 1, 0, 3];
    let mut pieces = [UNTOUCHED; 3];
    let shape = flatten(&types, &members, &mut pieces).expect("accepted");
    ask_everywhere(shape);
    let mut room = Room::new();
    let call = Call::fresh(Abi::SYSV_AMD64).expect("a description");
    let passed = call.argument(shape, &mut room).expect("accepted");
    assert_eq!(passed.outcome.way, Way::Pieces);
    let slots: Vec<_> = passed.outcome.slots().map(|slot| (slot.kind, slot.offset)).collect();
    assert_eq!(slots, [(Kind::Integer, 0), (Kind::Double, 8)]);
    assert_eq!((passed.next.integer_left(), passed.next.float_left()), (5, 7));

    let nothing = Entry::scalar(Scalar::new(Kind::Integer, 0, 0));
    let most = Entry::array(0, limits::MOST_ELEMENTS);
    let mut room = [UNTOUCHED; limits::MOST_PIECES];
    for types in [vec![nothing], vec![nothing, most], vec![LONG, most], vec![Entry::record(0, 0)]] {
        ask_everywhere(flatten(&types, &[], &mut room).expect("accepted"));
    }
}
