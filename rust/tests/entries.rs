//! The wrapper by itself: what it hands over, what it hands back, and what is refused.

use std::collections::HashSet;
use std::error::Error;
use std::hash::Hash;
use std::mem;

use barkpaddle::{
    Abi, Aggregate, Architecture, Bridge, Call, Convention, Description, Entry, Kind, Offsets,
    Outcome, Passed, Piece, Refusal, Room, Rule, Scalar, Slot, Spent, Stacked, System, Target,
    Test, VERSION, VaList, Value, Way, WrongVersion, check_version, flatten, library_version,
    limits, pieces, record,
};

const SYSV: Abi = Abi::SYSV_AMD64;

#[test]
fn a_refused_operation_writes_nothing() {
    let call = Call::from_parts(SYSV, 7, 8, false, 0);
    let mut slots = [9; 5];
    assert_eq!(call.argument(Value::Void, &mut slots), Err(Refusal::BadCall));
    let call = Call::fresh(SYSV).expect("a description");
    let two = [Piece::new(Kind::Integer, 8, 8, 0), Piece::new(Kind::Integer, 8, 8, 8)];
    let both = Aggregate::new(16, 8, &two);
    assert_eq!(call.argument(both, &mut slots), Err(Refusal::NoRoom));
    assert_eq!(call.argument(both, &mut []), Err(Refusal::NoRoom));
    assert_eq!(slots, [9; 5]);
}

#[test]
fn words_behind_the_slots_stay() {
    let call = Call::fresh(SYSV).expect("a description");
    let one = [Piece::new(Kind::Double, 8, 8, 0)];
    let mut slots = [9; 7];
    let passed = call.argument(Aggregate::new(8, 8, &one), &mut slots).expect("accepted");
    assert_eq!((passed.outcome.way, passed.outcome.slots().len()), (Way::Pieces, 1));
    assert_eq!(passed.next, Call::from_parts(SYSV, 6, 7, false, 0));
    assert_eq!(slots, [2, 0, 0, 9, 9, 9, 9]);
}

#[test]
fn the_five_arguments_and_the_record_that_goes_to_memory() {
    let mut call = Call::fresh(SYSV).expect("a description");
    let mut room = Room::new();
    for _ in 0..5 {
        call = call.argument(Scalar::integer(8), &mut room).expect("accepted").next;
    }
    let two = [Piece::new(Kind::Integer, 8, 8, 0), Piece::new(Kind::Integer, 8, 8, 8)];
    let both = Aggregate::new(16, 8, &two);
    let passed = call.argument(both, &mut room).expect("accepted");
    assert_eq!((passed.outcome.way, passed.next.integer_left()), (Way::Memory, 1));
    assert_eq!((bytes(&passed.outcome), passed.next.stack()), (Some([0, 16]), 16));
    assert_eq!(call.in_memory(both), Ok(8));
    // The register that is left goes to the next integer, and the one behind it is on the stack.
    let sixth = passed.next.argument(Scalar::integer(8), &mut []).expect("accepted");
    assert_eq!((sixth.outcome.stacked, sixth.next.stack()), (None, 16));
    let seventh = sixth.next.argument(Scalar::integer(8), &mut []).expect("accepted");
    assert_eq!((bytes(&seventh.outcome), seventh.next.stack()), (Some([16, 8]), 24));
}

#[test]
fn the_mark_is_row_3s() {
    let call = Call::fresh(Abi::WINDOWS_ARM64).expect("a description").variadic().expect("marked");
    assert!(call.integers_only());
    let mut room = Room::new();
    let passed = call.argument(Scalar::new(Kind::Double, 8, 8), &mut room).expect("accepted");
    assert_eq!(passed.outcome.slots().next().map(|slot| slot.kind), Some(Kind::Integer));
    assert_eq!(passed.outcome.spent.integers_given, 1);
    assert_eq!(passed.next, Call::from_parts(Abi::WINDOWS_ARM64, 7, 8, true, 0));
    let call = Call::from_parts(SYSV, 0, 0, true, 0);
    assert_eq!(call.variadic(), Err(Refusal::BadCall));
}

#[test]
fn every_refusal_says_what_was_wrong() {
    let call = Call::fresh(SYSV).expect("a description");
    let mut room = Room::new();
    let mut refused = |value: Value<'_>| call.argument(value, &mut room).expect_err("refused");
    let many = [Piece::default(); limits::MOST_PIECES + 1];
    let mut deep = vec![Entry::record(0, 0)];
    deep.extend((0..limits::MOST_LEVELS as u64).map(|element| Entry::array(element, 1)));
    let refusals = [
        Call::fresh(Abi(Abi::COUNT)).expect_err("refused"),
        Call::from_parts(SYSV, 7, 0, false, 0).variadic().expect_err("refused"),
        refused(Aggregate::new(8, 8, &many).into()),
        refused(Scalar::new(Kind::Unnamed(5), 65, 4_097).into()),
        refused(Scalar::new(Kind::Quad, limits::LARGEST_SCALAR + 1, 4_097).into()),
        refused(Scalar::new(Kind::Quad, 64, limits::LARGEST_ALIGN + 1).into()),
        SYSV.name(&mut []).expect_err("refused"),
        VaList::new(&[], &[], Offsets { integer: 0, float: 48, overflow: 0 })
            .next(Scalar::integer(8))
            .expect_err("refused"),
        refused(Aggregate::new(7, 8, &[Piece::new(Kind::Integer, 8, 8, 0)]).into()),
        flatten(&[Entry::array(0, 1)], &[], &mut []).expect_err("refused"),
        flatten(&deep, &[], &mut []).expect_err("refused"),
    ];
    for (at, refusal) in refusals.into_iter().enumerate() {
        assert_eq!(refusal.number(), at as u64 + 1);
        let error: &dyn Error = &refusal;
        assert!(!error.to_string().is_empty());
    }
    assert_eq!(Refusal::Unnamed(99).to_string(), "refused for reason number 99");
}

#[test]
fn numbers_and_names_are_each_others() {
    for number in (0..600).chain([u64::MAX]) {
        assert_eq!(Kind::from_number(number).number(), number);
        assert_eq!(Way::from_number(number).number(), number);
        assert_eq!(Refusal::from_number(number).number(), number);
        assert_eq!(Convention::from_number(number).number(), number);
        assert_eq!(Architecture::from_number(number).number(), number);
        assert_eq!(System::from_number(number).number(), number);
    }
}

#[test]
fn kinds_ways_and_descriptions_are_shown_by_name() {
    let kinds = (0..6).map(|number| Kind::from_number(number).to_string());
    let shown: Vec<String> = kinds.collect();
    assert_eq!(shown, ["integer", "Single", "Double", "X87Extended", "Quad", "kind 5"]);
    let ways = (0..6).map(|number| Way::from_number(number).to_string());
    let shown: Vec<String> = ways.collect();
    assert_eq!(shown, ["ignore", "direct", "pieces", "reference", "memory", "way 5"]);
    assert_eq!(format!("[{:>8}] [{:<8}]", Kind::Quad, Way::Direct), "[    Quad] [direct  ]");

    assert_eq!(SYSV.to_string(), "SysV AMD64");
    assert_eq!(Abi::I386_SYSV_REGPARM_2.to_string(), "i386 SysV regparm(2)");
    assert_eq!(format!("{:>12}", Abi::AAPCS64), "     AAPCS64");
    for number in 0..Abi::COUNT {
        let mut room = [0; limits::MOST_NAME_BYTES];
        let name = Abi(number).name(&mut room).expect("there is room");
        assert_eq!(Abi(number).to_string().as_bytes(), name);
    }
    assert_eq!(Abi(Abi::COUNT).to_string(), "description 33");
    assert_eq!(Abi(u64::MAX).to_string(), format!("description {}", u64::MAX));
}

#[test]
fn a_float_has_its_formats_size() {
    let sizes = [(Kind::Single, 4), (Kind::Double, 8), (Kind::X87Extended, 16), (Kind::Quad, 16)];
    for (format, size) in sizes {
        assert_eq!(Scalar::float(format), Some(Scalar::new(format, size, size)));
    }
    for kind in [Kind::Integer, Kind::Unnamed(5)] {
        assert_eq!(Scalar::float(kind), None);
    }
    const DOUBLE: Scalar = Scalar::float(Kind::Double).expect("a format");
    let passed = Call::fresh(SYSV).expect("a description").argument(DOUBLE, &mut []);
    assert_eq!(passed.expect("accepted").outcome.spent.floats_given, 1);
}

#[test]
fn plain_types_are_keys() {
    fn key<T: Eq + Hash>() {}
    key::<(Abi, Description, Rule, Test)>();
    key::<(Call, Bridge, Passed<'_>, Outcome<'_>, Spent, Slot, Stacked)>();
    key::<(Scalar, Piece, Entry, Aggregate<'_>, Value<'_>)>();
    key::<(VaList<'_>, Offsets)>();
    key::<(Kind, Way, Refusal, Target, Convention, WrongVersion)>();

    let call = Call::fresh(SYSV).expect("a description");
    let next = call.argument(Scalar::integer(8), &mut []).expect("accepted").next;
    let calls = HashSet::from([call, next, Call::from_parts(SYSV, 6, 8, false, 0)]);
    assert_eq!(calls.len(), 2);
    assert!(!calls.contains(&Call::from_parts(SYSV, 6, 8, false, 8)));
}

#[test]
fn the_library_is_of_this_version() {
    assert_eq!(library_version(), VERSION);
    assert_eq!(check_version(), Ok(()));
}

#[test]
fn records_from_members() {
    let members = [Scalar::integer(1), Scalar::new(Kind::Double, 8, 8), Scalar::integer(2)];
    let mut room = [Piece::new(Kind::Quad, 9, 9, 9); 4];
    let placed = pieces(&members, &mut room).expect("there is room");
    let offsets: Vec<u64> = placed.iter().map(|piece| piece.offset()).collect();
    assert_eq!(offsets, [0, 8, 16]);
    let shape = record(placed).expect("accepted");
    assert_eq!((shape.size, shape.align, shape.floating), (24, 8, false));
    assert_eq!(room[3], Piece::new(Kind::Quad, 9, 9, 9));
    assert_eq!(pieces(&members, &mut room[..2]), Err(Refusal::NoRoom));
    assert_eq!(record(&[Piece::new(Kind::Integer, 1, 0, 0)]), Err(Refusal::BadAlign));
    assert_eq!(record(&[]).map(|empty| (empty.size, empty.align)), Ok((0, 1)));
}

#[test]
fn lookups_of_unknown_codes_answer_none() {
    let here = Target::new(Architecture::X86_64, System::Other);
    assert_eq!(here.abi(), Some(SYSV));
    assert_eq!(here.asked(b"ms_abi"), Some(Convention::Ms));
    assert_eq!(here.asked(b""), None);
    assert_eq!(here.abi_of(Convention::Unnamed(7)), None);
    assert_eq!(Target::new(Architecture::Unnamed(5), System::Other).abi(), None);
    assert_eq!(Target::new(Architecture::X86_64, System::Unnamed(4)).abi(), None);
    assert_eq!(Convention::Target.attribute(&mut []), Ok(None));
    assert_eq!(Convention::Unnamed(512).attribute(&mut []), Ok(None));
    assert_eq!(Convention::Ms.attribute(&mut [0; 5]), Err(Refusal::NoRoom));
}

// ---- the stack

/// Where on the stack an outcome's value stands, and how many bytes it has there.
fn bytes(outcome: &Outcome<'_>) -> Option<[u64; 2]> {
    outcome.stacked.map(|stacked| [stacked.offset, stacked.length])
}

#[derive(Debug, Clone, Copy)]
enum Operation {
    Return,
    Argument,
    VariadicArgument,
}

use Operation::{Argument, Return, VariadicArgument};

/// An operation by value and lent, which say the same of the stack: the bytes, and the next offset.
fn stands(
    operation: Operation,
    call: Call,
    value: Value<'_>,
) -> Result<(Option<[u64; 2]>, u64), Refusal> {
    let (mut by_value, mut lent) = ([9; 24], [9; 24]);
    let mut bridge = Bridge::from(call);
    let (passed, outcome) = match operation {
        Return => (call.returns(value, &mut by_value), bridge.returns(value, &mut lent)),
        Argument => (call.argument(value, &mut by_value), bridge.argument(value, &mut lent)),
        VariadicArgument => (
            call.variadic_argument(value, &mut by_value),
            bridge.variadic_argument(value, &mut lent),
        ),
    };
    let by_value_stands = passed.map(|passed| (bytes(&passed.outcome), passed.next.stack()));
    let lent_stands = outcome.map(|outcome| bytes(&outcome));
    assert_eq!(lent_stands, by_value_stands.map(|(bytes, _)| bytes), "{operation:?} on {call:?}");
    let stack = by_value_stands.map_or(call.stack(), |(_, next)| next);
    assert_eq!(bridge.call().stack(), stack, "{operation:?} on {call:?}");
    if by_value_stands.is_err() {
        assert_eq!((bridge.call(), by_value, lent), (call, [9; 24], [9; 24]));
    }
    by_value_stands
}

#[test]
fn where_the_rest_of_a_value_stands() {
    let x87 = |size, align| Value::Scalar(Scalar::new(Kind::X87Extended, size, align));
    let float = |size, align| Value::Scalar(Scalar::new(Kind::Double, size, align));
    let integer = |size| Value::Scalar(Scalar::integer(size));
    let quad = Scalar::float(Kind::Quad).expect("a format").into();
    let singles: Vec<Piece> = (0..5).map(|at| Piece::new(Kind::Single, 4, 4, 4 * at)).collect();
    let five = Aggregate::new(20, 4, &singles).into();
    let three = Aggregate::new(12, 4, &singles[..3]).into();
    let plain = |size, align| Value::Aggregate(Aggregate::new(size, align, &[]));
    // The row, the integers and floats left, the mark and the offset; what is asked; the bytes, and
    // the next offset.
    let cases = [
        ((0, 1, 8, false, 8), Argument, x87(16, 16), Some([16, 16]), 32),
        ((0, 1, 8, false, 8), Argument, x87(12, 4), Some([8, 16]), 24),
        ((0, 1, 8, false, 0), Argument, five, Some([0, 24]), 24),
        ((0, 0, 8, false, 0), Return, plain(24, 8), Some([0, 8]), 8),
        ((0, 6, 8, false, 3), Argument, integer(8), None, 3),
        ((0, 0, 8, false, 3), Argument, integer(8), Some([8, 8]), 16),
        ((0, 0, 8, false, 3), Argument, integer(0), None, 3),
        ((1, 0, 8, false, 0), Return, plain(24, 8), None, 0),
        ((1, 1, 8, false, 8), Argument, integer(16), Some([16, 16]), 32),
        ((2, 0, 0, false, 1), Argument, integer(2), Some([2, 2]), 4),
        ((2, 0, 0, false, 4), Argument, three, Some([4, 12]), 16),
        ((2, 0, 0, false, 4), VariadicArgument, three, Some([8, 16]), 24),
        ((2, 8, 8, false, 0), VariadicArgument, plain(24, 8), Some([0, 8]), 8),
        ((2, 1, 0, false, 8), Argument, float(24, 8), Some([24, 16]), 40),
        ((3, 1, 8, true, 8), Argument, quad, Some([16, 8]), 24),
        ((4, 0, 0, false, 0), Argument, plain(8, 8), Some([0, 8]), 8),
        ((4, 0, 0, false, 0), Argument, plain(12, 4), Some([0, 8]), 8),
        ((5, 1, 8, false, 8), Argument, integer(16), Some([16, 8]), 24),
        ((6, 0, 0, false, 0), Return, plain(12, 4), Some([0, 4]), 4),
        ((9, 2, 0, false, 0), Argument, x87(12, 4), Some([0, 4]), 4),
        ((22, 2, 0, false, 0), Argument, plain(6, 4), Some([0, 8]), 8),
    ];
    for ((row, integer, float, mark, stack), operation, value, bytes, next) in cases {
        let call = Call::from_parts(Abi(row), integer, float, mark, stack);
        let stands = stands(operation, call, value);
        assert_eq!(stands, Ok((bytes, next)), "{operation:?} {value:?} on {call:?}");
    }
}

/// An offset at the limit is a call's, and one above it isn't, whatever is asked, void, the mark and
/// `in_memory` among it.
#[test]
fn offsets_at_the_limit_and_past_it() {
    const LIMIT: u64 = limits::MOST_STACK;
    let wrong = Scalar::new(Kind::Unnamed(5), 65, 4_097).into();
    let plain = Aggregate::new(8, 8, &[]);
    for abi in (0..Abi::COUNT).map(Abi) {
        let whole = Call::fresh(abi).expect("a description");
        let (integer, float) = (whole.integer_left(), whole.float_left());
        let at = |stack| Call::from_parts(abi, integer, float, false, stack);
        for operation in [Return, Argument, VariadicArgument] {
            assert_eq!(stands(operation, at(LIMIT), Value::Void), Ok((None, LIMIT)));
            assert_eq!(stands(operation, at(LIMIT), wrong), Err(Refusal::BadKind));
            for stack in [LIMIT + 1, u64::MAX] {
                for value in [Value::Void, Scalar::integer(8).into(), plain.into(), wrong] {
                    assert_eq!(stands(operation, at(stack), value), Err(Refusal::BadCall));
                }
            }
        }
        assert_eq!(at(LIMIT).variadic().map(Call::stack), Ok(LIMIT));
        assert_eq!(at(LIMIT).in_memory(plain), Ok(8));
        for stack in [LIMIT + 1, u64::MAX] {
            assert_eq!(at(stack).variadic(), Err(Refusal::BadCall));
            assert_eq!(Bridge::from(at(stack)).variadic(), Err(Refusal::BadCall));
            assert_eq!(at(stack).in_memory(plain), Err(Refusal::BadCall));
        }
    }
}

/// What would end past the limit has no room, and nothing is written, though its slots would fit.
#[test]
fn the_end_of_the_stack() {
    const LIMIT: u64 = limits::MOST_STACK;
    let byte = Value::Scalar(Scalar::integer(1));
    let darwin = Call::from_parts(Abi::DARWIN_ARM64, 0, 0, false, LIMIT - 1);
    assert_eq!(stands(Argument, darwin, byte), Ok((Some([LIMIT - 1, 1]), LIMIT)));
    assert_eq!(stands(VariadicArgument, darwin, byte), Err(Refusal::NoRoom));
    let sysv = Call::from_parts(SYSV, 0, 0, false, LIMIT - 1);
    assert_eq!(stands(Argument, sysv, byte), Err(Refusal::NoRoom));
    let last = Call::from_parts(SYSV, 0, 0, false, LIMIT - 8);
    assert_eq!(stands(Argument, last, byte), Ok((Some([LIMIT - 8, 8]), LIMIT)));
    let windows = Call::from_parts(Abi::WINDOWS_X64, 0, 0, false, LIMIT);
    let plain = Aggregate::new(8, 8, &[]).into();
    assert_eq!(stands(Argument, windows, plain), Err(Refusal::NoRoom));
    let windows = Call::from_parts(Abi::WINDOWS_X64, 0, 0, false, LIMIT - 8);
    assert_eq!(stands(Argument, windows, plain), Ok((Some([LIMIT - 8, 8]), LIMIT)));
}

// ---- pieces that end past their aggregate

/// Each operation about an aggregate, by value and lent, and `in_memory`: all refuse it so, or none
/// does. A refusal leaves the call and the buffer as they were. Aggregates that are accepted are
/// aligned to 8, so that `in_memory` answers their own alignment on Darwin, too.
fn ask(place: &str, call: Call, shape: Aggregate<'_>, expected: Option<Refusal>) {
    for operation in 0..3 {
        let (mut by_value, mut lent) = ([9; 26], [9; 26]);
        let mut bridge = Bridge::from(call);
        let (passed, outcome) = match operation {
            0 => (call.returns(shape, &mut by_value), bridge.returns(shape, &mut lent)),
            1 => (call.argument(shape, &mut by_value), bridge.argument(shape, &mut lent)),
            _ => (
                call.variadic_argument(shape, &mut by_value),
                bridge.variadic_argument(shape, &mut lent),
            ),
        };
        let refusals = (passed.err(), outcome.err());
        assert_eq!(refusals, (expected, expected), "{place}, operation {operation} of {call:?}");
        if expected.is_some() {
            assert_eq!((bridge.call(), by_value, lent), (call, [9; 26], [9; 26]), "{place}");
        }
    }
    let told = expected.map_or(Ok(shape.align), Err);
    assert_eq!(call.in_memory(shape), told, "{place}, in_memory of {call:?}");
}

/// The same on every row: on a whole call, and on one that has no registers left, an odd offset, and
/// the mark where the row has it.
fn ask_everywhere(place: &str, shape: Aggregate<'_>, expected: Option<Refusal>) {
    for abi in (0..Abi::COUNT).map(Abi) {
        ask(place, Call::fresh(abi).expect("a description"), shape, expected);
        let marked = abi == Abi::WINDOWS_ARM64;
        ask(place, Call::from_parts(abi, 0, 0, marked, 3), shape, expected);
    }
}

/// What an aggregate is refused for, if a piece is past it and nothing else is wrong.
fn extent(past: bool) -> Option<Refusal> {
    past.then_some(Refusal::BadExtent)
}

#[test]
fn a_piece_may_end_at_its_aggregates_size_and_not_past_it() {
    const LIMIT: u64 = limits::LARGEST_SHAPE;
    // The aggregate's size, the piece's size and offset, and whether that is past. A size of 0
    // counts as 0.
    let cases = [
        (8, 8, 0, false),
        (8, 8, 1, true),
        (8, 1, 8, true),
        (8, 64, 7, true),
        (64, 64, 0, false),
        (63, 64, 0, true),
        (1, 64, 0, true),
        (8, 0, 8, false),
        (8, 0, 9, true),
        (0, 0, 0, false),
        (0, 0, 1, true),
        (0, 1, 0, true),
        (LIMIT, 0, LIMIT, false),
        (LIMIT, 1, LIMIT, true),
        (LIMIT, 64, LIMIT, true),
        (LIMIT, 64, LIMIT - 64, false),
        (LIMIT, 64, LIMIT - 63, true),
        (LIMIT - 1, 0, LIMIT, true),
    ];
    for (size, piece_size, offset, past) in cases {
        for kind in (0..5).map(Kind::from_number) {
            let piece = [Piece::new(kind, piece_size, 1, offset)];
            let place = format!("{piece:?} in {size}");
            let mut shape = Aggregate::new(size, 8, &piece);
            ask_everywhere(&place, shape, extent(past));
            (shape.complex, shape.floating) = (true, true);
            ask_everywhere(&place, shape, extent(past));
        }
    }
}

/// Its end is a byte further on than the sum says (REFERENCE 4.1), so no eightbyte has it.
#[test]
fn a_piece_without_bytes_at_the_end_goes_to_memory() {
    let call = Call::fresh(SYSV).expect("a description");
    let nothing = [Piece::new(Kind::Integer, 0, 1, 8)];
    let shape = Aggregate::new(8, 8, &nothing);
    let way = |passed: Result<Passed<'_>, Refusal>| passed.map(|passed| passed.outcome.way);
    assert_eq!(way(call.argument(shape, &mut [])), Ok(Way::Memory));
    assert_eq!(way(call.variadic_argument(shape, &mut [])), Ok(Way::Memory));
    assert_eq!(way(call.returns(shape, &mut [])), Ok(Way::Reference));
}

#[test]
fn one_piece_past_is_enough() {
    for count in [1, 3, limits::MOST_PIECES] {
        let mut pieces = vec![Piece::new(Kind::Double, 8, 8, 16); count];
        ask_everywhere("all inside", Aggregate::new(24, 8, &pieces), None);
        for at in [0, count / 2, count - 1] {
            let place = format!("piece {at} of {count}");
            let inside = mem::replace(&mut pieces[at], Piece::new(Kind::Double, 8, 8, 17));
            ask_everywhere(&place, Aggregate::new(25, 8, &pieces), None);
            ask_everywhere(&place, Aggregate::new(24, 8, &pieces), Some(Refusal::BadExtent));
            pieces[at] = inside;
        }
    }
}

#[test]
fn what_is_wrong_with_the_call_goes_before_a_piece_past() {
    let piece = [Piece::new(Kind::Integer, 8, 8, 1)];
    let past = Aggregate::new(8, 8, &piece);
    for abi in (0..Abi::COUNT).map(Abi) {
        let whole = Call::fresh(abi).expect("a description");
        let (integer, float) = (whole.integer_left(), whole.float_left());
        let mut wrong = vec![
            Call::from_parts(abi, integer + 1, float, false, 0),
            Call::from_parts(abi, integer, float + 1, false, 0),
            Call::from_parts(abi, integer, float, false, limits::MOST_STACK + 1),
            Call::from_parts(abi, integer, float, false, u64::MAX),
        ];
        if abi != Abi::WINDOWS_ARM64 {
            wrong.push(Call::from_parts(abi, integer, float, true, 0));
        }
        for call in wrong {
            ask("a call that can't be", call, past, Some(Refusal::BadCall));
        }
    }
    for number in [Abi::COUNT, 256, u64::MAX] {
        let call = Call::from_parts(Abi(number), 0, 0, false, u64::MAX);
        ask("no description", call, past, Some(Refusal::BadAbi));
    }
}

#[test]
fn what_is_wrong_with_the_aggregate_goes_before_a_piece_past() {
    // It is past the first size that is refused, too.
    let past = [Piece::new(Kind::Integer, 64, 8, limits::LARGEST_OFFSET)];
    let too_large = Aggregate::new(limits::LARGEST_SHAPE + 1, 8, &past);
    ask_everywhere("the aggregate's size", too_large, Some(Refusal::BadSize));
    let too_aligned = Aggregate::new(8, limits::LARGEST_ALIGN + 1, &past);
    ask_everywhere("the aggregate's alignment", too_aligned, Some(Refusal::BadAlign));
    let mut too_many = [Piece::default(); limits::MOST_PIECES + 1];
    for at in [0, limits::MOST_PIECES] {
        let inside = mem::replace(&mut too_many[at], past[0]);
        ask_everywhere("the list", Aggregate::new(8, 8, &too_many), Some(Refusal::BadList));
        too_many[at] = inside;
    }
}

#[test]
fn what_is_wrong_with_any_piece_goes_before_a_piece_past() {
    let past = Piece::new(Kind::Integer, 8, 8, 93);
    // Two would end inside, if their sums might wrap.
    let wrong = [
        (Piece::new(Kind::Unnamed(5), 8, 8, 0), Refusal::BadKind),
        (Piece::new(Kind::Integer, limits::LARGEST_SCALAR + 1, 8, 0), Refusal::BadSize),
        (Piece::new(Kind::Integer, u64::MAX - 7, 8, 8), Refusal::BadSize),
        (Piece::new(Kind::Integer, 8, 8, limits::LARGEST_OFFSET + 1), Refusal::BadSize),
        (Piece::new(Kind::Integer, 8, 8, u64::MAX - 7), Refusal::BadSize),
        (Piece::new(Kind::Integer, 8, limits::LARGEST_ALIGN + 1, 0), Refusal::BadAlign),
    ];
    for (piece, refusal) in wrong {
        for pieces in [[past, piece], [piece, past]] {
            let place = format!("{pieces:?}");
            ask_everywhere(&place, Aggregate::new(100, 8, &pieces), Some(refusal));
            ask_everywhere(&place, Aggregate::new(0, 8, &pieces), Some(refusal));
        }
    }
}

#[test]
fn a_piece_past_goes_before_the_room() {
    let call = Call::fresh(SYSV).expect("a description");
    let two = [Piece::new(Kind::Integer, 8, 8, 0), Piece::new(Kind::Double, 8, 8, 8)];
    for (size, refusal) in [(16, Refusal::NoRoom), (15, Refusal::BadExtent)] {
        let shape = Aggregate::new(size, 8, &two);
        for length in 0..6 {
            let mut slots = [9; 6];
            let room = &mut slots[..length];
            let mut bridge = Bridge::from(call);
            assert_eq!(call.returns(shape, room).err(), Some(refusal));
            assert_eq!(call.argument(shape, room).err(), Some(refusal));
            assert_eq!(call.variadic_argument(shape, room).err(), Some(refusal));
            assert_eq!(bridge.returns(shape, room).err(), Some(refusal));
            assert_eq!(bridge.argument(shape, room).err(), Some(refusal));
            assert_eq!(bridge.variadic_argument(shape, room).err(), Some(refusal));
            assert_eq!((bridge.call(), slots), (call, [9; 6]));
        }
    }
}

/// Its size is what its pieces make, so that none is past it.
#[test]
fn no_piece_is_past_its_record() {
    let late = [Piece::new(Kind::Integer, 8, 8, 0), Piece::new(Kind::Double, 8, 8, 17)];
    ask_everywhere("in 24", Aggregate::new(24, 8, &late), Some(Refusal::BadExtent));
    let shape = record(&late).expect("accepted");
    assert_eq!((shape.size, shape.align), (32, 8));
    ask_everywhere("in its record", shape, None);
    let nothing = [Piece::new(Kind::Integer, 0, 1, 8)];
    ask_everywhere("in 7", Aggregate::new(7, 8, &nothing), Some(Refusal::BadExtent));
    assert_eq!(record(&nothing).map(|shape| (shape.size, shape.align)), Ok((9, 1)));
}
