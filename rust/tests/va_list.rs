//! Variable argument lists by themselves: where each scalar is found, and what is refused.

use barkpaddle::{
    Abi, Aggregate, Call, Kind, Offsets, Piece, Refusal, Room, Scalar, VaList, limits,
};

const SYSV: Abi = Abi::SYSV_AMD64;

const SINGLE: Scalar = Scalar::new(Kind::Single, 4, 4);
const DOUBLE: Scalar = Scalar::new(Kind::Double, 8, 8);
const X87: Scalar = Scalar::new(Kind::X87Extended, 16, 16);
const QUAD: Scalar = Scalar::new(Kind::Quad, 16, 16);

/// Each scalar that a list can have.
const SCALARS: [Scalar; 9] = [
    Scalar::integer(1),
    Scalar::integer(2),
    Scalar::integer(4),
    Scalar::integer(8),
    Scalar::integer(16),
    SINGLE,
    DOUBLE,
    X87,
    QUAD,
];

/// Nothing read, nothing named.
const START: Offsets = at(0, 48, 0);

/// No register left.
const ALL_SPENT: Offsets = at(48, 176, 0);

const fn at(integer: u64, float: u64, overflow: u64) -> Offsets {
    Offsets { integer, float, overflow }
}

/// Both areas, no two bytes of which are the same: what was read says where it stood.
struct Areas {
    save: [u8; VaList::SAVE_BYTES],
    overflow: [u8; 80],
}

impl Areas {
    fn new() -> Self {
        let save = std::array::from_fn(|at| at as u8);
        let overflow = std::array::from_fn(|at| (VaList::SAVE_BYTES + at) as u8);
        Self { save, overflow }
    }

    fn list(&self, offsets: Offsets) -> VaList<'_> {
        VaList::new(&self.save, &self.overflow, offsets)
    }
}

/// An area by name, and the first byte of a part of it.
#[derive(Debug, Clone, Copy, PartialEq, Eq)]
enum Place {
    Save(u64),
    Overflow(u64),
}

use Place::{Overflow, Save};

/// Where the bytes of a part stand, in order.
fn place(part: &[u8]) -> Place {
    let numbers: Vec<u64> = part.iter().map(|byte| u64::from(*byte)).collect();
    assert!(numbers.windows(2).all(|pair| pair[1] == pair[0] + 1), "{part:?}");
    match numbers[0].checked_sub(VaList::SAVE_BYTES as u64) {
        None => Save(numbers[0]),
        Some(start) => Overflow(start),
    }
}

/// Reads a scalar, which is found, and has its size.
fn read(list: &mut VaList<'_>, scalar: Scalar) -> Place {
    let part = list.next(scalar).expect("it is there");
    assert_eq!(part.len() as u64, scalar.size(), "{scalar:?}");
    place(part)
}

/// The refusal of a scalar, which leaves the offsets.
fn refused(list: &mut VaList<'_>, scalar: Scalar) -> Refusal {
    let kept = list.offsets();
    let refusal = list.next(scalar).expect_err("refused");
    assert_eq!(list.offsets(), kept, "{scalar:?}");
    refusal
}

// ---- where a scalar is

#[test]
fn every_scalar_at_the_start() {
    let areas = Areas::new();
    for scalar in SCALARS {
        let mut list = areas.list(START);
        let found = read(&mut list, scalar);
        let expected = match (scalar.kind(), scalar.size()) {
            (Kind::Integer, 16) => (Save(0), at(16, 48, 0)),
            (Kind::Integer, _) => (Save(0), at(8, 48, 0)),
            (Kind::X87Extended, _) => (Overflow(0), at(0, 48, 16)),
            _ => (Save(48), at(0, 64, 0)),
        };
        assert_eq!((found, list.offsets()), expected, "{scalar:?}");
    }
}

#[test]
fn every_scalar_without_a_register_left() {
    let areas = Areas::new();
    for scalar in SCALARS {
        let mut list = areas.list(ALL_SPENT);
        assert_eq!(read(&mut list, scalar), Overflow(0));
        let next = if scalar.size() == 16 { 16 } else { 8 };
        assert_eq!(list.offsets(), at(48, 176, next), "{scalar:?}");
    }
}

#[test]
fn nine_doubles() {
    let areas = Areas::new();
    let mut list = areas.list(START);
    for number in 0..8 {
        assert_eq!(read(&mut list, DOUBLE), Save(48 + 16 * number));
        assert_eq!(list.offsets(), at(0, 64 + 16 * number, 0));
    }
    assert_eq!(read(&mut list, DOUBLE), Overflow(0));
    assert_eq!(list.offsets(), at(0, 176, 8));
}

#[test]
fn six_integers_then_16_and_8() {
    let areas = Areas::new();
    let mut list = areas.list(START);
    for number in 0..6 {
        assert_eq!(read(&mut list, Scalar::integer(8)), Save(8 * number));
    }
    assert_eq!(read(&mut list, Scalar::integer(16)), Overflow(0));
    assert_eq!(read(&mut list, Scalar::integer(8)), Overflow(16));
    assert_eq!(list.offsets(), at(48, 48, 24));
}

#[test]
fn one_place_is_too_few_for_16_and_stays() {
    let areas = Areas::new();
    let mut list = areas.list(at(40, 48, 0));
    assert_eq!(read(&mut list, Scalar::integer(16)), Overflow(0));
    assert_eq!(list.offsets(), at(40, 48, 16));
    assert_eq!(read(&mut list, Scalar::integer(8)), Save(40));
    assert_eq!(list.offsets(), at(48, 48, 16));
    // Two places are enough.
    let mut list = areas.list(at(32, 48, 0));
    assert_eq!(read(&mut list, Scalar::integer(16)), Save(32));
    assert_eq!(list.offsets(), at(48, 48, 0));
}

#[test]
fn a_hole_before_a_quad() {
    let areas = Areas::new();
    let mut list = areas.list(ALL_SPENT);
    assert_eq!(read(&mut list, Scalar::integer(8)), Overflow(0));
    assert_eq!(read(&mut list, QUAD), Overflow(16));
    assert_eq!(list.offsets(), at(48, 176, 32));
}

#[test]
fn x87_first() {
    let areas = Areas::new();
    let mut list = areas.list(START);
    assert_eq!(read(&mut list, X87), Overflow(0));
    assert_eq!(read(&mut list, Scalar::integer(4)), Save(0));
    assert_eq!(read(&mut list, SINGLE), Save(48));
    assert_eq!(list.offsets(), at(8, 64, 16));
}

#[test]
fn stack_offsets_that_named_parameters_leave() {
    let areas = Areas::new();
    for (start, rounded) in [(8, 16), (24, 32), (16, 16), (0, 0)] {
        for scalar in SCALARS {
            let mut list = areas.list(at(48, 176, start));
            let wide = scalar.align() > 8;
            let found = if wide { rounded } else { start };
            assert_eq!(read(&mut list, scalar), Overflow(found), "{scalar:?}");
            let next = if wide { rounded + 16 } else { start + 8 };
            assert_eq!(list.offsets(), at(48, 176, next), "{scalar:?}");
        }
    }
}

/// An offset that 8 doesn't divide is taken as it is, but for what is aligned to 16.
#[test]
fn stack_offsets_that_no_caller_leaves() {
    let areas = Areas::new();
    for (start, rounded) in [(4, 16), (1, 16), (17, 32)] {
        let mut list = areas.list(at(48, 176, start));
        assert_eq!(read(&mut list, Scalar::integer(4)), Overflow(start));
        assert_eq!(list.offsets(), at(48, 176, start + 8));
        let mut list = areas.list(at(48, 176, start));
        assert_eq!(read(&mut list, X87), Overflow(rounded));
        assert_eq!(list.offsets(), at(48, 176, rounded + 16));
    }
}

#[test]
fn a_part_can_be_kept_while_the_list_goes_on() {
    let areas = Areas::new();
    let parts = {
        let mut list = areas.list(START);
        [X87, Scalar::integer(2), QUAD].map(|scalar| list.next(scalar).expect("it is there"))
    };
    assert_eq!(parts.map(place), [Overflow(0), Save(0), Save(48)]);
    // Another list over the same areas reads the same.
    assert_eq!(areas.list(START).next(X87), Ok(parts[0]));
}

#[test]
fn nothing_lent_is_written() {
    let areas = Areas::new();
    let mut list = areas.list(START);
    for scalar in SCALARS.iter().cycle().take(40) {
        let _ = list.next(*scalar);
    }
    let fresh = Areas::new();
    assert_eq!((areas.save, areas.overflow), (fresh.save, fresh.overflow));
}

// ---- what is refused

/// The kind's number, the size and the alignment of a scalar that is refused at the start.
fn refused_at_the_start(kind: u64, size: u64, align: u64) -> Refusal {
    let areas = Areas::new();
    refused(&mut areas.list(START), Scalar::new(Kind::from_number(kind), size, align))
}

#[test]
fn kinds_without_a_name() {
    for kind in [5, 6, 255, 256, 1 << 32, u64::MAX] {
        for size in [0, 1, 2, 4, 8, 16, 65] {
            assert_eq!(refused_at_the_start(kind, size, size), Refusal::BadKind, "{kind}");
        }
    }
}

/// Every size from 0 to past the limit, and some that would be small ones in fewer bits: each kind
/// accepts its own alone.
#[test]
fn sizes_that_a_kind_has_not() {
    let far = [(1 << 32) + 4, (1 << 32) + 8, (1 << 32) + 16, 1 << 63, u64::MAX];
    let own: [&[u64]; 5] = [&[1, 2, 4, 8, 16], &[4], &[8], &[16], &[16]];
    let areas = Areas::new();
    for (kind, own) in (0..).zip(own) {
        for size in (0..=limits::LARGEST_SCALAR + 1).chain(far) {
            let scalar = Scalar::new(Kind::from_number(kind), size, size);
            let mut list = areas.list(START);
            if own.contains(&size) {
                read(&mut list, scalar);
            } else {
                assert_eq!(refused(&mut list, scalar), Refusal::BadSize, "{scalar:?}");
            }
        }
    }
}

#[test]
fn sizes_to_try() {
    for size in [0, 3, 17, 64, 65] {
        for kind in 0..5 {
            assert_eq!(refused_at_the_start(kind, size, size), Refusal::BadSize, "{kind} {size}");
        }
    }
    assert_eq!(refused_at_the_start(3, 12, 12), Refusal::BadSize);
    assert_eq!(refused_at_the_start(3, 12, 4), Refusal::BadSize);
    assert_eq!(refused_at_the_start(1, 8, 8), Refusal::BadSize);
}

#[test]
fn alignments_that_are_not_the_size() {
    let areas = Areas::new();
    for scalar in SCALARS {
        let size = scalar.size();
        let wrong = [0, 1, 2, 4, 8, 16, 32, 4_096, 4_097, (1 << 32) + size, u64::MAX];
        for align in wrong.into_iter().filter(|align| *align != size) {
            let scalar = Scalar::new(scalar.kind(), size, align);
            assert_eq!(refused(&mut areas.list(START), scalar), Refusal::BadAlign, "{scalar:?}");
        }
    }
}

/// Each scalar of these areas and offsets is BAD_AREA, from whichever area it would come.
fn no_area(save: &[u8], overflow: &[u8], offsets: Offsets) {
    for scalar in SCALARS {
        let mut list = VaList::new(save, overflow, offsets);
        assert_eq!(refused(&mut list, scalar), Refusal::BadArea, "{scalar:?} at {offsets:?}");
    }
}

#[test]
fn save_areas_of_another_length() {
    let bytes = [0; 512];
    for length in [0, 1, 48, 175, 177, 304, 512] {
        for offsets in [START, ALL_SPENT] {
            no_area(&bytes[..length], &bytes, offsets);
        }
    }
    for scalar in SCALARS {
        assert!(VaList::new(&bytes[..176], &bytes, START).next(scalar).is_ok());
    }
}

#[test]
fn no_areas_at_all() {
    no_area(&[], &[], START);
    no_area(&[], &[], ALL_SPENT);
    no_area(&[], &[], at(0, 0, 0));
}

#[test]
fn integer_offsets_that_are_no_place() {
    let areas = Areas::new();
    let far = [(1 << 32) + 8, 1 << 63, u64::MAX - 7, u64::MAX];
    for offset in (0..=200).chain(far) {
        if offset % 8 == 0 && offset <= 48 {
            let mut list = areas.list(at(offset, 48, 0));
            assert_eq!(read(&mut list, DOUBLE), Save(48));
            let found = read(&mut list, Scalar::integer(8));
            assert_eq!(found, if offset == 48 { Overflow(0) } else { Save(offset) });
        } else {
            no_area(&areas.save, &areas.overflow, at(offset, 48, 0));
        }
    }
}

#[test]
fn float_offsets_that_are_no_place() {
    let areas = Areas::new();
    let far = [304, (1 << 32) + 48, (1 << 32) + 64, 1 << 63, u64::MAX - 15, u64::MAX];
    for offset in (0..=200).chain(far) {
        if offset % 16 == 0 && (48..=176).contains(&offset) {
            let mut list = areas.list(at(0, offset, 0));
            assert_eq!(read(&mut list, Scalar::integer(8)), Save(0));
            let found = read(&mut list, DOUBLE);
            assert_eq!(found, if offset == 176 { Overflow(0) } else { Save(offset) });
        } else {
            no_area(&areas.save, &areas.overflow, at(0, offset, 0));
        }
    }
}

/// A scalar is there where the area has its last byte, and not where it ends one before.
#[test]
fn an_area_that_ends_too_early() {
    let areas = Areas::new();
    for scalar in SCALARS {
        for offset in [0, 4, 8, 24, 40] {
            let offsets = at(48, 176, offset);
            let start = if scalar.align() > 8 { offset.next_multiple_of(16) } else { offset };
            let end = (start + scalar.size()) as usize;
            let mut list = VaList::new(&areas.save, &areas.overflow[..end], offsets);
            assert_eq!(read(&mut list, scalar), Overflow(start), "{scalar:?}");
            let grown = scalar.size().next_multiple_of(8);
            assert_eq!(list.offsets(), at(48, 176, start + grown), "{scalar:?}");
            for length in 0..end {
                no_area_for(scalar, &areas.overflow[..length], offsets);
            }
        }
    }
}

/// This scalar, which the overflow area would hold, is BAD_AREA.
fn no_area_for(scalar: Scalar, overflow: &[u8], offsets: Offsets) {
    let mut list = VaList::new(&[0; VaList::SAVE_BYTES], overflow, offsets);
    assert_eq!(refused(&mut list, scalar), Refusal::BadArea, "{scalar:?} at {offsets:?}");
}

#[test]
fn overflow_offsets_behind_the_area() {
    let areas = Areas::new();
    let length = areas.overflow.len() as u64;
    let far = [1 << 32, 1 << 63, u64::MAX - 16, u64::MAX - 15, u64::MAX - 14, u64::MAX - 7];
    for offset in [length, length + 1, u64::MAX].into_iter().chain(far) {
        for scalar in SCALARS {
            no_area_for(scalar, &areas.overflow, at(48, 176, offset));
            no_area_for(scalar, &[], at(48, 176, offset));
            // Only what comes from there is refused for it.
            let mut list = areas.list(at(0, 48, offset));
            if scalar == X87 {
                assert_eq!(refused(&mut list, scalar), Refusal::BadArea);
            } else {
                assert!(matches!(read(&mut list, scalar), Save(0 | 48)));
                assert_eq!(list.offsets().overflow, offset);
            }
        }
    }
    // The last bytes are still there.
    let mut list = areas.list(at(48, 176, length - 1));
    assert_eq!(read(&mut list, Scalar::integer(1)), Overflow(length - 1));
    assert_eq!(list.offsets(), at(48, 176, length + 7));
    assert_eq!(read(&mut areas.list(at(48, 176, length - 16)), QUAD), Overflow(length - 16));
    no_area_for(QUAD, &areas.overflow, at(48, 176, length - 15));
}

/// A read of an x87 value, which is in the overflow area, so that every refusal can apply.
#[derive(Clone, Copy)]
struct Asked {
    kind: u64,
    size: u64,
    align: u64,
    save: usize,
    overflow: usize,
    offsets: Offsets,
}

impl Asked {
    const GOOD: Self =
        Self { kind: 3, size: 16, align: 16, save: 176, overflow: 16, offsets: START };

    fn ask(self) -> Result<usize, Refusal> {
        let bytes = [0; 512];
        let mut list = VaList::new(&bytes[..self.save], &bytes[..self.overflow], self.offsets);
        let scalar = Scalar::new(Kind::from_number(self.kind), self.size, self.align);
        let found = list.next(scalar).map(<[u8]>::len);
        assert_eq!(list.offsets() == self.offsets, found.is_err());
        found
    }
}

/// A way to be wrong, and what it is refused for.
type Wrong = (Refusal, fn(&mut Asked));

/// Each thing that can be wrong, in the order in which it is looked at.
const WRONG: [Wrong; 9] = [
    (Refusal::BadKind, |asked| asked.kind = 5),
    (Refusal::BadSize, |asked| asked.size = 12),
    (Refusal::BadSize, |asked| asked.size = 65),
    (Refusal::BadAlign, |asked| asked.align = 8),
    (Refusal::BadAlign, |asked| asked.align = 4_097),
    (Refusal::BadArea, |asked| asked.save = 175),
    (Refusal::BadArea, |asked| asked.offsets.integer = 4),
    (Refusal::BadArea, |asked| asked.offsets.float = 56),
    (Refusal::BadArea, |asked| asked.overflow = 15),
];

#[test]
fn the_first_of_two_things_wrong_is_told() {
    assert_eq!(Asked::GOOD.ask(), Ok(16));
    for (at, (first, spoil)) in WRONG.iter().enumerate() {
        let mut asked = Asked::GOOD;
        spoil(&mut asked);
        assert_eq!(asked.ask(), Err(*first), "{at}");
        for (behind, (_, spoil)) in WRONG.iter().enumerate().skip(at + 1) {
            let mut both = asked;
            spoil(&mut both);
            assert_eq!(both.ask(), Err(*first), "{at} and {behind}");
        }
    }
}

#[test]
fn a_list_goes_on_behind_a_refusal() {
    let areas = Areas::new();
    let mut list = VaList::new(&areas.save, &areas.overflow[..15], START);
    assert_eq!(refused(&mut list, X87), Refusal::BadArea);
    assert_eq!(refused(&mut list, Scalar::integer(3)), Refusal::BadSize);
    assert_eq!(read(&mut list, Scalar::integer(8)), Save(0));
    assert_eq!(refused(&mut list, X87), Refusal::BadArea);
    assert_eq!(read(&mut list, QUAD), Save(48));
    assert_eq!(list.offsets(), at(8, 64, 0));
}

// ---- from a caller

#[test]
fn offsets_of_every_call() {
    for integer in 0..=6 {
        for float in 0..=8 {
            for overflow in [0, 3, 8, 24, limits::MOST_STACK] {
                let call = Call::from_parts(SYSV, integer, float, false, overflow);
                let expected = at(8 * (6 - integer), 48 + 16 * (8 - float), overflow);
                assert_eq!(Offsets::after(call), Ok(expected));
            }
        }
    }
}

#[test]
fn calls_that_have_no_offsets() {
    for number in (1..Abi::COUNT + 2).chain([1 << 32, u64::MAX]) {
        for integer in [0, 6, 9] {
            let call = Call::from_parts(Abi(number), integer, 0, false, 0);
            assert_eq!(Offsets::after(call), Err(Refusal::BadAbi), "{number}");
        }
    }
    for (integer, float, mark, stack) in [
        (7, 8, false, 0),
        (6, 9, false, 0),
        (6, 8, true, 0),
        (u64::MAX, 0, false, 0),
        (0, u64::MAX, false, 0),
        (6, 8, false, limits::MOST_STACK + 1),
        (6, 8, false, u64::MAX),
    ] {
        let call = Call::from_parts(SYSV, integer, float, mark, stack);
        assert_eq!(Offsets::after(call), Err(Refusal::BadCall), "{call:?}");
    }
}

#[test]
fn offsets_after_named_parameters() {
    let mut room = Room::new();
    let mut call = Call::fresh(SYSV).expect("a description");
    let mut after = |step: &dyn Fn(Call, &mut Room) -> Call| {
        call = step(call, &mut room);
        Offsets::after(call)
    };
    // A large result: its address takes a register.
    let result = |call: Call, room: &mut Room| {
        call.returns(Aggregate::new(100, 8, &[]), room).expect("accepted").next
    };
    assert_eq!(after(&result), Ok(at(8, 48, 0)));
    let pieces = [Piece::new(Kind::Integer, 8, 8, 0), Piece::new(Kind::Double, 8, 8, 8)];
    let both = |call: Call, room: &mut Room| {
        call.argument(Aggregate::new(16, 8, &pieces), room).expect("accepted").next
    };
    assert_eq!(after(&both), Ok(at(16, 64, 0)));
    // Neither a value in memory nor a refused one takes any. The first is on the stack.
    let x87 = |call: Call, room: &mut Room| call.argument(X87, room).expect("accepted").next;
    assert_eq!(after(&x87), Ok(at(16, 64, 16)));
    let wrong = |call: Call, room: &mut Room| {
        assert_eq!(call.argument(Scalar::integer(65), room), Err(Refusal::BadSize));
        call
    };
    assert_eq!(after(&wrong), Ok(at(16, 64, 16)));
    // A record of three words is there, too, and an x87 value behind it at a multiple of 16.
    let triple = |call: Call, room: &mut Room| {
        call.argument(Aggregate::new(24, 8, &[]), room).expect("accepted").next
    };
    assert_eq!(after(&triple), Ok(at(16, 64, 40)));
    assert_eq!(after(&x87), Ok(at(16, 64, 64)));
}

/// The registers and the stack of a caller, which places values where the classifier says.
struct Machine {
    call: Call,
    integer: [[u8; 8]; 6],
    float: [[u8; 16]; 8],
    stack: Vec<u8>,
}

impl Machine {
    /// So many registers left, and so many bytes of the stack in use; each holds something.
    fn new(integer: u64, float: u64, stack: usize) -> Self {
        let call = Call::from_parts(SYSV, integer, float, false, stack as u64);
        Self { call, integer: [[0xaa; 8]; 6], float: [[0xbb; 16]; 8], stack: vec![0xcc; stack] }
    }

    fn place(&mut self, scalar: Scalar, value: &[u8]) {
        let passed = self.call.variadic_argument(scalar, &mut []).expect("accepted");
        let spent = passed.outcome.spent;
        if spent.integers_given > 0 {
            let first = 6 - self.call.integer_left() as usize;
            for (register, bytes) in self.integer[first..].iter_mut().zip(value.chunks(8)) {
                register[..bytes.len()].copy_from_slice(bytes);
            }
        } else if spent.floats_given > 0 {
            let register = &mut self.float[8 - self.call.float_left() as usize];
            register[..value.len()].copy_from_slice(value);
        } else {
            let stacked = passed.outcome.stacked.expect("it is in no register");
            self.stack.resize(stacked.offset as usize, 0xdd);
            self.stack.extend(value);
            self.stack.resize((stacked.offset + stacked.length) as usize, 0xee);
        }
        self.call = passed.next;
        assert_eq!(self.call.stack(), self.stack.len() as u64);
    }

    /// What the called function's first instructions store.
    fn save(&self) -> Vec<u8> {
        [self.integer.concat(), self.float.concat()].concat()
    }

    fn offsets(&self) -> Offsets {
        Offsets::after(self.call).expect("a call of this description")
    }
}

/// What is placed is read, whatever is left at the start, and after each scalar the offsets are those
/// of the call and the stack that the placing left there.
#[test]
fn what_a_caller_places_is_read() {
    for start in 0..7 * 9 * 4 * 8 {
        let (integer, float) = (start % 7, start / 7 % 9);
        let (stack, stride) = (8 * (start / 63 % 4), 1 + start / 252);
        let mut machine = Machine::new(integer, float, stack as usize);
        let first = machine.offsets();
        let mut placed = Vec::new();
        for number in 0..40 {
            // Strides of 3 and 6 go round three scalars alone, the others round all nine.
            let scalar = SCALARS[(number * stride as usize) % SCALARS.len()];
            let value = |at: u64| (number as u64 + 16 * at) as u8;
            let value: Vec<u8> = (0..scalar.size()).map(value).collect();
            machine.place(scalar, &value);
            placed.push((scalar, value, machine.offsets()));
        }
        let save = machine.save();
        let mut list = VaList::new(&save, &machine.stack, first);
        for (scalar, value, offsets) in &placed {
            assert_eq!(list.next(*scalar), Ok(&value[..]), "{scalar:?} of start {start}");
            assert_eq!(list.offsets(), *offsets, "{scalar:?} of start {start}");
        }
    }
}
