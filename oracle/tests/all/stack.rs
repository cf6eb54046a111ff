//! Where what isn't in registers stands (REFERENCE 9.9), worked out by hand. The reading is asked
//! itself, of a call with any registers left at any offset.

use oracle::spending::{self, Before, Outcome, Points, Spent, Way};
use oracle::stack::{self, MOST_STACK, Stack, Stacked};
use oracle::values::{Piece, Scalar, Shape, Value};

use crate::common;

/// A call without the mark: its row, and the integers and floats left.
fn left(row: usize, integers: u64, floats: u64) -> Before {
    Before { row, integers, floats, integers_only: false }
}

/// Place, length and next offset, or the refusal.
type Placed = Result<[u64; 3], u64>;

fn numbers(stacked: Result<Stacked, u64>) -> Placed {
    stacked.map(|Stacked { at, bytes, next }| [at, bytes, next])
}

fn returned(call: Before, offset: u64, value: &Value) -> Placed {
    let outcome = spending::returned(call, value, &mut Points::new());
    numbers(stack::returned(Stack { row: call.row, offset }, outcome, &mut Points::new()))
}

fn argument(call: Before, offset: u64, value: &Value) -> Placed {
    let outcome = spending::argument(call, value, &mut Points::new());
    given_so(call.row, offset, value, outcome)
}

fn after_dots(call: Before, offset: u64, value: &Value) -> Placed {
    let outcome = spending::variadic_argument(call, value, &mut Points::new());
    let stack = Stack { row: call.row, offset };
    numbers(stack::variadic_argument(stack, value, outcome, &mut Points::new()))
}

/// An argument that travels so, whether the rules would have it so or not.
fn given_so(row: usize, offset: u64, value: &Value, outcome: Outcome) -> Placed {
    numbers(stack::argument(Stack { row, offset }, value, outcome, &mut Points::new()))
}

/// How many integers an argument passes over, and how many it is given.
fn integers(call: Before, value: &Value) -> [u64; 2] {
    let Spent { passed_over, given } = spending::argument(call, value, &mut Points::new()).integers;
    [passed_over, given]
}

fn scalar(kind: u64, size: u64, align: u64) -> Value {
    Value::Scalar(Scalar { kind, size, align })
}

/// An integer aligned to its size.
fn integer(size: u64) -> Value {
    scalar(0, size, size)
}

const SINGLE: Value = Value::Scalar(Scalar { kind: 1, size: 4, align: 4 });
const DOUBLE: Value = Value::Scalar(Scalar { kind: 2, size: 8, align: 8 });
const QUAD: Value = Value::Scalar(Scalar { kind: 4, size: 16, align: 16 });

fn record(size: u64, align: u64, pieces: &[(Scalar, u64)]) -> Value {
    let piece = |&(scalar, offset): &(Scalar, u64)| Piece { scalar, offset };
    let pieces = pieces.iter().map(piece).collect();
    Value::Aggregate(Shape { size, align, complex: false, floating: false, pieces })
}

/// So many equal members, one after the other, in a record of this alignment.
fn members(count: u64, kind: u64, size: u64, align: u64) -> Value {
    let member = Scalar { kind, size, align: size };
    let pieces: Vec<(Scalar, u64)> = (0..count).map(|at| (member, at * size)).collect();
    record(count * size, align, &pieces)
}

fn singles(count: u64) -> Value {
    members(count, 1, 4, 4)
}

/// A record of this size that has no float in it.
fn bare(size: u64, align: u64) -> Value {
    record(size, align, &[])
}

// ---- the examples

#[test]
fn the_call_that_broke() {
    let one = left(0, 1, 8);
    assert_eq!(argument(one, 0, &members(2, 0, 8, 8)), Ok([0, 16, 16]));
    // An integer gets r9, and the next one stands behind the record.
    assert_eq!(integers(one, &integer(8)), [0, 1]);
    assert_eq!(argument(one, 16, &integer(8)), Ok([0, 0, 16]));
    assert_eq!(argument(left(0, 0, 8), 16, &integer(8)), Ok([16, 8, 24]));
}

#[test]
fn the_call_that_broke_on_a_sheet() {
    let int8: &[u64] = &[3, 1, 0, 8, 8];
    let piece = |offset| [5, 0, 8, 8, offset];
    let mut sheet: Vec<&[u64]> = vec![&[0, 0]];
    sheet.extend([int8; 5]);
    let pieces = [piece(0), piece(8)];
    sheet.extend([&[3, 2, 16, 8, 0, 2], &pieces[0][..], &pieces[1], int8, int8]);
    let expected =
        ["memory 1 8 0 0 0 0 0 16", "direct 0 8 0 1 0 0 16 16", "direct 0 8 0 0 0 0 16 24"];
    assert_eq!(common::lines(&sheet)[6..], expected);
}

#[test]
fn an_x87_value_of_16_and_one_of_12() {
    assert_eq!(argument(left(0, 6, 8), 8, &scalar(3, 16, 16)), Ok([16, 16, 32]));
    assert_eq!(argument(left(0, 6, 8), 8, &scalar(3, 12, 4)), Ok([8, 16, 24]));
}

#[test]
fn five_singles_and_a_single_without_a_register() {
    assert_eq!(argument(left(0, 6, 8), 0, &singles(5)), Ok([0, 24, 24]));
    assert_eq!(argument(left(0, 6, 0), 0, &SINGLE), Ok([0, 8, 8]));
}

#[test]
fn a_return_that_is_asked_late() {
    assert_eq!(returned(left(0, 0, 8), 0, &bare(24, 8)), Ok([0, 8, 8]));
    assert_eq!(returned(left(0, 1, 8), 0, &bare(24, 8)), Ok([0, 0, 0]));
    // x8 is there for it.
    assert_eq!(returned(left(1, 0, 8), 0, &bare(24, 8)), Ok([0, 0, 0]));
}

#[test]
fn a_wide_integer_behind_a_word_on_row_1() {
    let one = left(1, 1, 8);
    assert_eq!(integers(one, &integer(16)), [1, 0]);
    assert_eq!(argument(one, 8, &integer(16)), Ok([16, 16, 32]));
}

#[test]
fn packed_integers() {
    let none = left(2, 0, 8);
    assert_eq!(argument(none, 0, &integer(1)), Ok([0, 1, 1]));
    assert_eq!(argument(none, 1, &integer(2)), Ok([2, 2, 4]));
    assert_eq!(argument(none, 4, &integer(4)), Ok([4, 4, 8]));
}

#[test]
fn three_singles_fixed_and_after_the_dots() {
    assert_eq!(argument(left(2, 8, 0), 4, &singles(3)), Ok([4, 12, 16]));
    assert_eq!(after_dots(left(2, 8, 0), 4, &singles(3)), Ok([8, 16, 24]));
}

/// The registers that are left stay so, but the offset moves on.
#[test]
fn after_the_dots_of_row_2() {
    let all = left(2, 8, 8);
    for value in [integer(1), bare(24, 8)] {
        let outcome = spending::variadic_argument(all, &value, &mut Points::new());
        assert_eq!((outcome.integers, outcome.floats), (Spent::default(), Spent::default()));
        assert_eq!(after_dots(all, 0, &value), Ok([0, 8, 8]));
    }
    let sheet: &[&[u64]] = &[&[0, 2], &[4, 1, 0, 1, 1], &[4, 2, 24, 8, 0, 0]];
    let expected = ["direct 8 8 0 0 0 0 0 8", "reference 8 8 0 0 0 0 8 16"];
    assert_eq!(common::lines(sheet)[1..], expected);
}

#[test]
fn a_wide_float_whose_rest_is_packed() {
    let one = left(2, 1, 8);
    assert_eq!(integers(one, &scalar(4, 24, 8)), [0, 1]);
    assert_eq!(argument(one, 8, &scalar(4, 24, 8)), Ok([24, 16, 40]));
}

#[test]
fn a_record_of_three_bytes_is_packed() {
    assert_eq!(argument(left(2, 0, 8), 0, &members(3, 0, 1, 1)), Ok([0, 3, 3]));
}

#[test]
fn a_marked_quad_goes_in_part() {
    let one = Before { integers_only: true, ..left(3, 1, 8) };
    let outcome = spending::argument(one, &QUAD, &mut Points::new());
    assert_eq!((outcome.way, outcome.integers.given), (Way::Pieces(2), 1));
    assert_eq!(argument(one, 8, &QUAD), Ok([16, 8, 24]));
}

#[test]
fn row_4_without_a_register() {
    let none = left(4, 0, 0);
    let outcome = spending::argument(none, &bare(8, 8), &mut Points::new());
    assert_eq!(outcome.way, Way::Pieces(1));
    // The second and the third are pointers.
    for value in [bare(8, 8), bare(12, 4), QUAD, integer(1)] {
        assert_eq!(argument(none, 0, &value), Ok([0, 8, 8]), "{value:?}");
    }
}

#[test]
fn half_of_a_wide_integer_on_row_5() {
    let one = left(5, 1, 8);
    assert_eq!(integers(one, &integer(16)), [0, 1]);
    assert_eq!(argument(one, 8, &integer(16)), Ok([16, 8, 24]));
}

/// A split on the rows of RISC-V's own book, and what goes there behind it: by the table as it is.
#[test]
fn half_of_an_aggregate_on_rows_30_to_32() {
    for row in 30..=32 {
        for (size, align) in [(9, 1), (16, 8), (16, 16)] {
            assert_eq!(
                argument(left(row, 1, 0), 0, &bare(size, align)),
                Ok([0, 8, 8]),
                "row {row}"
            );
        }
        let none = left(row, 0, 0);
        assert_eq!(argument(none, 8, &bare(9, 8)), Ok([8, 16, 24]));
        assert_eq!(argument(none, 8, &bare(16, 16)), Ok([16, 16, 32]));
        assert_eq!(argument(none, 8, &integer(16)), Ok([16, 16, 32]));
        assert_eq!(argument(none, 8, &bare(17, 16)), Ok([8, 8, 16]));
        assert_eq!(argument(none, 8, &SINGLE), Ok([8, 8, 16]));
        assert_eq!(after_dots(left(row, 1, 0), 0, &bare(16, 16)), Ok([0, 16, 16]));
    }
}

#[test]
fn words_of_four_bytes() {
    let none = left(6, 0, 0);
    assert_eq!(returned(none, 0, &bare(12, 4)), Ok([0, 4, 4]));
    assert_eq!(argument(none, 4, &integer(1)), Ok([4, 4, 8]));
    assert_eq!(argument(none, 8, &DOUBLE), Ok([8, 8, 16]));
}

#[test]
fn regparm() {
    assert_eq!(integers(left(9, 2, 0), &scalar(3, 12, 4)), [0, 2]);
    assert_eq!(argument(left(9, 2, 0), 0, &scalar(3, 12, 4)), Ok([0, 4, 4]));
    assert_eq!(integers(left(9, 1, 0), &integer(8)), [0, 0]);
    assert_eq!(argument(left(9, 1, 0), 0, &integer(8)), Ok([0, 8, 8]));
    assert_eq!(integers(left(9, 1, 0), &bare(8, 4)), [1, 0]);
    assert_eq!(argument(left(9, 1, 0), 0, &bare(8, 4)), Ok([0, 8, 8]));
}

/// What is passed over carries nothing.
#[test]
fn fastcall() {
    for value in [integer(8), bare(6, 1)] {
        assert_eq!(integers(left(22, 2, 0), &value), [2, 0]);
        assert_eq!(argument(left(22, 2, 0), 0, &value), Ok([0, 8, 8]));
    }
}

// ---- what goes there

#[test]
fn nothing_goes_there() {
    let empty = bare(0, 1);
    for offset in [0, 3, 8] {
        for value in [Value::Void, empty.clone()] {
            for row in [0, 2] {
                assert_eq!(argument(left(row, 0, 0), offset, &value), Ok([0, 0, offset]));
                assert_eq!(returned(left(row, 0, 0), offset, &value), Ok([0, 0, offset]));
                assert_eq!(after_dots(left(row, 0, 0), offset, &value), Ok([0, 0, offset]));
            }
        }
        // All of it is in registers: floats, integers of both sizes, slots of both banks, pointers.
        let mixed = record(
            16,
            8,
            &[
                (Scalar { kind: 0, size: 8, align: 8 }, 0),
                (Scalar { kind: 2, size: 8, align: 8 }, 8),
            ],
        );
        for value in [SINGLE, QUAD, integer(1), integer(16), mixed] {
            assert_eq!(argument(left(0, 6, 8), offset, &value), Ok([0, 0, offset]), "{value:?}");
        }
        for value in [bare(24, 8), QUAD, integer(8), bare(1, 1)] {
            assert_eq!(argument(left(4, 1, 0), offset, &value), Ok([0, 0, offset]), "{value:?}");
        }
    }
}

/// What comes back in registers, and on row 4 in a float register that isn't the call's.
#[test]
fn a_return_without_a_pointer() {
    for value in [integer(8), QUAD, bare(16, 8), scalar(3, 16, 16)] {
        assert_eq!(returned(left(0, 0, 0), 8, &value), Ok([0, 0, 8]), "{value:?}");
    }
    assert_eq!(returned(left(4, 0, 0), 8, &integer(16)), Ok([0, 0, 8]));
    assert_eq!(returned(left(4, 0, 0), 8, &QUAD), Ok([8, 8, 16]));
    // No row has a return in memory; it would have no pointer.
    let none = Spent::default();
    let memory = Outcome { way: Way::Memory, integers: none, floats: none };
    let stack = Stack { row: 6, offset: 8 };
    assert_eq!(numbers(stack::returned(stack, memory, &mut Points::new())), Ok([0, 0, 8]));
}

/// A byte that it doesn't have goes nowhere, with a register or without.
#[test]
fn a_scalar_without_a_byte() {
    for row in [0, 1, 2, 5, 6, 9, 22, 30, 31, 32] {
        for registers in [0, 1] {
            for kind in [0, 4] {
                for (align, offset) in [(0, 0), (16, 3)] {
                    let nothing = scalar(kind, 0, align);
                    let call = left(row, registers, 0);
                    assert_eq!(argument(call, offset, &nothing), Ok([0, 0, offset]), "row {row}");
                    assert_eq!(after_dots(call, offset, &nothing), Ok([0, 0, offset]), "row {row}");
                }
            }
        }
    }
    // On row 4 it is a pointer, as every size is that none of its registers has.
    assert_eq!(argument(left(4, 0, 0), 3, &integer(0)), Ok([8, 8, 16]));
}

/// A register holds more than what is left of it.
#[test]
fn a_scalar_has_no_less_than_nothing_left() {
    assert_eq!(argument(left(0, 1, 8), 8, &integer(4)), Ok([0, 0, 8]));
    assert_eq!(argument(left(5, 2, 8), 8, &integer(9)), Ok([0, 0, 8]));
    assert_eq!(argument(left(5, 1, 8), 8, &integer(9)), Ok([8, 8, 16]));
}

/// Only a split leaves a slot list in part on the stack. A slot is one word there, whatever it has.
#[test]
fn slots_beyond_the_registers_of_both_banks() {
    let outcome = |slots, integers, floats| Outcome {
        way: Way::Pieces(slots),
        integers: Spent { passed_over: 0, given: integers },
        floats: Spent { passed_over: 0, given: floats },
    };
    let value = bare(12, 4);
    assert_eq!(given_so(5, 8, &value, outcome(2, 1, 0)), Ok([8, 8, 16]));
    assert_eq!(given_so(5, 8, &value, outcome(4, 1, 1)), Ok([8, 16, 24]));
    assert_eq!(given_so(5, 8, &value, outcome(2, 1, 1)), Ok([0, 0, 8]));
    assert_eq!(given_so(9, 4, &value, outcome(3, 1, 0)), Ok([4, 8, 12]));
    assert_eq!(given_so(5, 8, &bare(12, 16), outcome(2, 1, 0)), Ok([16, 8, 24]));
    // What was passed over isn't given.
    let passed = Spent { passed_over: 1, given: 0 };
    let whole = Outcome { integers: passed, ..outcome(2, 0, 0) };
    assert_eq!(given_so(5, 8, &value, whole), Ok([8, 16, 24]));
}

#[test]
fn memory_goes_whole_whatever_is_spent() {
    for (passed_over, given) in [(0, 0), (1, 0), (0, 1)] {
        let integers = Spent { passed_over, given };
        let outcome = Outcome { way: Way::Memory, integers, floats: integers };
        assert_eq!(given_so(1, 0, &bare(13, 1), outcome), Ok([0, 16, 16]));
    }
}

// ---- what a start is rounded to

#[test]
fn an_alignment_of_16_counts_on_every_row() {
    assert_eq!(argument(left(2, 0, 8), 4, &scalar(0, 4, 16)), Ok([16, 4, 20]));
    assert_eq!(after_dots(left(2, 8, 8), 4, &scalar(0, 4, 16)), Ok([16, 8, 24]));
    assert_eq!(argument(left(4, 0, 0), 8, &scalar(0, 1, 16)), Ok([16, 8, 24]));
    assert_eq!(argument(left(6, 0, 0), 4, &scalar(0, 1, 16)), Ok([16, 4, 20]));
}

#[test]
fn no_other_alignment_of_a_scalar_counts() {
    for align in [0, 1, 15, 17, 32, 4_096] {
        assert_eq!(argument(left(0, 0, 8), 8, &scalar(0, 8, align)), Ok([8, 8, 16]));
        assert_eq!(argument(left(6, 0, 0), 4, &scalar(0, 8, align)), Ok([4, 8, 12]));
        assert_eq!(argument(left(2, 0, 8), 4, &scalar(0, 4, align)), Ok([4, 4, 8]));
        assert_eq!(after_dots(left(2, 8, 8), 4, &scalar(0, 4, align)), Ok([8, 8, 16]));
    }
}

#[test]
fn a_size_that_is_no_power_of_two() {
    assert_eq!(argument(left(2, 0, 8), 8, &scalar(0, 12, 4)), Ok([12, 12, 24]));
    assert_eq!(after_dots(left(2, 8, 8), 8, &scalar(0, 12, 4)), Ok([12, 16, 28]));
    assert_eq!(argument(left(2, 0, 8), 1, &scalar(0, 3, 1)), Ok([3, 3, 6]));
    assert_eq!(after_dots(left(2, 8, 8), 1, &scalar(0, 3, 1)), Ok([8, 8, 16]));
}

#[test]
fn a_pointer_is_rounded_to_a_word_on_row_2_too() {
    assert_eq!(argument(left(2, 0, 8), 3, &bare(24, 1)), Ok([8, 8, 16]));
    assert_eq!(after_dots(left(2, 8, 8), 3, &bare(24, 16)), Ok([8, 8, 16]));
}

#[test]
fn an_aggregate_is_rounded_to_its_alignment_and_a_word_at_least() {
    let at = |align| argument(left(0, 6, 8), 8, &bare(24, align));
    for align in [0, 1, 6, 8] {
        assert_eq!(at(align), Ok([8, 24, 32]), "{align}");
    }
    assert_eq!(at(12), Ok([12, 24, 36]));
    assert_eq!(at(16), Ok([16, 24, 40]));
    assert_eq!(at(4_096), Ok([4_096, 24, 4_120]));
    let at = |align| argument(left(6, 0, 0), 8, &bare(6, align));
    assert_eq!([at(0), at(8), at(16)], [Ok([8, 8, 16]), Ok([8, 8, 16]), Ok([16, 8, 24])]);
    // A slot list likewise.
    let at = |align| argument(left(4, 0, 0), 8, &bare(8, align));
    assert_eq!([at(1), at(12), at(16)], [Ok([8, 8, 16]), Ok([12, 8, 20]), Ok([16, 8, 24])]);
}

/// Where arguments are packed `in_memory` has the word in it, but for equal floats.
#[test]
fn a_packed_aggregate_is_rounded_to_in_memory_alone() {
    let none = left(2, 0, 0);
    assert_eq!(argument(none, 3, &bare(5, 1)), Ok([8, 5, 13]));
    assert_eq!(argument(none, 3, &bare(5, 16)), Ok([16, 5, 21]));
    assert_eq!(argument(none, 3, &singles(2)), Ok([4, 8, 12]));
    assert_eq!(argument(none, 3, &members(2, 1, 4, 2)), Ok([4, 8, 12]));
    assert_eq!(argument(none, 3, &members(2, 1, 4, 1)), Ok([3, 8, 11]));
    assert_eq!(argument(none, 3, &members(2, 1, 4, 16)), Ok([16, 8, 24]));
}

#[test]
fn rounding_to_0_counts_as_rounding_to_1() {
    assert_eq!(argument(left(2, 0, 0), 3, &members(2, 1, 4, 0)), Ok([3, 8, 11]));
    assert_eq!(after_dots(left(2, 8, 8), 3, &members(2, 1, 4, 0)), Ok([8, 8, 16]));
}

#[test]
fn after_the_dots_a_start_is_rounded_to_8_at_least() {
    let all = left(2, 8, 8);
    assert_eq!(after_dots(all, 4, &SINGLE), Ok([8, 8, 16]));
    assert_eq!(after_dots(all, 4, &QUAD), Ok([16, 16, 32]));
    assert_eq!(after_dots(all, 4, &singles(1)), Ok([8, 8, 16]));
    assert_eq!(after_dots(all, 4, &bare(13, 16)), Ok([16, 16, 32]));
    assert_eq!(after_dots(all, 4, &bare(13, 12)), Ok([12, 16, 28]));
}

/// On other rows what stands after the dots is placed as a fixed argument.
#[test]
fn the_dots_of_other_rows_change_no_place() {
    for row in [0, 1, 3, 4, 5, 6, 30, 31, 32] {
        for value in [integer(1), scalar(0, 12, 4), integer(16), singles(3), bare(24, 8)] {
            let call = left(row, 0, 0);
            for offset in [0, 3, 4, 8] {
                let fixed = argument(call, offset, &value);
                assert_eq!(after_dots(call, offset, &value), fixed, "row {row}, {value:?}");
            }
        }
    }
}

#[test]
fn an_odd_offset() {
    for row in [0, 2] {
        assert_eq!(argument(left(row, 1, 8), 3, &integer(8)), Ok([0, 0, 3]));
        assert_eq!(argument(left(row, 0, 8), 3, &DOUBLE), Ok([0, 0, 3]));
        assert_eq!(argument(left(row, 0, 8), 3, &integer(8)), Ok([8, 8, 16]));
    }
    assert_eq!(argument(left(0, 0, 8), 3, &integer(1)), Ok([8, 8, 16]));
    assert_eq!(argument(left(2, 0, 8), 3, &integer(1)), Ok([3, 1, 4]));
    assert_eq!(returned(left(6, 0, 0), 3, &bare(12, 4)), Ok([4, 4, 8]));
}

// ---- the largest offset

#[test]
fn the_largest_offset_itself_is_reached() {
    let byte_less = MOST_STACK - 1;
    assert_eq!(MOST_STACK, 1_099_511_627_776);
    assert_eq!(argument(left(2, 0, 8), byte_less, &integer(1)), Ok([byte_less, 1, MOST_STACK]));
    assert_eq!(after_dots(left(2, 8, 8), byte_less, &integer(1)), Err(7));
    assert_eq!(argument(left(0, 0, 8), byte_less, &integer(1)), Err(7));
    let word_less = MOST_STACK - 8;
    for offset in [word_less - 7, word_less] {
        let reached = Ok([word_less, 8, MOST_STACK]);
        assert_eq!(argument(left(0, 0, 8), offset, &integer(1)), reached);
        assert_eq!(returned(left(0, 0, 8), offset, &bare(24, 8)), reached);
        assert_eq!(after_dots(left(2, 8, 8), offset, &integer(1)), reached);
    }
    // The rounding passes it already.
    assert_eq!(argument(left(0, 6, 8), word_less, &bare(17, 4_096)), Err(7));
    let last = MOST_STACK - 16_777_216;
    assert_eq!(
        argument(left(0, 6, 8), last, &bare(16_777_216, 4_096)),
        Ok([last, 16_777_216, MOST_STACK])
    );
    assert_eq!(argument(left(0, 6, 8), last + 1, &bare(16_777_216, 1)), Err(7));
}

#[test]
fn at_the_largest_offset_nothing_more_goes_there() {
    for row in [0, 2, 4, 6, 22, 30, 31, 32] {
        let none = left(row, 0, 0);
        for value in [integer(1), DOUBLE, bare(8, 1), QUAD] {
            assert_eq!(argument(none, MOST_STACK, &value), Err(7), "row {row}, {value:?}");
            assert_eq!(after_dots(none, MOST_STACK, &value), Err(7), "row {row}, {value:?}");
        }
        assert_eq!(argument(none, MOST_STACK, &Value::Void), Ok([0, 0, MOST_STACK]));
        assert_eq!(returned(none, MOST_STACK, &integer(1)), Ok([0, 0, MOST_STACK]));
    }
    assert_eq!(argument(left(0, 1, 1), MOST_STACK, &integer(8)), Ok([0, 0, MOST_STACK]));
    assert_eq!(argument(left(0, 1, 1), MOST_STACK, &DOUBLE), Ok([0, 0, MOST_STACK]));
    assert_eq!(argument(left(0, 0, 0), MOST_STACK, &integer(0)), Ok([0, 0, MOST_STACK]));
    assert_eq!(returned(left(0, 0, 0), MOST_STACK, &bare(24, 8)), Err(7));
    assert_eq!(returned(left(0, 1, 0), MOST_STACK, &bare(24, 8)), Ok([0, 0, MOST_STACK]));
    assert_eq!(returned(left(2, 0, 0), MOST_STACK, &bare(24, 8)), Ok([0, 0, MOST_STACK]));
}

#[test]
fn a_larger_offset_is_refused_whatever_is_asked() {
    assert_eq!(stack::of_offset(MOST_STACK), None);
    for offset in [MOST_STACK + 1, 1 << 63, u64::MAX - 7, u64::MAX] {
        assert_eq!(stack::of_offset(offset), Some(2));
        for row in [0, 2, 4, 6] {
            for value in [Value::Void, integer(0), integer(8), DOUBLE, bare(24, 8)] {
                let call = left(row, 1, 0);
                assert_eq!(argument(call, offset, &value), Err(2));
                assert_eq!(returned(call, offset, &value), Err(2));
                assert_eq!(after_dots(call, offset, &value), Err(2));
            }
        }
    }
}
