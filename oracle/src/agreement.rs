//! Whether the Rust and the rules can both be right about an operation of a sheet.

use rucc_abi::{Pass, ReturnPointer};

use crate::descriptions::{Description, Variadic};
use crate::numbers;
use crate::sheet::Asked;
use crate::spending::{Before, Outcome, Spent, Way};
use crate::stack::{self, Stack, Stacked};
use crate::values::Value;

/// Whether the Rust and the rules say the same: the way, its number of slots, and of each bank
/// that what was there is what was passed over, given and left. What the Rust has in memory no
/// register carries (REFERENCE 9.1), so the rules may give it none.
pub fn on_registers(before: Before, pass: &Pass, left: [u64; 2], outcome: Outcome) -> bool {
    let way = match pass {
        Pass::Ignore => Way::Ignore,
        Pass::Direct => Way::Direct,
        Pass::Pieces(slots) => Way::Pieces(slots.len() as u64),
        Pass::Reference => Way::Reference,
        Pass::Memory => Way::Memory,
    };
    let adds_up = |was: u64, spent: Spent, is: u64| was == spent.passed_over + spent.given + is;
    let given = outcome.integers.given + outcome.floats.given;
    way == outcome.way
        && (way != Way::Memory || given == 0)
        && adds_up(before.integers, outcome.integers, left[0])
        && adds_up(before.floats, outcome.floats, left[1])
}

/// Whether the rules pass over what was passed over for an even start before the Rust was asked. Where
/// a row has even starts after the dots nothing else is passed over; elsewhere the sum has to do.
pub fn on_even_start(before: Before, even_start: u64, outcome: Outcome) -> bool {
    numbers::row(before.row).variadic != Variadic::UnnamedIntegersEven
        || outcome.integers.passed_over == even_start && outcome.floats.passed_over == 0
}

/// Whether the rules' place can be right by the Rust's answer: it is behind those before it, it has
/// what no register given carries, and an aggregate in memory is at a multiple of the Rust's alignment
/// of it. The Rust has no offsets: which of such places it is, the rules say alone.
pub fn on_the_stack(
    stack: Stack,
    asked: Asked,
    value: &Value,
    pass: &Pass,
    outcome: Outcome,
    stacked: Stacked,
) -> bool {
    let row = numbers::row(stack.row);
    let left_over = left_over(row, asked, value, pass, outcome);
    is_behind(stack.offset, stacked)
        && has(row, left_over, stacked.bytes)
        && (left_over == 0 || is_aligned(row, value, pass, stacked.at))
}

/// Whether registers come before the stack. On a row that splits none is left for integers once
/// something is on the stack, so what is in registers in part, as a split is, is the first there, at 0.
pub fn on_the_order(stack: Stack, left: [u64; 2], outcome: Outcome, stacked: Stacked) -> bool {
    let is_in_part = outcome.integers.given > 0 && stacked.bytes > 0;
    numbers::row(stack.row).unsplit.is_none()
        || (stacked.next == 0 || left[0] == 0) && (!is_in_part || stacked.at == 0)
}

/// Whether a place is behind those before it, and the next offset where it ends; without one the
/// offset stays.
fn is_behind(before: u64, stacked: Stacked) -> bool {
    let Stacked { at, bytes, next } = stacked;
    if bytes == 0 { at == 0 && next == before } else { at >= before && next == at + bytes }
}

/// Whether so many bytes are there: as many as are left over, and less than a word that fills them up.
fn has(row: &Description, left_over: u64, bytes: u64) -> bool {
    match left_over {
        0 => bytes == 0,
        _ => (left_over..left_over + row.banks.integer_width).contains(&bytes),
    }
}

/// Whether an aggregate in memory is at a multiple of its alignment. Where that is less than a word it
/// may be at a word instead, and a word need be no multiple of it.
fn is_aligned(row: &Description, value: &Value, pass: &Pass, at: u64) -> bool {
    match (pass, value) {
        (Pass::Memory, Value::Aggregate(shape)) => {
            let align = stack::in_memory(row, shape);
            align < row.banks.integer_width || at.is_multiple_of(align)
        }
        _ => true,
    }
}

/// How many bytes of what travels by the Rust's answer the registers given don't carry: of a pointer
/// that has no register of its own, of words for slots, or of the value. What comes back is in other
/// registers, and a float register has room for all of a scalar.
fn left_over(row: &Description, asked: Asked, value: &Value, pass: &Pass, outcome: Outcome) -> u64 {
    let width = row.banks.integer_width;
    let (integers, floats) = (outcome.integers.given, outcome.floats.given);
    let returns = asked == Asked::Return;
    let travels = match (pass, value) {
        (Pass::Reference, _) if returns && row.return_pointer == ReturnPointer::Dedicated => 0,
        (Pass::Reference, _) => width,
        (Pass::Ignore, _) | (_, Value::Void) => 0,
        _ if returns => 0,
        (Pass::Pieces(slots), Value::Aggregate(_)) => width * slots.len() as u64,
        (_, Value::Aggregate(shape)) => shape.size,
        (_, Value::Scalar(_)) if floats > 0 => 0,
        (_, Value::Scalar(scalar)) => scalar.size,
    };
    travels.saturating_sub(width * (integers + floats))
}

#[cfg(test)]
mod tests {
    use rucc_abi::Slot;

    use super::*;
    use crate::values::{Scalar, Shape};

    const BEFORE: Before = Before { row: 0, integers: 6, floats: 8, integers_only: false };

    /// One eightbyte of integers, as the rules have it.
    const OUTCOME: Outcome = Outcome {
        way: Way::Pieces(1),
        integers: Spent { passed_over: 0, given: 1 },
        floats: Spent { passed_over: 0, given: 0 },
    };

    fn slots(count: usize) -> Pass {
        Pass::Pieces(vec![Slot::Integer { offset: 0, size: 8 }; count])
    }

    #[test]
    fn the_same_answer_agrees() {
        assert!(on_registers(BEFORE, &slots(1), [5, 8], OUTCOME));
    }

    #[test]
    fn another_way_or_number_of_slots_contradicts() {
        assert!(!on_registers(BEFORE, &Pass::Memory, [5, 8], OUTCOME));
        assert!(!on_registers(BEFORE, &slots(2), [5, 8], OUTCOME));
    }

    #[test]
    fn what_is_in_memory_is_given_nothing() {
        let spent = Spent { passed_over: 1, given: 0 };
        let passed = Outcome { way: Way::Memory, integers: spent, floats: Spent::default() };
        assert!(on_registers(BEFORE, &Pass::Memory, [5, 8], passed));
        let given = Outcome { integers: Spent { passed_over: 0, given: 1 }, ..passed };
        assert!(!on_registers(BEFORE, &Pass::Memory, [5, 8], given));
        let float = Spent { passed_over: 0, given: 1 };
        let given = Outcome { integers: Spent::default(), floats: float, ..passed };
        assert!(!on_registers(BEFORE, &Pass::Memory, [6, 7], given));
    }

    #[test]
    fn a_register_that_nobody_accounts_for_contradicts() {
        assert!(!on_registers(BEFORE, &slots(1), [6, 8], OUTCOME));
        assert!(!on_registers(BEFORE, &slots(1), [4, 8], OUTCOME));
        assert!(!on_registers(BEFORE, &slots(1), [5, 7], OUTCOME));
    }

    #[test]
    fn where_a_row_has_even_starts_nothing_else_is_passed_over() {
        let spent = |passed_over| Spent { passed_over, given: 1 };
        let agrees = |row, even_start, integers, floats| {
            let (before, way) = (Before { row, ..BEFORE }, Way::Direct);
            let outcome = Outcome { way, integers: spent(integers), floats: spent(floats) };
            on_even_start(before, even_start, outcome)
        };
        for row in 30..=32 {
            assert!(agrees(row, 0, 0, 0) && agrees(row, 1, 1, 0));
            assert!(!agrees(row, 0, 1, 0) && !agrees(row, 1, 0, 0) && !agrees(row, 1, 2, 0));
            assert!(!agrees(row, 0, 0, 1));
        }
        for row in [1, 5] {
            assert!(agrees(row, 0, 1, 1));
        }
    }

    // ---- the stack

    fn scalar(kind: u64, size: u64) -> Value {
        Value::Scalar(Scalar { kind, size, align: size })
    }

    fn aggregate(size: u64, align: u64) -> Value {
        let pieces = Vec::new();
        Value::Aggregate(Shape { size, align, complex: false, floating: false, pieces })
    }

    /// What a value was given, one register of each bank having been passed over.
    fn given(integers: u64, floats: u64) -> Outcome {
        let spent = |given| Spent { passed_over: 1, given };
        Outcome { integers: spent(integers), floats: spent(floats), ..OUTCOME }
    }

    /// The lengths that the Rust's answer allows at 0.
    fn lengths(row: usize, asked: Asked, value: &Value, pass: &Pass, outcome: Outcome) -> Vec<u64> {
        let stack = Stack { row, offset: 0 };
        let agrees = |bytes: &u64| {
            let stacked = Stacked { at: 0, bytes: *bytes, next: *bytes };
            on_the_stack(stack, asked, value, pass, outcome, stacked)
        };
        (0..=64).filter(agrees).collect()
    }

    #[test]
    fn of_a_scalar_what_no_register_carries_is_there_once() {
        let lengths =
            |value: Value, pass: Pass, outcome| lengths(0, Asked::Argument, &value, &pass, outcome);
        let (wide, float) = (scalar(0, 16), scalar(4, 16));
        assert_eq!(lengths(wide.clone(), Pass::Direct, given(0, 0)), Vec::from_iter(16..24));
        assert_eq!(lengths(wide.clone(), Pass::Direct, given(1, 0)), Vec::from_iter(8..16));
        assert_eq!(lengths(wide, Pass::Direct, given(2, 0)), [0]);
        assert_eq!(lengths(float.clone(), slots(2), given(1, 0)), Vec::from_iter(8..16));
        assert_eq!(lengths(float, Pass::Direct, given(0, 1)), [0]);
        assert_eq!(lengths(scalar(0, 0), Pass::Direct, given(0, 0)), [0]);
        assert_eq!(lengths(Value::Void, Pass::Ignore, given(0, 0)), [0]);
    }

    #[test]
    fn an_aggregate_is_there_whole_or_by_its_slots() {
        let lengths =
            |pass, outcome| lengths(0, Asked::Argument, &aggregate(13, 4), &pass, outcome);
        assert_eq!(lengths(Pass::Memory, given(0, 0)), Vec::from_iter(13..21));
        assert_eq!(lengths(slots(2), given(1, 1)), [0]);
        assert_eq!(lengths(slots(2), given(0, 1)), Vec::from_iter(8..16));
        assert_eq!(lengths(Pass::Reference, given(0, 0)), Vec::from_iter(8..16));
        assert_eq!(lengths(Pass::Reference, given(1, 0)), [0]);
        assert_eq!(lengths(Pass::Ignore, given(0, 0)), [0]);
    }

    #[test]
    fn of_a_return_only_a_pointer_is_there() {
        let lengths = |row, pass: Pass, outcome| {
            lengths(row, Asked::Return, &aggregate(24, 8), &pass, outcome)
        };
        assert_eq!(lengths(0, Pass::Reference, given(0, 0)), Vec::from_iter(8..16));
        assert_eq!(lengths(6, Pass::Reference, given(0, 0)), Vec::from_iter(4..8));
        assert_eq!(lengths(0, Pass::Reference, given(1, 0)), [0]);
        // Here it has a register of its own.
        assert_eq!(lengths(1, Pass::Reference, given(0, 0)), [0]);
        for pass in [Pass::Direct, slots(3), Pass::Memory] {
            assert_eq!(lengths(0, pass, given(0, 0)), [0]);
        }
    }

    /// Whether an aggregate of 16 bytes may be in memory here, where row 0 is at 16.
    fn may_be_at(align: u64, at: u64, next: u64) -> bool {
        let stacked = Stacked { at, bytes: 16, next };
        let (stack, value) = (Stack { row: 0, offset: 16 }, aggregate(16, align));
        on_the_stack(stack, Asked::Argument, &value, &Pass::Memory, given(0, 0), stacked)
    }

    #[test]
    fn an_aggregate_is_where_the_rust_aligns_it() {
        assert!(may_be_at(8, 16, 32) && may_be_at(12, 24, 40) && may_be_at(16, 32, 48));
        assert!(!may_be_at(8, 20, 36) && !may_be_at(12, 16, 32) && !may_be_at(16, 24, 40));
        assert!(may_be_at(6, 16, 32) && may_be_at(0, 16, 32));
    }

    #[test]
    fn a_place_that_reaches_back_or_is_not_handed_on_contradicts() {
        assert!(!may_be_at(1, 15, 31) && !may_be_at(8, 8, 24));
        assert!(!may_be_at(8, 16, 16) && !may_be_at(8, 16, 31) && !may_be_at(8, 16, 33));
    }

    #[test]
    fn without_a_place_the_offset_stays() {
        let agrees = |at, next| {
            let (stack, stacked) = (Stack { row: 0, offset: 12 }, Stacked { at, bytes: 0, next });
            on_the_stack(stack, Asked::Argument, &scalar(0, 8), &Pass::Direct, given(1, 0), stacked)
        };
        assert!(agrees(0, 12));
        assert!(!agrees(12, 12) && !agrees(0, 16) && !agrees(0, 0));
    }

    /// Whether what was given so many integers may be here on this row, so many being left.
    fn is_in_order(row: usize, left: u64, given_integers: u64, stacked: [u64; 3]) -> bool {
        let [offset, at, next] = stacked;
        let stacked = Stacked { at, bytes: next - at, next };
        on_the_order(Stack { row, offset }, [left, 8], given(given_integers, 0), stacked)
    }

    #[test]
    fn a_row_that_splits_has_no_register_left_once_something_is_there() {
        for row in 30..=32 {
            assert!(is_in_order(row, 0, 0, [0, 0, 16]) && is_in_order(row, 0, 0, [8, 16, 32]));
            assert!(is_in_order(row, 1, 1, [0, 0, 0]) && is_in_order(row, 0, 1, [0, 0, 0]));
            assert!(!is_in_order(row, 1, 0, [0, 0, 16]) && !is_in_order(row, 7, 1, [8, 8, 8]));
        }
        // On others a register may be left, for what comes later.
        assert!(is_in_order(0, 1, 0, [0, 0, 16]) && is_in_order(5, 7, 1, [8, 8, 8]));
    }

    #[test]
    fn the_half_of_a_split_is_the_first_there() {
        for row in 30..=32 {
            assert!(is_in_order(row, 0, 1, [0, 0, 8]));
            assert!(!is_in_order(row, 0, 1, [8, 8, 16]) && !is_in_order(row, 0, 1, [0, 8, 16]));
        }
        assert!(is_in_order(5, 0, 1, [8, 8, 16]));
    }
}
