//! Where what isn't in registers stands (REFERENCE 9.9): a second reading of the rules in words.
//!
//! The Rust has no offsets. From it come a row's fields and `in_memory`, what an aggregate is
//! aligned to in the argument area. The way, its slots and the registers given come with the outcome,
//! which the sheet holds against the Rust; where they lead to rests on this reading.

use rucc_abi::{Arg, ReturnPointer, StackArgs};

use crate::descriptions::{Description, Variadic};
use crate::numbers;
use crate::refusals::{self, BAD_CALL, NO_ROOM};
use crate::spending::{Outcome, Point, Points, Way};
use crate::values::{Scalar, Shape, Value, ask_shape};

/// The largest offset that a call may have.
pub const MOST_STACK: u64 = 1 << 40;

/// What a start is rounded to at least, after the dots of a row that has all behind them in memory.
const LEAST_AFTER_DOTS: u64 = 8;

/// How it is called where rounding to the integer width moves a start on.
pub const MOVED_TO_WIDTH: &str = "moved on to the width";

/// A call's stack: its row, and the offset at which the next argument may start, counted from the
/// first stack argument.
#[derive(Debug, Clone, Copy, PartialEq, Eq)]
pub struct Stack {
    pub row: usize,
    pub offset: u64,
}

/// Where an operation's bytes stand and how many there are, both 0 where there are none; and the
/// offset of the next one.
#[derive(Debug, Clone, Copy, PartialEq, Eq)]
pub struct Stacked {
    pub at: u64,
    pub bytes: u64,
    pub next: u64,
}

/// Which refusal any operation gets for the offset of its call, before what it is asked about is
/// looked at.
pub fn of_offset(offset: u64) -> Option<u64> {
    refusals::first(&[(offset > MOST_STACK, BAD_CALL)])
}

/// A return, or its refusal.
pub fn returned(stack: Stack, outcome: Outcome, points: &mut Points) -> Result<Stacked, u64> {
    place(stack, rest_of_return(numbers::row(stack.row), outcome), false, points)
}

/// A fixed argument, or its refusal.
pub fn argument(
    stack: Stack,
    value: &Value,
    outcome: Outcome,
    points: &mut Points,
) -> Result<Stacked, u64> {
    place(stack, rest_of_argument(numbers::row(stack.row), value, outcome), false, points)
}

/// An argument after the dots, or its refusal. Its place is another than a fixed one's only on a row
/// that has all behind the dots in memory.
pub fn variadic_argument(
    stack: Stack,
    value: &Value,
    outcome: Outcome,
    points: &mut Points,
) -> Result<Stacked, u64> {
    let row = numbers::row(stack.row);
    let dots = row.variadic == Variadic::AlwaysMemory;
    place(stack, rest_of_argument(row, value, outcome), dots, points)
}

// ---- what goes to the stack

/// What isn't in registers: so many bytes, and what their start is rounded to. `oracle coverage` is
/// told what they are of, and which line of the table that is.
struct Rest {
    of: &'static str,
    how: &'static str,
    bytes: u64,
    rounding: Rounding,
}

/// What a start is rounded to, and how that is called where it moves the start on.
#[derive(Clone, Copy)]
struct Rounding {
    to: u64,
    moved: &'static str,
}

/// Of a return: only the pointer to where it goes, unless that has a register of its own or was given
/// one.
fn rest_of_return(row: &Description, outcome: Outcome) -> Rest {
    match outcome.way {
        Way::Reference if row.return_pointer == ReturnPointer::Dedicated => {
            nothing("pointer", "in a register of its own")
        }
        Way::Reference if outcome.integers.given > 0 => nothing("pointer", "given"),
        Way::Reference => pointer(row),
        Way::Ignore | Way::Direct | Way::Pieces(_) | Way::Memory => nothing("pointer", "none"),
    }
}

/// Of an argument: what the registers that it was given don't hold. Those passed over hold nothing.
fn rest_of_argument(row: &Description, value: &Value, outcome: Outcome) -> Rest {
    let (integers, floats) = (outcome.integers.given, outcome.floats.given);
    match (value, outcome.way) {
        (Value::Void, _) | (_, Way::Ignore) => nothing("nothing", "travels"),
        (_, Way::Reference) if integers > 0 => nothing("pointer", "given"),
        (_, Way::Reference) => pointer(row),
        (Value::Scalar(_), Way::Direct | Way::Pieces(_)) if floats > 0 => {
            nothing("scalar", "in a float register")
        }
        (Value::Scalar(scalar), Way::Direct | Way::Pieces(_)) => {
            rest_of_scalar(row, *scalar, integers)
        }
        (Value::Aggregate(shape), Way::Memory) => {
            let rounding = aggregate_rounding(row, shape);
            Rest { of: "aggregate", how: "in memory", bytes: shape.size, rounding }
        }
        (Value::Aggregate(shape), Way::Pieces(slots)) => {
            rest_of_slots(row, shape, slots, integers + floats)
        }
        (Value::Scalar(_), Way::Memory) | (Value::Aggregate(_), Way::Direct) => {
            panic!("no rule has {value:?} travel so: {outcome:?}")
        }
    }
}

/// A pointer that was given no register: a word.
fn pointer(row: &Description) -> Rest {
    let width = row.banks.integer_width;
    let rounding = Rounding { to: width, moved: MOVED_TO_WIDTH };
    Rest { of: "pointer", how: "placed", bytes: width, rounding }
}

/// The bytes of a scalar beyond the integer registers that it was given. One of size 0 has none.
fn rest_of_scalar(row: &Description, scalar: Scalar, integers: u64) -> Rest {
    let bytes = scalar.size.saturating_sub(row.banks.integer_width * integers);
    let how = match (bytes, integers) {
        (0, 0) => "without a byte",
        (0, _) => "given",
        (_, 0) => "placed whole",
        (_, _) => "placed in part",
    };
    Rest { of: "scalar", how, bytes, rounding: scalar_rounding(row, scalar) }
}

/// What the start of a scalar is rounded to, or of what is left of it.
fn scalar_rounding(row: &Description, scalar: Scalar) -> Rounding {
    if scalar.align == 16 {
        Rounding { to: 16, moved: "moved on to 16" }
    } else if is_packed(row) {
        Rounding { to: scalar.size, moved: "moved on to its size" }
    } else {
        Rounding { to: row.banks.integer_width, moved: MOVED_TO_WIDTH }
    }
}

/// A word for each slot beyond the registers that were given in both banks.
fn rest_of_slots(row: &Description, shape: &Shape, slots: u64, given: u64) -> Rest {
    let beyond = slots - given;
    let how = match (beyond, given) {
        (0, _) => return nothing("aggregate", "given"),
        (_, 0) => "in slots, placed whole",
        (_, _) => "in slots, placed in part",
    };
    let bytes = row.banks.integer_width * beyond;
    Rest { of: "aggregate", how, bytes, rounding: aggregate_rounding(row, shape) }
}

/// What the start of an aggregate is rounded to: `in_memory`, and a word at least unless arguments
/// are packed.
fn aggregate_rounding(row: &Description, shape: &Shape) -> Rounding {
    let (own, width) = (in_memory(row, shape), row.banks.integer_width);
    if is_packed(row) && own < width {
        Rounding { to: own, moved: "moved on to in_memory, less than the width" }
    } else if is_packed(row) || own > width {
        Rounding { to: own, moved: "moved on to in_memory" }
    } else {
        Rounding { to: width, moved: MOVED_TO_WIDTH }
    }
}

/// What the Rust aligns an aggregate to in the argument area.
pub fn in_memory(row: &Description, shape: &Shape) -> u64 {
    ask_shape(shape, |arg| match arg {
        Arg::Aggregate(shape) => row.call().in_memory(shape),
        _ => panic!("a shape is an aggregate"),
    })
}

fn is_packed(row: &Description) -> bool {
    row.stack_args == StackArgs::Packed
}

fn nothing(of: &'static str, how: &'static str) -> Rest {
    Rest { of, how, bytes: 0, rounding: Rounding { to: 0, moved: "" } }
}

// ---- where it stands

/// The place of what isn't in registers, or the refusal of the operation: the offset that it was
/// handed is too large, or the next one would be. Dots are those of a row that has all behind them in
/// memory.
fn place(stack: Stack, rest: Rest, dots: bool, points: &mut Points) -> Result<Stacked, u64> {
    if let Some(refusal) = of_offset(stack.offset) {
        return Err(refusal);
    }
    let row = numbers::row(stack.row);
    let Rest { of, how, bytes, rounding } = rest;
    points.push(Point::Stack(of, how));
    let length = length(row, bytes, dots);
    if length == 0 {
        return Ok(Stacked { at: 0, bytes: 0, next: stack.offset });
    }
    let rounding = at_least(rounding, dots);
    // In 128 bits no sum of these numbers wraps.
    let at = u128::from(stack.offset).next_multiple_of(u128::from(rounding.to));
    let next = at + u128::from(length);
    if next > u128::from(MOST_STACK) {
        return Err(NO_ROOM);
    }
    let narrow = |number: u128| u64::try_from(number).expect("2^40 has room in 64 bits");
    let stacked = Stacked { at: narrow(at), bytes: length, next: narrow(next) };
    if stacked.at > stack.offset {
        points.push(Point::Stack(of, rounding.moved));
    }
    if length > bytes {
        points.push(Point::Stack(of, "of a length rounded up"));
    } else if !length.is_multiple_of(row.banks.integer_width) {
        points.push(Point::Stack(of, "of a length as it is"));
    }
    Ok(stacked)
}

/// How long it is there: as many bytes as it has where arguments are packed, but not after the dots;
/// else whole words.
fn length(row: &Description, bytes: u64, dots: bool) -> u64 {
    if is_packed(row) && !dots { bytes } else { bytes.next_multiple_of(row.banks.integer_width) }
}

/// What a start is rounded to in the end: after the dots 8 at least, and 0 counts as 1.
fn at_least(rounding: Rounding, dots: bool) -> Rounding {
    if dots && rounding.to < LEAST_AFTER_DOTS {
        return Rounding { to: LEAST_AFTER_DOTS, moved: "moved on to 8" };
    }
    Rounding { to: rounding.to.max(1), ..rounding }
}
