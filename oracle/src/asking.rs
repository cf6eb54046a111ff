//! How the Rust is asked about an operation, on the rows that it hasn't as well.
//!
//! Rows 30 to 32 are row 5 with a float bank of their own and three departures. Where none of these
//! applies, the Rust is asked on a description value made of row 5's with that bank. Where one does, it
//! is asked the question that stands for it: for an even start the same call with one register fewer,
//! for a fallen float an integer of its size, for a split the same rule with `Short::Unchanged`.
//!
//! Whether one applies is read off the fields, the value and the counts left, here and once more in
//! spending.rs: a reading that chose its own question would never be contradicted. No field of rows 0
//! to 29 says so, and they are asked what they are.

use rucc_abi::{AbiDescription, Call, Pass};

use crate::descriptions::{Description, Variadic};
use crate::sheet::Asked;
use crate::values::{Scalar, Value};

/// What the Rust answers, and how many integer registers were passed over for an even start first.
#[derive(Debug)]
pub struct Answer {
    pub pass: Pass,
    pub even_start: u64,
}

/// Asks how a value travels. What it spends is gone from the call then.
pub fn ask(row: &Description, call: &mut Call, asked: Asked, value: &Value) -> Answer {
    match asked {
        Asked::Return => from_anywhere(value.ask(|arg| call.returns(arg))),
        Asked::VariadicArgument => variadic_argument(row, call, value),
        _ => from_anywhere(argument(row, call, value)),
    }
}

/// The integers and the floats that a call has left.
pub fn left(call: &Call) -> [u64; 2] {
    [u64::from(call.integer_left()), u64::from(call.float_left())]
}

/// A call that has so many integers and floats left.
pub fn led_to(description: &'static AbiDescription, counts: [u64; 2]) -> Call {
    let mut call = description.call();
    let [integers, floats] = left(&call);
    (counts[0]..integers).for_each(|_| spend_integer(&mut call));
    (counts[1]..floats).for_each(|_| spend_float(&mut call));
    assert_eq!(left(&call), counts, "a call is led to where it is to be");
    call
}

fn variadic_argument(row: &Description, call: &mut Call, value: &Value) -> Answer {
    let ask =
        |call: &mut Call| or_split(row, call, |call| value.ask(|arg| call.variadic_argument(arg)));
    if starts_even(row, value) && is_odd(row, call) {
        let mut fewer = call.clone();
        spend_integer(&mut fewer);
        let pass = ask(&mut fewer);
        // What doesn't travel has no start, so it is asked of the call as it is.
        if pass != Pass::Ignore {
            *call = fewer;
            return Answer { pass, even_start: 1 };
        }
    }
    from_anywhere(ask(call))
}

fn argument(row: &Description, call: &mut Call, value: &Value) -> Pass {
    let fallen = fallen(row, call, value);
    let value = fallen.as_ref().unwrap_or(value);
    or_split(row, call, |call| value.ask(|arg| call.argument(arg)))
}

/// The answer about what may start at any register.
fn from_anywhere(pass: Pass) -> Answer {
    Answer { pass, even_start: 0 }
}

// ---- the departures

/// Whether a value after the dots has an even start: it is aligned to two words and no larger.
fn starts_even(row: &Description, value: &Value) -> bool {
    let two_words = 2 * row.banks.integer_width;
    let is_such = |size: u64, align: u64| align == two_words && size <= two_words;
    row.variadic == Variadic::UnnamedIntegersEven
        && match value {
            Value::Void => false,
            Value::Scalar(scalar) => is_such(scalar.size, scalar.align),
            Value::Aggregate(shape) => is_such(shape.size, shape.align),
        }
}

/// Whether the next integer register is an odd one, and there.
fn is_odd(row: &Description, call: &Call) -> bool {
    let used = row.banks.integer - call.integer_left();
    call.integer_left() > 0 && used % 2 == 1
}

/// What stands for a float that would take a float register and finds none, where it takes integers
/// then: an integer of its size.
fn fallen(row: &Description, call: &Call, value: &Value) -> Option<Value> {
    let falls = |scalar: &Scalar| {
        scalar.is_float() && scalar.size <= row.banks.float_width && call.float_left() == 0
    };
    match value {
        Value::Scalar(scalar) if row.float_falls_to_integers && falls(scalar) => {
            Some(Value::Scalar(Scalar { kind: 0, ..*scalar }))
        }
        _ => None,
    }
}

/// Asks a question. Where the answer is memory though an integer register was left, a row that splits
/// has it otherwise: it is asked on its description without that, and the call led to what is left.
fn or_split(row: &Description, call: &mut Call, question: impl Fn(&mut Call) -> Pass) -> Pass {
    let before = left(call);
    let pass = question(call);
    match row.unsplit {
        Some(unsplit) if pass == Pass::Memory && before[0] > 0 => {
            let mut undivided = led_to(unsplit, before);
            let pass = question(&mut undivided);
            *call = led_to(row.in_rust, left(&undivided));
            pass
        }
        _ => pass,
    }
}

// ---- spending

/// Spends an integer register, on an integer of its width.
fn spend_integer(call: &mut Call) {
    let width = call.abi().banks.integer_width;
    spend(call, Scalar { kind: 0, size: width, align: width });
}

/// Spends a float register, on a Single: each row that has any holds one there.
fn spend_float(call: &mut Call) {
    spend(call, Scalar { kind: 1, size: 4, align: 4 });
}

fn spend(call: &mut Call, scalar: Scalar) {
    let pass = Value::Scalar(scalar).ask(|arg| call.argument(arg));
    assert_eq!(pass, Pass::Direct, "a register holds it");
}
