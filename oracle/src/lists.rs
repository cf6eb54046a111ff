//! `oracle lists`: variable argument lists, as a function of row 0 reads them (REFERENCE 15).
//!
//! The Rust is the caller: it is asked about the named parameters and about each scalar after the
//! dots. Which registers a scalar is in, and so its place in the save area and the next two offsets,
//! comes from the counts that it has left before and after. Refusals and the overflow area come from
//! the rules (reader.rs). These say the rest, too, and where they and the Rust can't both be right,
//! the run ends.

use std::fmt::{Display, Write as _};
use std::io::{self, Write};

use rucc_abi::{Call, Pass};

use crate::asking::{self, left};
use crate::generate::{Generator, past};
use crate::numbers;
use crate::random::Random;
use crate::reader::{
    self, Area, FLOAT_PLACE, FLOAT_PLACES, FLOAT_START, INTEGER_PLACE, INTEGER_PLACES, Lent,
    Offsets, Part, SAVE_BYTES,
};
use crate::records::{self, ARGUMENT, RETURN};
use crate::refusals;
use crate::values::{LARGEST_ALIGN, LARGEST_KIND, LARGEST_SCALAR, Scalar, Value};

/// The description whose lists are read.
const ROW: usize = 0;

/// No list has more scalars, but for those that are put between to be refused.
pub const MOST_SCALARS: u64 = 40;

/// Prints so many lists. The inner error tells of a contradiction.
pub fn print(out: &mut impl Write, seed: u64, count: u64) -> io::Result<Result<(), String>> {
    let mut generator = Generator::new(seed);
    for _ in 0..count {
        match Drawn::new(&mut generator).list() {
            Ok(lines) => out.write_all(lines.as_bytes())?,
            Err(why) => return Ok(Err(why)),
        }
    }
    Ok(Ok(()))
}

// ---- a list and its reads

/// A list that is read: what is lent, and a call of the Rust that has as many registers left as the
/// offsets say. There is none where what is lent can't be.
#[derive(Clone)]
pub struct List {
    lent: Lent,
    call: Option<Call>,
}

impl List {
    /// A list that is read from these offsets on.
    pub fn new(lent: Lent) -> Self {
        let call = reader::of_save_area(lent).is_none().then(|| call_at(lent.at));
        Self { lent, call }
    }

    /// Reads a scalar. The error tells of a contradiction.
    pub fn read(&mut self, scalar: Scalar) -> Result<Part, String> {
        let part = reader::read(self.lent, scalar);
        if reader::of_scalar(scalar).is_none() {
            self.ask(scalar, part)?;
        }
        self.lent.at = part.next;
        Ok(part)
    }

    /// Has the Rust pass a scalar, and holds the rules' part against what it says.
    fn ask(&mut self, scalar: Scalar, part: Part) -> Result<(), String> {
        let Some(call) = &mut self.call else { return Ok(()) };
        let before = left(call);
        let pass = Value::Scalar(scalar).ask(|arg| call.variadic_argument(arg));
        let after = left(call);
        if agree(self.lent, scalar, &pass, [before, after], part) {
            return Ok(());
        }
        let lent = self.lent;
        Err(format!(
            "on {scalar:?} of {lent:?}\nthe Rust: {pass:?}, left {before:?} and then {after:?}\nthe rules: {part:?}"
        ))
    }
}

/// The offsets at which a function finds the registers that a call has left.
fn offsets([integers, floats]: [u64; 2], overflow: u64) -> Offsets {
    let integer = INTEGER_PLACE * (INTEGER_PLACES - integers);
    Offsets { integer, float: FLOAT_START + FLOAT_PLACE * (FLOAT_PLACES - floats), overflow }
}

/// A call that has left what these offsets say.
fn call_at(at: Offsets) -> Call {
    let integers = INTEGER_PLACES - at.integer / INTEGER_PLACE;
    let floats = FLOAT_PLACES - (at.float - FLOAT_START) / FLOAT_PLACE;
    let call = asking::led_to(numbers::row(ROW).in_rust, [integers, floats]);
    assert_eq!(offsets(left(&call), at.overflow), at, "a call is led to where it is to be");
    call
}

/// Whether the Rust and the rules say the same: the scalar is itself, in the registers that it was
/// given, or nowhere but in the overflow area; and the offsets are those of what is left.
fn agree(lent: Lent, scalar: Scalar, pass: &Pass, counts: [[u64; 2]; 2], part: Part) -> bool {
    matches!(pass, Pass::Direct) && by_counts(lent, scalar, counts) == Some(part)
}

/// The part of a scalar by the counts left before and after it: at the place of the first register
/// that it was given, or, given none, where the rules have it in the overflow area. None where the
/// counts before aren't those of the offsets, or no scalar could have spent so.
fn by_counts(lent: Lent, scalar: Scalar, [before, after]: [[u64; 2]; 2]) -> Option<Part> {
    let integers = before[0].checked_sub(after[0])?;
    let floats = before[1].checked_sub(after[1])?;
    let first = offsets(before, lent.at.overflow);
    let next = offsets(after, lent.at.overflow);
    let saved = |start| Part { refusal: 0, area: Area::Save, start, length: scalar.size, next };
    match (integers, floats) {
        _ if first != lent.at => None,
        (0, 0) => Some(reader::in_overflow_area(lent, scalar)),
        (_, 0) => Some(saved(first.integer)),
        (0, 1) => Some(saved(first.float)),
        _ => None,
    }
}

// ---- random lists

/// A list that is drawn, and its lines so far.
struct Drawn<'a> {
    generator: &'a mut Generator,
    lines: String,
}

impl<'a> Drawn<'a> {
    fn new(generator: &'a mut Generator) -> Self {
        Self { generator, lines: String::new() }
    }

    /// The lines of a list: the named parameters, what they leave, and then each scalar.
    fn list(mut self) -> Result<String, String> {
        self.line("list");
        let call = self.named();
        let overflow = stack_offset(self.random());
        let [integers, floats] = left(&call);
        let at = offsets([integers, floats], overflow);
        let Offsets { integer, float, .. } = at;
        self.line(format_args!("left {overflow} {integers} {floats} {integer} {float}"));

        let scalars = scalars(self.random());
        let reach = reach(at, &scalars);
        let lent = Lent { save: SAVE_BYTES, overflow: area_length(self.random(), reach), at };
        let mut list = List { lent, call: Some(call) };
        self.lent(&list);
        for scalar in scalars {
            if self.random().once_in(8) {
                self.between(&mut list, scalar)?;
            }
            self.read(&mut list, scalar)?;
        }
        Ok(self.lines)
    }

    fn random(&mut self) -> &mut Random {
        &mut self.generator.random
    }

    fn line(&mut self, text: impl Display) {
        writeln!(self.lines, "{text}").expect("a string takes it");
    }

    /// Asks the Rust about a result and some named parameters, and says what is left. A refused one
    /// isn't asked.
    fn named(&mut self) -> Call {
        let mut call = numbers::row(ROW).call();
        // Twelve parameters drawn from all scalars hardly ever have eight floats among them.
        let from: &[Scalar] = if self.random().once_in(4) { &FLOATS } else { &SCALARS };
        for number in 0..self.random().pick(&[0, 0, 1, 2, 3, 5, 8, 12]) {
            let is_result = self.random().once_in(if number == 0 { 2 } else { 16 });
            let operation = if is_result { RETURN } else { ARGUMENT };
            let value = self.named_value(from);
            let words: Vec<u64> = records::of_value(operation, &value).concat();
            let words: Vec<String> = words.iter().map(u64::to_string).collect();
            self.line(format_args!("named {}", words.join(" ")));
            if refusals::of_value(&value).is_none() {
                let ask = if is_result { Call::returns } else { Call::argument };
                value.ask(|arg| ask(&mut call, arg));
            }
        }
        call
    }

    /// What a function has for a named parameter, mostly one of these; or anything.
    fn named_value(&mut self, from: &[Scalar]) -> Value {
        match self.random().between(0, 15) {
            0..=8 => Value::Scalar(self.random().pick(from)),
            9..=14 => self.generator.value(),
            _ => self.generator.refused_value(),
        }
    }

    /// Reads that stand between those of a list, many of them refused. The list goes on behind them as
    /// if they hadn't been, but for scalars that happen to be good.
    fn between(&mut self, list: &mut List, scalar: Scalar) -> Result<(), String> {
        let wrong = self.random().between(0, 5);
        if wrong <= 2 {
            let scalar = spoilt(self.random(), scalar);
            return self.read(list, scalar);
        }
        let lent = if wrong == 3 {
            anywhere(self.random())
        } else {
            spoilt_areas(self.random(), list.lent)
        };
        let mut other = List::new(lent);
        self.lent(&other);
        for _ in 0..self.random().between(1, 3) {
            let any = self.random().pick(&SCALARS);
            let scalar = if self.random().once_in(4) { spoilt(self.random(), any) } else { any };
            self.read(&mut other, scalar)?;
        }
        self.lent(list);
        Ok(())
    }

    fn lent(&mut self, list: &List) {
        self.line(format_args!("lent {}", list.lent));
    }

    fn read(&mut self, list: &mut List, scalar: Scalar) -> Result<(), String> {
        let part = list.read(scalar)?;
        let Scalar { kind, size, align } = scalar;
        self.line(format_args!("read {kind} {size} {align} {part}"));
        Ok(())
    }
}

const SINGLE: Scalar = Scalar { kind: 1, size: 4, align: 4 };
const DOUBLE: Scalar = Scalar { kind: 2, size: 8, align: 8 };
const X87: Scalar = Scalar { kind: 3, size: 16, align: 16 };
const QUAD: Scalar = Scalar { kind: 4, size: 16, align: 16 };

/// Each scalar that a list can have.
const SCALARS: [Scalar; 9] =
    [integer(1), integer(2), integer(4), integer(8), integer(16), SINGLE, DOUBLE, X87, QUAD];

/// Those that a float register holds.
const FLOATS: [Scalar; 3] = [SINGLE, DOUBLE, QUAD];

const fn integer(size: u64) -> Scalar {
    Scalar { kind: 0, size, align: size }
}

/// The scalars of a list, by a habit: one list runs the integers out, another the floats, a third is
/// on the stack for the most part.
fn scalars(random: &mut Random) -> Vec<Scalar> {
    let habits: [&[Scalar]; 5] = [
        &SCALARS,
        &[integer(4), integer(8), integer(8), DOUBLE],
        &[integer(16), integer(16), integer(8), integer(1), QUAD],
        &[SINGLE, DOUBLE, DOUBLE, QUAD, integer(2)],
        &[X87, X87, QUAD, integer(16), integer(8)],
    ];
    let from = random.pick(&habits);
    let most = random.pick(&[2, 4, 8, 16, MOST_SCALARS]);
    (0..random.between(1, most)).map(|_| random.pick(from)).collect()
}

/// Where the named parameters on the stack end: at a multiple of 8, but now and then where no caller
/// would leave it.
fn stack_offset(random: &mut Random) -> u64 {
    if random.once_in(16) {
        random.between(0, 63)
    } else {
        random.pick(&[0, 0, 0, 8, 8, 16, 24, 40, 64])
    }
}

/// How far these scalars reach into an overflow area that is long enough.
fn reach(at: Offsets, scalars: &[Scalar]) -> u64 {
    let mut lent = Lent { save: SAVE_BYTES, overflow: 1 << 32, at };
    let mut reach = 0;
    for scalar in scalars {
        let part = reader::read(lent, *scalar);
        if part.area == Area::Overflow {
            reach = part.start + part.length;
        }
        lent.at = part.next;
    }
    reach
}

/// The length of an overflow area into which a list reaches so far: to the last byte mostly, and
/// often too short.
fn area_length(random: &mut Random, reach: u64) -> u64 {
    match random.between(0, 7) {
        0 => reach.saturating_sub(1),
        1 => random.between(0, reach),
        2 => reach.next_multiple_of(16),
        3 => reach + random.between(1, 32),
        _ => reach,
    }
}

/// A scalar with a kind, a size, an alignment, or any of them, that may not be its own.
fn spoilt(random: &mut Random, mut scalar: Scalar) -> Scalar {
    let wrong = random.between(1, 7);
    if wrong & 1 != 0 {
        let far = past(random, LARGEST_KIND);
        scalar.kind = random.pick(&[0, 1, 2, 3, 4, 5, 6, 255, 256, far]);
    }
    if wrong & 2 != 0 {
        let far = past(random, LARGEST_SCALAR);
        scalar.size = random.pick(&[0, 1, 3, 4, 7, 8, 9, 10, 12, 15, 16, 17, 32, 63, 64, 65, far]);
    }
    if wrong & 4 != 0 {
        let far = past(random, LARGEST_ALIGN);
        scalar.align = random.pick(&[0, 1, 2, 4, 8, 16, 32, 4_095, 4_096, far]);
    } else if random.once_in(2) {
        scalar.align = scalar.size;
    }
    scalar
}

/// Any places, and any length and offset of the overflow area, near each other.
fn anywhere(random: &mut Random) -> Lent {
    let left = [random.between(0, INTEGER_PLACES), random.between(0, FLOAT_PLACES)];
    let at = offsets(left, random.between(0, 80));
    Lent { save: SAVE_BYTES, overflow: random.between(0, 120), at }
}

/// Areas with a length, an offset, or any of them, that may not be.
fn spoilt_areas(random: &mut Random, mut lent: Lent) -> Lent {
    let wrong = random.between(1, 15);
    if wrong & 1 != 0 {
        let any = random.between(0, 400);
        lent.save = random.pick(&[0, 48, 175, 176, 177, 304, any]);
    }
    if wrong & 2 != 0 {
        let far = past(random, FLOAT_START);
        let near = random.between(0, 200);
        lent.at.integer = random.pick(&[4, 47, 49, 56, u64::MAX - 7, near, near, far]);
    }
    if wrong & 4 != 0 {
        let far = past(random, SAVE_BYTES);
        let near = random.between(0, 200);
        lent.at.float = random.pick(&[0, 40, 56, 168, 192, 304, u64::MAX - 15, near, near, far]);
    }
    if wrong & 8 != 0 {
        let far = past(random, lent.overflow);
        let length = lent.overflow;
        let ends = [length.saturating_sub(16), length.saturating_sub(1), length, length + 1];
        let offset = random.pick(&[1 << 63, u64::MAX - 15, u64::MAX - 14, u64::MAX, far, far]);
        lent.at.overflow = if random.once_in(2) { random.pick(&ends) } else { offset };
    }
    lent
}

#[cfg(test)]
mod tests {
    use super::*;

    const AT: Offsets = Offsets { integer: 32, float: 160, overflow: 8 };
    const LENT: Lent = Lent { save: SAVE_BYTES, overflow: 64, at: AT };
    /// What is left at these offsets.
    const LEFT: [u64; 2] = [2, 1];

    fn agrees(scalar: Scalar, pass: &Pass, after: [u64; 2]) -> bool {
        agree(LENT, scalar, pass, [LEFT, after], reader::read(LENT, scalar))
    }

    #[test]
    fn the_same_answer_agrees() {
        assert_eq!(offsets(LEFT, 8), AT);
        assert!(agrees(integer(8), &Pass::Direct, [1, 1]));
        assert!(agrees(integer(16), &Pass::Direct, [0, 1]));
        assert!(agrees(QUAD, &Pass::Direct, [2, 0]));
        assert!(agrees(X87, &Pass::Direct, LEFT));
    }

    #[test]
    fn another_number_of_registers_contradicts() {
        for after in [LEFT, [0, 1], [1, 0], [2, 0], [3, 1]] {
            assert!(!agrees(integer(8), &Pass::Direct, after), "{after:?}");
        }
        for after in [LEFT, [1, 1], [0, 0], [2, 0]] {
            assert!(!agrees(integer(16), &Pass::Direct, after), "{after:?}");
        }
        for after in [LEFT, [1, 1], [1, 0], [2, 2]] {
            assert!(!agrees(QUAD, &Pass::Direct, after), "{after:?}");
        }
        for after in [[1, 1], [0, 1], [2, 0]] {
            assert!(!agrees(X87, &Pass::Direct, after), "{after:?}");
        }
    }

    #[test]
    fn a_scalar_that_is_not_itself_contradicts() {
        assert!(!agrees(integer(8), &Pass::Reference, [1, 1]));
        assert!(!agrees(X87, &Pass::Memory, LEFT));
    }

    /// An area that is too short is no reason for the Rust to have given a register.
    #[test]
    fn a_refusal_contradicts_a_register_that_was_given() {
        let short = Lent { overflow: 0, ..LENT };
        let part = reader::read(short, X87);
        assert_eq!((part.refusal, part.next), (refusals::BAD_AREA, AT));
        assert!(agree(short, X87, &Pass::Direct, [LEFT, LEFT], part));
        assert!(!agree(short, X87, &Pass::Direct, [LEFT, [2, 0]], part));
    }

    #[test]
    fn a_contradiction_says_what_both_say() {
        // A call that has other registers left than the offsets say.
        let mut list = List { lent: LENT, call: Some(numbers::row(ROW).call()) };
        let said = list.read(integer(8)).expect_err("a contradiction");
        assert!(said.contains("left [6, 8] and then [5, 8]"), "{said}");
        assert!(said.contains("start: 32"), "{said}");
        // Also where it is given none.
        assert!(list.read(X87).is_err());
    }
}
