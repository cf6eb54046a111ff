//! What an operation passes over and gives (REFERENCE 9): a second reading of the rules in words.
//!
//! The Rust keeps only what is left, so the sheet can hold no more than the sum against it: whether
//! a register was passed over or given rests on this reading. From the Rust come a row's fields,
//! which sizes return by reference, and what a test finds in a shape; all spending is done here. The
//! fields that the Rust has no words for are descriptions.rs's.

use std::sync::OnceLock;

use rucc_abi::{ReturnPointer, Travel};

use crate::descriptions::{Description, Rule, Short, Variadic};
use crate::find::Probe;
use crate::numbers;
use crate::values::{Scalar, Shape, Value};

/// How a value travels. Pieces come in so many slots.
#[derive(Debug, Clone, Copy, PartialEq, Eq)]
pub enum Way {
    Ignore,
    Direct,
    Pieces(u64),
    Reference,
    Memory,
}

/// What one operation does to a bank: it passes over first, then it gives.
#[derive(Debug, Clone, Copy, Default, PartialEq, Eq)]
pub struct Spent {
    pub passed_over: u64,
    pub given: u64,
}

/// A way, and what it spends of both banks.
#[derive(Debug, Clone, Copy, PartialEq, Eq)]
pub struct Outcome {
    pub way: Way,
    pub integers: Spent,
    pub floats: Spent,
}

/// The call that an operation is asked of: its row, what is left of both banks, and the mark.
#[derive(Debug, Clone, Copy, PartialEq, Eq)]
pub struct Before {
    pub row: usize,
    pub integers: u64,
    pub floats: u64,
    pub integers_only: bool,
}

/// Where an operation was decided, or a rule that it went past.
#[derive(Debug, Clone, Copy, PartialEq, Eq, Hash)]
pub enum Point {
    Void,
    /// A scalar, by this line.
    Scalar(&'static str),
    /// An aggregate, by the rule of this place in its list.
    Rule(usize, End),
    /// A register was passed over for an even start: of what, and how that travels then.
    EvenStart(&'static str, &'static str),
    /// What of it goes to the stack, and how (stack.rs).
    Stack(&'static str, &'static str),
}

/// What a rule that matched came to.
#[derive(Debug, Clone, Copy, PartialEq, Eq, Hash)]
pub enum End {
    /// It decided without a look at the registers left.
    Decides,
    /// It decided, every slot having a register.
    Fits,
    /// There were too few registers, so it did what it says for that.
    Short,
    /// There were too few registers, and for a split none at all.
    NoneLeft,
    /// It found floats for a call that may use integer registers alone, so the next one was tried.
    NoFloats,
}

/// The points of one operation, those of `oracle coverage`.
pub type Points = Vec<Point>;

/// Whether a call is integers-only once it is marked variadic (REFERENCE 9.6): the mark changes
/// a call of row 3 and no other.
pub fn marked(before: Before) -> bool {
    before.integers_only || numbers::row(before.row).variadic == Variadic::IntegersOnly
}

/// A fixed argument (REFERENCE 9.2 and 9.3).
pub fn argument(before: Before, value: &Value, points: &mut Points) -> Outcome {
    match value {
        Value::Void => void(points),
        Value::Scalar(scalar) => scalar_argument(before, *scalar, points),
        Value::Aggregate(shape) => aggregate(before, shape, Side::Argument, points),
    }
}

/// A return (REFERENCE 9.4).
pub fn returned(before: Before, value: &Value, points: &mut Points) -> Outcome {
    match value {
        Value::Void => void(points),
        Value::Scalar(scalar) => scalar_return(before, *scalar, points),
        Value::Aggregate(shape) => aggregate(before, shape, Side::Return, points),
    }
}

/// An argument after the dots (REFERENCE 9.5).
pub fn variadic_argument(before: Before, value: &Value, points: &mut Points) -> Outcome {
    // For this argument alone, the call is integers-only.
    let in_integers = Before { integers_only: true, ..before };
    match numbers::row(before.row).variadic {
        Variadic::UnnamedIntegers => argument(in_integers, value, points),
        Variadic::UnnamedIntegersEven => from_an_even_register(in_integers, value, points),
        // Nothing changes the call. A scalar is itself; an aggregate finds both banks empty.
        Variadic::AlwaysMemory => match value {
            Value::Void => void(points),
            Value::Scalar(_) => {
                points.push(Point::Scalar("itself"));
                nothing(Way::Direct)
            }
            Value::Aggregate(_) => {
                let empty = Before { integers: 0, floats: 0, ..before };
                nothing(argument(empty, value, points).way)
            }
        },
        Variadic::SameAsFixed | Variadic::BothBanks | Variadic::IntegersOnly => {
            argument(before, value, points)
        }
    }
}

/// An argument of which the registers start at an even one if it is aligned to two words and no
/// larger: with an odd number used, one is passed over first, if one is left. Only then is its way
/// decided, and where that is to be ignored, nothing was passed over.
fn from_an_even_register(before: Before, value: &Value, points: &mut Points) -> Outcome {
    let (of, size, align) = match value {
        Value::Void => return void(points),
        Value::Scalar(scalar) => ("scalar", scalar.size, scalar.align),
        Value::Aggregate(shape) => ("aggregate", shape.size, shape.align),
    };
    let banks = numbers::row(before.row).banks;
    let two_words = 2 * banks.integer_width;
    let used = u64::from(banks.integer) - before.integers;
    if align != two_words || size > two_words || used.is_multiple_of(2) || before.integers == 0 {
        return argument(before, value, points);
    }
    let next = Before { integers: before.integers - 1, ..before };
    let outcome = argument(next, value, points);
    if outcome.way == Way::Ignore {
        return outcome;
    }
    points.push(Point::EvenStart(of, word(outcome.way)));
    let Spent { passed_over, given } = outcome.integers;
    Outcome { integers: Spent { passed_over: passed_over + 1, given }, ..outcome }
}

fn void(points: &mut Points) -> Outcome {
    points.push(Point::Void);
    nothing(Way::Ignore)
}

/// A scalar argument (REFERENCE 9.2): the first of ten lines that applies.
fn scalar_argument(before: Before, scalar: Scalar, points: &mut Points) -> Outcome {
    let row = numbers::row(before.row);
    let (banks, rules) = (row.banks, row.scalars);
    let left = before.integers;
    let want = want(scalar.size, row);
    let is_integer = !scalar.is_float();
    let memory_format = numbers::optional_format(rules.in_memory);
    let (line, outcome) = if rules.wide_is_by_reference && ![1, 2, 4, 8].contains(&scalar.size) {
        // No register holds it: a pointer to it takes one integer register.
        ("line 1", integers(Way::Reference, gives(1, left)))
    } else if scalar.is_float() && scalar.kind == memory_format {
        // The row keeps this format in memory.
        ("line 2", nothing(Way::Direct))
    } else if rules.wide_integer_in_memory && is_integer && want > 1 {
        // The row keeps wide integers in memory, and no integer register survives one.
        ("line 3", integers(Way::Direct, Spent { passed_over: left, given: 0 }))
    } else if before.integers_only && scalar.is_float() {
        // A float that may use integer registers alone is cut by their width.
        let slots = scalar.size.div_ceil(banks.integer_width);
        ("line 4", integers(Way::Pieces(slots), gives(want, left)))
    } else if banks.shared {
        // Both banks are one sequence of places, and every value takes the next.
        ("line 5", integers(Way::Direct, gives(1, left)))
    } else if scalar.is_float() && scalar.size <= banks.float_width {
        float_argument(before, want)
    } else if scalar.is_float() {
        // A wider float takes integer registers.
        ("line 7", integers(Way::Direct, gives(want, left)))
    } else {
        let (line, spent) = integer_argument(before, want);
        (line, integers(Way::Direct, spent))
    };
    points.push(Point::Scalar(line));
    outcome
}

/// The sixth line for a scalar argument: a float that a float register holds takes one, and where none
/// is left and it falls to integers, as many of these as it wants.
fn float_argument(before: Before, want: u64) -> (&'static str, Outcome) {
    if before.floats > 0 || !numbers::row(before.row).float_falls_to_integers {
        return ("line 6", floats(Way::Direct, gives(1, before.floats)));
    }
    let line = if before.integers > 0 { "line 6, fallen" } else { "line 6, fallen, none left" };
    (line, integers(Way::Direct, gives(want, before.integers)))
}

/// The last three lines for a scalar argument: an integer that none of the others applies to.
fn integer_argument(before: Before, want: u64) -> (&'static str, Spent) {
    let row = numbers::row(before.row);
    let (rules, left) = (row.scalars, before.integers);
    if rules.wide_integer_is_all_or_nothing {
        // It takes all that it wants, or none.
        let given = if want <= left { want } else { 0 };
        let line = if given > 0 { "line 8, all" } else { "line 8, none" };
        return (line, Spent { passed_over: 0, given });
    }
    if want > 1 && (rules.wide_integer_starts_even || rules.wide_integer_drains) {
        // With an odd number used it passes one over to start evenly, if one is left. Then it
        // takes all that it wants; where that doesn't fit, a row that drains passes the rest over.
        let used = u64::from(row.banks.integer) - left;
        let skipped = u64::from(rules.wide_integer_starts_even && used % 2 == 1 && left > 0);
        let rest = left - skipped;
        return if want <= rest {
            let line = if skipped > 0 { "line 9, all from an even one" } else { "line 9, all" };
            (line, Spent { passed_over: skipped, given: want })
        } else if rules.wide_integer_drains {
            ("line 9, drains", Spent { passed_over: skipped + rest, given: 0 })
        } else {
            ("line 9, none", Spent { passed_over: skipped, given: 0 })
        };
    }
    // It takes what it wants as far as that is left.
    ("line 10", gives(want, left))
}

/// A scalar return (REFERENCE 9.4).
fn scalar_return(before: Before, scalar: Scalar, points: &mut Points) -> Outcome {
    let row = numbers::row(before.row);
    let (line, outcome) = if !row.in_rust.scalar_returns_by_reference(scalar.size) {
        ("itself", nothing(Way::Direct))
    } else if !scalar.is_float() && row.scalars.wide_integer_returns_in.is_some() {
        // It comes back in one float register, which isn't one of the call's.
        ("in a float register", nothing(Way::Pieces(1)))
    } else {
        ("by reference", integers(Way::Reference, return_pointer(before, row)))
    };
    points.push(Point::Scalar(line));
    outcome
}

/// What the pointer to a return takes: one integer register, unless it has one of its own.
fn return_pointer(before: Before, row: &Description) -> Spent {
    if row.return_pointer == ReturnPointer::Dedicated {
        Spent::default()
    } else {
        gives(1, before.integers)
    }
}

#[derive(Clone, Copy, PartialEq, Eq)]
enum Side {
    Return,
    Argument,
}

/// An aggregate (REFERENCE 9.3 and 9.4): the first rule that matches and doesn't go on.
fn aggregate(before: Before, shape: &Shape, side: Side, points: &mut Points) -> Outcome {
    let rules = &probed_rules()[before.row];
    let rules = if side == Side::Return { &rules.returns } else { &rules.arguments };
    for (at, (rule, probe)) in rules.iter().enumerate() {
        let Some(found) = probe.find(shape) else { continue };
        let found_floats = found.iter().filter(|slot| slot.is_float()).count() as u64;
        // An argument that may use integer registers alone skips a rule that found a float.
        if before.integers_only && side == Side::Argument && found_floats > 0 {
            points.push(Point::Rule(at, End::NoFloats));
            continue;
        }
        let found = Slots { integers: found.len() as u64 - found_floats, floats: found_floats };
        let (end, outcome) = travel(before, rule, found, shape, side);
        points.push(Point::Rule(at, end));
        if let Some(outcome) = outcome {
            return outcome;
        }
    }
    panic!("each list ends with a rule that decides")
}

/// Slots by what they hold.
#[derive(Clone, Copy)]
struct Slots {
    integers: u64,
    floats: u64,
}

/// What a rule that matched comes to, without an outcome where it goes on to the next one.
fn travel(
    before: Before,
    rule: &Rule,
    found: Slots,
    shape: &Shape,
    side: Side,
) -> (End, Option<Outcome>) {
    let row = numbers::row(before.row);
    let decides = |outcome| (End::Decides, Some(outcome));
    let slots = match rule.then {
        Travel::Ignore => return decides(nothing(Way::Ignore)),
        Travel::InMemory => return decides(nothing(Way::Memory)),
        // In memory, and as an argument it passes a register over for each of its words: they
        // carry nothing.
        Travel::InMemoryAndSpend => {
            return decides(match side {
                Side::Argument => {
                    integers(Way::Memory, passes(want(shape.size, row), before.integers))
                }
                Side::Return => nothing(Way::Memory),
            });
        }
        Travel::ByReference => {
            return decides(match side {
                Side::Argument => integers(Way::Reference, gives(1, before.integers)),
                Side::Return => integers(Way::Reference, return_pointer(before, row)),
            });
        }
        Travel::AsFound => found,
        Travel::AsIntegers => {
            Slots { integers: shape.size.div_ceil(row.banks.integer_width), floats: 0 }
        }
        Travel::AsOneInteger => Slots { integers: 1, floats: 0 },
    };
    // A return's registers aren't those that arguments take.
    if side == Side::Return {
        return decides(nothing(Way::Pieces(slots.integers + slots.floats)));
    }
    in_slots(before, rule.short, slots)
}

/// An aggregate argument in slots, without an outcome where the rule is short and goes on.
fn in_slots(before: Before, short: Short, slots: Slots) -> (End, Option<Outcome>) {
    let all = slots.integers + slots.floats;
    // The cost is a register for each slot, from its own bank unless both are one.
    let shared = numbers::row(before.row).banks.shared;
    let (cost_i, cost_f) = if shared { (all, 0) } else { (slots.integers, slots.floats) };
    let (fits_i, fits_f) = (cost_i <= before.integers, cost_f <= before.floats);
    let taken = Outcome {
        way: Way::Pieces(all),
        integers: gives(cost_i, before.integers),
        floats: gives(cost_f, before.floats),
    };
    if fits_i && fits_f {
        return (End::Fits, Some(taken));
    }
    match short {
        // It gives what is left, up to the cost.
        Short::Unchanged => (End::Short, Some(taken)),
        // It goes to memory and leaves both banks alone.
        Short::Memory => (End::Short, Some(nothing(Way::Memory))),
        // It goes to memory, and a bank that was short is passed over whole.
        Short::MemoryAndDrain => {
            let integers = drains(!fits_i, before.integers);
            let floats = drains(!fits_f, before.floats);
            (End::Short, Some(Outcome { way: Way::Memory, integers, floats }))
        }
        Short::TryNextRule => (End::Short, None),
        // Its first slots are in registers if any integer is left. If none is, it goes to memory and
        // leaves both banks alone.
        Short::Split if before.integers > 0 => (End::Short, Some(taken)),
        Short::Split => (End::NoneLeft, Some(nothing(Way::Memory))),
    }
}

/// How many integer registers a size is worth, at least one.
fn want(size: u64, row: &Description) -> u64 {
    size.div_ceil(row.banks.integer_width).max(1)
}

/// Takes so many, or all that are left.
fn gives(count: u64, left: u64) -> Spent {
    Spent { passed_over: 0, given: count.min(left) }
}

/// Passes over so many, or all that are left.
fn passes(count: u64, left: u64) -> Spent {
    Spent { passed_over: count.min(left), given: 0 }
}

/// Passes a bank over whole if it was short.
fn drains(short: bool, left: u64) -> Spent {
    Spent { passed_over: if short { left } else { 0 }, given: 0 }
}

/// A way, in the word that a sheet's line has for it.
fn word(way: Way) -> &'static str {
    match way {
        Way::Ignore => "ignore",
        Way::Direct => "direct",
        Way::Pieces(_) => "pieces",
        Way::Reference => "reference",
        Way::Memory => "memory",
    }
}

fn nothing(way: Way) -> Outcome {
    integers(way, Spent::default())
}

fn integers(way: Way, integers: Spent) -> Outcome {
    Outcome { way, integers, floats: Spent::default() }
}

fn floats(way: Way, floats: Spent) -> Outcome {
    Outcome { way, integers: Spent::default(), floats }
}

/// A row's rules, each with a probe for its test.
struct ProbedRules {
    returns: Vec<(Rule, Probe)>,
    arguments: Vec<(Rule, Probe)>,
}

/// Those of all rows, made once.
fn probed_rules() -> &'static [ProbedRules] {
    static ROWS: OnceLock<Vec<ProbedRules>> = OnceLock::new();
    ROWS.get_or_init(|| (0..numbers::ROWS).map(|number| probe_row(numbers::row(number))).collect())
}

fn probe_row(row: &Description) -> ProbedRules {
    let probed = |rules: &[Rule]| {
        let widths = row.banks;
        let probe = |test| Probe::new(test, widths.integer_width, widths.float_width);
        rules.iter().map(|rule| (*rule, probe(rule.when))).collect()
    };
    ProbedRules { returns: probed(&row.returns), arguments: probed(&row.arguments) }
}
