//! `oracle coverage`: which rules a sheet decides by, and how often.
//!
//! What can decide is read off the descriptions: each rule of both lists of each row, with what it
//! comes to, each line for scalars that the row's fields let apply, and the same after the dots and
//! behind the mark where these change the answer; each even start that passes a register over; and
//! each line of the table that says what goes to the stack, with each rounding that can be seen there.
//! A sheet covers them if each decides at least once, and if nothing else does: then this list is the
//! right one.

use std::collections::HashMap;
use std::io::{self, Write};

use rucc_abi::{ReturnPointer, StackArgs, Travel};

use crate::descriptions::{Description, Rule, Short, Variadic};
use crate::numbers;
use crate::sheet::{self, Asked, Decided, Ending, REFUSED};
use crate::spending::{End, Point};
use crate::stack::MOVED_TO_WIDTH;
use crate::values::LARGEST_SCALAR;

/// Prints how often each of them decides. The inner error tells what is wrong with the sheet.
pub fn print(out: &mut impl Write, sheet: &[u8]) -> io::Result<Result<(), String>> {
    let mut times: HashMap<String, u64> = HashMap::new();
    let mut operations = 0;
    let ending = sheet::follow(sheet, |line, decided| {
        operations += 1;
        let what = match line.word {
            REFUSED => format!("refusal {}", line.rest[0]),
            word => format!("line {word}"),
        };
        let points = decided.points.iter().map(|point| name(decided, *point));
        for name in points.chain(operation(decided)).chain([what]) {
            *times.entry(name).or_default() += 1;
        }
        Ok(())
    })?;
    if let Ending::Contradiction(message) = ending {
        return Ok(Err(message));
    }
    let expected = expected();
    let mut wrong = Vec::new();
    for name in &expected {
        let count = times.remove(name).unwrap_or(0);
        writeln!(out, "{name}: {count}")?;
        if count == 0 {
            wrong.push(format!("never: {name}"));
        }
    }
    wrong.extend(times.keys().map(|name| format!("not expected: {name}")));
    writeln!(out, "{} places in {operations} operations", expected.len())?;
    Ok(if wrong.is_empty() { Ok(()) } else { Err(wrong.join("\n")) })
}

/// The rules that an argument goes by: the row's, the mark's, or those after the dots.
#[derive(Clone, Copy, PartialEq, Eq)]
enum Rules {
    Return,
    Argument,
    Marked,
    VariadicArgument,
    MarkedVariadicArgument,
}

impl Rules {
    const fn text(self) -> &'static str {
        match self {
            Self::Return => "return",
            Self::Argument => "argument",
            Self::Marked => "marked argument",
            Self::VariadicArgument => "after the dots",
            Self::MarkedVariadicArgument => "marked, after the dots",
        }
    }

    /// Those that a row has. Elsewhere an argument after the dots is an argument.
    fn of(row: &Description) -> &'static [Self] {
        match row.variadic {
            Variadic::IntegersOnly => &[
                Self::Return,
                Self::Argument,
                Self::Marked,
                Self::VariadicArgument,
                Self::MarkedVariadicArgument,
            ],
            Variadic::AlwaysMemory | Variadic::UnnamedIntegers | Variadic::UnnamedIntegersEven => {
                &[Self::Return, Self::Argument, Self::VariadicArgument]
            }
            Variadic::SameAsFixed | Variadic::BothBanks => &[Self::Return, Self::Argument],
        }
    }
}

/// What an operation itself covers.
fn operation(decided: &Decided) -> Option<String> {
    let row = decided.row?;
    let what = match decided.asked {
        Asked::Fresh => "fresh",
        Asked::Mark => "mark",
        Asked::VariadicArgument => "an argument after the dots",
        _ => return None,
    };
    Some(format!("row {row} {what}"))
}

fn name(decided: &Decided, point: Point) -> String {
    let row = decided.row.expect("only an open call decides");
    let apart = Rules::of(numbers::row(row)).contains(&Rules::VariadicArgument);
    let rules = match (decided.asked, decided.integers_only) {
        (Asked::Return, _) => Rules::Return,
        (Asked::VariadicArgument, false) if apart => Rules::VariadicArgument,
        (Asked::VariadicArgument, true) if apart => Rules::MarkedVariadicArgument,
        (_, true) => Rules::Marked,
        _ => Rules::Argument,
    };
    place(row, rules, point)
}

fn place(row: usize, rules: Rules, point: Point) -> String {
    let list = rules.text();
    match point {
        Point::Void => format!("row {row} {list} void"),
        Point::Scalar(line) => format!("row {row} {list} scalar {line}"),
        Point::Rule(at, end) => {
            let description = numbers::row(row);
            let returns = rules == Rules::Return;
            let rule = if returns { description.returns[at] } else { description.arguments[at] };
            let end = match (end, rule.short) {
                (End::Decides, _) => "decides",
                (End::Fits, _) => "fits",
                (End::Short, Short::Unchanged) => "short, unchanged",
                (End::Short, Short::Memory) => "short, memory",
                (End::Short, Short::MemoryAndDrain) => "short, memory and drain",
                (End::Short, Short::TryNextRule) => "short, the next rule",
                (End::Short, Short::Split) => "short, split",
                (End::NoneLeft, _) => "short, none left",
                (End::NoFloats, _) => "found floats, the next rule",
            };
            format!("row {row} {list} rule {at} {end}")
        }
        Point::EvenStart(of, way) => format!("row {row} {list} even start: {of}, {way}"),
        Point::Stack(of, how) => on_the_stack(row, rules, of, how),
    }
}

/// For the stack the mark changes nothing, and the dots only where all behind them is in memory.
///
/// Where stack arguments aren't packed, every offset is a multiple of the width unless an alignment
/// that is none went before. So hardly a start moves on to one there, and what does is counted for all
/// these rows at once.
fn on_the_stack(row: usize, rules: Rules, of: &str, how: &str) -> String {
    let description = numbers::row(row);
    let list = match rules {
        Rules::Return => Rules::Return,
        _ if nothing_left(description, rules) => Rules::VariadicArgument,
        _ => Rules::Argument,
    };
    let list = list.text();
    if how == MOVED_TO_WIDTH && description.stack_args != StackArgs::Packed {
        return format!("any row {list} stack: {of} {how}");
    }
    format!("row {row} {list} stack: {of} {how}")
}

/// Everything that a sheet can show, in order. Of the refusals, 2, 3, 7 and 8 are missing: a sheet's
/// calls come from its own operations, its pieces are whole and 1,025 of them stop it, there is room
/// for the most slots of any answer, it has no variable argument lists, and a stack isn't full before
/// 65,536 operations (edge.rs).
fn expected() -> Vec<String> {
    let mut expected: Vec<String> =
        ["fresh", "marked", "ignore", "direct", "pieces", "reference", "memory"]
            .iter()
            .map(|word| format!("line {word}"))
            .collect();
    expected.extend([1, 4, 5, 6, 9].iter().map(|refusal| format!("refusal {refusal}")));
    // Row 0 stands for all that don't pack.
    expected.push(on_the_stack(0, Rules::Return, "pointer", MOVED_TO_WIDTH));
    for of in ["pointer", "scalar", "aggregate"] {
        expected.push(on_the_stack(0, Rules::Argument, of, MOVED_TO_WIDTH));
    }
    for row in 0..numbers::ROWS {
        for what in ["fresh", "mark", "an argument after the dots"] {
            expected.push(format!("row {row} {what}"));
        }
        let description = numbers::row(row);
        for &rules in Rules::of(description) {
            let points = [
                vec![Point::Void],
                scalars(description, rules),
                aggregates(description, rules),
                even_starts(description, rules),
                stacked(description, rules),
            ];
            expected.extend(points.concat().iter().map(|point| place(row, rules, *point)));
        }
    }
    expected
}

/// Whether an argument by these rules may use integer registers alone.
fn integers_only(row: &Description, rules: Rules) -> bool {
    match row.variadic {
        Variadic::IntegersOnly => matches!(rules, Rules::Marked | Rules::MarkedVariadicArgument),
        Variadic::UnnamedIntegers | Variadic::UnnamedIntegersEven => {
            rules == Rules::VariadicArgument
        }
        Variadic::SameAsFixed | Variadic::AlwaysMemory | Variadic::BothBanks => false,
    }
}

/// Whether an argument by these rules finds both banks empty.
fn nothing_left(row: &Description, rules: Rules) -> bool {
    row.variadic == Variadic::AlwaysMemory && rules == Rules::VariadicArgument
}

/// The lines by which a scalar can be decided (REFERENCE 9.2, 9.4 and 9.5).
fn scalars(row: &Description, rules: Rules) -> Vec<Point> {
    let fields = row.scalars;
    let by_reference =
        (0..=LARGEST_SCALAR).any(|size| row.in_rust.scalar_returns_by_reference(size));
    let in_float = fields.wide_integer_returns_in.is_some();
    let integers_only = integers_only(row, rules);
    let (apart, all_or_none) = (!row.banks.shared, fields.wide_integer_is_all_or_nothing);
    let wide = fields.wide_integer_starts_even || fields.wide_integer_drains;
    let floats = apart && !integers_only;
    let falls = row.float_falls_to_integers;
    let lines: &[(&'static str, bool)] = match rules {
        Rules::Return => &[
            ("itself", true),
            ("in a float register", by_reference && in_float),
            ("by reference", by_reference),
        ],
        _ if nothing_left(row, rules) => &[("itself", true)],
        _ => &[
            ("line 1", fields.wide_is_by_reference),
            ("line 2", fields.in_memory.is_some()),
            ("line 3", fields.wide_integer_in_memory),
            ("line 4", integers_only),
            ("line 5", row.banks.shared),
            ("line 6", floats && (row.banks.float > 0 || !falls)),
            ("line 6, fallen", floats && falls),
            ("line 6, fallen, none left", floats && falls),
            ("line 7", floats && row.banks.float_width < LARGEST_SCALAR),
            ("line 8, all", apart && all_or_none),
            ("line 8, none", apart && all_or_none),
            ("line 9, all", apart && !all_or_none && wide),
            (
                "line 9, all from an even one",
                apart && !all_or_none && fields.wide_integer_starts_even,
            ),
            ("line 9, drains", apart && !all_or_none && fields.wide_integer_drains),
            ("line 9, none", apart && !all_or_none && wide && !fields.wide_integer_drains),
            ("line 10", apart && !all_or_none),
        ],
    };
    lines.iter().filter(|(_, applies)| *applies).map(|(line, _)| Point::Scalar(line)).collect()
}

/// What each rule can come to for an aggregate (REFERENCE 9.3 to 9.5).
fn aggregates(row: &Description, rules: Rules) -> Vec<Point> {
    let returns = rules == Rules::Return;
    let list = if returns { &row.returns } else { &row.arguments };
    let mut points = Vec::new();
    for (at, rule) in list.iter().enumerate() {
        let ends: &[End] = match rule.then {
            _ if returns => &[End::Decides],
            Travel::Ignore | Travel::InMemory | Travel::InMemoryAndSpend | Travel::ByReference => {
                &[End::Decides]
            }
            // The two tests of such rows find a float in all that they match.
            Travel::AsFound if integers_only(row, rules) => &[End::NoFloats],
            Travel::AsFound if row.banks.float == 0 => &[End::Short],
            _ if nothing_left(row, rules) => &[End::Short],
            _ if rule.short == Short::Split => &[End::Fits, End::Short, End::NoneLeft],
            _ => &[End::Fits, End::Short],
        };
        points.extend(ends.iter().map(|end| Point::Rule(at, *end)));
    }
    points
}

/// What can be behind a register that is passed over for an even start, and how it travels. It has two
/// words at most, so no aggregate goes by reference; and one that is ignored passes nothing over.
fn even_starts(row: &Description, rules: Rules) -> Vec<Point> {
    if row.variadic != Variadic::UnnamedIntegersEven || rules != Rules::VariadicArgument {
        return vec![];
    }
    let ways = [
        ("scalar", "direct"),
        ("scalar", "pieces"),
        ("aggregate", "pieces"),
        ("aggregate", "memory"),
    ];
    ways.map(|(of, way)| Point::EvenStart(of, way)).to_vec()
}

/// What can go to the stack, and how (REFERENCE 9.9).
fn stacked(row: &Description, rules: Rules) -> Vec<Point> {
    let lines = match rules {
        Rules::Return => stacked_returns(row),
        Rules::Argument => stacked_arguments(row, false),
        _ if nothing_left(row, rules) => stacked_arguments(row, true),
        // It goes there as any argument does.
        _ => vec![],
    };
    let applying = lines.iter().filter(|(_, _, applies)| *applies);
    applying.map(|(of, how, _)| Point::Stack(of, how)).collect()
}

/// What is of a value there, how, and whether a row can reach that.
type StackLines = Vec<(&'static str, &'static str, bool)>;

fn stacked_returns(row: &Description) -> StackLines {
    let dedicated = row.return_pointer == ReturnPointer::Dedicated;
    vec![
        ("pointer", "none", true),
        ("pointer", "in a register of its own", dedicated),
        ("pointer", "given", !dedicated && row.banks.integer > 0),
        ("pointer", "placed", !dedicated),
    ]
}

/// Those of a fixed argument, or of one after dots behind which all is in memory.
fn stacked_arguments(row: &Description, dots: bool) -> StackLines {
    let integers = row.banks.integer > 0 && !dots;
    let floats = row.banks.float > 0 && !dots;
    let packed = row.stack_args == StackArgs::Packed;
    let whole_words = !packed || dots;
    let wide_by_reference = row.scalars.wide_is_by_reference;
    let by_reference = wide_by_reference || has_rule(row, |rule| rule.then == Travel::ByReference);
    let in_slots = has_rule(row, is_in_slots);
    let short_in_slots = has_rule(row, |rule| is_in_slots(rule) && rule.short == Short::Unchanged);
    let splits = has_rule(row, |rule| rule.short == Short::Split);
    let in_memory = has_rule(row, may_be_in_memory);
    vec![
        ("nothing", "travels", true),
        ("pointer", "given", by_reference && integers),
        ("pointer", "placed", by_reference),
        ("pointer", MOVED_TO_WIDTH, by_reference && packed),
        ("scalar", "in a float register", floats),
        ("scalar", "given", integers),
        ("scalar", "without a byte", !wide_by_reference),
        ("scalar", "placed in part", integers && !row.banks.shared),
        ("scalar", "placed whole", true),
        ("scalar", "moved on to 16", true),
        ("scalar", "moved on to its size", packed),
        ("scalar", "moved on to 8", dots),
        ("scalar", "of a length rounded up", whole_words),
        ("scalar", "of a length as it is", !whole_words),
        ("aggregate", "given", in_slots && integers),
        ("aggregate", "in slots, placed whole", short_in_slots),
        ("aggregate", "in slots, placed in part", splits),
        ("aggregate", "in memory", in_memory),
        ("aggregate", "moved on to in_memory", in_memory || short_in_slots),
        ("aggregate", "moved on to in_memory, less than the width", packed && !dots),
        ("aggregate", "moved on to 8", dots),
        ("aggregate", "of a length rounded up", in_memory && whole_words),
        ("aggregate", "of a length as it is", in_memory && !whole_words),
    ]
}

fn has_rule(row: &Description, is_such: impl Fn(&Rule) -> bool) -> bool {
    row.arguments.iter().any(is_such)
}

fn is_in_slots(rule: &Rule) -> bool {
    matches!(rule.then, Travel::AsFound | Travel::AsIntegers | Travel::AsOneInteger)
}

/// Whether an argument is in memory by this rule, or for want of registers.
fn may_be_in_memory(rule: &Rule) -> bool {
    matches!(rule.then, Travel::InMemory | Travel::InMemoryAndSpend)
        || matches!(rule.short, Short::Memory | Short::MemoryAndDrain | Short::Split)
}
