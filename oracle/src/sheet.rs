//! `oracle sheet`: reads a sheet and prints its lines (REFERENCE 11).
//!
//! Ways, slots and counts left come from the Rust (asking.rs). Refusals, stops, what of it is passed
//! over and what given, and where on the stack the rest stands come from the rules; where they and the
//! Rust can't both be right, the run ends.

use std::fmt;
use std::io::{self, Write};

use rucc_abi::{Call, Pass};

use crate::agreement;
use crate::asking::{self, Answer};
use crate::numbers;
use crate::records::{
    self, AGGREGATE, ARGUMENT, BYTES, FRESH, MARK, PIECE, RETURN, Record, SCALAR,
    VARIADIC_ARGUMENT, VOID,
};
use crate::refusals;
use crate::spending::{self, Before, Outcome, Points, Spent};
use crate::stack::{self, Stack, Stacked};
use crate::values::{MOST_PIECES, Piece, Scalar, Shape, Value};

/// Prints a line for each operation of the sheet. The inner error tells of a contradiction.
pub fn print(out: &mut impl Write, sheet: &[u8]) -> io::Result<Result<(), String>> {
    match follow(sheet, |line, _| writeln!(out, "{line}"))? {
        Ending::End => Ok(Ok(())),
        Ending::Stop => writeln!(out, "stop").map(Ok),
        Ending::Contradiction(message) => Ok(Err(message)),
    }
}

/// Hands over the line of each operation and where it was decided, and says how the sheet ended.
pub fn follow(
    sheet: &[u8],
    mut each: impl FnMut(&Line, &Decided) -> io::Result<()>,
) -> io::Result<Ending> {
    let mut reader = Reader { rest: sheet };
    let mut open = None;
    loop {
        match reader.operation().and_then(|operation| perform(&mut open, operation)) {
            Ok((line, decided)) => each(&line, &decided)?,
            Err(ending) => return Ok(ending),
        }
    }
}

/// Where an operation was decided: of which call, by which operation's rules, at which points.
pub struct Decided {
    pub row: Option<usize>,
    pub asked: Asked,
    pub integers_only: bool,
    pub points: Points,
}

/// Which rules an operation goes by. A refused one goes by none.
#[derive(Debug, Clone, Copy, PartialEq, Eq, Hash)]
pub enum Asked {
    Fresh,
    Mark,
    Return,
    Argument,
    VariadicArgument,
    Nothing,
}

/// Why no line follows.
pub enum Ending {
    /// The sheet ends after a whole operation.
    End,
    /// The sheet can't be read on.
    Stop,
    /// The Rust and the rules can't both be right.
    Contradiction(String),
}

/// The word of a refused operation's line.
pub const REFUSED: &str = "refused";

#[derive(Debug)]
enum Operation {
    Fresh(u64),
    Mark,
    Return(Value),
    Argument(Value),
    VariadicArgument(Value),
}

struct Reader<'a> {
    rest: &'a [u8],
}

impl Reader<'_> {
    /// The next operation, its pieces read whole before anything is checked.
    fn operation(&mut self) -> Result<Operation, Ending> {
        if self.rest.is_empty() {
            return Err(Ending::End);
        }
        let record = self.record()?;
        match record[0] {
            FRESH => Ok(Operation::Fresh(record[1])),
            MARK => Ok(Operation::Mark),
            RETURN => Ok(Operation::Return(self.value(record)?)),
            ARGUMENT => Ok(Operation::Argument(self.value(record)?)),
            VARIADIC_ARGUMENT => Ok(Operation::VariadicArgument(self.value(record)?)),
            // A piece that belongs to no aggregate, or a word that nobody knows.
            _ => Err(Ending::Stop),
        }
    }

    fn value(&mut self, record: Record) -> Result<Value, Ending> {
        let [_, what, rest @ ..] = record;
        match what {
            VOID => Ok(Value::Void),
            SCALAR => Ok(Value::Scalar(Scalar { kind: rest[0], size: rest[1], align: rest[2] })),
            AGGREGATE => Ok(Value::Aggregate(self.aggregate(rest)?)),
            _ => Err(Ending::Stop),
        }
    }

    fn aggregate(&mut self, words: [u64; 4]) -> Result<Shape, Ending> {
        let [size, align, flags, count] = words;
        if flags > 3 || count > MOST_PIECES {
            return Err(Ending::Stop);
        }
        let mut pieces = Vec::new();
        for _ in 0..count {
            let [first, kind, size, align, offset, _] = self.record()?;
            if first != PIECE {
                return Err(Ending::Stop);
            }
            pieces.push(Piece { scalar: Scalar { kind, size, align }, offset });
        }
        Ok(Shape { size, align, complex: flags % 2 == 1, floating: flags >= 2, pieces })
    }

    /// The next record, which has to be whole.
    fn record(&mut self) -> Result<Record, Ending> {
        let (record, rest) = self.rest.split_first_chunk::<BYTES>().ok_or(Ending::Stop)?;
        self.rest = rest;
        Ok(records::from_bytes(record))
    }
}

/// An open call: the Rust's, the number of its row, its mark, which the Rust doesn't show, and its
/// next stack offset, which the Rust doesn't have.
struct Open {
    call: Call,
    row: usize,
    integers_only: bool,
    offset: u64,
}

/// What a line says: what happened, the counts left, what was spent, the slots or a refusal, and the
/// stack offset before and after.
pub struct Line {
    pub word: &'static str,
    left: [u64; 2],
    integers: Spent,
    floats: Spent,
    /// The slots, or the refusal's number.
    pub rest: Vec<String>,
    offsets: [u64; 2],
}

impl fmt::Display for Line {
    fn fmt(&self, out: &mut fmt::Formatter<'_>) -> fmt::Result {
        let Self { word, left, integers, floats, rest, offsets } = self;
        write!(out, "{word} {} {}", left[0], left[1])?;
        for spent in [integers, floats] {
            write!(out, " {} {}", spent.passed_over, spent.given)?;
        }
        rest.iter().try_for_each(|word| write!(out, " {word}"))?;
        write!(out, " {} {}", offsets[0], offsets[1])
    }
}

fn perform(open: &mut Option<Open>, operation: Operation) -> Result<(Line, Decided), Ending> {
    if let Operation::Fresh(description) = operation {
        *open = None;
        let decided = |row, asked| Decided { row, asked, integers_only: false, points: vec![] };
        if let Some(refusal) = refusals::of_fresh(description) {
            return Ok((refused([0, 0], 0, refusal), decided(None, Asked::Nothing)));
        }
        let row = description as usize;
        let call = open.insert(Open::new(row));
        return Ok((call.unspent("fresh"), decided(Some(row), Asked::Fresh)));
    }
    let call = open.as_mut().ok_or(Ending::Stop)?;
    let (row, integers_only) = (Some(call.row), call.integers_only);
    let mut points = Points::new();
    let (asked, line) = match &operation {
        Operation::Fresh(_) => unreachable!("it was performed above"),
        Operation::Mark => (Asked::Mark, call.mark()?),
        Operation::Return(value) => (Asked::Return, call.place(Asked::Return, value, &mut points)?),
        Operation::Argument(value) => {
            (Asked::Argument, call.place(Asked::Argument, value, &mut points)?)
        }
        Operation::VariadicArgument(value) => {
            (Asked::VariadicArgument, call.place(Asked::VariadicArgument, value, &mut points)?)
        }
    };
    let asked = if line.word == REFUSED { Asked::Nothing } else { asked };
    Ok((line, Decided { row, asked, integers_only, points }))
}

impl Open {
    fn new(row: usize) -> Self {
        Self { call: numbers::row(row).call(), row, integers_only: false, offset: 0 }
    }

    fn left(&self) -> [u64; 2] {
        asking::left(&self.call)
    }

    fn before(&self) -> Before {
        let [integers, floats] = self.left();
        Before { row: self.row, integers, floats, integers_only: self.integers_only }
    }

    fn mark(&mut self) -> Result<Line, Ending> {
        if let Some(refusal) = stack::of_offset(self.offset) {
            return Ok(self.refused(refusal));
        }
        let before = self.before();
        self.call = self.call.clone().variadic();
        self.integers_only = spending::marked(before);
        if self.left() != [before.integers, before.floats] {
            return Err(Ending::Contradiction(format!("a mark changed {before:?}")));
        }
        Ok(self.unspent("marked"))
    }

    /// A return, an argument or one after the dots.
    fn place(&mut self, asked: Asked, value: &Value, points: &mut Points) -> Result<Line, Ending> {
        let refusal = stack::of_offset(self.offset).or_else(|| refusals::of_value(value));
        if let Some(refusal) = refusal {
            return Ok(self.refused(refusal));
        }
        let was = self.call.clone();
        let (pass, outcome) = self.travel(asked, value, points)?;
        match self.stack(asked, value, &pass, outcome, points)? {
            Ok(Stacked { next, .. }) => {
                let offsets = [self.offset, next];
                self.offset = next;
                Ok(placed(&pass, self.left(), outcome, offsets))
            }
            // It leaves the call, of which the Rust has spent by now, and goes by no rule.
            Err(refusal) => {
                self.call = was;
                points.clear();
                Ok(self.refused(refusal))
            }
        }
    }

    /// How the value travels and what it spends, by the Rust and by the rules.
    fn travel(
        &mut self,
        asked: Asked,
        value: &Value,
        points: &mut Points,
    ) -> Result<(Pass, Outcome), Ending> {
        let before = self.before();
        let answer = asking::ask(numbers::row(self.row), &mut self.call, asked, value);
        let outcome = match asked {
            Asked::Return => spending::returned(before, value, points),
            Asked::VariadicArgument => spending::variadic_argument(before, value, points),
            _ => spending::argument(before, value, points),
        };
        let (left, Answer { pass, even_start }) = (self.left(), answer);
        if !agreement::on_registers(before, &pass, left, outcome)
            || !agreement::on_even_start(before, even_start, outcome)
        {
            return Err(Ending::Contradiction(format!(
                "on {asked:?} {value:?} of {before:?}\nthe Rust: {pass:?}, left {left:?}, even start {even_start}\nthe rules: {outcome:?}"
            )));
        }
        Ok((pass, outcome))
    }

    /// Where the rules have what isn't in registers, or their refusal where the stack has no room.
    fn stack(
        &self,
        asked: Asked,
        value: &Value,
        pass: &Pass,
        outcome: Outcome,
        points: &mut Points,
    ) -> Result<Result<Stacked, u64>, Ending> {
        let stack = Stack { row: self.row, offset: self.offset };
        let stacked = match asked {
            Asked::Return => stack::returned(stack, outcome, points),
            Asked::VariadicArgument => stack::variadic_argument(stack, value, outcome, points),
            _ => stack::argument(stack, value, outcome, points),
        };
        let left = self.left();
        let agreed = |stacked: &Stacked| {
            agreement::on_the_stack(stack, asked, value, pass, outcome, *stacked)
                && agreement::on_the_order(stack, left, outcome, *stacked)
        };
        if !stacked.iter().all(agreed) {
            return Err(Ending::Contradiction(format!(
                "on {asked:?} {value:?} of {stack:?}\nthe Rust: {pass:?}, left {left:?}\nthe rules: {outcome:?}, {stacked:?}"
            )));
        }
        Ok(stacked)
    }

    fn unspent(&self, word: &'static str) -> Line {
        unspent(word, self.left(), self.offset)
    }

    fn refused(&self, refusal: u64) -> Line {
        refused(self.left(), self.offset, refusal)
    }
}

fn placed(pass: &Pass, left: [u64; 2], outcome: Outcome, offsets: [u64; 2]) -> Line {
    let rest = match pass {
        Pass::Pieces(slots) => slots.iter().map(numbers::slot).collect(),
        _ => Vec::new(),
    };
    let Outcome { integers, floats, .. } = outcome;
    Line { word: numbers::way(pass), left, integers, floats, rest, offsets }
}

fn unspent(word: &'static str, left: [u64; 2], offset: u64) -> Line {
    let spent = Spent::default();
    Line { word, left, integers: spent, floats: spent, rest: vec![], offsets: [offset; 2] }
}

fn refused(left: [u64; 2], offset: u64, refusal: u64) -> Line {
    Line { rest: vec![refusal.to_string()], ..unspent(REFUSED, left, offset) }
}

#[cfg(test)]
mod tests {
    use super::*;

    /// A call on this row that so many integers went before, with any offset.
    fn open(row: usize, integers: u64, offset: u64) -> Open {
        let mut call = Open::new(row);
        for _ in 0..integers {
            line(&mut call, Asked::Argument, &integer(4));
        }
        Open { offset, ..call }
    }

    fn line(call: &mut Open, asked: Asked, value: &Value) -> String {
        let line = match asked {
            Asked::Mark => call.mark(),
            _ => call.place(asked, value, &mut Points::new()),
        };
        line.unwrap_or_else(|_| panic!("the Rust and the rules say the same")).to_string()
    }

    fn integer(size: u64) -> Value {
        Value::Scalar(Scalar { kind: 0, size, align: size })
    }

    fn aggregate(size: u64) -> Value {
        let pieces = Vec::new();
        Value::Aggregate(Shape { size, align: 1, complex: false, floating: false, pieces })
    }

    #[test]
    fn an_offset_that_can_not_be_is_refused_first() {
        for offset in [stack::MOST_STACK + 1, u64::MAX] {
            for asked in [Asked::Mark, Asked::Return, Asked::Argument, Asked::VariadicArgument] {
                // The last would be refused for its size.
                for value in [Value::Void, aggregate(8), aggregate(u64::MAX)] {
                    let mut call = open(3, 1, offset);
                    let expected = format!("refused 7 8 0 0 0 0 2 {offset} {offset}");
                    assert_eq!(line(&mut call, asked, &value), expected);
                    assert!(!call.integers_only);
                }
            }
        }
    }

    /// Each of them would be given registers or pass them over. The next value still finds them.
    #[test]
    fn what_has_no_room_spends_nothing() {
        let wide_float = Value::Scalar(Scalar { kind: 4, size: 64, align: 8 });
        let most = stack::MOST_STACK;
        let cases = [
            (0, 0, "6 8", &wide_float),
            (1, 7, "1 8", &integer(16)),
            (1, 7, "1 8", &aggregate(16)),
            (2, 1, "7 8", &wide_float),
            (5, 7, "1 8", &integer(16)),
            (9, 1, "2 0", &aggregate(12)),
            (22, 0, "2 0", &integer(8)),
            (22, 0, "2 0", &aggregate(6)),
            (30, 7, "1 0", &integer(16)),
            (31, 7, "1 8", &aggregate(16)),
            (32, 7, "1 8", &aggregate(9)),
        ];
        for (row, integers, left, value) in cases {
            let mut call = open(row, integers, most);
            for asked in [Asked::Argument, Asked::VariadicArgument] {
                let expected = format!("refused {left} 0 0 0 0 7 {most} {most}");
                assert_eq!(line(&mut call, asked, value), expected, "row {row}");
            }
            let next = line(&mut call, Asked::Argument, &integer(4));
            assert!(next.ends_with(&format!(" 0 1 0 0 {most} {most}")), "row {row}: {next}");
        }
    }

    /// Nothing was decided, so nothing is covered.
    #[test]
    fn what_has_no_room_has_no_points() {
        let mut points = Points::new();
        let mut call = open(0, 6, stack::MOST_STACK);
        assert!(call.place(Asked::Argument, &integer(8), &mut points).is_ok());
        assert!(points.is_empty());
        assert!(call.place(Asked::Argument, &Value::Void, &mut points).is_ok());
        assert!(!points.is_empty());
    }
}
