//! `oracle generate`: random sheets that are good; damage.rs makes those that aren't.
//!
//! A good sheet never stops. Its calls follow a habit each, so that one runs a bank dry and
//! another meets a full one; some begin with a run-up to a few registers left, where the rules
//! part. Between their operations stand some that are refused. 50,000 operations are to decide by
//! every rule of every row (`oracle coverage`), so what only one test in many rows asks for, what
//! rows 30 to 32 have otherwise than row 5, and calls that are marked first, are given a share of their
//! own; and the shapes, many of which are drawn with a piece past them and would be refused, grow to
//! their pieces for the most part.

use std::io::{self, Write};

use crate::descriptions::{Description, OF_THE_RUST, Variadic};
use crate::numbers::{self, ROWS};
use crate::random::Random;
use crate::records::{self, ARGUMENT, FRESH, MARK, RETURN, Record, VARIADIC_ARGUMENT};
use crate::shapes::{self, shape_of};
use crate::values::{
    LARGEST_ALIGN, LARGEST_KIND, LARGEST_OFFSET, LARGEST_SCALAR, LARGEST_SHAPE, MOST_PIECES, Piece,
    Scalar, Shape, Value,
};

/// Writes a sheet of so many operations.
pub fn write(out: &mut impl Write, seed: u64, count: u64) -> io::Result<()> {
    let mut generator = Generator::new(seed);
    (0..count).try_for_each(|_| out.write_all(&records::bytes(&generator.operation())))
}

/// What the values of a call are, mostly.
#[derive(Debug, Clone, Copy)]
enum Habit {
    Anything,
    Integers,
    WideIntegers,
    Floats,
    Aggregates,
    /// What moves a stack's offset on by more than its bytes, where no register is left.
    Stacked,
    /// What splits, starts evenly or falls to integers, where few registers are left.
    Departures,
}

pub struct Generator {
    pub random: Random,
    /// Whether a call is open, so that an operation won't stop the sheet.
    pub open: bool,
    /// Whether the open call is to be marked next.
    mark: bool,
    /// Arguments that are still to lead the open call to few registers.
    run_up: Vec<Value>,
    /// How many more operations the open call gets then.
    more: u64,
    habit: Habit,
    /// Whether the dots or the mark change something on the row of the open call, so that more stands
    /// behind them.
    dots: bool,
}

impl Generator {
    pub fn new(seed: u64) -> Self {
        Self {
            random: Random::new(seed),
            open: false,
            mark: false,
            run_up: Vec::new(),
            more: 0,
            habit: Habit::Anything,
            dots: false,
        }
    }

    /// The records of the next operation, which the call that is open allows.
    pub fn operation(&mut self) -> Vec<Record> {
        let mut records = if !self.open {
            self.fresh()
        } else if self.mark {
            self.mark = false;
            vec![[MARK, 0, 0, 0, 0, 0]]
        } else if let Some(value) = self.run_up.pop() {
            records::of_value(ARGUMENT, &value)
        } else if self.more > 0 {
            self.more -= 1;
            self.within_call()
        } else {
            self.fresh()
        };
        if self.random.once_in(2) {
            self.fill_unread(&mut records);
        }
        records
    }

    /// A fresh call, or a refused one, which closes the call that was open.
    fn fresh(&mut self) -> Vec<Record> {
        let random = &mut self.random;
        self.open = !random.once_in(16);
        if !self.open {
            return vec![[FRESH, bad_description(random), 0, 0, 0, 0]];
        }
        let number = any_row(random);
        let row = numbers::row(number as usize);
        self.dots = !matches!(row.variadic, Variadic::SameAsFixed | Variadic::BothBanks);
        self.mark = random.once_in(4);
        self.more = random.pick(&[1, 2, 4, 8, 12, 20]);
        self.habit = random.pick(&[
            Habit::Anything,
            Habit::Anything,
            Habit::Integers,
            Habit::WideIntegers,
            Habit::Floats,
            Habit::Aggregates,
        ]);
        // Rows that have even starts have the other departures, too.
        if row.variadic == Variadic::UnnamedIntegersEven && random.once_in(2) {
            self.run_up = run_up(random, row, &[0, 1, 1, 3, 5, 7], &[0, ALL, ALL]);
            self.habit = Habit::Departures;
        } else if random.once_in(16) {
            self.run_up = run_up(random, row, &[0], &[0]);
            self.habit = Habit::Stacked;
        } else if random.once_in(3) {
            self.run_up = run_up(random, row, &[0, 1, 1, 2, 3, ALL], &[0, 1, 1, 2, 3, ALL]);
            self.habit = random.pick(&[Habit::WideIntegers, Habit::Aggregates, Habit::Aggregates]);
        }
        vec![[FRESH, number, 0, 0, 0, 0]]
    }

    /// An operation on the open call: an argument mostly; marks and returns come late and twice.
    fn within_call(&mut self) -> Vec<Record> {
        let operation = match self.random.between(0, 31) {
            0 | 1 => return vec![[MARK, 0, 0, 0, 0, 0]],
            2..=9 => RETURN,
            10..=14 => VARIADIC_ARGUMENT,
            15..=20 if self.dots => VARIADIC_ARGUMENT,
            _ => ARGUMENT,
        };
        let value = match self.random.between(0, 63) {
            0 | 1 => Value::Void,
            2..=5 => self.refused_value(),
            _ => self.value(),
        };
        records::of_value(operation, &value)
    }

    /// A value inside the domain, by the call's habit or against it. Some aggregates among them are
    /// refused all the same, for a piece past them.
    pub fn value(&mut self) -> Value {
        let random = &mut self.random;
        let habit = if random.once_in(4) { Habit::Anything } else { self.habit };
        match habit {
            Habit::Integers => natural(0, random.pick(&[1, 2, 4, 4, 8, 8])),
            Habit::WideIntegers => natural(0, random.pick(&[4, 8, 9, 16, 16, 16, 17, 24])),
            Habit::Floats => {
                let (kind, size) =
                    random.pick(&[(1, 4), (2, 8), (2, 8), (3, 12), (3, 16), (4, 16)]);
                natural(kind, size)
            }
            Habit::Stacked => stacked(random),
            Habit::Departures => departing(random),
            Habit::Anything if random.once_in(2) => Value::Scalar(any_scalar(random)),
            Habit::Anything | Habit::Aggregates => Value::Aggregate(any_shape(random)),
        }
    }

    /// A value that is refused: numbers of it are past their limits, or a piece past the shape, or
    /// both, in either order, for it is always the numbers that decide then.
    pub fn refused_value(&mut self) -> Value {
        let random = &mut self.random;
        if random.once_in(3) {
            let mut scalar = any_scalar(random);
            spoil_scalar(random, &mut scalar);
            return Value::Scalar(scalar);
        }
        let mut shape = shapes::shape(random);
        let wrong = if shape.pieces.is_empty() { 0 } else { random.between(1, 3) };
        if wrong & 1 != 0 {
            move_past(random, &mut shape);
        }
        if wrong & 2 != 0 {
            for _ in 0..random.between(1, 2) {
                let at = any_place(random, &shape);
                spoil_piece(random, &mut shape.pieces[at]);
            }
        }
        if wrong == 0 || random.once_in(4) {
            spoil_whole(random, &mut shape);
        }
        Value::Aggregate(shape)
    }

    /// Fills the words that nobody may read.
    fn fill_unread(&mut self, records: &mut [Record]) {
        for record in records {
            for at in records::first_unread(record)..record.len() {
                record[at] = self.random.word();
            }
        }
    }
}

/// A row: any, but the first six and the last three more often.
fn any_row(random: &mut Random) -> u64 {
    let last = ROWS as u64 - 1;
    match random.between(0, 11) {
        0..=2 => random.between(0, 5),
        3 => random.between(OF_THE_RUST as u64, last),
        _ => random.between(0, last),
    }
}

/// As many registers left as there are.
const ALL: u32 = u32::MAX;

/// Arguments, in any order, that leave one of these numbers of integers and one of these of floats.
/// Each row that has float registers holds a Single in one, and not each a Double.
fn run_up(random: &mut Random, row: &Description, integers: &[u32], floats: &[u32]) -> Vec<Value> {
    let banks = [(row.banks.integer, integers, 0), (row.banks.float, floats, 1)];
    let mut run_up = Vec::new();
    for (all, lefts, kind) in banks {
        let (left, value) = (random.pick(lefts).min(all), natural(kind, 4));
        run_up.extend((left..all).map(|_| value.clone()));
    }
    for at in 1..run_up.len() {
        let other = random.between(0, at as u64) as usize;
        run_up.swap(at, other);
    }
    run_up
}

/// Sizes and alignments that no start is a multiple of for long, and scalars without a byte.
fn stacked(random: &mut Random) -> Value {
    let align = random.pick(&[1, 4, 8, 12, 16, 20]);
    match random.between(0, 3) {
        0 | 1 => {
            let size = random.pick(&[0, 1, 1, 8, 12, 16]);
            Value::Scalar(Scalar { kind: random.between(0, LARGEST_KIND), size, align })
        }
        2 => Value::Aggregate(shape_of(random.pick(&[1, 2, 4, 8, 13, 24]), align, vec![])),
        _ => Value::Aggregate(complex_of_singles()),
    }
}

/// What departs from row 5 if few registers are left: values that are aligned to two words, or to more
/// or less, shapes that take two words, and floats of no size, which alone are no wider than a float
/// register of LP64.
fn departing(random: &mut Random) -> Value {
    let align = random.pick(&[8, 16, 16, 32]);
    let scalar = |kind, size| Value::Scalar(Scalar { kind, size, align });
    match random.between(0, 7) {
        0 => scalar(0, random.pick(&[0, 1, 8, 16, 16, 17])),
        1 => scalar(random.between(1, LARGEST_KIND), random.pick(&[0, 4, 8, 16, 16, 17])),
        2 => natural(1, 4),
        3 => natural(1, 0),
        4..=6 => Value::Aggregate(two_words(random, align)),
        _ => Value::Aggregate(beside_a_float_of_no_size(random, align)),
    }
}

/// A shape of two words, now and then of none, one or three, with integers in it or nothing.
fn two_words(random: &mut Random, align: u64) -> Shape {
    let size = if random.once_in(8) { random.pick(&[0, 8, 17]) } else { random.between(9, 16) };
    let words = if random.once_in(2) { 0 } else { size / 8 };
    let integer = |at| Piece { scalar: Scalar { kind: 0, size: 8, align: 8 }, offset: 8 * at };
    shape_of(size, align, (0..words).map(integer).collect())
}

/// A shape of up to two words with a float in it that has no size, and perhaps an integer before that.
fn beside_a_float_of_no_size(random: &mut Random, align: u64) -> Shape {
    let size = random.between(1, 16);
    let piece = |kind, size, offset| Piece { scalar: Scalar { kind, size, align: 1 }, offset };
    let mut pieces = vec![piece(random.between(1, LARGEST_KIND), 0, size)];
    if random.once_in(2) {
        pieces.insert(0, piece(0, size.min(8), 0));
    }
    shape_of(size, align, pieces)
}

/// A scalar aligned to its size.
fn natural(kind: u64, size: u64) -> Value {
    Value::Scalar(Scalar { kind, size, align: size })
}

fn any_scalar(random: &mut Random) -> Scalar {
    let size = shapes::scalar_size(random);
    Scalar { kind: random.between(0, LARGEST_KIND), size, align: shapes::align(random) }
}

/// A shape; now and then a complex of Singles, one integer of at most a word, or as many pieces as a
/// list may have.
fn any_shape(random: &mut Random) -> Shape {
    match random.between(0, 15) {
        0 => return complex_of_singles(),
        1 => return up_to_a_word(random),
        _ => {}
    }
    let mut shape = shapes::shape(random);
    if random.once_in(500) {
        let scalar = any_scalar(random);
        shape.pieces.resize(MOST_PIECES as usize, Piece { scalar, offset: 8 });
    }
    grow(random, &mut shape);
    shape
}

/// No record lays its members out so far.
const FAR: u64 = 65_536;

/// Has a shape grow to its furthest piece, so that it isn't refused; one in eight stays as drawn.
/// With a piece far out it is one in eight that grows: the Rust cuts large shapes into millions of
/// slots.
fn grow(random: &mut Random, shape: &mut Shape) {
    let ends = shape.pieces.iter().map(|piece| piece.offset + piece.scalar.size);
    let furthest = ends.max().unwrap_or(0);
    if random.once_in(8) == (furthest > FAR) {
        // Behind the last offsets no shape is large enough, and the piece stays past it.
        shape.size = shape.size.max(furthest).min(LARGEST_SHAPE);
    }
}

/// An integer that fills a shape of at most four bytes: more than that regparm(1) has no room for.
fn up_to_a_word(random: &mut Random) -> Shape {
    let size = random.between(0, 4);
    let piece = Piece { scalar: Scalar { kind: 0, size, align: 1 }, offset: 0 };
    shape_of(size, 1, vec![piece])
}

fn complex_of_singles() -> Shape {
    let scalar = Scalar { kind: 1, size: 4, align: 4 };
    let pieces = vec![Piece { scalar, offset: 0 }, Piece { scalar, offset: 4 }];
    Shape { size: 8, align: 4, complex: true, floating: true, pieces }
}

/// A number past a limit: the next one, one that a narrower type would take for a small one, or
/// any.
pub fn past(random: &mut Random, limit: u64) -> u64 {
    match random.between(0, 5) {
        0..=2 => limit + 1,
        3 => (1 << 32) + random.between(0, limit),
        4 => u64::MAX - random.between(0, 8),
        _ => (limit + 1).saturating_add(random.word() >> random.between(0, 63)),
    }
}

pub fn bad_description(random: &mut Random) -> u64 {
    // 33 is the first that there isn't, for the two rows of wasm have no number; 256 would be row 0 in
    // a byte.
    if random.once_in(2) { random.pick(&[33, 34, 35, 256]) } else { past(random, ROWS as u64 - 1) }
}

fn bad_kind(random: &mut Random) -> u64 {
    if random.once_in(2) { random.pick(&[5, 6, 255, 256]) } else { past(random, LARGEST_KIND) }
}

/// Any of the seven ways to be wrong in kind, size and alignment.
fn spoil_scalar(random: &mut Random, scalar: &mut Scalar) {
    let wrong = random.between(1, 7);
    if wrong & 1 != 0 {
        scalar.kind = bad_kind(random);
    }
    if wrong & 2 != 0 {
        scalar.size = past(random, LARGEST_SCALAR);
    }
    if wrong & 4 != 0 {
        scalar.align = past(random, LARGEST_ALIGN);
    }
}

fn spoil_piece(random: &mut Random, piece: &mut Piece) {
    let offset_too = random.once_in(2);
    if offset_too {
        piece.offset = past(random, LARGEST_OFFSET);
    }
    if !offset_too || random.once_in(2) {
        spoil_scalar(random, &mut piece.scalar);
    }
}

/// Moves a piece to where it ends past the shape, by one byte as often as not.
fn move_past(random: &mut Random, shape: &mut Shape) {
    let by = if random.once_in(2) { 1 } else { random.between(1, LARGEST_SCALAR) };
    let at = any_place(random, shape);
    let piece = &mut shape.pieces[at];
    // One that is larger still is past the shape wherever it stands.
    piece.offset = (shape.size + by).saturating_sub(piece.scalar.size);
}

/// The place of a piece, of which the shape has one.
fn any_place(random: &mut Random, shape: &Shape) -> usize {
    random.between(0, shape.pieces.len() as u64 - 1) as usize
}

fn spoil_whole(random: &mut Random, shape: &mut Shape) {
    let wrong = random.between(1, 3);
    if wrong & 1 != 0 {
        shape.size = past(random, LARGEST_SHAPE);
    }
    if wrong & 2 != 0 {
        shape.align = past(random, LARGEST_ALIGN);
    }
}
