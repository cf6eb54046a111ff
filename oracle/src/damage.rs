//! `oracle generate`, damaged: good operations, one thing that stops the sheet, and more good
//! operations, of which nothing may be read.

use std::io::{self, Write};

use crate::generate::{Generator, bad_description, past};
use crate::numbers::ROWS;
use crate::random::Random;
use crate::records::{
    self, AGGREGATE, ARGUMENT, FRESH, MARK, PIECE, RETURN, Record, SCALAR, VARIADIC_ARGUMENT,
};
use crate::values::{MOST_PIECES, Value};

/// Writes a sheet of so many operations, which stops before it has had them all.
pub fn write(out: &mut impl Write, seed: u64, count: u64) -> io::Result<()> {
    out.write_all(&sheet(&mut Generator::new(seed), count))
}

/// A sheet of so many operations, the damage standing in the place of one of them.
fn sheet(generator: &mut Generator, count: u64) -> Vec<u8> {
    let before = generator.random.between(0, count.saturating_sub(1));
    let mut sheet = Vec::new();
    for _ in 0..before {
        sheet.extend(records::bytes(&generator.operation()));
    }
    if generator.random.once_in(8) {
        return cut_off(generator, sheet);
    }
    sheet.extend(records::bytes(&damage(generator)));
    for _ in before + 1..count {
        sheet.extend(records::bytes(&generator.operation()));
    }
    sheet
}

/// The sheet and one more operation, of which the end is missing: bytes or whole pieces.
fn cut_off(generator: &mut Generator, mut sheet: Vec<u8>) -> Vec<u8> {
    let operation = records::bytes(&generator.operation());
    let there = generator.random.between(1, operation.len() as u64 - 1) as usize;
    sheet.extend(&operation[..there]);
    sheet
}

/// Records that no sheet reads past.
fn damage(generator: &mut Generator) -> Vec<Record> {
    match generator.random.between(0, 6) {
        0 => vec![piece(&mut generator.random)],
        1 => one_piece_more(generator),
        2 => missing_piece(generator),
        3 => unknown_word(&mut generator.random),
        4 => unknown_flags(generator),
        5 => too_many_pieces(generator),
        _ => no_open_call(generator),
    }
}

/// A piece that stands anywhere.
fn piece(random: &mut Random) -> Record {
    [PIECE, random.between(0, 4), random.between(0, 16), 8, 8 * random.between(0, 3), 0]
}

/// A fresh call on any description.
fn fresh(random: &mut Random) -> Record {
    [FRESH, random.between(0, ROWS as u64 - 1), 0, 0, 0, 0]
}

/// An operation on an aggregate, with a fresh call before it where none is open.
fn aggregate(generator: &mut Generator) -> Vec<Record> {
    let mut records = Vec::new();
    if !generator.open {
        records.push(fresh(&mut generator.random));
    }
    let operation = generator.random.between(RETURN, VARIADIC_ARGUMENT);
    loop {
        // A shape that would be refused stops as well.
        let value =
            if generator.random.once_in(4) { generator.refused_value() } else { generator.value() };
        if matches!(&value, Value::Aggregate(shape) if !shape.pieces.is_empty()) {
            records.extend(records::of_value(operation, &value));
            return records;
        }
    }
}

/// Where the aggregate's own record stands among those of [`aggregate`].
fn head(records: &mut [Record]) -> &mut Record {
    let is_head =
        |record: &&mut Record| matches!(record[..2], [RETURN..=VARIADIC_ARGUMENT, AGGREGATE]);
    records.iter_mut().find(is_head).expect("an aggregate has a record of its own")
}

/// An aggregate whose list goes on behind its last piece.
fn one_piece_more(generator: &mut Generator) -> Vec<Record> {
    let mut records = aggregate(generator);
    records.push(piece(&mut generator.random));
    records
}

/// An aggregate that lacks its last pieces, an operation standing in their place.
fn missing_piece(generator: &mut Generator) -> Vec<Record> {
    let mut records = aggregate(generator);
    let pieces = head(&mut records)[5];
    let missing = generator.random.between(1, pieces) as usize;
    records.truncate(records.len() - missing);
    let fresh = fresh(&mut generator.random);
    records.push(generator.random.pick(&[fresh, [MARK, 0, 0, 0, 0, 0], [ARGUMENT, 0, 0, 0, 0, 0]]));
    records
}

/// A first word above those of the records, or a second one above those of the values.
fn unknown_word(random: &mut Random) -> Vec<Record> {
    let rest = [random.between(0, 4), 8, 8, 0];
    let [a, b, c, d] = rest;
    if random.once_in(2) {
        return vec![[past(random, PIECE), SCALAR, a, b, c, d]];
    }
    let operation = random.between(RETURN, VARIADIC_ARGUMENT);
    vec![fresh(random), [operation, past(random, AGGREGATE), a, b, c, d]]
}

/// An aggregate with a flag that nobody knows.
fn unknown_flags(generator: &mut Generator) -> Vec<Record> {
    let mut records = aggregate(generator);
    head(&mut records)[4] = past(&mut generator.random, 3);
    records
}

/// An aggregate of more pieces than a list may have, all of them there if they are one too many.
fn too_many_pieces(generator: &mut Generator) -> Vec<Record> {
    let mut records = aggregate(generator);
    let there = head(&mut records)[5];
    let count = past(&mut generator.random, MOST_PIECES);
    head(&mut records)[5] = count;
    if count == MOST_PIECES + 1 {
        let piece = piece(&mut generator.random);
        records.extend((there..count).map(|_| piece));
    }
    records
}

/// An operation after a refused fresh call, or before any.
fn no_open_call(generator: &mut Generator) -> Vec<Record> {
    let mut records = Vec::new();
    if generator.open || generator.random.once_in(2) {
        records.push([FRESH, bad_description(&mut generator.random), 0, 0, 0, 0]);
    }
    match generator.random.between(MARK, VARIADIC_ARGUMENT) {
        MARK => records.push([MARK, 0, 0, 0, 0, 0]),
        operation => records.extend(records::of_value(operation, &generator.value())),
    }
    records
}
