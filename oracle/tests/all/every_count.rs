//! The Rust and the rules agree at every count left, which random sheets may not reach.

use oracle::numbers;
use oracle::random::Random;
use oracle::records::{self, Record};
use oracle::refusals;
use oracle::shapes;
use oracle::values::{Scalar, Shape, Value};

use crate::common;

/// Asks all these values, as a return, an argument and after the dots, of calls on this row with
/// every count left, marked and not.
fn ask_everywhere(row: usize, values: &[Value]) {
    let banks = numbers::row(row).banks;
    for integers in 0..=banks.integer as usize {
        for floats in 0..=banks.float as usize {
            for marks in 0..=usize::from(row == 3) {
                let mut start: Vec<Record> = vec![common::record(&[0, row as u64])];
                start.extend(vec![common::record(&[3, 1, 0, 4, 4]); integers]);
                start.extend(vec![common::record(&[3, 1, 1, 4, 4]); floats]);
                start.extend(vec![common::record(&[1]); marks]);
                ask(&start, values);
            }
        }
    }
}

fn ask(start: &[Record], values: &[Value]) {
    let mut sheet = Vec::new();
    for value in values {
        for operation in records::RETURN..=records::VARIADIC_ARGUMENT {
            sheet.extend(start);
            sheet.extend(records::of_value(operation, value));
        }
    }
    // It fails where the two contradict each other.
    assert!(!common::printed(&records::bytes(&sheet)).contains("stop"));
}

#[test]
fn every_scalar_at_every_count() {
    let mut values = vec![Value::Void];
    for kind in 0..=4 {
        for size in 0..=64 {
            values.push(Value::Scalar(Scalar { kind, size, align: size }));
        }
    }
    for row in 0..numbers::ROWS {
        ask_everywhere(row, &values);
    }
}

/// Row 5 has no even start, the others behind it have: an alignment of two words counts there.
#[test]
fn every_alignment_at_every_count() {
    let mut values = Vec::new();
    for align in [0, 1, 8, 15, 16, 17, 32] {
        for size in 0..=24 {
            values.extend([0, 1, 4].map(|kind| Value::Scalar(Scalar { kind, size, align })));
            let pieces = Vec::new();
            let shape = Shape { size, align, complex: false, floating: false, pieces };
            values.push(Value::Aggregate(shape));
        }
    }
    for row in [5, 30, 31, 32] {
        ask_everywhere(row, &values);
    }
}

#[test]
fn shapes_at_every_count() {
    for row in 0..numbers::ROWS {
        let mut random = Random::new(row as u64);
        // The Rust is asked about none that is refused.
        let values: Vec<Value> = (0..480)
            .map(|_| shapes::shape(&mut random))
            .filter(|shape| shape.size < 10_000 && refusals::of_shape(shape).is_none())
            .map(Value::Aggregate)
            .collect();
        ask_everywhere(row, &values);
    }
}
