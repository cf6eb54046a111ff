//! `oracle find`: what each test that looks inside a shape finds there (REFERENCE 7 and 8).
//!
//! The Rust keeps its tests to itself, so each is asked through a description made for it alone: a
//! return travels as found, or by reference where the test finds nothing.

use std::io::{self, Write};

use rucc_abi::{AbiDescription, Banks, Pass, Rule, Slot, Test, Travel};

use crate::numbers;
use crate::random::Random;
use crate::shapes;
use crate::values::{Shape, ask_shape};

pub fn print(out: &mut impl Write, seed: u64, count: u64) -> io::Result<()> {
    let questions = questions();
    let mut random = Random::new(seed);
    for _ in 0..count {
        let shape = shapes::shape(&mut random);
        print_shape(out, &shape)?;
        for (name, probe) in &questions {
            writeln!(out, "{name} {}", answer(probe.find(&shape)))?;
        }
    }
    Ok(())
}

/// A description that has the Rust try one test.
pub struct Probe {
    description: &'static AbiDescription,
}

impl Probe {
    /// A probe for this test, among registers of these widths. It is never given back.
    pub fn new(test: Test, integer_width: u64, float_width: u64) -> Self {
        let like = numbers::row(0).in_rust;
        let returns = Box::new([
            Rule::new(test, Travel::AsFound),
            Rule::new(Test::Anything, Travel::ByReference),
        ]);
        let description = Box::new(AbiDescription {
            banks: Banks { integer_width, float_width, ..like.banks },
            returns: Box::leak(returns),
            ..*like
        });
        Self { description: Box::leak(description) }
    }

    /// The slots that the test finds, or nothing.
    pub fn find(&self, shape: &Shape) -> Option<Vec<Slot>> {
        match ask_shape(shape, |arg| self.description.call().returns(arg)) {
            Pass::Pieces(slots) => Some(slots),
            Pass::Reference => None,
            other => panic!("a probe can't answer {other:?}"),
        }
    }
}

/// Every test, with each of the limits and widths that it is asked with.
pub fn questions() -> Vec<(String, Probe)> {
    let probe = |test| Probe::new(test, 8, 16);
    let mut questions = Vec::new();
    for limit in 1..=8 {
        questions.push((format!("homogeneous {limit}"), probe(Test::Homogeneous { limit })));
    }
    for (integer, float) in [(8, 16), (8, 8), (4, 8)] {
        let name = format!("float_pair {integer} {float}");
        questions.push((name, Probe::new(Test::FloatPair, integer, float)));
    }
    questions.push(("x87_stack".to_string(), probe(Test::X87Stack)));
    questions.push(("lone_float".to_string(), probe(Test::LoneFloat)));
    questions.push(("floating_mode".to_string(), probe(Test::FloatingMode)));
    questions.push(("complex_float".to_string(), probe(Test::ComplexFloat)));
    for limit in [8, 16, 24, 32, 64] {
        questions.push((format!("eightbytes {limit}"), probe(Test::Eightbytes { limit })));
    }
    questions
}

fn print_shape(out: &mut impl Write, shape: &Shape) -> io::Result<()> {
    let count = shape.pieces.len();
    writeln!(out, "shape {} {} {} {count}", shape.size, shape.align, shape.flags())?;
    for piece in &shape.pieces {
        let scalar = piece.scalar;
        writeln!(out, "piece {} {} {} {}", scalar.kind, scalar.size, scalar.align, piece.offset)?;
    }
    Ok(())
}

fn answer(found: Option<Vec<Slot>>) -> String {
    let Some(slots) = found else { return "nothing".to_string() };
    let mut answer = slots.len().to_string();
    for slot in &slots {
        answer += " ";
        answer += &numbers::slot(slot);
    }
    answer
}
