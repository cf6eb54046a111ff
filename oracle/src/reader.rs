//! Where a scalar of a variable argument list is, and what is refused (REFERENCE 15): a second
//! reading of the rules in words, which are the psABI's (3.5.7). The Rust has no reader.

use std::fmt;

use crate::refusals::{self, BAD_ALIGN, BAD_AREA, BAD_KIND, BAD_SIZE};
use crate::values::{LARGEST_ALIGN, LARGEST_KIND, LARGEST_SCALAR, Scalar};

/// The register save area: six integer places of 8 bytes, then eight float places of 16.
pub const INTEGER_PLACES: u64 = 6;
pub const INTEGER_PLACE: u64 = 8;
pub const FLOAT_PLACES: u64 = 8;
pub const FLOAT_PLACE: u64 = 16;
pub const FLOAT_START: u64 = INTEGER_PLACES * INTEGER_PLACE;
pub const SAVE_BYTES: u64 = FLOAT_START + FLOAT_PLACES * FLOAT_PLACE;

/// How far the areas are read, each counted from its area's start.
#[derive(Debug, Clone, Copy, PartialEq, Eq)]
pub struct Offsets {
    pub integer: u64,
    pub float: u64,
    pub overflow: u64,
}

/// What a reader is lent: the lengths of both areas, and how far they are read.
#[derive(Debug, Clone, Copy, PartialEq, Eq)]
pub struct Lent {
    pub save: u64,
    pub overflow: u64,
    pub at: Offsets,
}

#[derive(Debug, Clone, Copy, PartialEq, Eq)]
pub enum Area {
    Nowhere = 0,
    Save = 1,
    Overflow = 2,
}

/// Where a scalar's bytes are, or why it is refused; and the offsets of the next one.
#[derive(Debug, Clone, Copy, PartialEq, Eq)]
pub struct Part {
    pub refusal: u64,
    pub area: Area,
    pub start: u64,
    pub length: u64,
    pub next: Offsets,
}

impl fmt::Display for Offsets {
    fn fmt(&self, out: &mut fmt::Formatter<'_>) -> fmt::Result {
        write!(out, "{} {} {}", self.integer, self.float, self.overflow)
    }
}

impl fmt::Display for Lent {
    fn fmt(&self, out: &mut fmt::Formatter<'_>) -> fmt::Result {
        write!(out, "{} {} {}", self.save, self.overflow, self.at)
    }
}

impl fmt::Display for Part {
    /// Its seven numbers, in the order of the header's `barkpaddle_part`.
    fn fmt(&self, out: &mut fmt::Formatter<'_>) -> fmt::Result {
        let Self { refusal, area, start, length, next } = self;
        write!(out, "{refusal} {} {start} {length} {next}", *area as u64)
    }
}

/// The next scalar of a list.
pub fn read(lent: Lent, scalar: Scalar) -> Part {
    if let Some(refusal) = of_scalar(scalar).or_else(|| of_save_area(lent)) {
        return refused(lent, refusal);
    }
    in_save_area(lent, scalar).unwrap_or_else(|| in_overflow_area(lent, scalar))
}

/// Which refusal a scalar gets, whatever is lent: it has to be one that C can pass, aligned to its
/// size.
pub fn of_scalar(scalar: Scalar) -> Option<u64> {
    let Scalar { kind, size, align } = scalar;
    let sizes: &[u64] = match kind {
        0 => &[1, 2, 4, 8, 16],
        1 => &[4],
        2 => &[8],
        _ => &[16],
    };
    refusals::first(&[
        (kind > LARGEST_KIND, BAD_KIND),
        (size > LARGEST_SCALAR || !sizes.contains(&size), BAD_SIZE),
        (align > LARGEST_ALIGN || align != size, BAD_ALIGN),
    ])
}

/// Which refusal a save area and the offsets into it get, for every scalar: both offsets have to be
/// at a place or at the end.
pub fn of_save_area(lent: Lent) -> Option<u64> {
    let ends = |places: u64, place: u64, start: u64, offset: u64| {
        (0..=places).any(|number| offset == start + place * number)
    };
    refusals::first(&[
        (lent.save != SAVE_BYTES, BAD_AREA),
        (!ends(INTEGER_PLACES, INTEGER_PLACE, 0, lent.at.integer), BAD_AREA),
        (!ends(FLOAT_PLACES, FLOAT_PLACE, FLOAT_START, lent.at.float), BAD_AREA),
    ])
}

/// The scalar's place in the save area, where it travels in registers and has all that it needs.
fn in_save_area(lent: Lent, scalar: Scalar) -> Option<Part> {
    let Offsets { integer, float, .. } = lent.at;
    let (start, next) = match scalar.kind {
        // An integer's bytes are in as many registers as it takes to hold them.
        0 => {
            let taken = scalar.size.next_multiple_of(INTEGER_PLACE);
            (integer, Offsets { integer: integer + taken, ..lent.at })
        }
        // An x87 value is never in a register.
        3 => return None,
        _ => (float, Offsets { float: float + FLOAT_PLACE, ..lent.at }),
    };
    let there = next.integer <= FLOAT_START && next.float <= SAVE_BYTES;
    there.then_some(Part { refusal: 0, area: Area::Save, start, length: scalar.size, next })
}

/// The scalar's place in the overflow area, or its refusal where that ends too early. The register
/// offsets stay.
pub fn in_overflow_area(lent: Lent, scalar: Scalar) -> Part {
    // In 128 bits no sum of these numbers wraps.
    let offset = u128::from(lent.at.overflow);
    let start = if scalar.align > 8 { offset.next_multiple_of(16) } else { offset };
    if start + u128::from(scalar.size) > u128::from(lent.overflow) {
        return refused(lent, BAD_AREA);
    }
    let narrow = |number: u128| u64::try_from(number).expect("no area is that long");
    let next = start + u128::from(scalar.size.next_multiple_of(8));
    let next = Offsets { overflow: narrow(next), ..lent.at };
    let (area, length) = (Area::Overflow, scalar.size);
    Part { refusal: 0, area, start: narrow(start), length, next }
}

/// An empty part, and the offsets that were handed in.
fn refused(lent: Lent, refusal: u64) -> Part {
    Part { refusal, area: Area::Nowhere, start: 0, length: 0, next: lent.at }
}
