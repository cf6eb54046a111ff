//! What is asked about: scalars, pieces, aggregates, and the types that these are flattened from.

use crate::ffi::{self, laid_out};
use crate::numbers::Kind;

/// A scalar: kind, size in bytes, alignment.
///
/// It is laid out as its three words, so that a list of members is handed over as it stands.
#[derive(Debug, Clone, Copy, PartialEq, Eq, Hash)]
#[repr(C)]
pub struct Scalar {
    kind: u64,
    size: u64,
    align: u64,
}

laid_out!(Scalar, 24 { kind: 0, size: 8, align: 16 });

impl Scalar {
    /// A scalar of these.
    #[must_use]
    pub const fn new(kind: Kind, size: u64, align: u64) -> Self {
        Self { kind: kind.number(), size, align }
    }

    /// An integer aligned to its size.
    #[must_use]
    pub const fn integer(size: u64) -> Self {
        Self::new(Kind::Integer, size, size)
    }

    /// A float of the size that its format has, aligned to its size. None for a kind that is no
    /// format: an integer has no size of its own, and what an unnamed kind is nobody knows.
    ///
    /// An `X87Extended` has 16 bytes, as on x86-64. On 32-bit x86 it has 12, aligned to 4: that is
    /// [`new`](Self::new)'s to say.
    ///
    /// ```
    /// use barkpaddle::{Kind, Scalar};
    ///
    /// assert_eq!(Scalar::float(Kind::Double), Some(Scalar::new(Kind::Double, 8, 8)));
    /// assert_eq!(Scalar::float(Kind::Integer), None);
    /// # Ok::<(), barkpaddle::Refusal>(())
    /// ```
    #[must_use]
    pub const fn float(format: Kind) -> Option<Self> {
        let size = match format {
            Kind::Single => 4,
            Kind::Double => 8,
            Kind::X87Extended | Kind::Quad => 16,
            Kind::Integer | Kind::Unnamed(_) => return None,
        };
        Some(Self::new(format, size, size))
    }

    /// Its kind.
    #[must_use]
    pub const fn kind(self) -> Kind {
        Kind::from_number(self.kind)
    }

    /// Its size in bytes.
    #[must_use]
    pub const fn size(self) -> u64 {
        self.size
    }

    /// Its alignment.
    #[must_use]
    pub const fn align(self) -> u64 {
        self.align
    }
}

/// A scalar inside an aggregate, at an offset from its start.
///
/// It is laid out as its four words, so that a list of pieces is handed over as it stands.
#[derive(Debug, Clone, Copy, PartialEq, Eq, Hash, Default)]
#[repr(C)]
pub struct Piece {
    kind: u64,
    size: u64,
    align: u64,
    offset: u64,
}

laid_out!(Piece, 32 { kind: 0, size: 8, align: 16, offset: 24 });

impl Piece {
    /// A piece of these.
    #[must_use]
    pub const fn new(kind: Kind, size: u64, align: u64, offset: u64) -> Self {
        Self { kind: kind.number(), size, align, offset }
    }

    /// The scalar that it is.
    #[must_use]
    pub const fn scalar(self) -> Scalar {
        Scalar { kind: self.kind, size: self.size, align: self.align }
    }

    /// Its kind.
    #[must_use]
    pub const fn kind(self) -> Kind {
        Kind::from_number(self.kind)
    }

    /// Its size in bytes.
    #[must_use]
    pub const fn size(self) -> u64 {
        self.size
    }

    /// Its alignment.
    #[must_use]
    pub const fn align(self) -> u64 {
        self.align
    }

    /// Where it stands, from the aggregate's start.
    #[must_use]
    pub const fn offset(self) -> u64 {
        self.offset
    }
}

/// An aggregate: its size and alignment, two marks, and every scalar in it, arrays and nested
/// records flattened out, as [`flatten`](crate::flatten) does it.
///
/// Pieces may overlap and leave holes, and none may end past the aggregate: where the offset and the
/// size of one add up to more than the aggregate's size, every operation on a call refuses it
/// ([`Refusal::BadExtent`](crate::Refusal::BadExtent)).
#[derive(Debug, Clone, Copy, PartialEq, Eq, Hash)]
pub struct Aggregate<'a> {
    /// Its size in bytes.
    pub size: u64,
    /// Its alignment.
    pub align: u64,
    /// It is a `_Complex`.
    pub complex: bool,
    /// The compiler gives the whole object a floating point mode.
    pub floating: bool,
    /// Its pieces.
    pub pieces: &'a [Piece],
}

impl<'a> Aggregate<'a> {
    /// An aggregate without marks.
    #[must_use]
    pub const fn new(size: u64, align: u64, pieces: &'a [Piece]) -> Self {
        Self { size, align, complex: false, floating: false, pieces }
    }
}

/// What an operation is asked about.
#[derive(Debug, Clone, Copy, PartialEq, Eq, Hash)]
pub enum Value<'a> {
    /// Nothing.
    Void,
    /// A scalar.
    Scalar(Scalar),
    /// An aggregate.
    Aggregate(Aggregate<'a>),
}

impl From<Scalar> for Value<'_> {
    fn from(scalar: Scalar) -> Self {
        Self::Scalar(scalar)
    }
}

impl<'a> From<Aggregate<'a>> for Value<'a> {
    fn from(aggregate: Aggregate<'a>) -> Self {
        Self::Aggregate(aggregate)
    }
}

/// A type in a list of types, which [`flatten`](crate::flatten) takes: a scalar, a record, a union or
/// an array.
///
/// Entries are numbered from 0. What is inside an entry it names by these numbers: a record or a
/// union has its members in a second list, from `first` on, and an array has its element. Each has
/// to come before the entry that it is in.
///
/// It is laid out as its four words, so that a list of types is handed over as it stands.
#[derive(Debug, Clone, Copy, PartialEq, Eq, Hash)]
#[repr(C)]
pub struct Entry {
    kind: u64,
    second: u64,
    third: u64,
    unread: u64,
}

laid_out!(Entry, 32 { kind: 0, second: 8, third: 16, unread: 24 });

impl Entry {
    /// A scalar. [`Kind::Unnamed`] of 256, 257 or 258 is none: these are the other three.
    #[must_use]
    pub const fn scalar(scalar: Scalar) -> Self {
        Self::of(scalar.kind, scalar.size, scalar.align)
    }

    /// A record of `count` members, which stand one behind the other. They are those from `first` on
    /// in the list of members.
    #[must_use]
    pub const fn record(first: u64, count: u64) -> Self {
        Self::of(ffi::ENTRY_RECORD, first, count)
    }

    /// A union of `count` members, which all stand at 0. They are those from `first` on in the list
    /// of members.
    #[must_use]
    pub const fn union(first: u64, count: u64) -> Self {
        Self::of(ffi::ENTRY_UNION, first, count)
    }

    /// An array of `count` elements, all of the entry `element`.
    #[must_use]
    pub const fn array(element: u64, count: u64) -> Self {
        Self::of(ffi::ENTRY_ARRAY, element, count)
    }

    const fn of(kind: u64, second: u64, third: u64) -> Self {
        Self { kind, second, third, unread: 0 }
    }
}
