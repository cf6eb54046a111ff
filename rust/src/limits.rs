//! Limits: each of these numbers is still accepted (REFERENCE 2).

/// The size of a scalar or a piece.
pub const LARGEST_SCALAR: u64 = 64;
/// The size of an aggregate, or of an [`Entry`](crate::Entry) that isn't a scalar.
pub const LARGEST_SHAPE: u64 = 16_777_216;
/// The offset of a piece.
pub const LARGEST_OFFSET: u64 = 16_777_216;
/// Any alignment.
pub const LARGEST_ALIGN: u64 = 4_096;
/// The pieces of an aggregate, the members of a record, or the scalars in a type.
pub const MOST_PIECES: usize = 1_024;
/// The entries of a list of types.
pub const MOST_ENTRIES: usize = 1_024;
/// The numbers in its list of members.
pub const MOST_MEMBERS: usize = 4_096;
/// The elements of an array.
pub const MOST_ELEMENTS: u64 = 1_024;
/// The levels of a type, a scalar counting as one.
pub const MOST_LEVELS: usize = 16;
/// The stack offset of a [`Call`](crate::Call), and where a value on the stack ends: 2^40.
pub const MOST_STACK: u64 = 1_099_511_627_776;
/// No result has more slots.
pub const MOST_SLOTS: usize = 8;
/// The words of a slot, of which a lent buffer holds a third of its length.
pub const SLOT_WORDS: usize = 3;
/// No name of a description or an attribute has more bytes.
pub const MOST_NAME_BYTES: usize = 64;
