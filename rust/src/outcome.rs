//! How a value travels: what an operation says of it, whether its call is a value or lent.

use core::iter::FusedIterator;
use core::ops::{Deref, DerefMut};
use core::slice::ChunksExact;

use crate::ffi;
use crate::limits::{MOST_SLOTS, SLOT_WORDS};
use crate::numbers::{Kind, Refusal, Way};

/// How a value travels.
#[derive(Debug, Clone, Copy, PartialEq, Eq, Hash)]
#[non_exhaustive]
pub struct Outcome<'b> {
    /// The way.
    pub way: Way,
    /// What this operation spent.
    pub spent: Spent,
    /// Where on the stack the value stands. None where none of it is there: it is in registers, or
    /// has no bytes.
    pub stacked: Option<Stacked>,
    slots: &'b [u64],
}

impl<'b> Outcome<'b> {
    /// The slots that were written to the buffer: none unless the way is [`Way::Pieces`].
    #[must_use]
    pub fn slots(&self) -> Slots<'b> {
        Slots { words: self.slots.chunks_exact(SLOT_WORDS) }
    }

    /// The outcome of these numbers, where they aren't a refusal's; its slots are at the front of
    /// `buffer`.
    pub(crate) fn of(numbers: &ffi::Outcome, buffer: &'b [u64]) -> Result<Self, Refusal> {
        Refusal::check(numbers.refusal)?;
        Ok(Self {
            way: Way::from_number(numbers.way),
            spent: Spent {
                integers_passed: numbers.integers_passed,
                integers_given: numbers.integers_given,
                floats_passed: numbers.floats_passed,
                floats_given: numbers.floats_given,
            },
            stacked: Stacked::of(numbers.stack_at, numbers.stack_bytes),
            slots: &buffer[..SLOT_WORDS * numbers.slots as usize],
        })
    }
}

/// Registers that an operation passed over, which carry nothing, and those that it was given. It
/// passes over first.
#[derive(Debug, Clone, Copy, PartialEq, Eq, Hash, Default)]
#[non_exhaustive]
pub struct Spent {
    /// Integer registers passed over.
    pub integers_passed: u64,
    /// Integer registers given.
    pub integers_given: u64,
    /// Float registers passed over.
    pub floats_passed: u64,
    /// Float registers given.
    pub floats_given: u64,
}

/// What a value takes up on the stack: so many bytes from an offset on.
///
/// By the way in which it travels, these are
///
/// - [`Way::Direct`]: the scalar; of one that was given integer registers, its bytes behind those
///   that these hold;
/// - [`Way::Pieces`]: the last slots, as many as were given no register, a word of the description's
///   integer width each; of a scalar, as with [`Way::Direct`];
/// - [`Way::Reference`]: the address. Of a result only this can be there;
/// - [`Way::Memory`]: the aggregate, whole;
///
/// and padding behind it, where the length is more than that.
///
/// ```
/// use barkpaddle::{Abi, Aggregate, Call, Kind, Piece, Room, Scalar, Way};
///
/// // Five integers leave one register, which a record of two has no room in: it is on the stack.
/// let mut call = Call::fresh(Abi::SYSV_AMD64)?;
/// for _ in 0..5 {
///     call = call.argument(Scalar::integer(8), &mut [])?.next;
/// }
/// let pieces = [Piece::new(Kind::Integer, 8, 8, 0), Piece::new(Kind::Integer, 8, 8, 8)];
/// let mut room = Room::new();
/// let record = call.argument(Aggregate::new(16, 8, &pieces), &mut room)?;
/// let stacked = record.outcome.stacked.expect("it is on the stack");
/// assert_eq!((record.outcome.way, stacked.offset, stacked.length), (Way::Memory, 0, 16));
///
/// // The next integer has the register, and the one behind it stands behind the record.
/// let sixth = record.next.argument(Scalar::integer(8), &mut [])?;
/// assert_eq!(sixth.outcome.stacked, None);
/// let seventh = sixth.next.argument(Scalar::integer(8), &mut [])?;
/// assert_eq!(seventh.outcome.stacked.map(|stacked| stacked.offset), Some(16));
/// assert_eq!(seventh.next.stack(), 24);
/// # Ok::<(), barkpaddle::Refusal>(())
/// ```
#[derive(Debug, Clone, Copy, PartialEq, Eq, Hash)]
#[non_exhaustive]
pub struct Stacked {
    /// The first of the bytes, counted from the first stack argument. Where that is belongs to the
    /// bridge; on [`Abi::WINDOWS_X64`](crate::Abi::WINDOWS_X64) it is behind the 32 bytes of home
    /// space.
    pub offset: u64,
    /// How many bytes there are, at least 1.
    pub length: u64,
}

impl Stacked {
    /// What the library says so: no bytes are nowhere.
    fn of(offset: u64, length: u64) -> Option<Self> {
        (length != 0).then_some(Self { offset, length })
    }
}

/// One register's worth of a value: which of its bytes go there.
#[derive(Debug, Clone, Copy, PartialEq, Eq, Hash)]
#[non_exhaustive]
pub struct Slot {
    /// An integer, or a float's format.
    pub kind: Kind,
    /// The first of its bytes.
    pub offset: u64,
    /// How many bytes; 0 for a float, whose kind says it.
    pub size: u64,
}

/// The slots of an outcome, in order.
#[derive(Debug, Clone)]
pub struct Slots<'b> {
    words: ChunksExact<'b, u64>,
}

impl Iterator for Slots<'_> {
    type Item = Slot;

    fn next(&mut self) -> Option<Slot> {
        let slot = self.words.next()?;
        Some(Slot { kind: Kind::from_number(slot[0]), offset: slot[1], size: slot[2] })
    }

    fn size_hint(&self) -> (usize, Option<usize>) {
        self.words.size_hint()
    }
}

impl ExactSizeIterator for Slots<'_> {}

impl FusedIterator for Slots<'_> {}

/// Room for the slots of any outcome. A slice of words of one's own does as well.
#[derive(Debug, Clone)]
pub struct Room {
    words: [u64; MOST_SLOTS * SLOT_WORDS],
}

impl Room {
    /// Room for eight slots.
    #[must_use]
    pub const fn new() -> Self {
        Self { words: [0; MOST_SLOTS * SLOT_WORDS] }
    }
}

impl Default for Room {
    fn default() -> Self {
        Self::new()
    }
}

impl Deref for Room {
    type Target = [u64];

    fn deref(&self) -> &[u64] {
        &self.words
    }
}

impl DerefMut for Room {
    fn deref_mut(&mut self) -> &mut [u64] {
        &mut self.words
    }
}
