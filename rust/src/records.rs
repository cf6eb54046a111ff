//! Records from their members, and types with types inside (REFERENCE 4).

use crate::entries;
use crate::numbers::{Kind, Refusal};
use crate::values::{Aggregate, Entry, Piece, Scalar};

/// Places each member at the next offset that it fits, at the front of `room`, and hands back the
/// pieces (REFERENCE 4.2).
///
/// # Errors
///
/// The first of these that applies: [`Refusal::BadList`] where there are too many members; the
/// members from the first, each [`Refusal::BadKind`], [`Refusal::BadSize`], [`Refusal::BadAlign`];
/// [`Refusal::NoRoom`] where they don't all fit `room`.
pub fn pieces<'r>(members: &[Scalar], room: &'r mut [Piece]) -> Result<&'r [Piece], Refusal> {
    let told = entries::pieces(members, room);
    Refusal::check(told.refusal)?;
    Ok(&room[..told.value as usize])
}

/// The record that these pieces make (REFERENCE 4.3).
///
/// # Errors
///
/// The first of these that applies: [`Refusal::BadList`] where there are too many pieces; the pieces
/// from the first, each [`Refusal::BadKind`], [`Refusal::BadSize`] for its size, then for its
/// offset, [`Refusal::BadAlign`]; [`Refusal::BadAlign`] where there are pieces and all alignments
/// are 0; [`Refusal::BadSize`] where the record's size is above its limit.
pub fn record(pieces: &[Piece]) -> Result<Aggregate<'_>, Refusal> {
    let shape = entries::record(pieces);
    Refusal::check(shape.refusal)?;
    Ok(Aggregate {
        size: shape.size,
        align: shape.align,
        complex: shape.complex != 0,
        floating: shape.floating != 0,
        pieces,
    })
}

/// The last of these types as an aggregate (REFERENCE 4.5). Its pieces, which are the scalars in it
/// in their order, go to the front of `room`; what is behind them stays.
///
/// `members` has the numbers of the entries that are the members of records and unions. Members of a
/// record stand one behind the other, each at the next offset that it fits, those of a union at 0,
/// and the elements of an array their rounded size apart.
///
/// ```
/// use barkpaddle::{Abi, Call, Entry, Piece, Room, Scalar, Way, flatten};
///
/// // struct { char tag; int value; } [3]
/// let types = [
///     Entry::scalar(Scalar::integer(1)),
///     Entry::scalar(Scalar::integer(4)),
///     Entry::record(0, 2),
///     Entry::array(2, 3),
/// ];
/// let members = [0, 1];
/// let mut room = [Piece::default(); 8];
/// let array = flatten(&types, &members, &mut room)?;
///
/// assert_eq!((array.size, array.align), (24, 4));
/// let offsets: Vec<u64> = array.pieces.iter().map(|piece| piece.offset()).collect();
/// assert_eq!(offsets, [0, 4, 8, 12, 16, 20]);
///
/// // Every operation on a call takes it.
/// let mut slots = Room::new();
/// let passed = Call::fresh(Abi::SYSV_AMD64)?.argument(array, &mut slots)?;
/// assert_eq!(passed.outcome.way, Way::Memory);
/// # Ok::<(), barkpaddle::Refusal>(())
/// ```
///
/// It isn't complex, and it is floating where one float is all of it: its only piece, of its own
/// size. So says [`record`] of the same pieces wherever it answers the same size. It answers another
/// where an array of 0 elements, which has no piece, is aligned to more than the pieces are; and it
/// refuses pieces whose alignments are all 0, each of which counts as 1 here.
///
/// # Errors
///
/// The first of these that applies:
///
/// 1. [`Refusal::BadList`]: there is no entry, or there are too many, or too many members.
/// 2. [`Refusal::BadType`]: any entry has a member or an element that is itself, a later entry or
///    none. Members behind the end of `members` are none. The element of an array of 0 is looked at
///    all the same.
/// 3. [`Refusal::TooDeep`]: the last entry has more than sixteen levels, whatever the counts. It has
///    one more than the deepest that is in it, and a scalar has one.
/// 4. What is wrong with an entry, be it in the last one or not, from the first on. Each is looked at
///    for its kind ([`Refusal::BadKind`]), for a scalar's size, an array's count and the size of what
///    isn't a scalar ([`Refusal::BadSize`]), and for a scalar's alignment ([`Refusal::BadAlign`]).
/// 5. [`Refusal::NoRoom`]: there are more pieces than an aggregate may have, or than fit `room`.
pub fn flatten<'r>(
    types: &[Entry],
    members: &[u64],
    room: &'r mut [Piece],
) -> Result<Aggregate<'r>, Refusal> {
    let flat = entries::flatten(types, members, room);
    Refusal::check(flat.refusal)?;
    let pieces = &room[..flat.pieces as usize];
    Ok(Aggregate {
        size: flat.size,
        align: flat.align,
        complex: false,
        floating: is_one_float(flat.size, pieces),
        pieces,
    })
}

/// Whether these pieces are one float of this size.
fn is_one_float(size: u64, pieces: &[Piece]) -> bool {
    matches!(pieces, [piece] if piece.kind() != Kind::Integer && piece.size() == size)
}
