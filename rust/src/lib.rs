//! How each value of a call travels, on thirty-three calling conventions.
//!
//! Start a [`Call`] on an [`Abi`], then ask for its return value and its arguments in order. Each
//! answer has the next call and the [`Outcome`]: the way, the slots, the registers spent, and where on
//! the stack the rest is ([`Stacked`]). The code that answers is proved: it has an answer to every
//! input. What it can't take is refused with a [`Refusal`], and a refused operation leaves the call
//! and the lent buffer as they were.
//!
//! ```
//! use barkpaddle::{Abi, Aggregate, Call, Kind, Piece, Room, Way};
//!
//! // A record of an integer and a double, on SysV AMD64.
//! let pieces = [Piece::new(Kind::Integer, 8, 8, 0), Piece::new(Kind::Double, 8, 8, 8)];
//! let record = Aggregate::new(16, 8, &pieces);
//!
//! let call = Call::fresh(Abi::SYSV_AMD64)?;
//! let mut room = Room::new();
//! let passed = call.argument(record, &mut room)?;
//!
//! assert_eq!(passed.outcome.way, Way::Pieces);
//! let slots: Vec<_> = passed.outcome.slots().map(|slot| (slot.kind, slot.offset)).collect();
//! assert_eq!(slots, [(Kind::Integer, 0), (Kind::Double, 8)]);
//! // The next argument is asked of the next call.
//! assert_eq!((passed.next.integer_left(), passed.next.float_left()), (5, 7));
//! assert_eq!((passed.outcome.stacked, passed.next.stack()), (None, 0));
//! # Ok::<(), barkpaddle::Refusal>(())
//! ```
//!
//! A [`Call`] is a value. Whoever keeps one for each bridge to a foreign function lends a [`Bridge`]
//! instead, which each operation updates where it stands. Its answers are the outcome alone.
//!
//! An [`Aggregate`] is had from its pieces, or from types that have types inside: [`flatten`] writes
//! the pieces of the last of a list of [`Entry`].
//!
//! A function that ends in dots finds what the caller passed there through a [`VaList`], on
//! [`Abi::SYSV_AMD64`] alone.
//!
//! The numbers behind the names are those of docs/REFERENCE.md. Enums are non-exhaustive, and a
//! number without a name here comes back as `Unnamed`: a newer library may have more of them.
//! [`check_version`] says whether the library that is linked is the one that this crate goes with.

#![no_std]

// From the lowest up, each file using only those before it: ffi, limits, numbers, values, entries,
// outcome, abi, records, call, bridge, va_list, targets, version.
mod abi;
mod bridge;
mod call;
mod entries;
mod ffi;
pub mod limits;
mod numbers;
mod outcome;
mod records;
mod targets;
mod va_list;
mod values;
mod version;

pub use abi::{Abi, Description, Rule, Rules, Test};
pub use bridge::Bridge;
pub use call::{Call, Passed};
pub use numbers::{
    Architecture, BitInts, Cleanup, Kind, Narrow, Refusal, ReturnPointer, Short, StackArgs, System,
    Travel, Variadic, Way,
};
pub use outcome::{Outcome, Room, Slot, Slots, Spent, Stacked};
pub use records::{flatten, pieces, record};
pub use targets::{Convention, Target};
pub use va_list::{Offsets, VaList};
pub use values::{Aggregate, Entry, Piece, Scalar, Value};
pub use version::{VERSION, WrongVersion, check_version, library_version};
