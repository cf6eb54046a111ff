//! The entries that are lent slices, and which entry an operation is, by its value. But for the
//! declarations (ffi.rs) all the unsafe code of this crate is here: the functions below that hand
//! slices over.
//!
//! Why it is sound. The signatures are those of include/barkpaddle.h. An entry takes a slice as a
//! pointer and a length, both from a Rust slice, so that the pointer is good for as many items, and
//! aligned; an empty slice's pointer is never followed. An entry reads its shared slices, writes
//! inside its mutable one alone, keeps neither, allocates nothing and doesn't unwind. A mutable slice
//! and a shared one of the same call can't overlap: both are borrowed at once. `Scalar`, `Piece` and
//! `Entry` are `repr(C)` structs of three, four and four `u64`, so a slice of them is a slice of that
//! many words, any of which may hold any number. A lent call is borrowed mutably beside the slices, so
//! it overlaps neither; it is a `repr(C)` struct of five words, which may hold any number, too. Every
//! struct is asserted to be laid out as the header's (ffi.rs, and values.rs for these three).
#![allow(unsafe_code)]

use crate::ffi;
use crate::values::{Aggregate, Entry, Piece, Scalar, Value};

/// Which of the operations that take a value.
#[derive(Clone, Copy)]
pub enum Operation {
    Return,
    Argument,
    VariadicArgument,
}

/// Performs an operation on a call.
pub fn place(
    operation: Operation,
    call: ffi::Call,
    value: &Value<'_>,
    slots: &mut [u64],
) -> ffi::Answer {
    let ffi::Call { abi, integer, float, integers_only: mark, stack } = call;
    let (room, length) = (slots.as_mut_ptr(), slots.len() as u64);
    match value {
        Value::Void => {
            let entry = match operation {
                Operation::Return => ffi::barkpaddle_return_void,
                Operation::Argument => ffi::barkpaddle_argument_void,
                Operation::VariadicArgument => ffi::barkpaddle_variadic_argument_void,
            };
            // SAFETY: the buffer is `slots`.
            unsafe { entry(abi, integer, float, mark, stack, room, length) }
        }
        Value::Scalar(scalar) => {
            let entry = match operation {
                Operation::Return => ffi::barkpaddle_return_scalar,
                Operation::Argument => ffi::barkpaddle_argument_scalar,
                Operation::VariadicArgument => ffi::barkpaddle_variadic_argument_scalar,
            };
            let (kind, size, align) = (scalar.kind().number(), scalar.size(), scalar.align());
            // SAFETY: the buffer is `slots`.
            unsafe { entry(abi, integer, float, mark, stack, kind, size, align, room, length) }
        }
        Value::Aggregate(shape) => {
            let entry = match operation {
                Operation::Return => ffi::barkpaddle_return_aggregate,
                Operation::Argument => ffi::barkpaddle_argument_aggregate,
                Operation::VariadicArgument => ffi::barkpaddle_variadic_argument_aggregate,
            };
            let (complex, floating) = (u64::from(shape.complex), u64::from(shape.floating));
            let (words, count) = (shape.pieces.as_ptr().cast(), words_in(shape.pieces));
            // SAFETY: the list is `shape.pieces`, the buffer is `slots`.
            unsafe {
                entry(
                    abi,
                    integer,
                    float,
                    mark,
                    stack,
                    shape.size,
                    shape.align,
                    complex,
                    floating,
                    words,
                    count,
                    room,
                    length,
                )
            }
        }
    }
}

/// Performs an operation on a call that is updated where it stands.
pub fn place_lent(
    operation: Operation,
    call: &mut ffi::Call,
    value: &Value<'_>,
    slots: &mut [u64],
) -> ffi::Outcome {
    let (what, pieces) = asked_about(value);
    let entry = match operation {
        Operation::Return => ffi::barkpaddle_bridge_returns,
        Operation::Argument => ffi::barkpaddle_bridge_argument,
        Operation::VariadicArgument => ffi::barkpaddle_bridge_variadic_argument,
    };
    let (words, count) = (pieces.as_ptr().cast(), words_in(pieces));
    let (room, length) = (slots.as_mut_ptr(), slots.len() as u64);
    // SAFETY: the call is `call`, the list is `pieces`, the buffer is `slots`.
    unsafe { entry(call, what, words, count, room, length) }
}

/// A value as an operation on a lent call takes it: its numbers, and its pieces beside them.
fn asked_about<'a>(value: &Value<'a>) -> (ffi::What, &'a [Piece]) {
    let nothing =
        ffi::What { form: ffi::FORM_VOID, kind: 0, size: 0, align: 0, complex: 0, floating: 0 };
    match *value {
        Value::Void => (nothing, &[]),
        Value::Scalar(scalar) => {
            let (kind, size, align) = (scalar.kind().number(), scalar.size(), scalar.align());
            (ffi::What { form: ffi::FORM_SCALAR, kind, size, align, ..nothing }, &[])
        }
        Value::Aggregate(Aggregate { size, align, complex, floating, pieces }) => {
            let (complex, floating) = (u64::from(complex), u64::from(floating));
            let form = ffi::FORM_AGGREGATE;
            (ffi::What { form, size, align, complex, floating, ..nothing }, pieces)
        }
    }
}

/// What a fixed argument that travels as Memory is aligned to.
pub fn in_memory(call: ffi::Call, shape: &Aggregate<'_>) -> ffi::Told {
    let ffi::Call { abi, integer, float, integers_only: mark, stack } = call;
    let (complex, floating) = (u64::from(shape.complex), u64::from(shape.floating));
    let (words, count) = (shape.pieces.as_ptr().cast(), words_in(shape.pieces));
    // SAFETY: the list is `shape.pieces`.
    unsafe {
        ffi::barkpaddle_in_memory(
            abi,
            integer,
            float,
            mark,
            stack,
            shape.size,
            shape.align,
            complex,
            floating,
            words,
            count,
        )
    }
}

/// Members as pieces.
pub fn pieces(members: &[Scalar], room: &mut [Piece]) -> ffi::Told {
    let (words, count) = (members.as_ptr().cast(), words_in(members));
    let (room_words, room_count) = (room.as_mut_ptr().cast(), words_in(room));
    // SAFETY: the list is `members`, the buffer is `room`; any words make a Piece.
    unsafe { ffi::barkpaddle_pieces(words, count, room_words, room_count) }
}

/// The record of these pieces.
pub fn record(pieces: &[Piece]) -> ffi::RecordShape {
    // SAFETY: the list is `pieces`.
    unsafe { ffi::barkpaddle_record(pieces.as_ptr().cast(), words_in(pieces)) }
}

/// The pieces of a type.
pub fn flatten(types: &[Entry], members: &[u64], room: &mut [Piece]) -> ffi::Flat {
    let (words, count) = (types.as_ptr().cast(), words_in(types));
    let (room_words, room_count) = (room.as_mut_ptr().cast(), words_in(room));
    // SAFETY: the lists are `types` and `members`, the buffer is `room`; any words make a Piece.
    unsafe {
        ffi::barkpaddle_flatten(
            words,
            count,
            members.as_ptr(),
            words_in(members),
            room_words,
            room_count,
        )
    }
}

/// A description's name.
pub fn name(abi: u64, room: &mut [u8]) -> ffi::Told {
    // SAFETY: the buffer is `room`.
    unsafe { ffi::barkpaddle_name(abi, room.as_mut_ptr(), room.len() as u64) }
}

/// The convention that a name asks for on a target of these three codes.
pub fn asked([architecture, system, msvc]: [u64; 3], name: &[u8]) -> u64 {
    // SAFETY: the list is `name`.
    unsafe { ffi::barkpaddle_asked(architecture, system, msvc, name.as_ptr(), name.len() as u64) }
}

/// The name of a convention's attribute.
pub fn attribute(convention: u64, room: &mut [u8]) -> ffi::Told {
    // SAFETY: the buffer is `room`.
    unsafe { ffi::barkpaddle_attribute(convention, room.as_mut_ptr(), room.len() as u64) }
}

/// Where the next scalar of a variable argument list is, from these three offsets on: of the integer
/// places, of the float places, of the overflow area.
pub fn read_scalar(
    save: &[u8],
    overflow: &[u8],
    [gp_offset, fp_offset, overflow_offset]: [u64; 3],
    scalar: Scalar,
) -> ffi::Part {
    let (kind, size, align) = (scalar.kind().number(), scalar.size(), scalar.align());
    // SAFETY: the lists are `save` and `overflow`.
    unsafe {
        ffi::barkpaddle_read_scalar(
            save.as_ptr(),
            save.len() as u64,
            overflow.as_ptr(),
            overflow.len() as u64,
            gp_offset,
            fp_offset,
            overflow_offset,
            kind,
            size,
            align,
        )
    }
}

/// How many words this slice is. The bytes of a slice fit an `isize`, so no product can overflow here.
fn words_in<T>(items: &[T]) -> u64 {
    const { assert!(size_of::<T>() / size_of::<u64>() * size_of::<u64>() == size_of::<T>()) };
    const { assert!(align_of::<T>() == align_of::<u64>()) };
    (size_of_val(items) / size_of::<u64>()) as u64
}
