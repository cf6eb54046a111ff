//! The entries and the structs of include/barkpaddle.h, as they stand there. Everything is numbers:
//! entries.rs hands slices over, and the other files have the names.
//!
//! Each entry answers every input and unwinds on none (REFERENCE 13). So one that takes numbers
//! alone is safe to call, and one that is lent a call, too: a reference points to one. The others
//! follow pointers, and entries.rs says why they may.
#![allow(unsafe_code)]

/// A call: its description, the registers left, the integers-only mark, and the next stack offset.
#[derive(Debug, Clone, Copy, PartialEq, Eq, Hash)]
#[repr(C)]
pub struct Call {
    pub abi: u64,
    pub integer: u64,
    pub float: u64,
    pub integers_only: u64,
    pub stack: u64,
}

/// How a value travels, or why it was refused: what an operation on a lent call answers.
#[repr(C)]
pub struct Outcome {
    pub refusal: u64,
    pub way: u64,
    pub integers_passed: u64,
    pub integers_given: u64,
    pub floats_passed: u64,
    pub floats_given: u64,
    pub slots: u64,
    pub stack_at: u64,
    pub stack_bytes: u64,
}

/// What an operation on a call answers.
#[repr(C)]
pub struct Answer {
    pub next: Call,
    pub outcome: Outcome,
}

/// The forms of what an operation on a lent call is asked about.
pub const FORM_VOID: u64 = 0;
pub const FORM_SCALAR: u64 = 1;
pub const FORM_AGGREGATE: u64 = 2;

/// What an operation on a lent call is asked about.
#[repr(C)]
pub struct What {
    pub form: u64,
    pub kind: u64,
    pub size: u64,
    pub align: u64,
    pub complex: u64,
    pub floating: u64,
}

/// A refusal, or one number.
#[repr(C)]
pub struct Told {
    pub refusal: u64,
    pub value: u64,
}

/// A refusal, or the shape of a record.
#[repr(C)]
pub struct RecordShape {
    pub refusal: u64,
    pub size: u64,
    pub align: u64,
    pub complex: u64,
    pub floating: u64,
}

/// The kinds of entries that aren't scalars.
pub const ENTRY_RECORD: u64 = 256;
pub const ENTRY_UNION: u64 = 257;
pub const ENTRY_ARRAY: u64 = 258;

/// A refusal, or what a type is beside the pieces that were written.
#[repr(C)]
pub struct Flat {
    pub refusal: u64,
    pub pieces: u64,
    pub size: u64,
    pub align: u64,
}

/// A refusal, or the fields of a description.
#[repr(C)]
pub struct DescriptionFields {
    pub refusal: u64,
    pub integer: u64,
    pub float: u64,
    pub shared: u64,
    pub integer_width: u64,
    pub float_width: u64,
    pub in_memory: u64,
    pub wide_integer_is_all_or_nothing: u64,
    pub wide_integer_starts_even: u64,
    pub wide_integer_drains: u64,
    pub wide_is_by_reference: u64,
    pub wide_integer_returns_in: u64,
    pub wide_integer_in_memory: u64,
    pub decimal_in_integers: u64,
    pub quad_returns_by_reference: u64,
    pub return_pointer: u64,
    pub variadic: u64,
    pub stack_args: u64,
    pub narrow: u64,
    pub bit_ints: u64,
    pub cleanup: u64,
    pub float_falls_to_integers: u64,
}

/// A refusal, or a rule.
#[repr(C)]
pub struct Rule {
    pub refusal: u64,
    pub test: u64,
    pub number: u64,
    pub travel: u64,
    pub short: u64,
}

/// The areas of a variable argument list.
pub const AREA_SAVE: u64 = 1;
pub const AREA_OVERFLOW: u64 = 2;

/// A refusal, or where a scalar of a variable argument list is; and the offsets of the next one.
#[repr(C)]
pub struct Part {
    pub refusal: u64,
    pub area: u64,
    pub start: u64,
    pub length: u64,
    pub gp_offset: u64,
    pub fp_offset: u64,
    pub overflow_offset: u64,
}

/// Holds a struct against include/barkpaddle.h: its bytes, and the byte at which each field starts.
macro_rules! laid_out {
    ($name:ident, $bytes:literal { $($field:ident: $start:literal),* $(,)? }) => {
        const _: () = {
            assert!(size_of::<$name>() == $bytes && align_of::<$name>() == align_of::<u64>());
            $(assert!(core::mem::offset_of!($name, $field) == $start);)*
        };
    };
}
pub(crate) use laid_out;

laid_out!(Call, 40 { abi: 0, integer: 8, float: 16, integers_only: 24, stack: 32 });
laid_out!(Outcome, 72 {
    refusal: 0,
    way: 8,
    integers_passed: 16,
    integers_given: 24,
    floats_passed: 32,
    floats_given: 40,
    slots: 48,
    stack_at: 56,
    stack_bytes: 64,
});
laid_out!(Answer, 112 { next: 0, outcome: 40 });
laid_out!(What, 48 { form: 0, kind: 8, size: 16, align: 24, complex: 32, floating: 40 });
laid_out!(Told, 16 { refusal: 0, value: 8 });
laid_out!(RecordShape, 40 { refusal: 0, size: 8, align: 16, complex: 24, floating: 32 });
laid_out!(Flat, 32 { refusal: 0, pieces: 8, size: 16, align: 24 });
laid_out!(DescriptionFields, 176 {
    refusal: 0,
    integer: 8,
    float: 16,
    shared: 24,
    integer_width: 32,
    float_width: 40,
    in_memory: 48,
    wide_integer_is_all_or_nothing: 56,
    wide_integer_starts_even: 64,
    wide_integer_drains: 72,
    wide_is_by_reference: 80,
    wide_integer_returns_in: 88,
    wide_integer_in_memory: 96,
    decimal_in_integers: 104,
    quad_returns_by_reference: 112,
    return_pointer: 120,
    variadic: 128,
    stack_args: 136,
    narrow: 144,
    bit_ints: 152,
    cleanup: 160,
    float_falls_to_integers: 168,
});
laid_out!(Rule, 40 { refusal: 0, test: 8, number: 16, travel: 24, short: 32 });
laid_out!(Part, 56 {
    refusal: 0,
    area: 8,
    start: 16,
    length: 24,
    gp_offset: 32,
    fp_offset: 40,
    overflow_offset: 48,
});

#[rustfmt::skip]
unsafe extern "C" {
    pub safe fn barkpaddle_version() -> u64;
    pub safe fn barkpaddle_fresh(abi: u64) -> Answer;
    pub safe fn barkpaddle_variadic(abi: u64, integer: u64, float: u64, integers_only: u64, stack: u64) -> Answer;
    pub safe fn barkpaddle_description(abi: u64) -> DescriptionFields;
    pub safe fn barkpaddle_return_rule(abi: u64, index: u64) -> Rule;
    pub safe fn barkpaddle_argument_rule(abi: u64, index: u64) -> Rule;
    pub safe fn barkpaddle_scalar_is_by_reference(abi: u64, size: u64) -> Told;
    pub safe fn barkpaddle_scalar_returns_by_reference(abi: u64, size: u64) -> Told;
    pub safe fn barkpaddle_wide_integer_returns_in(abi: u64, size: u64) -> Told;
    pub safe fn barkpaddle_for_target(architecture: u64, system: u64, msvc: u64) -> u64;
    pub safe fn barkpaddle_for_convention(architecture: u64, system: u64, msvc: u64, convention: u64) -> u64;
    pub safe fn barkpaddle_callee_pops(convention: u64) -> u64;
    pub safe fn barkpaddle_bridge_variadic(call: &mut Call) -> Outcome;

    pub fn barkpaddle_return_void(abi: u64, integer: u64, float: u64, integers_only: u64, stack: u64, slots: *mut u64, slots_length: u64) -> Answer;
    pub fn barkpaddle_argument_void(abi: u64, integer: u64, float: u64, integers_only: u64, stack: u64, slots: *mut u64, slots_length: u64) -> Answer;
    pub fn barkpaddle_variadic_argument_void(abi: u64, integer: u64, float: u64, integers_only: u64, stack: u64, slots: *mut u64, slots_length: u64) -> Answer;
    pub fn barkpaddle_return_scalar(abi: u64, integer: u64, float: u64, integers_only: u64, stack: u64, kind: u64, size: u64, align: u64, slots: *mut u64, slots_length: u64) -> Answer;
    pub fn barkpaddle_argument_scalar(abi: u64, integer: u64, float: u64, integers_only: u64, stack: u64, kind: u64, size: u64, align: u64, slots: *mut u64, slots_length: u64) -> Answer;
    pub fn barkpaddle_variadic_argument_scalar(abi: u64, integer: u64, float: u64, integers_only: u64, stack: u64, kind: u64, size: u64, align: u64, slots: *mut u64, slots_length: u64) -> Answer;
    pub fn barkpaddle_return_aggregate(abi: u64, integer: u64, float: u64, integers_only: u64, stack: u64, size: u64, align: u64, complex: u64, floating: u64, words: *const u64, words_length: u64, slots: *mut u64, slots_length: u64) -> Answer;
    pub fn barkpaddle_argument_aggregate(abi: u64, integer: u64, float: u64, integers_only: u64, stack: u64, size: u64, align: u64, complex: u64, floating: u64, words: *const u64, words_length: u64, slots: *mut u64, slots_length: u64) -> Answer;
    pub fn barkpaddle_variadic_argument_aggregate(abi: u64, integer: u64, float: u64, integers_only: u64, stack: u64, size: u64, align: u64, complex: u64, floating: u64, words: *const u64, words_length: u64, slots: *mut u64, slots_length: u64) -> Answer;
    pub fn barkpaddle_bridge_returns(call: &mut Call, what: What, words: *const u64, words_length: u64, slots: *mut u64, slots_length: u64) -> Outcome;
    pub fn barkpaddle_bridge_argument(call: &mut Call, what: What, words: *const u64, words_length: u64, slots: *mut u64, slots_length: u64) -> Outcome;
    pub fn barkpaddle_bridge_variadic_argument(call: &mut Call, what: What, words: *const u64, words_length: u64, slots: *mut u64, slots_length: u64) -> Outcome;
    pub fn barkpaddle_in_memory(abi: u64, integer: u64, float: u64, integers_only: u64, stack: u64, size: u64, align: u64, complex: u64, floating: u64, words: *const u64, words_length: u64) -> Told;
    pub fn barkpaddle_pieces(members: *const u64, members_length: u64, pieces: *mut u64, pieces_length: u64) -> Told;
    pub fn barkpaddle_record(words: *const u64, words_length: u64) -> RecordShape;
    pub fn barkpaddle_flatten(types: *const u64, types_length: u64, members: *const u64, members_length: u64, pieces: *mut u64, pieces_length: u64) -> Flat;
    pub fn barkpaddle_name(abi: u64, name: *mut u8, name_length: u64) -> Told;
    pub fn barkpaddle_asked(architecture: u64, system: u64, msvc: u64, name: *const u8, name_length: u64) -> u64;
    pub fn barkpaddle_attribute(convention: u64, name: *mut u8, name_length: u64) -> Told;
    pub fn barkpaddle_read_scalar(save: *const u8, save_length: u64, overflow: *const u8, overflow_length: u64, gp_offset: u64, fp_offset: u64, overflow_offset: u64, kind: u64, size: u64, align: u64) -> Part;
}
