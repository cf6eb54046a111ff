//! The sides: each starts a call and asks for one argument, and answers a sum of all that was said,
//! so that nothing is left out and both can be held against each other; but for the stack, which the
//! original says nothing of. And what the library alone has: refused operations, and reads of
//! variable argument lists.

use crate::original::{self, Given, Row};
use crate::values::{self, Numbers, Value};

/// The words of a slot: kind, offset, size.
const SLOT_WORDS: usize = 3;
/// No result has more slots.
const MOST_SLOTS: usize = 8;
/// The words of a buffer that has room for any result.
pub const ROOM: usize = MOST_SLOTS * SLOT_WORDS;

#[derive(Clone, Copy)]
#[repr(C)]
pub struct Call {
    abi: u64,
    integer: u64,
    float: u64,
    integers_only: u64,
    stack: u64,
}

#[repr(C)]
struct Outcome {
    refusal: u64,
    way: u64,
    integers_passed: u64,
    integers_given: u64,
    floats_passed: u64,
    floats_given: u64,
    slots: u64,
    stack_at: u64,
    stack_bytes: u64,
}

#[repr(C)]
struct Answer {
    next: Call,
    outcome: Outcome,
}

#[repr(C)]
struct Part {
    refusal: u64,
    area: u64,
    start: u64,
    length: u64,
    gp_offset: u64,
    fp_offset: u64,
    overflow_offset: u64,
}

#[rustfmt::skip]
unsafe extern "C" {
    safe fn barkpaddle_fresh(abi: u64) -> Answer;
    fn barkpaddle_argument_scalar(abi: u64, integer: u64, float: u64, integers_only: u64, stack: u64, kind: u64, size: u64, align: u64, slots: *mut u64, slots_length: u64) -> Answer;
    fn barkpaddle_argument_aggregate(abi: u64, integer: u64, float: u64, integers_only: u64, stack: u64, size: u64, align: u64, complex: u64, floating: u64, words: *const u64, words_length: u64, slots: *mut u64, slots_length: u64) -> Answer;
    fn barkpaddle_read_scalar(save: *const u8, save_length: u64, overflow: *const u8, overflow_length: u64, gp_offset: u64, fp_offset: u64, overflow_offset: u64, kind: u64, size: u64, align: u64) -> Part;
}

/// A value as each side takes it.
pub struct Asked {
    pub value: Value,
    given: Given,
}

/// All that the sides are asked about.
pub fn asked() -> Vec<Asked> {
    let both = |value: Value| Asked { given: original::given(&value.numbers), value };
    values::all().into_iter().map(both).collect()
}

/// One turn of one side.
pub type Side = fn(&'static Row, u64, &Asked, &mut [u64]) -> u64;

/// Nothing: what the driver itself costs.
#[inline(never)]
pub fn none(_: &'static Row, number: u64, asked: &Asked, slots: &mut [u64]) -> u64 {
    match &asked.value.numbers {
        Numbers::Scalar { size, .. } => number + size + slots.len() as u64,
        Numbers::Aggregate { size, .. } => number + size,
    }
}

/// The original, where it was built in.
pub const RUST: Option<Side> = if original::HERE { Some(rust) } else { None };

#[inline(never)]
fn rust(row: &'static Row, _: u64, asked: &Asked, _: &mut [u64]) -> u64 {
    original::turn(row, &asked.given)
}

/// The library.
#[inline(never)]
pub fn ours(_: &'static Row, number: u64, asked: &Asked, slots: &mut [u64]) -> u64 {
    let Answer { next, outcome } = argument(barkpaddle_fresh(number).next, &asked.value, slots);
    let left = next.integer + 16 * next.float;
    let written = slots.chunks_exact(SLOT_WORDS).take(outcome.slots as usize);
    left + 256 * (outcome.way + written.map(|slot| 8 + slot[1]).sum::<u64>())
}

// In line, so that nothing stands between a side and the entries.
#[inline(always)]
fn argument(call: Call, value: &Value, slots: &mut [u64]) -> Answer {
    let Call { abi, integer, float, integers_only: mark, stack } = call;
    let (room, length) = (slots.as_mut_ptr(), slots.len() as u64);
    match &value.numbers {
        // SAFETY: the buffer is `slots`.
        Numbers::Scalar { kind, size, align } => unsafe {
            barkpaddle_argument_scalar(
                abi, integer, float, mark, stack, *kind, *size, *align, room, length,
            )
        },
        // SAFETY: the list is `words`, the buffer is `slots`.
        Numbers::Aggregate { size, align, words } => unsafe {
            let (list, count) = (words.as_ptr(), words.len() as u64);
            barkpaddle_argument_aggregate(
                abi, integer, float, mark, stack, *size, *align, 0, 0, list, count, room, length,
            )
        },
    }
}

/// A refused operation of the library, which the original has none of.
pub struct Refused {
    pub name: &'static str,
    pub refusal: u64,
    pub call: Call,
    pub value: Value,
    pub room: usize,
}

impl Refused {
    #[inline(never)]
    pub fn turn(&self, slots: &mut [u64]) -> u64 {
        let answer = argument(self.call, &self.value, &mut slots[..self.room]);
        let outcome = &answer.outcome;
        assert!(outcome.refusal == self.refusal, "{} is {}", self.name, outcome.refusal);
        outcome.refusal + answer.next.integer + outcome.integers_passed + outcome.floats_given
    }
}

/// One refused operation for each number that an argument can be refused with.
pub fn refused() -> Vec<Refused> {
    const CALL: Call = Call { abi: 0, integer: 6, float: 8, integers_only: 0, stack: 0 };
    const NO_ABI: Call = Call { abi: 33, integer: 0, float: 0, integers_only: 0, stack: 0 };
    const TOO_MANY: Call = Call { integer: 7, ..CALL };
    let make = |name, refusal, call, value, room| Refused { name, refusal, call, value, room };
    let two = |change: fn(&mut Vec<u64>)| {
        let mut values = values::all();
        let mut value = values.swap_remove(4);
        let Numbers::Aggregate { words, .. } = &mut value.numbers else { panic!("two integers") };
        change(words);
        value
    };
    vec![
        make("BAD_ABI", 1, NO_ABI, two(|_| ()), ROOM),
        make("BAD_CALL", 2, TOO_MANY, two(|_| ()), ROOM),
        make("BAD_LIST", 3, CALL, two(|words| words.truncate(7)), ROOM),
        make("BAD_KIND of the second piece", 4, CALL, two(|words| words[4] = 5), ROOM),
        make("BAD_SIZE of the second piece", 5, CALL, two(|words| words[5] = 65), ROOM),
        make("BAD_ALIGN of the second piece", 6, CALL, two(|words| words[6] = 4_097), ROOM),
        make("BAD_EXTENT of the second piece", 9, CALL, two(|words| words[7] = 9), ROOM),
        make("NO_ROOM for two slots", 7, CALL, two(|_| ()), 2 * SLOT_WORDS - 1),
    ]
}

/// A read from a variable argument list: of a scalar of this kind and size, from these offsets on.
pub struct Read {
    pub name: &'static str,
    pub refusal: u64,
    pub offsets: [u64; 3],
    pub kind: u64,
    pub size: u64,
}

impl Read {
    #[inline(never)]
    pub fn turn(&self) -> u64 {
        static SAVE: [u8; 176] = [0; 176];
        static OVERFLOW: [u8; 64] = [0; 64];
        let [gp_offset, fp_offset, overflow_offset] = self.offsets;
        let (kind, size, align) = (self.kind, self.size, self.size);
        let [save, overflow] = [SAVE.len() as u64, OVERFLOW.len() as u64];
        // SAFETY: the areas are the two arrays.
        let part = unsafe {
            barkpaddle_read_scalar(
                SAVE.as_ptr(),
                save,
                OVERFLOW.as_ptr(),
                overflow,
                gp_offset,
                fp_offset,
                overflow_offset,
                kind,
                size,
                align,
            )
        };
        assert!(part.refusal == self.refusal, "{} is {}", self.name, part.refusal);
        let next = part.gp_offset + part.fp_offset + part.overflow_offset;
        part.area + part.start + part.length + next
    }
}

/// A read from each place that a scalar can be in, and those that are refused last and first.
pub fn reads() -> Vec<Read> {
    let make = |name, refusal, offsets, kind, size| Read { name, refusal, offsets, kind, size };
    vec![
        make("Int8 in the save area", 0, [0, 48, 0], 0, 8),
        make("Int16 in the save area", 0, [0, 48, 0], 0, 16),
        make("Double in the save area", 0, [0, 48, 0], 2, 8),
        make("Int16 in the overflow area", 0, [40, 48, 0], 0, 16),
        make("Quad in the overflow area", 0, [48, 176, 8], 4, 16),
        make("X87", 0, [0, 48, 0], 3, 16),
        make("BAD_KIND", 4, [0, 48, 0], 5, 8),
        make("BAD_AREA, too short", 8, [0, 48, 60], 3, 16),
    ]
}
