//! A call and its operations (REFERENCE 9).

use core::fmt;

use crate::abi::Abi;
use crate::entries::{self, Operation};
use crate::ffi;
use crate::numbers::Refusal;
use crate::outcome::Outcome;
use crate::values::{Aggregate, Value};

/// A call: its description, the registers left, the integers-only mark, and the next stack offset.
///
/// It is a value: each operation hands back the next call, and a refused one leaves this as it was.
/// [`Bridge`](crate::Bridge) is one that is updated where it stands.
#[derive(Clone, Copy, PartialEq, Eq, Hash)]
pub struct Call {
    // The mark is 0 or 1, so that equal calls are equal numbers: it starts so, and the library hands
    // it on as it is, or sets it to 1.
    pub(crate) numbers: ffi::Call,
}

impl Call {
    /// The start of a call: both banks whole, no mark, nothing on the stack.
    ///
    /// # Errors
    ///
    /// [`Refusal::BadAbi`] where there is no such description.
    pub fn fresh(abi: Abi) -> Result<Self, Refusal> {
        Self::next(&ffi::barkpaddle_fresh(abi.0))
    }

    /// A call of these numbers, as one that was kept elsewhere. Each operation checks them.
    #[must_use]
    pub const fn from_parts(
        abi: Abi,
        integer: u64,
        float: u64,
        integers_only: bool,
        stack: u64,
    ) -> Self {
        let integers_only = integers_only as u64;
        Self { numbers: ffi::Call { abi: abi.0, integer, float, integers_only, stack } }
    }

    /// The same call, to a function whose parameters end in dots. It may come late and more than
    /// once.
    ///
    /// # Errors
    ///
    /// [`Refusal::BadAbi`] where there is no description of the call's number, then
    /// [`Refusal::BadCall`] where the call has more registers left than there are, the
    /// integers-only mark on a description that doesn't use it, or a stack offset above
    /// [`MOST_STACK`](crate::limits::MOST_STACK).
    pub fn variadic(self) -> Result<Self, Refusal> {
        let ffi::Call { abi, integer, float, integers_only, stack } = self.numbers;
        Self::next(&ffi::barkpaddle_variadic(abi, integer, float, integers_only, stack))
    }

    /// How the return value comes back.
    ///
    #[doc = include_str!("refusals.md")]
    pub fn returns<'v, 'b>(
        self,
        value: impl Into<Value<'v>>,
        slots: &'b mut [u64],
    ) -> Result<Passed<'b>, Refusal> {
        self.place(Operation::Return, value.into(), slots)
    }

    /// How the next fixed argument travels.
    ///
    #[doc = include_str!("refusals.md")]
    pub fn argument<'v, 'b>(
        self,
        value: impl Into<Value<'v>>,
        slots: &'b mut [u64],
    ) -> Result<Passed<'b>, Refusal> {
        self.place(Operation::Argument, value.into(), slots)
    }

    /// How the next argument after the dots travels.
    ///
    #[doc = include_str!("refusals.md")]
    pub fn variadic_argument<'v, 'b>(
        self,
        value: impl Into<Value<'v>>,
        slots: &'b mut [u64],
    ) -> Result<Passed<'b>, Refusal> {
        self.place(Operation::VariadicArgument, value.into(), slots)
    }

    /// What a fixed argument that travels as [`Way::Memory`](crate::Way::Memory) is aligned to in
    /// the argument area.
    ///
    /// # Errors
    ///
    /// The first of these that applies: [`Refusal::BadAbi`] where there is no description of the
    /// call's number; [`Refusal::BadCall`] where the call has more registers left than there are, the
    /// integers-only mark on a description that doesn't use it, or a stack offset above
    /// [`MOST_STACK`](crate::limits::MOST_STACK); [`Refusal::BadList`] where the aggregate has too
    /// many pieces; [`Refusal::BadSize`] for its own size; [`Refusal::BadAlign`] for its own
    /// alignment; its pieces from the first, each [`Refusal::BadKind`],
    /// [`Refusal::BadSize`] for its size, then for its offset, [`Refusal::BadAlign`];
    /// [`Refusal::BadExtent`] where the offset and the size of a piece add up to more than the
    /// aggregate's size.
    pub fn in_memory(self, aggregate: Aggregate<'_>) -> Result<u64, Refusal> {
        let told = entries::in_memory(self.numbers, &aggregate);
        Refusal::check(told.refusal).map(|()| told.value)
    }

    /// Its description.
    #[must_use]
    pub const fn abi(self) -> Abi {
        Abi(self.numbers.abi)
    }

    /// Integer registers left.
    #[must_use]
    pub const fn integer_left(self) -> u64 {
        self.numbers.integer
    }

    /// Float registers left.
    #[must_use]
    pub const fn float_left(self) -> u64 {
        self.numbers.float
    }

    /// Whether floats go in integer registers, too: a marked call of Windows arm64.
    #[must_use]
    pub const fn integers_only(self) -> bool {
        self.numbers.integers_only != 0
    }

    /// The next stack offset: where the next argument that goes to the stack may start, in bytes from
    /// the first stack argument. Behind the last argument it is how many bytes there are in all.
    #[must_use]
    pub const fn stack(self) -> u64 {
        self.numbers.stack
    }

    fn place<'b>(
        self,
        operation: Operation,
        value: Value<'_>,
        slots: &'b mut [u64],
    ) -> Result<Passed<'b>, Refusal> {
        let answer = entries::place(operation, self.numbers, &value, slots);
        let next = Self { numbers: answer.next };
        Outcome::of(&answer.outcome, slots).map(|outcome| Passed { next, outcome })
    }

    /// The call of an answer that has no more to say.
    fn next(answer: &ffi::Answer) -> Result<Self, Refusal> {
        Refusal::check(answer.outcome.refusal).map(|()| Self { numbers: answer.next })
    }
}

impl fmt::Debug for Call {
    /// Its five numbers.
    fn fmt(&self, out: &mut fmt::Formatter<'_>) -> fmt::Result {
        self.numbers.fmt(out)
    }
}

/// What an operation answers: the next call, and how the value travels.
#[derive(Debug, Clone, Copy, PartialEq, Eq, Hash)]
#[non_exhaustive]
pub struct Passed<'b> {
    /// The call that the next operation is asked of.
    pub next: Call,
    /// How the value travels.
    pub outcome: Outcome<'b>,
}
