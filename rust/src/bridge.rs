//! A call that is lent and updated where it stands (REFERENCE 14).

use crate::abi::Abi;
use crate::call::Call;
use crate::entries::{self, Operation};
use crate::ffi;
use crate::numbers::Refusal;
use crate::outcome::Outcome;
use crate::values::Value;

/// A call that each operation updates where it stands: one for each bridge to a foreign function.
///
/// It answers the outcome that [`Call`] answers, without the next call, which it has become. A
/// refused operation leaves it, and the lent buffer, as they were. To go back to an earlier call,
/// keep what [`call`](Self::call) says.
///
/// ```
/// use barkpaddle::{Abi, Aggregate, Bridge, Kind, Piece, Refusal, Room, Scalar, Way};
///
/// let pieces = [Piece::new(Kind::Integer, 8, 8, 0), Piece::new(Kind::Double, 8, 8, 8)];
/// let mut room = Room::new();
/// let mut bridge = Bridge::fresh(Abi::SYSV_AMD64)?;
/// let outcome = bridge.argument(Aggregate::new(16, 8, &pieces), &mut room)?;
/// assert_eq!((outcome.way, outcome.slots().len()), (Way::Pieces, 2));
///
/// // The next argument is asked of the same bridge; a refused one changes nothing.
/// let kept = bridge.call();
/// assert_eq!(bridge.argument(Scalar::integer(65), &mut room), Err(Refusal::BadSize));
/// assert_eq!(bridge.call(), kept);
/// bridge.argument(Scalar::integer(8), &mut room)?;
/// assert_eq!((bridge.call().integer_left(), bridge.call().float_left()), (4, 7));
/// # Ok::<(), barkpaddle::Refusal>(())
/// ```
// It isn't Copy: a copy that is updated in the bridge's stead would go unnoticed.
#[derive(Debug, Clone, PartialEq, Eq, Hash)]
pub struct Bridge {
    call: Call,
}

impl Bridge {
    /// The start of a call: both banks whole, no mark, nothing on the stack.
    ///
    /// # Errors
    ///
    /// [`Refusal::BadAbi`] where there is no such description.
    pub fn fresh(abi: Abi) -> Result<Self, Refusal> {
        Call::fresh(abi).map(Self::from)
    }

    /// The call as it is now.
    #[must_use]
    pub const fn call(&self) -> Call {
        self.call
    }

    /// Becomes the call to a function whose parameters end in dots. It may come late and more than
    /// once.
    ///
    /// # Errors
    ///
    /// [`Refusal::BadAbi`] where there is no description of the call's number, then
    /// [`Refusal::BadCall`] where the call has more registers left than there are, the
    /// integers-only mark on a description that doesn't use it, or a stack offset above
    /// [`MOST_STACK`](crate::limits::MOST_STACK).
    pub fn variadic(&mut self) -> Result<(), Refusal> {
        Refusal::check(ffi::barkpaddle_bridge_variadic(&mut self.call.numbers).refusal)
    }

    /// How the return value comes back.
    ///
    #[doc = include_str!("refusals.md")]
    pub fn returns<'v, 'b>(
        &mut self,
        value: impl Into<Value<'v>>,
        slots: &'b mut [u64],
    ) -> Result<Outcome<'b>, Refusal> {
        self.place(Operation::Return, value.into(), slots)
    }

    /// How the next fixed argument travels.
    ///
    #[doc = include_str!("refusals.md")]
    pub fn argument<'v, 'b>(
        &mut self,
        value: impl Into<Value<'v>>,
        slots: &'b mut [u64],
    ) -> Result<Outcome<'b>, Refusal> {
        self.place(Operation::Argument, value.into(), slots)
    }

    /// How the next argument after the dots travels.
    ///
    #[doc = include_str!("refusals.md")]
    pub fn variadic_argument<'v, 'b>(
        &mut self,
        value: impl Into<Value<'v>>,
        slots: &'b mut [u64],
    ) -> Result<Outcome<'b>, Refusal> {
        self.place(Operation::VariadicArgument, value.into(), slots)
    }

    fn place<'b>(
        &mut self,
        operation: Operation,
        value: Value<'_>,
        slots: &'b mut [u64],
    ) -> Result<Outcome<'b>, Refusal> {
        let outcome = entries::place_lent(operation, &mut self.call.numbers, &value, slots);
        Outcome::of(&outcome, slots)
    }
}

impl From<Call> for Bridge {
    /// A bridge that goes on from this call. Each operation checks it.
    fn from(call: Call) -> Self {
        Self { call }
    }
}
