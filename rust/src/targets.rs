//! Which description a target and a convention follow (REFERENCE 6).

use crate::abi::Abi;
use crate::numbers::{Architecture, Refusal, System};
use crate::{entries, ffi};

/// A target: its architecture, its system, and MSVC or not, which is read on 32-bit Windows alone.
#[derive(Debug, Clone, Copy, PartialEq, Eq, Hash)]
pub struct Target {
    /// Its architecture.
    pub architecture: Architecture,
    /// Its system.
    pub system: System,
    /// Whether it is MSVC's.
    pub msvc: bool,
}

impl Target {
    /// A target that isn't MSVC's.
    #[must_use]
    pub const fn new(architecture: Architecture, system: System) -> Self {
        Self { architecture, system, msvc: false }
    }

    /// The description that it follows, if there is one.
    #[must_use]
    pub fn abi(self) -> Option<Abi> {
        let [architecture, system, msvc] = self.codes();
        known(ffi::barkpaddle_for_target(architecture, system, msvc)).map(Abi)
    }

    /// The description that a function of a convention follows here.
    #[must_use]
    pub fn abi_of(self, convention: Convention) -> Option<Abi> {
        let [architecture, system, msvc] = self.codes();
        let number = convention.number();
        known(ffi::barkpaddle_for_convention(architecture, system, msvc, number)).map(Abi)
    }

    /// The convention that an attribute's name asks for here. It is compared whole, case for case.
    #[must_use]
    pub fn asked(self, name: &[u8]) -> Option<Convention> {
        known(entries::asked(self.codes(), name)).map(Convention::from_number)
    }

    fn codes(self) -> [u64; 3] {
        [self.architecture.number(), self.system.number(), u64::from(self.msvc)]
    }
}

/// A convention that a function can ask for.
#[derive(Debug, Clone, Copy, PartialEq, Eq, Hash)]
#[non_exhaustive]
pub enum Convention {
    /// The target's own.
    Target,
    /// Microsoft's, on x86-64.
    Ms,
    /// System V's, on x86-64.
    Sysv,
    /// stdcall, on 32-bit x86.
    Stdcall,
    /// fastcall, on 32-bit x86.
    Fastcall,
    /// No registers that the callee saves, on x86-64.
    NoCalleeSaved,
    /// Preserve none, on x86-64.
    PreserveNone,
    /// regparm with so many registers, on 32-bit x86.
    Regparm(u8),
    /// A number that has no name here.
    Unnamed(u64),
}

impl Convention {
    /// The convention of this number.
    #[must_use]
    pub const fn from_number(number: u64) -> Self {
        match number {
            0 => Self::Target,
            1 => Self::Ms,
            2 => Self::Sysv,
            3 => Self::Stdcall,
            4 => Self::Fastcall,
            5 => Self::NoCalleeSaved,
            6 => Self::PreserveNone,
            256..=511 => Self::Regparm((number - 256) as u8),
            _ => Self::Unnamed(number),
        }
    }

    /// Its number.
    #[must_use]
    pub const fn number(self) -> u64 {
        match self {
            Self::Target => 0,
            Self::Ms => 1,
            Self::Sysv => 2,
            Self::Stdcall => 3,
            Self::Fastcall => 4,
            Self::NoCalleeSaved => 5,
            Self::PreserveNone => 6,
            Self::Regparm(registers) => 256 + registers as u64,
            Self::Unnamed(number) => number,
        }
    }

    /// The name of the attribute that asks for it, at the front of `room`; none for the target's
    /// own.
    ///
    /// # Errors
    ///
    /// [`Refusal::NoRoom`] where the name doesn't fit `room`. One of
    /// [`MOST_NAME_BYTES`](crate::limits::MOST_NAME_BYTES) is never too small.
    pub fn attribute(self, room: &mut [u8]) -> Result<Option<&[u8]>, Refusal> {
        let told = entries::attribute(self.number(), room);
        Refusal::check(told.refusal)?;
        Ok(known(told.value).map(|length| &room[..length as usize]))
    }

    /// Whether its callee takes its arguments off the stack.
    #[must_use]
    pub fn callee_pops(self) -> bool {
        ffi::barkpaddle_callee_pops(self.number()) != 0
    }
}

/// An answer that may be none.
fn known(number: u64) -> Option<u64> {
    (number != u64::MAX).then_some(number)
}
