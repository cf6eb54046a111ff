//! Numbers with names (REFERENCE 1, 3, 5, 6 and 9).

use core::error::Error;
use core::fmt;

/// Declares an enum whose cases are numbers. A number without a name here is kept as it is.
macro_rules! numbered {
    ($(#[$about:meta])* $name:ident { $($(#[$case_about:meta])* $case:ident = $number:literal,)* }) => {
        $(#[$about])*
        #[derive(Debug, Clone, Copy, PartialEq, Eq, Hash)]
        #[non_exhaustive]
        pub enum $name {
            $($(#[$case_about])* $case,)*
            /// A number that has no name here.
            Unnamed(u64),
        }

        impl $name {
            /// The case of this number.
            #[must_use]
            pub const fn from_number(number: u64) -> Self {
                match number {
                    $($number => Self::$case,)*
                    _ => Self::Unnamed(number),
                }
            }

            /// Its number.
            #[must_use]
            pub const fn number(self) -> u64 {
                match self {
                    $(Self::$case => $number,)*
                    Self::Unnamed(number) => number,
                }
            }
        }
    };
}

numbered! {
    /// What a scalar, a piece or a slot is. One that has no name here is refused.
    Kind {
        /// An integer; a pointer, a `bool` and an enumeration are integers too.
        Integer = 0,
        /// A float of 32 bits.
        Single = 1,
        /// A float of 64 bits.
        Double = 2,
        /// The 80-bit float of the x87.
        X87Extended = 3,
        /// A float of 128 bits.
        Quad = 4,
    }
}

impl Kind {
    /// A format as a description has it, where 0 is none.
    pub(crate) const fn format(number: u64) -> Option<Self> {
        if number == 0 { None } else { Some(Self::from_number(number)) }
    }
}

impl fmt::Display for Kind {
    /// Its name in REFERENCE 1.1, or its number.
    fn fmt(&self, out: &mut fmt::Formatter<'_>) -> fmt::Result {
        out.pad(match self {
            Self::Integer => "integer",
            Self::Single => "Single",
            Self::Double => "Double",
            Self::X87Extended => "X87Extended",
            Self::Quad => "Quad",
            Self::Unnamed(number) => return write!(out, "kind {number}"),
        })
    }
}

numbered! {
    /// A way in which a value travels.
    Way {
        /// Nothing travels.
        Ignore = 0,
        /// The value itself, in the registers that it was given, or on the stack.
        Direct = 1,
        /// Its bytes, in the slots that were written.
        Pieces = 2,
        /// The address of a copy, or of the place for a result.
        Reference = 3,
        /// Its bytes, in the argument area.
        Memory = 4,
    }
}

impl fmt::Display for Way {
    /// Its name in a line of a sheet (REFERENCE 11), or its number.
    fn fmt(&self, out: &mut fmt::Formatter<'_>) -> fmt::Result {
        out.pad(match self {
            Self::Ignore => "ignore",
            Self::Direct => "direct",
            Self::Pieces => "pieces",
            Self::Reference => "reference",
            Self::Memory => "memory",
            Self::Unnamed(number) => return write!(out, "way {number}"),
        })
    }
}

numbered! {
    /// Why an operation was refused. The first reason that applies is given (REFERENCE 3).
    Refusal {
        /// There is no description of this number.
        BadAbi = 1,
        /// The call has more registers left than there are, the integers-only mark on a description
        /// that doesn't use it, or a stack offset above its limit.
        BadCall = 2,
        /// The list has too many pieces or members; of types: too many entries or members, or no
        /// entry.
        BadList = 3,
        /// A kind has no name.
        BadKind = 4,
        /// A size, an offset or an array's count is above its limit; in a variable argument list: a
        /// size is none that the kind has.
        BadSize = 5,
        /// An alignment is above its limit; in a record: all are 0; in a variable argument list: one
        /// isn't its scalar's size.
        BadAlign = 6,
        /// The result doesn't fit the buffer, is more pieces than an aggregate may have, or would end
        /// past the limit on the stack.
        NoRoom = 7,
        /// A save area has another length, an offset into it is no place, or the overflow area ends
        /// before the scalar does.
        BadArea = 8,
        /// A piece ends past its aggregate's size: its offset and its size add up to more.
        BadExtent = 9,
        /// An entry of a list of types refers to itself, to a later entry or to none.
        BadType = 10,
        /// A type has more than sixteen levels.
        TooDeep = 11,
    }
}

impl Refusal {
    /// The refusal of an answer, or nothing where it was accepted.
    pub(crate) const fn check(number: u64) -> Result<(), Self> {
        if number == 0 { Ok(()) } else { Err(Self::from_number(number)) }
    }
}

impl fmt::Display for Refusal {
    fn fmt(&self, out: &mut fmt::Formatter<'_>) -> fmt::Result {
        out.write_str(match self {
            Self::BadAbi => "there is no description of this number",
            Self::BadCall => {
                "the call has more registers left than its description, a mark that isn't its own, or \
                 a stack offset above the limit"
            }
            Self::BadList => "the list has too many records or members, or not whole ones, or none",
            Self::BadKind => "a kind has a number that is none",
            Self::BadSize => {
                "a size, an offset or a count is above its limit, or a size is none that its kind has \
                 in a list"
            }
            Self::BadAlign => {
                "an alignment is above its limit, or all of a record's are 0, or one isn't its \
                 scalar's size in a list"
            }
            Self::NoRoom => {
                "the result doesn't fit the buffer, is more pieces than there may be, or ends past the \
                 limit on the stack"
            }
            Self::BadArea => {
                "a save area of another length, an offset into it that is no place, or an overflow \
                 area that ends before the scalar does"
            }
            Self::BadExtent => {
                "a piece ends past its aggregate's size: its offset and its size add up to more"
            }
            Self::BadType => "a type refers to itself, to a later one or to none",
            Self::TooDeep => "a type has more than sixteen levels",
            Self::Unnamed(number) => return write!(out, "refused for reason number {number}"),
        })
    }
}

impl Error for Refusal {}

numbered! {
    /// A target's architecture.
    Architecture {
        /// 32-bit x86.
        X86 = 0,
        /// x86-64.
        X86_64 = 1,
        /// 64-bit Arm.
        Aarch64 = 2,
        /// 64-bit RISC-V.
        Riscv64 = 3,
        /// Any other, which has no description.
        Other = 4,
    }
}

numbered! {
    /// A target's system.
    System {
        /// Windows.
        Windows = 0,
        /// macOS.
        MacOs = 1,
        /// Another Darwin.
        OtherDarwin = 2,
        /// Any other.
        Other = 3,
    }
}

numbered! {
    /// Where the address of a value that comes back in memory travels.
    ReturnPointer {
        /// As a hidden first argument, which spends a register.
        FirstArgument = 0,
        /// The same, and the callee takes it off the stack.
        FirstArgumentPopped = 1,
        /// In a register of its own, spending none.
        Dedicated = 2,
    }
}

numbered! {
    /// What an argument after the dots does.
    Variadic {
        /// As a fixed one.
        SameAsFixed = 0,
        /// In the argument area always.
        AlwaysMemory = 1,
        /// A float in both its registers.
        BothBanks = 2,
        /// All arguments of a variadic function, the named too, in integer registers alone.
        IntegersOnly = 3,
        /// Those after the dots alone so.
        UnnamedIntegers = 4,
        /// The same, and one that is aligned to two registers' width, and no larger, starts at an
        /// even register.
        UnnamedIntegersEven = 5,
    }
}

numbered! {
    /// What an argument in the argument area takes up.
    StackArgs {
        /// Whole registers' widths.
        RegisterSized = 0,
        /// Its own size and alignment.
        Packed = 1,
    }
}

numbered! {
    /// What stands above an integer narrower than an int in its register.
    Narrow {
        /// Anything.
        Unspecified = 0,
        /// Its extension to 32 bits, both ways.
        ToInt = 1,
        /// The same for arguments; anything for what comes back.
        ArgsToInt = 2,
    }
}

numbered! {
    /// What stands above a bit-precise integer in its register.
    BitInts {
        /// Anything.
        SpareBits = 0,
        /// Not known: a generator refuses such a function.
        Untaught = 1,
    }
}

numbered! {
    /// Who takes the argument area off the stack.
    Cleanup {
        /// The caller.
        Caller = 0,
        /// The callee.
        Callee = 1,
    }
}

numbered! {
    /// How an aggregate travels where a rule's test matched.
    Travel {
        /// Nowhere.
        Ignore = 0,
        /// In the slots that the test found.
        AsFound = 1,
        /// In its size cut into integer slots.
        AsIntegers = 2,
        /// In one integer slot of its size.
        AsOneInteger = 3,
        /// As the address of a copy, or through the return pointer.
        ByReference = 4,
        /// As its own bytes in the argument area.
        InMemory = 5,
        /// The same, and an argument passes an integer register over for each of its words, as far
        /// as there are any. They carry nothing.
        InMemoryAndSpend = 6,
    }
}

numbered! {
    /// What happens where an argument's slots want more registers than are left.
    Short {
        /// It keeps its slots, and takes what is left.
        Unchanged = 0,
        /// It goes to the argument area; the registers stay.
        Memory = 1,
        /// It goes to the argument area, and each short bank is passed over whole.
        MemoryAndDrain = 2,
        /// The rule doesn't apply after all.
        TryNextRule = 3,
        /// It keeps its slots, and takes what is left; with no integer register left it goes to the
        /// argument area.
        Split = 4,
    }
}
