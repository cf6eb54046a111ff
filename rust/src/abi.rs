//! What a description says (REFERENCE 5).

use core::fmt;
use core::iter::FusedIterator;
use core::str;

use crate::limits::MOST_NAME_BYTES;
use crate::numbers::{
    BitInts, Cleanup, Kind, Narrow, Refusal, ReturnPointer, Short, StackArgs, Travel, Variadic,
};
use crate::{entries, ffi};

/// The number of a description of a calling convention.
#[derive(Debug, Clone, Copy, PartialEq, Eq, Hash, PartialOrd, Ord)]
#[repr(transparent)]
pub struct Abi(pub u64);

impl Abi {
    /// How many there are, numbered from 0.
    pub const COUNT: u64 = 33;
    /// SysV AMD64.
    pub const SYSV_AMD64: Self = Self(0);
    /// AAPCS64.
    pub const AAPCS64: Self = Self(1);
    /// Darwin arm64.
    pub const DARWIN_ARM64: Self = Self(2);
    /// Windows arm64.
    pub const WINDOWS_ARM64: Self = Self(3);
    /// Windows x64.
    pub const WINDOWS_X64: Self = Self(4);
    /// RISC-V LP64D, as the original has it. Compilers follow [`Self::RISCV_PSABI_LP64D`].
    pub const RISCV_LP64D: Self = Self(5);
    /// i386 SysV.
    pub const I386_SYSV: Self = Self(6);
    /// i386 SysV regparm(1).
    pub const I386_SYSV_REGPARM_1: Self = Self(7);
    /// i386 SysV regparm(2).
    pub const I386_SYSV_REGPARM_2: Self = Self(8);
    /// i386 SysV regparm(3).
    pub const I386_SYSV_REGPARM_3: Self = Self(9);
    /// i386 SysV -freg-struct-return.
    pub const I386_SYSV_REG_STRUCT: Self = Self(10);
    /// i386 SysV regparm(1) -freg-struct-return.
    pub const I386_SYSV_REGPARM_1_REG_STRUCT: Self = Self(11);
    /// i386 SysV regparm(2) -freg-struct-return.
    pub const I386_SYSV_REGPARM_2_REG_STRUCT: Self = Self(12);
    /// i386 SysV regparm(3) -freg-struct-return.
    pub const I386_SYSV_REGPARM_3_REG_STRUCT: Self = Self(13);
    /// i386 SysV stdcall.
    pub const I386_SYSV_STDCALL: Self = Self(14);
    /// i386 SysV stdcall regparm(1).
    pub const I386_SYSV_REGPARM_1_STDCALL: Self = Self(15);
    /// i386 SysV stdcall regparm(2).
    pub const I386_SYSV_REGPARM_2_STDCALL: Self = Self(16);
    /// i386 SysV stdcall regparm(3).
    pub const I386_SYSV_REGPARM_3_STDCALL: Self = Self(17);
    /// i386 SysV stdcall -freg-struct-return.
    pub const I386_SYSV_REG_STRUCT_STDCALL: Self = Self(18);
    /// i386 SysV stdcall regparm(1) -freg-struct-return.
    pub const I386_SYSV_REGPARM_1_REG_STRUCT_STDCALL: Self = Self(19);
    /// i386 SysV stdcall regparm(2) -freg-struct-return.
    pub const I386_SYSV_REGPARM_2_REG_STRUCT_STDCALL: Self = Self(20);
    /// i386 SysV stdcall regparm(3) -freg-struct-return.
    pub const I386_SYSV_REGPARM_3_REG_STRUCT_STDCALL: Self = Self(21);
    /// i386 SysV fastcall.
    pub const I386_SYSV_FASTCALL: Self = Self(22);
    /// i386 SysV fastcall -freg-struct-return.
    pub const I386_SYSV_REG_STRUCT_FASTCALL: Self = Self(23);
    /// i386 Windows (mingw).
    pub const I386_MINGW: Self = Self(24);
    /// i386 Windows (MSVC).
    pub const I386_MSVC: Self = Self(25);
    /// i386 Windows stdcall (mingw).
    pub const I386_MINGW_STDCALL: Self = Self(26);
    /// i386 Windows fastcall (mingw).
    pub const I386_MINGW_FASTCALL: Self = Self(27);
    /// i386 Windows stdcall (MSVC).
    pub const I386_MSVC_STDCALL: Self = Self(28);
    /// i386 Windows fastcall (MSVC).
    pub const I386_MSVC_FASTCALL: Self = Self(29);
    /// RISC-V LP64 psABI: what compilers follow with -mabi=lp64.
    pub const RISCV_PSABI_LP64: Self = Self(30);
    /// RISC-V LP64F psABI: what compilers follow with -mabi=lp64f.
    pub const RISCV_PSABI_LP64F: Self = Self(31);
    /// RISC-V LP64D psABI: what compilers follow with -mabi=lp64d.
    pub const RISCV_PSABI_LP64D: Self = Self(32);

    /// Its fields.
    ///
    /// # Errors
    ///
    /// [`Refusal::BadAbi`] where there is no such description.
    pub fn description(self) -> Result<Description, Refusal> {
        let fields = ffi::barkpaddle_description(self.0);
        Refusal::check(fields.refusal)?;
        Ok(Description {
            integer: fields.integer,
            float: fields.float,
            shared: fields.shared != 0,
            integer_width: fields.integer_width,
            float_width: fields.float_width,
            in_memory: Kind::format(fields.in_memory),
            wide_integer_is_all_or_nothing: fields.wide_integer_is_all_or_nothing != 0,
            wide_integer_starts_even: fields.wide_integer_starts_even != 0,
            wide_integer_drains: fields.wide_integer_drains != 0,
            wide_is_by_reference: fields.wide_is_by_reference != 0,
            wide_integer_returns_in: Kind::format(fields.wide_integer_returns_in),
            wide_integer_in_memory: fields.wide_integer_in_memory != 0,
            decimal_in_integers: fields.decimal_in_integers != 0,
            quad_returns_by_reference: fields.quad_returns_by_reference != 0,
            return_pointer: ReturnPointer::from_number(fields.return_pointer),
            variadic: Variadic::from_number(fields.variadic),
            stack_args: StackArgs::from_number(fields.stack_args),
            narrow: Narrow::from_number(fields.narrow),
            bit_ints: BitInts::from_number(fields.bit_ints),
            cleanup: Cleanup::from_number(fields.cleanup),
            float_falls_to_integers: fields.float_falls_to_integers != 0,
        })
    }

    /// Its rules for aggregates that come back.
    ///
    /// # Errors
    ///
    /// [`Refusal::BadAbi`] where there is no such description.
    pub fn return_rules(self) -> Result<Rules, Refusal> {
        self.rules(|abi, index| ffi::barkpaddle_return_rule(abi, index))
    }

    /// Its rules for aggregates that are arguments.
    ///
    /// # Errors
    ///
    /// [`Refusal::BadAbi`] where there is no such description.
    pub fn argument_rules(self) -> Result<Rules, Refusal> {
        self.rules(|abi, index| ffi::barkpaddle_argument_rule(abi, index))
    }

    /// Its name, at the front of `room`.
    ///
    /// # Errors
    ///
    /// [`Refusal::BadAbi`] where there is no such description, then [`Refusal::NoRoom`] where the
    /// name doesn't fit `room`. One of [`MOST_NAME_BYTES`] is never too small.
    pub fn name(self, room: &mut [u8]) -> Result<&[u8], Refusal> {
        let told = entries::name(self.0, room);
        Refusal::check(told.refusal)?;
        Ok(&room[..told.value as usize])
    }

    /// Whether a scalar of this size travels as the address of a copy.
    ///
    /// # Errors
    ///
    /// [`Refusal::BadAbi`] where there is no such description, then [`Refusal::BadSize`] where the
    /// size is above a scalar's limit.
    pub fn scalar_is_by_reference(self, size: u64) -> Result<bool, Refusal> {
        let told = ffi::barkpaddle_scalar_is_by_reference(self.0, size);
        Refusal::check(told.refusal).map(|()| told.value != 0)
    }

    /// Whether a scalar of this size comes back through an address that the caller passes.
    ///
    /// # Errors
    ///
    /// [`Refusal::BadAbi`] where there is no such description, then [`Refusal::BadSize`] where the
    /// size is above a scalar's limit.
    pub fn scalar_returns_by_reference(self, size: u64) -> Result<bool, Refusal> {
        let told = ffi::barkpaddle_scalar_returns_by_reference(self.0, size);
        Refusal::check(told.refusal).map(|()| told.value != 0)
    }

    /// The format in which an integer of this size comes back that would be by reference otherwise.
    ///
    /// # Errors
    ///
    /// [`Refusal::BadAbi`] where there is no such description, then [`Refusal::BadSize`] where the
    /// size is above a scalar's limit.
    pub fn wide_integer_returns_in(self, size: u64) -> Result<Option<Kind>, Refusal> {
        let told = ffi::barkpaddle_wide_integer_returns_in(self.0, size);
        Refusal::check(told.refusal).map(|()| Kind::format(told.value))
    }

    fn rules(self, read: fn(u64, u64) -> ffi::Rule) -> Result<Rules, Refusal> {
        Refusal::check(read(self.0, 0).refusal)?;
        Ok(Rules { abi: self.0, next: 0, read })
    }
}

impl fmt::Display for Abi {
    /// Its name, or its number where there is no such description.
    fn fmt(&self, out: &mut fmt::Formatter<'_>) -> fmt::Result {
        let mut room = [0; MOST_NAME_BYTES];
        match self.name(&mut room).map(str::from_utf8) {
            Ok(Ok(name)) => out.pad(name),
            _ => write!(out, "description {}", self.0),
        }
    }
}

/// What a description says beside its name and its rules (REFERENCE 5.1, 5.2 and 5.4).
#[derive(Debug, Clone, Copy, PartialEq, Eq, Hash)]
#[non_exhaustive]
pub struct Description {
    /// Integer argument registers.
    pub integer: u64,
    /// Float argument registers.
    pub float: u64,
    /// The two banks share positions: every spend comes out of the integer bank.
    pub shared: bool,
    /// Bytes of an integer register.
    pub integer_width: u64,
    /// The widest float that a float register holds, in bytes.
    pub float_width: u64,
    /// A float of this format travels in the argument area and spends nothing.
    pub in_memory: Option<Kind>,
    /// An integer takes all the registers that it needs, or none.
    pub wide_integer_is_all_or_nothing: bool,
    /// A wide integer starts at an even register.
    pub wide_integer_starts_even: bool,
    /// A wide integer that finds too few registers passes over the rest of them.
    pub wide_integer_drains: bool,
    /// A wide scalar travels as the address of a copy.
    pub wide_is_by_reference: bool,
    /// A wide integer that would come back by reference comes back in a float of this format.
    pub wide_integer_returns_in: Option<Kind>,
    /// A wide integer goes to the argument area and passes over all integer registers left.
    pub wide_integer_in_memory: bool,
    /// A decimal float that an integer register holds travels in one.
    pub decimal_in_integers: bool,
    /// A scalar of 16 bytes comes back through an address.
    pub quad_returns_by_reference: bool,
    /// Where the address of a value that comes back in memory travels.
    pub return_pointer: ReturnPointer,
    /// What an argument after the dots does.
    pub variadic: Variadic,
    /// What an argument in the argument area takes up.
    pub stack_args: StackArgs,
    /// What stands above a narrow integer in its register.
    pub narrow: Narrow,
    /// What stands above a bit-precise integer in its register.
    pub bit_ints: BitInts,
    /// Who takes the argument area off the stack.
    pub cleanup: Cleanup,
    /// A float that a float register would hold, and that finds none left, takes integer registers.
    pub float_falls_to_integers: bool,
}

/// What an aggregate has to look like for a rule to apply (REFERENCE 5.3).
#[derive(Debug, Clone, Copy, PartialEq, Eq, Hash)]
#[non_exhaustive]
pub enum Test {
    /// Anything.
    Anything,
    /// A size of 0.
    Empty,
    /// A size that is one of these.
    SizeOneOf([u64; 4]),
    /// A size of at most this.
    SizeAtMost(u64),
    /// Equal floats, at most so many, that fill the shape.
    Homogeneous(u64),
    /// One float, or two pieces with a float among them.
    FloatPair,
    /// One x87 value, or the two of a complex.
    X87Stack,
    /// One Single or Double and nothing else.
    LoneFloat,
    /// A complex, or a shape of a floating mode.
    FloatingMode,
    /// A complex of two Singles.
    ComplexFloat,
    /// The classification of eightbytes succeeds, for a size of at most this.
    Eightbytes(u64),
    /// A test that has no name here: its number, and the number beside it.
    Unnamed(u64, u64),
}

impl Test {
    const fn from_numbers(test: u64, number: u64) -> Self {
        match test {
            1 => Self::Anything,
            2 => Self::Empty,
            3 => Self::SizeOneOf(four_sizes(number)),
            4 => Self::SizeAtMost(number),
            5 => Self::Homogeneous(number),
            6 => Self::FloatPair,
            7 => Self::X87Stack,
            8 => Self::LoneFloat,
            9 => Self::FloatingMode,
            10 => Self::ComplexFloat,
            11 => Self::Eightbytes(number),
            _ => Self::Unnamed(test, number),
        }
    }
}

/// Four sizes of two bits each, the first lowest, for 1, 2, 4 and 8.
const fn four_sizes(number: u64) -> [u64; 4] {
    [1 << (number & 3), 1 << (number >> 2 & 3), 1 << (number >> 4 & 3), 1 << (number >> 6 & 3)]
}

/// A rule for aggregates: the first of a list whose test matches decides.
#[derive(Debug, Clone, Copy, PartialEq, Eq, Hash)]
#[non_exhaustive]
pub struct Rule {
    /// What it asks of an aggregate.
    pub test: Test,
    /// How the aggregate travels then.
    pub travel: Travel,
    /// What happens where there are too few registers.
    pub short: Short,
}

/// The rules of a list, in order.
#[derive(Debug, Clone)]
pub struct Rules {
    abi: u64,
    next: u64,
    read: fn(u64, u64) -> ffi::Rule,
}

impl Iterator for Rules {
    type Item = Rule;

    fn next(&mut self) -> Option<Rule> {
        let rule = (self.read)(self.abi, self.next);
        // Past the end of the list there is no test.
        if rule.test == 0 {
            return None;
        }
        self.next += 1;
        Some(Rule {
            test: Test::from_numbers(rule.test, rule.number),
            travel: Travel::from_number(rule.travel),
            short: Short::from_number(rule.short),
        })
    }
}

impl FusedIterator for Rules {}
