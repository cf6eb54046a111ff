//! The descriptions (REFERENCE 5): the Rust's thirty, and behind them RISC-V's own three, which it
//! hasn't.
//!
//! The three say more than the Rust has words for: a split, an even start after the dots, a float that
//! falls to integers. So a description has a type of its own here, which takes its fields from the
//! Rust's and adds these; how the Rust is asked about them, asking.rs says.

use std::sync::OnceLock;

use rucc_abi::{
    AbiDescription, Banks, BitInts, Call, Cleanup, Narrow, ReturnPointer, Scalars, StackArgs, Test,
    Travel, abis,
};

/// How many of the Rust's descriptions are ported: all but the two of wasm, which stand last there.
pub const OF_THE_RUST: usize = 30;

/// All of them, in order, made once.
pub fn all() -> &'static [Description] {
    static ALL: OnceLock<Vec<Description>> = OnceLock::new();
    ALL.get_or_init(|| {
        let of_the_rust = abis::DESCRIBED[..OF_THE_RUST].iter().copied();
        let mut all: Vec<Description> = of_the_rust.map(Description::of_the_rust).collect();
        all.push(riscv_psabi("RISC-V LP64 psABI", 0, 0));
        all.push(riscv_psabi("RISC-V LP64F psABI", 8, 4));
        all.push(riscv_psabi("RISC-V LP64D psABI", 8, 8));
        all
    })
}

/// A description: the Rust's fields, and what it has no words for.
pub struct Description {
    pub name: &'static str,
    pub banks: Banks,
    pub scalars: Scalars,
    /// One of the scalar rules, though the Rust has no such field: a float that finds no float
    /// register takes integer registers.
    pub float_falls_to_integers: bool,
    pub returns: Vec<Rule>,
    pub arguments: Vec<Rule>,
    pub return_pointer: ReturnPointer,
    pub variadic: Variadic,
    pub stack_args: StackArgs,
    pub narrow: Narrow,
    pub bit_ints: BitInts,
    pub cleanup: Cleanup,
    /// What the Rust is asked on.
    pub in_rust: &'static AbiDescription,
    /// The same with `Unchanged` in place of `Split`, if a rule of the description has that.
    pub unsplit: Option<&'static AbiDescription>,
}

/// A rule. Tests and ways of travel are the Rust's.
#[derive(Debug, Clone, Copy, PartialEq, Eq)]
pub struct Rule {
    pub when: Test,
    pub then: Travel,
    pub short: Short,
}

/// What happens where slots are short of registers: the Rust's four, and a fifth.
#[derive(Debug, Clone, Copy, PartialEq, Eq)]
pub enum Short {
    Unchanged,
    Memory,
    MemoryAndDrain,
    TryNextRule,
    /// As `Memory` if no integer register is left, otherwise as `Unchanged`.
    Split,
}

/// What happens after the dots: the Rust's five, and a sixth.
#[derive(Debug, Clone, Copy, PartialEq, Eq)]
pub enum Variadic {
    SameAsFixed,
    AlwaysMemory,
    BothBanks,
    IntegersOnly,
    UnnamedIntegers,
    /// As `UnnamedIntegers`, and what is aligned to two words starts at an even register.
    UnnamedIntegersEven,
}

impl Description {
    /// A fresh call of the Rust.
    pub fn call(&self) -> Call {
        self.in_rust.call()
    }

    /// One that the Rust has every word for.
    fn of_the_rust(in_rust: &'static AbiDescription) -> Self {
        let rules = |rules: &[rucc_abi::Rule]| rules.iter().map(Rule::of_the_rust).collect();
        Self {
            name: in_rust.name,
            banks: in_rust.banks,
            scalars: in_rust.scalars,
            float_falls_to_integers: false,
            returns: rules(in_rust.returns),
            arguments: rules(in_rust.arguments),
            return_pointer: in_rust.return_pointer,
            variadic: Variadic::of_the_rust(in_rust.variadic),
            stack_args: in_rust.stack_args,
            narrow: in_rust.narrow,
            bit_ints: in_rust.bit_ints,
            cleanup: in_rust.cleanup,
            in_rust,
            unsplit: None,
        }
    }
}

impl Rule {
    fn of_the_rust(rule: &rucc_abi::Rule) -> Self {
        Self { when: rule.when, then: rule.then, short: Short::of_the_rust(rule.short) }
    }
}

impl Short {
    fn of_the_rust(short: rucc_abi::Short) -> Self {
        match short {
            rucc_abi::Short::Unchanged => Self::Unchanged,
            rucc_abi::Short::Memory => Self::Memory,
            rucc_abi::Short::MemoryAndDrain => Self::MemoryAndDrain,
            rucc_abi::Short::TryNextRule => Self::TryNextRule,
        }
    }
}

impl Variadic {
    fn of_the_rust(variadic: rucc_abi::Variadic) -> Self {
        match variadic {
            rucc_abi::Variadic::SameAsFixed => Self::SameAsFixed,
            rucc_abi::Variadic::AlwaysMemory => Self::AlwaysMemory,
            rucc_abi::Variadic::BothBanks => Self::BothBanks,
            rucc_abi::Variadic::IntegersOnly => Self::IntegersOnly,
            rucc_abi::Variadic::UnnamedIntegers => Self::UnnamedIntegers,
        }
    }
}

// ---- RISC-V by its own book

/// A description of the RISC-V psABI: the Rust's LP64D with this float bank, and with the three things
/// that it has no words for.
fn riscv_psabi(name: &'static str, float: u32, float_width: u64) -> Description {
    let row_5 = &abis::RISCV_LP64D;
    let banks = Banks { float, float_width, ..row_5.banks };
    let in_rust = kept(AbiDescription { name, banks, ..*row_5 });
    let arguments = kept(row_5.arguments.iter().map(unchanged).collect::<Vec<_>>());
    let unsplit = kept(AbiDescription { arguments, ..*in_rust });
    let without_departures = Description::of_the_rust(in_rust);
    Description {
        float_falls_to_integers: true,
        arguments: without_departures.arguments.iter().map(split).collect(),
        variadic: Variadic::UnnamedIntegersEven,
        unsplit: Some(unsplit),
        ..without_departures
    }
}

/// The rule that drains, so that it splits; any other as it is.
fn split(rule: &Rule) -> Rule {
    match rule.short {
        Short::MemoryAndDrain => Rule { short: Short::Split, ..*rule },
        _ => *rule,
    }
}

/// The rule that drains, so that it has its slots all the same; any other as it is.
fn unchanged(rule: &rucc_abi::Rule) -> rucc_abi::Rule {
    match rule.short {
        rucc_abi::Short::MemoryAndDrain => rule.short(rucc_abi::Short::Unchanged),
        _ => *rule,
    }
}

/// The Rust asks for descriptions that last as long as the program.
fn kept<T>(value: T) -> &'static T {
    Box::leak(Box::new(value))
}
