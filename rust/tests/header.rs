//! The numbers of this crate are those of include/barkpaddle.h, by their names.

use std::collections::BTreeMap;
use std::fmt::Debug;

use barkpaddle::{
    Abi, Architecture, BitInts, Cleanup, Convention, Kind, Narrow, Offsets, Refusal, ReturnPointer,
    Short, StackArgs, System, Travel, VERSION, VaList, Variadic, Way, limits,
};

/// The header's macros that are numbers, without their `BARKPADDLE_`.
fn macros() -> BTreeMap<&'static str, u64> {
    let header = include_str!("../../include/barkpaddle.h");
    header.lines().filter_map(number).collect()
}

fn number(line: &'static str) -> Option<(&'static str, u64)> {
    let (name, value) = line.strip_prefix("#define BARKPADDLE_")?.split_once(' ')?;
    let value = value.split(" /*").next()?.trim_end();
    let digits = value.strip_prefix("UINT64_C(").and_then(|rest| rest.strip_suffix(')'));
    Some((name, digits.unwrap_or(value).parse().ok()?))
}

/// `X87_EXTENDED` and `X87Extended` are one name.
fn plain(name: &str) -> String {
    name.replace('_', "").to_lowercase()
}

/// Each macro of a group is the case of its name, and there is a macro for each case.
fn same<T: Debug>(group: &str, case: impl Fn(u64) -> T) {
    let mut numbers = Vec::new();
    for (name, number) in macros() {
        let Some(name) = name.strip_prefix(group) else { continue };
        // that there is none is no case
        if name != "NO_FORMAT" {
            assert_eq!(plain(&format!("{:?}", case(number))), plain(name), "{group}{name}");
            numbers.push(number);
        }
    }
    numbers.sort_unstable();
    let count = numbers.len() as u64;
    assert_eq!(numbers, (0..count).collect::<Vec<_>>(), "{group}");
    assert!(format!("{:?}", case(count)).starts_with("Unnamed"), "{group} lacks {count}");
}

#[test]
fn groups() {
    same("KIND_", Kind::from_number);
    same("WAY_", Way::from_number);
    same("ARCH_", Architecture::from_number);
    same("SYSTEM_", System::from_number);
    same("CONVENTION_", Convention::from_number);
    same("RETURN_POINTER_", ReturnPointer::from_number);
    same("VARIADIC_", Variadic::from_number);
    same("STACK_ARGS_", StackArgs::from_number);
    same("NARROW_", Narrow::from_number);
    same("BIT_INTS_", BitInts::from_number);
    same("CLEANUP_", Cleanup::from_number);
    same("TRAVEL_", Travel::from_number);
    same("SHORT_", Short::from_number);
}

#[test]
fn refusals() {
    let macros = macros();
    for number in 1..12 {
        let refusal = format!("{:?}", Refusal::from_number(number));
        let named = macros.iter().find(|(name, _)| plain(name) == plain(&refusal));
        assert_eq!(named.map(|(_, number)| *number), Some(number), "{refusal}");
    }
    assert_eq!(Refusal::from_number(12), Refusal::Unnamed(12));
}

#[test]
fn areas() {
    let macros = macros();
    assert_eq!(macros["AREA_GP_END"], Offsets::INTEGER_END);
    assert_eq!(macros["AREA_FP_START"], Offsets::FLOAT_START);
    assert_eq!(macros["AREA_FP_END"], Offsets::FLOAT_END);
    assert_eq!(macros["AREA_SAVE_BYTES"], VaList::SAVE_BYTES as u64);
}

#[test]
fn limits_and_the_version() {
    let macros = macros();
    assert_eq!(macros["VERSION"], VERSION);
    assert_eq!(macros["LARGEST_SCALAR"], limits::LARGEST_SCALAR);
    assert_eq!(macros["LARGEST_SHAPE"], limits::LARGEST_SHAPE);
    assert_eq!(macros["LARGEST_OFFSET"], limits::LARGEST_OFFSET);
    assert_eq!(macros["LARGEST_ALIGN"], limits::LARGEST_ALIGN);
    assert_eq!(macros["MOST_PIECES"], limits::MOST_PIECES as u64);
    assert_eq!(macros["MOST_ENTRIES"], limits::MOST_ENTRIES as u64);
    assert_eq!(macros["MOST_MEMBERS"], limits::MOST_MEMBERS as u64);
    assert_eq!(macros["MOST_ELEMENTS"], limits::MOST_ELEMENTS);
    assert_eq!(macros["MOST_LEVELS"], limits::MOST_LEVELS as u64);
    assert_eq!(macros["MOST_STACK"], limits::MOST_STACK);
    assert_eq!(macros["MOST_SLOTS"], limits::MOST_SLOTS as u64);
    assert_eq!(macros["SLOT_WORDS"], limits::SLOT_WORDS as u64);
    assert_eq!(macros["MOST_NAME_BYTES"], limits::MOST_NAME_BYTES as u64);
}

/// Descriptions by the names of their constants.
macro_rules! named {
    ($($name:ident)*) => { [$((stringify!($name), Abi::$name.0)),*] };
}

#[test]
fn descriptions() {
    let named = named! {
        SYSV_AMD64 AAPCS64 DARWIN_ARM64 WINDOWS_ARM64 WINDOWS_X64 RISCV_LP64D
        I386_SYSV I386_SYSV_REGPARM_1 I386_SYSV_REGPARM_2 I386_SYSV_REGPARM_3
        I386_SYSV_REG_STRUCT I386_SYSV_REGPARM_1_REG_STRUCT
        I386_SYSV_REGPARM_2_REG_STRUCT I386_SYSV_REGPARM_3_REG_STRUCT
        I386_SYSV_STDCALL I386_SYSV_REGPARM_1_STDCALL
        I386_SYSV_REGPARM_2_STDCALL I386_SYSV_REGPARM_3_STDCALL
        I386_SYSV_REG_STRUCT_STDCALL I386_SYSV_REGPARM_1_REG_STRUCT_STDCALL
        I386_SYSV_REGPARM_2_REG_STRUCT_STDCALL I386_SYSV_REGPARM_3_REG_STRUCT_STDCALL
        I386_SYSV_FASTCALL I386_SYSV_REG_STRUCT_FASTCALL
        I386_MINGW I386_MSVC I386_MINGW_STDCALL I386_MINGW_FASTCALL I386_MSVC_STDCALL
        I386_MSVC_FASTCALL RISCV_PSABI_LP64 RISCV_PSABI_LP64F RISCV_PSABI_LP64D
    };
    let mut expected = BTreeMap::from(named);
    assert_eq!(expected.len() as u64, Abi::COUNT);
    expected.insert("COUNT", Abi::COUNT);
    let macros = macros();
    let abis =
        macros.iter().filter_map(|(name, number)| Some((name.strip_prefix("ABI_")?, *number)));
    assert_eq!(abis.collect::<BTreeMap<_, _>>(), expected);
}
