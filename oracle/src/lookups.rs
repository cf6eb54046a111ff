//! `oracle lookups`: every lookup, over the whole of its small domain (REFERENCE 6).

use std::io::{self, Write};

use rucc_abi::{AbiDescription, Convention, abis};
use rucc_tuple::{Arch, Env, Os, TargetTuple};

use crate::numbers;

pub fn print(out: &mut impl Write) -> io::Result<()> {
    for (code, target) in targets() {
        writeln!(out, "target {code} {}", row(abis::for_target(target)))?;
    }
    for (code, target) in targets() {
        for (number, convention) in CONVENTIONS {
            let found = row(abis::for_convention(target, convention));
            writeln!(out, "convention {code} {number} {found}")?;
        }
    }
    let names = names();
    for (code, target) in targets() {
        for name in &names {
            let shown = if name.is_empty() { "-" } else { name };
            writeln!(out, "asked {code} {shown} {}", asked(target, name))?;
        }
    }
    for (number, convention) in CONVENTIONS {
        writeln!(out, "attribute {number} {}", convention.attribute().unwrap_or("none"))?;
    }
    for (number, convention) in CONVENTIONS {
        writeln!(out, "pops {number} {}", numbers::flag(convention.callee_pops()))?;
    }
    Ok(())
}

/// Conventions by their codes, regparm's as 256 plus its number of registers.
const CONVENTIONS: [(u64, Convention); 13] = [
    (0, Convention::Target),
    (1, Convention::Ms),
    (2, Convention::Sysv),
    (3, Convention::Stdcall),
    (4, Convention::Fastcall),
    (5, Convention::NoCalleeSaved),
    (6, Convention::PreserveNone),
    (256, Convention::Regparm(0)),
    (257, Convention::Regparm(1)),
    (258, Convention::Regparm(2)),
    (259, Convention::Regparm(3)),
    (260, Convention::Regparm(4)),
    (511, Convention::Regparm(255)),
];

/// Architectures by their codes. The last stands for all that have no description.
const ARCHES: [Arch; 5] =
    [Arch::X86, Arch::X86_64, Arch::Aarch64, Arch::Riscv64, Arch::LoongArch64];

/// Systems by their codes: Windows, macOS, another Darwin, anything else.
const SYSTEMS: [Os; 4] = [Os::Windows, Os::MacOs, Os::IOs, Os::Linux];

/// MSVC or not, by its code.
const ENVIRONMENTS: [Env; 2] = [Env::Gnu, Env::Msvc];

/// Every target with its three codes as they are printed.
fn targets() -> Vec<(String, TargetTuple)> {
    let mut targets = Vec::new();
    for (a, arch) in ARCHES.into_iter().enumerate() {
        for (s, os) in SYSTEMS.into_iter().enumerate() {
            for (m, env) in ENVIRONMENTS.into_iter().enumerate() {
                targets.push((format!("{a} {s} {m}"), TargetTuple { arch, os, env }));
            }
        }
    }
    targets
}

/// Each name that an attribute has, three near misses of it, and two that were never one.
fn names() -> Vec<String> {
    const KNOWN: [&str; 7] = [
        "ms_abi",
        "sysv_abi",
        "no_callee_saved_registers",
        "preserve_none",
        "stdcall",
        "fastcall",
        "cdecl",
    ];
    let mut names = Vec::new();
    for name in KNOWN {
        let (first, rest) = name.split_at(1);
        names.push(name.to_string());
        names.push(first.to_uppercase() + rest);
        names.push(name[..name.len() - 1].to_string());
        names.push(format!("{name}x"));
    }
    names.push("regparm".to_string());
    names.push(String::new());
    names
}

fn row(found: Option<&'static AbiDescription>) -> String {
    found.map_or("none".to_string(), |description| numbers::row_number(description).to_string())
}

fn asked(target: TargetTuple, name: &str) -> String {
    let Some(convention) = Convention::asked(target, name) else { return "none".to_string() };
    let known = CONVENTIONS.iter().find(|(_, known)| *known == convention);
    known.expect("an attribute asks for a convention that has a code").0.to_string()
}
