//! Finds libbarkpaddle.a: in the folder that BARKPADDLE_LIB_DIR names, or where tools/staticlib puts
//! it. Only linking needs it, so that the crate can be checked and documented on any machine: what
//! will keep it from linking is a warning here, and an error only once something is linked.

use std::env;
use std::path::{self, Path, PathBuf};

fn main() {
    println!("cargo::rerun-if-env-changed=BARKPADDLE_LIB_DIR");
    let folder = path::absolute(folder()).expect("there is a current folder");
    let archive = folder.join("libbarkpaddle.a");
    println!("cargo::rerun-if-changed={}", archive.display());
    if let Some(hindrance) = hindrance(&archive) {
        println!("cargo::warning=this can be checked, but not linked: {hindrance}");
    }
    println!("cargo::rustc-link-search=native={}", folder.display());
    println!("cargo::rustc-link-lib=static=barkpaddle");
}

fn folder() -> PathBuf {
    let here = || PathBuf::from(env::var_os("CARGO_MANIFEST_DIR").expect("cargo sets it"));
    env::var_os("BARKPADDLE_LIB_DIR")
        .map_or_else(|| here().join("../target/staticlib"), PathBuf::from)
}

/// What is in the way of linking, and what to do about it.
fn hindrance(archive: &Path) -> Option<String> {
    if env::var("CARGO_CFG_TARGET_ARCH").is_ok_and(|arch| arch != "x86_64") {
        return Some(
            "libbarkpaddle.a is x86-64 code. Build with --target x86_64-unknown-linux-gnu.".into(),
        );
    }
    (!archive.is_file()).then(|| {
        format!(
            "there is no {}. Make it with `tools/staticlib` in the repository of Barkpaddle, \
             or set BARKPADDLE_LIB_DIR to the folder that has it.",
            archive.display()
        )
    })
}
