//! Finds libbarkpaddle.a, as ../rust/build.rs does.

use std::env;
use std::path::PathBuf;

fn main() {
    println!("cargo::rerun-if-env-changed=BARKPADDLE_LIB_DIR");
    // what bench/run says of the archive's content: a copied target/ must not keep a driver of another one
    println!("cargo::rerun-if-env-changed=BENCH_ARCHIVE");
    let here = PathBuf::from(env::var_os("CARGO_MANIFEST_DIR").expect("cargo sets it"));
    let folder = env::var_os("BARKPADDLE_LIB_DIR")
        .map_or_else(|| here.join("../target/staticlib"), PathBuf::from);
    let folder = folder.canonicalize().unwrap_or_else(|why| {
        panic!("{}: {why}; make it with `tools/staticlib`", folder.display())
    });
    println!("cargo::rerun-if-changed={}", folder.join("libbarkpaddle.a").display());
    println!("cargo::rustc-link-search=native={}", folder.display());
    println!("cargo::rustc-link-lib=static=barkpaddle");
}
