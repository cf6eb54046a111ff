//! Links the sources that RUCC_SRC names to the path that Cargo.toml builds.
//!
//! The crate's root has to be the original lib.rs itself, since the files below it say `crate::`,
//! and a manifest can't name a path from the environment.

use std::path::{Path, PathBuf};
use std::{env, fs};

fn main() {
    let here = PathBuf::from(env::var_os("CARGO_MANIFEST_DIR").expect("cargo sets it"));
    let root = here.join("../..");
    let sources = match env::var_os("RUCC_SRC") {
        Some(sources) => PathBuf::from(sources),
        None => root.join("../shared/docs/src"),
    };
    let sources = sources
        .canonicalize()
        .unwrap_or_else(|why| panic!("RUCC_SRC, {}: {why}", sources.display()));
    let link = root.join("target/rucc-src");
    println!("cargo::rerun-if-env-changed=RUCC_SRC");
    println!("cargo::rerun-if-changed=build.rs");
    println!("cargo::rerun-if-changed={}", link.join("crates/rucc-abi/src/lib.rs").display());
    put_link(&sources, &link);
}

fn put_link(sources: &Path, link: &Path) {
    if fs::read_link(link).is_ok_and(|old| old == sources) {
        return;
    }
    fs::create_dir_all(link.parent().expect("target/")).expect("a folder target/");
    // There may be none yet.
    let _ = fs::remove_file(link);
    std::os::unix::fs::symlink(sources, link).expect("a link in target/");
}
