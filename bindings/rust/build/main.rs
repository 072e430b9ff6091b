//! Finds libroqshyn.a, where ROQSHYN_ARCHIVE says, or by the link that `install` made, or in a checkout; and
//! writes the declarations of roqshyn.h in Rust, for src/raw.rs.
mod header;

use std::env;
use std::fs;
use std::path::{Path, PathBuf};

fn main() {
    let here = PathBuf::from(env::var("CARGO_MANIFEST_DIR").expect("set by cargo"));
    let out = PathBuf::from(env::var("OUT_DIR").expect("set by cargo"));
    let found = || first_of(&here, ["libroqshyn.a", "../../crates/roqshyn/out/libroqshyn.a"]);
    let archive = env::var("ROQSHYN_ARCHIVE").map_or_else(|_| found(), PathBuf::from);
    // The linker finds it by this name.
    let copied = fs::copy(&archive, out.join("libroqshyn.a"));
    copied.unwrap_or_else(|e| panic!("{}: {e}; set ROQSHYN_ARCHIVE to where the archive is", archive.display()));
    println!("cargo:rustc-link-search=native={}", out.display());
    println!("cargo:rustc-link-lib=static=roqshyn");
    println!("cargo:rerun-if-env-changed=ROQSHYN_ARCHIVE");
    println!("cargo:rerun-if-changed={}", archive.display());

    let file = first_of(&here, ["../../include/roqshyn.h", "../../../include/roqshyn.h"]);
    let text = fs::read_to_string(&file).unwrap_or_else(|e| panic!("{}: {e}", file.display()));
    fs::write(out.join("raw.rs"), header::declarations(&text)).expect("the folder that cargo made");
    println!("cargo:rerun-if-changed={}", file.display());
    println!("cargo:rerun-if-changed=build");
}

/// The first if it is a file, or else the second.
fn first_of(here: &Path, [first, second]: [&str; 2]) -> PathBuf {
    let file = here.join(first);
    if file.is_file() {
        return file;
    }
    here.join(second)
}
