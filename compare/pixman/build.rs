//! Links pixman, if it is installed: then ROQSHYN_PIXMAN has the linker's words for it (`tools/needs.sh`). Cargo builds
//! anew where they have changed, and not each time.
use std::env;

fn main() {
    println!("cargo:rerun-if-changed=build.rs");
    println!("cargo:rerun-if-env-changed=ROQSHYN_PIXMAN");
    println!("cargo:rustc-check-cfg=cfg(pixman)");
    let words = env::var("ROQSHYN_PIXMAN").unwrap_or_default();
    for folder in words.split_whitespace().filter_map(|word| word.strip_prefix("-L")) {
        println!("cargo:rustc-link-search=native={folder}");
    }
    if words.contains("-lpixman-1") {
        println!("cargo:rustc-link-lib=pixman-1");
        println!("cargo:rustc-cfg=pixman");
    }
}
