//! Lays out a folder in which the original's files and the stand-ins for their missing neighbours lie where `mod` looks for
//! them. They are copied to the build's own folder alone: the prover's gate refuses a link anywhere in the checkout.
use std::env;
use std::fs;
use std::path::{Path, PathBuf};

/// The original's files, and the folder in which each is laid.
const ORIGINAL: [(&'static str, &'static str); 5] = [
    ("Kernel/Core/metadevs/video/mod.rs", "video"),
    ("Kernel/Core/metadevs/video/geom.rs", "video"),
    ("Kernel/Modules/gui/windows/mod.rs", "windows"),
    ("Kernel/Modules/gui/windows/window.rs", "windows"),
    ("Kernel/Modules/gui/windows/winbuf.rs", "windows"),
];

/// Modules that the original's `video/mod.rs` names and that are not among its files.
const STAND_INS: [&'static str; 3] = ["bootvideo.rs", "cursor.rs", "kernel_font.rs"];

fn main() {
    println!("cargo:rerun-if-env-changed=ROQSHYN_ORIGINAL");
    // This folder, or `unlocked` beside it.
    let here = PathBuf::from(env::var("CARGO_MANIFEST_DIR").expect("cargo names the folder"));
    let out = PathBuf::from(env::var("OUT_DIR").expect("cargo names the output folder"));
    let original = match env::var("ROQSHYN_ORIGINAL") {
        Ok(folder) => PathBuf::from(folder),
        Err(_) => here.join("../../../shared/docs/src"),
    };
    for &(file, folder) in ORIGINAL.iter() {
        lay(&original.join(file), &out.join(folder));
    }
    for file in STAND_INS.iter() {
        lay(&here.join("../original/src/metadevs/video").join(file), &out.join("video"));
    }
}

/// Lays a copy of the file in the folder.
fn lay(file: &Path, folder: &Path) {
    println!("cargo:rerun-if-changed={}", file.display());
    let file = file.canonicalize().unwrap_or_else(|e| panic!("{}: {}", file.display(), e));
    let place = folder.join(file.file_name().expect("a file has a name"));
    fs::create_dir_all(folder).expect("the folder can be made");
    let _ = fs::remove_file(&place);
    fs::copy(&file, &place).expect("the file can be copied");
}
