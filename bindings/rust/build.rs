//! Finds the archive `libnnef.a`: in the folder that NNEF_LIB_DIR names, or in the repository's crates/nnef/out.

use std::env;
use std::path::{Path, PathBuf};

fn main() {
    println!("cargo:rerun-if-env-changed=NNEF_LIB_DIR");
    let folder = match env::var_os("NNEF_LIB_DIR") {
        Some(folder) => PathBuf::from(folder),
        None => Path::new(env!("CARGO_MANIFEST_DIR")).join("../../crates/nnef/out"),
    };
    let archive = folder.join("libnnef.a");
    if !archive.is_file() {
        eprintln!(
            "{} is missing: run `rt lib` in the repository's crates/nnef, or set NNEF_LIB_DIR to the archive's folder",
            archive.display()
        );
        std::process::exit(1);
    }
    println!("cargo:rerun-if-changed={}", archive.display());
    println!("cargo:rustc-link-search=native={}", folder.display());
}
