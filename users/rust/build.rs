//! Links libkeldurap.a, which `rt lib` in crates/keldurap makes: out of the folder KELDURAP_LIB, or the repository's crates/keldurap/out.
use std::path::PathBuf;

fn main() {
    println!("cargo:rerun-if-env-changed=KELDURAP_LIB");
    let here = PathBuf::from(std::env::var_os("CARGO_MANIFEST_DIR").unwrap());
    let folder = std::env::var_os("KELDURAP_LIB").map_or_else(|| here.join("../../crates/keldurap/out"), PathBuf::from);
    let archive = folder.join("libkeldurap.a");
    if !archive.is_file() {
        panic!("no {}: run `rt lib` in the repository's crates/keldurap, or name the archive's folder in KELDURAP_LIB", archive.display());
    }
    println!("cargo:rerun-if-changed={}", archive.display());
    println!("cargo:rustc-link-search=native={}", folder.display());
    println!("cargo:rustc-link-lib=static=keldurap");
}
