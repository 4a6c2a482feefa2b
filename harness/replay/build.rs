// Links the proved static libraries, which `harness/build` has made before: the users', and the one for tests.
use std::path::PathBuf;

fn main() {
    let root = PathBuf::from(std::env::var("CARGO_MANIFEST_DIR").unwrap()).join("../..");
    for name in ["keldurap", "options_for_tests"] {
        let lib = root.join("crates").join(name).join("out");
        println!("cargo:rustc-link-search=native={}", lib.display());
        println!("cargo:rustc-link-lib=static={name}");
        println!("cargo:rerun-if-changed={}", lib.join(format!("lib{name}.a")).display());
    }
}
