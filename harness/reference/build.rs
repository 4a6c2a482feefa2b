//! Copies the published files into OUT_DIR, with the substitutions below and no others.
//!
//! The files are sought under KELDURAP_SHARED, or `../../../shared` seen from this crate.

use std::path::{Path, PathBuf};
use std::{env, fs};

/// One change to the published text: in `file`, each of just `places` places that read `from`
/// reads `to` instead.
struct Substitution {
    name: &'static str,
    file: &'static str,
    from: &'static str,
    to: &'static str,
    places: usize,
}

const SUBSTITUTIONS: &[Substitution] = &[
    // Document 01: the harness sets SPEED_DIFF_JOIN to the book's J. A constant can't be set,
    // so the three uses call a function.
    Substitution {
        name: "book's J",
        file: "est_times/mod.rs",
        from: " SPEED_DIFF_JOIN",
        to: " uc::speed_diff_join()",
        places: 3,
    },
    // A slice's copy is the standard library's list; the signature names the shim's.
    Substitution {
        name: "copy of the origins",
        file: "est_times/mod.rs",
        from: "origs.to_vec()",
        to: "Vec::from(origs.to_vec())",
        places: 1,
    },
    // Row 13: the source takes the last node as a run's end unseen. The run's place is known
    // here and to no shim.
    Substitution {
        name: "finish",
        file: "est_times/mod.rs",
        from: "est_idxs_end.push(",
        to: "crate::watch::finish(&est_times, sim.est_alt.idx_prev); est_idxs_end.push(",
        places: 1,
    },
];

/// The published files, and where their copies stand in OUT_DIR.
const FILES: &[(&str, &str)] = &[
    ("meet_pass/disp_structs.rs", "disp_structs.rs"),
    ("meet_pass/est_times/mod.rs", "est_times/mod.rs"),
    ("meet_pass/est_times/update_times.rs", "est_times/update_times.rs"),
    ("meet_pass/est_times/est_time_structs.rs", "est_times/est_time_structs.rs"),
];

fn main() {
    println!("cargo:rerun-if-changed={}", concat!(env!("CARGO_MANIFEST_DIR"), "/../reference/build.rs"));
    // The published text has a part for Python, which is left out.
    println!("cargo:rustc-check-cfg=cfg(feature, values(\"pyo3\"))");
    println!("cargo:rerun-if-env-changed=KELDURAP_SHARED");
    let source = shared().join("docs/src/altrios-core/src");
    let out = PathBuf::from(env::var("OUT_DIR").unwrap()).join("published");
    fs::create_dir_all(out.join("est_times")).unwrap();
    for (from, to) in FILES {
        copy(&source.join(from), &out, to);
    }
    fs::write(out.join("mods.rs"), "pub mod disp_structs;\npub mod est_times;\n").unwrap();
}

fn shared() -> PathBuf {
    match env::var("KELDURAP_SHARED") {
        Ok(path) => path.into(),
        Err(_) => Path::new(&env::var("CARGO_MANIFEST_DIR").unwrap()).join("../../../shared"),
    }
}

fn copy(source: &Path, out: &Path, file: &str) {
    println!("cargo:rerun-if-changed={}", source.display());
    let mut text =
        fs::read_to_string(source).unwrap_or_else(|error| panic!("{}: {error}", source.display()));
    for change in SUBSTITUTIONS.iter().filter(|change| change.file == file) {
        let found = text.matches(change.from).count();
        assert_eq!(found, change.places, "places of the substitution '{}'", change.name);
        text = text.replace(change.from, change.to);
    }
    fs::write(out.join(file), text).unwrap();
}
