//! Links the proved library when the feature `library` is on.

use std::env;

/// The archives of the library.
const ARCHIVES: [&str; 2] = ["judge", "pieces"];

fn main() {
    println!("cargo:rerun-if-env-changed=JUDGE_LIB_DIR");
    if env::var_os("CARGO_FEATURE_LIBRARY").is_none() {
        return;
    }
    let folder = env::var("JUDGE_LIB_DIR")
        .expect("JUDGE_LIB_DIR must name the folder that holds libjudge.a and libpieces.a");
    println!("cargo:rustc-link-search=native={folder}");
    for archive in ARCHIVES {
        println!("cargo:rerun-if-changed={folder}/lib{archive}.a");
        println!("cargo:rustc-link-lib=static:-bundle={archive}");
    }
}
