//! Where the proved engine's archives lie. Only the feature `linked` needs them.
//! `ROSTER_LIB_DIR` names their folder (the repository's target/staticlib if unset) and `ROSTER_LIB` their names, without `lib` and `.a`,
//! and with a space between them.

use std::env;
use std::path::PathBuf;

fn main() {
    println!("cargo:rerun-if-env-changed=ROSTER_LIB_DIR");
    println!("cargo:rerun-if-env-changed=ROSTER_LIB");
    if env::var_os("CARGO_FEATURE_LINKED").is_none() {
        return;
    }
    let here = PathBuf::from(env::var("CARGO_MANIFEST_DIR").expect("cargo sets CARGO_MANIFEST_DIR"));
    let folder = env::var("ROSTER_LIB_DIR").map_or_else(|_| here.join("../../target/staticlib"), PathBuf::from);
    let names = env::var("ROSTER_LIB").unwrap_or_else(|_| "roster_c replay faulty_c".to_string());
    println!("cargo:rustc-link-search=native={}", folder.display());
    for name in names.split_whitespace() {
        println!("cargo:rerun-if-changed={}", folder.join(format!("lib{name}.a")).display());
        println!("cargo:rustc-link-lib=static={name}");
    }
}
