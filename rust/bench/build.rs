//! Links the proved leaves, which `rt lib` builds in crates/leaves, to the programs that time them.
use std::{env, path::PathBuf};

fn main() {
    let leaves = PathBuf::from(env::var_os("CARGO_MANIFEST_DIR").unwrap()).join("../../crates/leaves/out/libleaves.a");
    println!("cargo:rerun-if-changed={}", leaves.display());
    for program in ["bench", "forms"] {
        println!("cargo:rustc-link-arg-bin={program}={}", leaves.display());
    }
}
