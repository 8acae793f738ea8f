//! Links the proved leaves, which `rt lib` builds in crates/leaves.
use std::{env, path::PathBuf};

fn main() {
    let library = PathBuf::from(env::var_os("CARGO_MANIFEST_DIR").unwrap()).join("../../crates/leaves/out");
    println!("cargo:rerun-if-changed={}", library.join("libleaves.a").display());
    println!("cargo:rustc-link-search={}", library.display());
    println!("cargo:rustc-link-lib=static=leaves");
}
