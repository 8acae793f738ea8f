//! Links the proved device, which `tools/device` builds.
use std::{env, path::PathBuf};

fn main() {
    let library = PathBuf::from(env::var_os("CARGO_MANIFEST_DIR").unwrap()).join("../../target/staticlib");
    println!("cargo:rerun-if-changed={}", library.join("libport.a").display());
    println!("cargo:rustc-link-search={}", library.display());
    println!("cargo:rustc-link-lib=static=port");
}
