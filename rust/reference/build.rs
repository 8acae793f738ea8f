//! Lays out the reference's sources as a crate that builds on its own. Packages `reference` and `amended` share this script.
//!
//! hda/mod.rs, hda/codec.rs and audio/mod.rs are copied byte for byte. The crate's root is lib.rs without its `//!` lines, which `include!`
//! refuses, and without the modules that are not there. `cfg(test)` is set for this crate alone: the device's own line `#[cfg(test)] mod tests;`
//! then takes in probe.rs, which sees private state; nothing else of the device depends on it.
//!
//! A package that has a file differences.edits gets those edits in its copy, and then the fault of ../faults.list that HDA_FAULT names.
use std::path::{Path, PathBuf};
use std::{env, fs};

/// Modules of lib.rs that are here.
const MODULES: [&str; 2] = ["audio", "hda"];

fn main() {
    println!("cargo:rerun-if-env-changed=HDA_REFERENCE");
    let here = PathBuf::from(env::var_os("CARGO_MANIFEST_DIR").unwrap());
    let shared = here.join("../reference");
    let out = PathBuf::from(env::var_os("OUT_DIR").unwrap());
    let sources = env::var_os("HDA_REFERENCE")
        .map_or_else(|| here.join("../../../shared/docs/src"), PathBuf::from)
        .join("crates/vmlab-hv-devices/src");

    let mut device = [("hda/mod.rs", read(&sources.join("hda/mod.rs"))), ("hda/codec.rs", read(&sources.join("hda/codec.rs")))];
    let differences = here.join("differences.edits");
    if differences.exists() {
        amend(&mut device, &differences, &here.join("../faults.list"));
    }

    for folder in MODULES {
        fs::create_dir_all(out.join(folder)).unwrap();
    }
    for (file, text) in device {
        fs::write(out.join(file), text).unwrap();
    }
    fs::write(out.join("audio/mod.rs"), read(&sources.join("audio/mod.rs"))).unwrap();
    fs::write(out.join("hda/tests.rs"), read(&shared.join("probe.rs"))).unwrap();
    fs::write(out.join("audio/null.rs"), read(&shared.join("null.rs"))).unwrap();
    for absent in ["recording.rs", "ring.rs"] {
        fs::write(out.join("audio").join(absent), "").unwrap();
    }
    let lib = String::from_utf8(read(&sources.join("lib.rs"))).unwrap();
    fs::write(out.join("root.rs"), root(&lib, &out)).unwrap();
    println!("cargo:rerun-if-changed={}", shared.join("build.rs").display());
    println!("cargo:rustc-env=HDA_SOURCES={}", sources.display());
    println!("cargo:rustc-cfg=test");
}

fn read(path: &Path) -> Vec<u8> {
    println!("cargo:rerun-if-changed={}", path.display());
    fs::read(path).unwrap_or_else(|error| {
        panic!(
            "{}: {error}. The reference's sources stand in ../shared/docs/src beside the repository, or where HDA_REFERENCE says.",
            path.display()
        )
    })
}

fn root(lib: &str, out: &Path) -> String {
    let mut root = String::new();
    for line in lib.lines().filter(|line| !line.starts_with("//!")) {
        if let Some(module) = line.strip_prefix("pub mod ").and_then(|rest| rest.strip_suffix(';')) {
            if MODULES.contains(&module) {
                root += &format!("#[path = {:?}]\n{line}\n", out.join(module).join("mod.rs"));
            }
        } else {
            root += line;
            root.push('\n');
        }
    }
    root
}

/// Applies the differences, then the fault that HDA_FAULT names.
fn amend(device: &mut [(&str, Vec<u8>)], differences: &Path, faults: &Path) {
    for edit in edits(differences) {
        edit.apply(device);
    }
    println!("cargo:rerun-if-env-changed=HDA_FAULT");
    if let Ok(name) = env::var("HDA_FAULT") {
        let fault = edits(faults).into_iter().find(|edit| edit.name == name);
        fault.unwrap_or_else(|| panic!("{} has no fault {name}", faults.display())).apply(device);
    }
}

struct Edit {
    name: String,
    old: String,
    new: String,
}

/// A list of edits: a line `== NAME`, the old text, a line `--`, the new text. Lines that begin with `# ` are comments.
fn edits(path: &Path) -> Vec<Edit> {
    let text = String::from_utf8(read(path)).unwrap();
    let text: String = text.lines().filter(|line| !line.starts_with("# ")).flat_map(|line| ["\n", line]).collect();
    let mut edits = Vec::new();
    for part in text.split("\n== ").skip(1) {
        let (name, body) = part.split_once('\n').unwrap_or_else(|| panic!("edit without text: {part}"));
        let (old, new) = body.split_once("\n--\n").unwrap_or_else(|| panic!("edit without --: {name}"));
        edits.push(Edit { name: name.into(), old: old.into(), new: new.trim_end().into() });
    }
    edits
}

impl Edit {
    /// An edit that matches nowhere or twice would change something else than it says.
    fn apply(&self, device: &mut [(&str, Vec<u8>)]) {
        let mut matches = 0;
        for (_, file) in device {
            let text = str::from_utf8(file).unwrap();
            matches += text.matches(&self.old).count();
            *file = text.replacen(&self.old, &self.new, 1).into_bytes();
        }
        assert_eq!(matches, 1, "the edit \"{}\" must match exactly once", self.name);
    }
}
