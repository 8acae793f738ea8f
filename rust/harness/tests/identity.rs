//! The judge is the Rust as it was published: what was compiled is what stands in the sources.
use std::fs;
use std::path::Path;

#[test]
fn the_reference_is_byte_for_byte_the_sources() {
    for file in ["hda/mod.rs", "hda/codec.rs", "audio/mod.rs"] {
        let source = fs::read(Path::new(reference::SOURCES).join(file)).unwrap();
        let compiled = fs::read(Path::new(reference::LAID_OUT).join(file)).unwrap();
        assert!(source == compiled, "{file} was changed");
    }
}
