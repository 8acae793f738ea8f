//! The reference: the Rust's HDA device, its sources byte for byte as build.rs found them.
#![allow(dead_code, explicit_builtin_cfgs_in_flags, unexpected_cfgs, unused)]
include!(concat!(env!("OUT_DIR"), "/root.rs"));

/// Where the sources came from, and where they were laid out: the tests compare the two.
pub const SOURCES: &str = env!("HDA_SOURCES");
pub const LAID_OUT: &str = env!("OUT_DIR");
