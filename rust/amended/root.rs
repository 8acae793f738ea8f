//! The second oracle: the reference's sources with differences.edits applied, which are document 01's "Where port and Rust part" and what landed requests ask otherwise.
#![allow(dead_code, explicit_builtin_cfgs_in_flags, unexpected_cfgs, unused)]
include!(concat!(env!("OUT_DIR"), "/root.rs"));

pub mod differences;

/// Name of the seeded fault of faults.list that this build has, if any.
pub const FAULT: Option<&str> = option_env!("HDA_FAULT");
