//! Stand-in for a crate that the reference's lib.rs names in a trait that the HDA device does not use.
pub struct Queue;
