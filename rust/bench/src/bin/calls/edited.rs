//! The Rust with the differences of rust/amended, for the rates that only they give it.
use amended as oracle;

#[allow(clippy::duplicate_mod)]
#[path = "device.rs"]
mod device;
pub use device::Rust;
