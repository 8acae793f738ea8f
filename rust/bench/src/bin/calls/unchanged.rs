//! The Rust as it is, byte for byte.
use reference as oracle;

#[allow(clippy::duplicate_mod)]
#[path = "device.rs"]
mod device;
pub use device::Rust;
