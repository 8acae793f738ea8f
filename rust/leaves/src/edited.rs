//! The Rust with the differences of rust/amended: the amended oracle.
use amended as oracle;

#[allow(clippy::duplicate_mod)]
#[path = "device.rs"]
mod device;
pub use device::{Rust, fresh_codec, takes};
