//! The proved device (libport.a, from `tools/device`) for safe Rust.
//!
//! [`calls`] has each C function over slices, [`Machine`] the same over records, lists and queues that it owns, with the returned number taken apart. No use of them
//! can break memory safety: the C functions take any bytes of any length, touch nothing else and always return, and slices that a call may write cannot overlap others.
mod c;
pub mod calls;
pub mod format;
pub mod layout;
mod machine;
mod reply;
pub mod wav;

pub use machine::{Bounds, Bytes, Machine, Scratch, Stream};
pub use reply::{Answer, Message, Reply, WavReply, number};
