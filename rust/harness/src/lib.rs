//! The differential harness: devices that should do the same are driven in step with random calls, and compared after each.
pub mod cases;
pub mod coverage;
pub mod device;
pub mod differences;
pub mod generate;
pub mod host;
pub mod jitter;
pub mod lockstep;
pub mod ops;
pub mod ported;
pub mod record;
pub mod refused;
pub mod scenes;
pub mod shrink;
pub mod side;
pub mod state;
pub mod trace;
pub mod trio;

pub use random;
