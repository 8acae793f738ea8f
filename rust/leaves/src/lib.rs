//! The leaves, each asked of the Rust and of the proved code: format word, gain, codec, wall clock and frame time. The unchanged Rust judges, and
//! the amended oracle where request T-01 asks otherwise ([`oracles`]).
//!
//! A [`question::Question`] has all that a leaf is handed, and an [`question::Answer`] all that it gives back, the changed codec too. So one
//! comparison serves every leaf, and a question with the Rust's answer is one line of the recorded answers.
pub mod compare;
pub mod draw;
pub mod edited;
pub mod oracles;
pub mod parting;
pub mod port;
pub mod question;
pub mod random;
pub mod record;
pub mod unchanged;
