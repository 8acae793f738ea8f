//! Which difference between port and Rust a call met: document 01's, and those that requests add. differences.edits marks them; the harness takes the marks after each call.
use crate::GuestMemory;
use std::cell::Cell;
use vm_memory::{GuestAddress, GuestMemory as _};

/// A difference between port and Rust. Its number is its bit in what [`take`] gives and its place in [`NAMES`].
#[derive(Clone, Copy)]
pub enum Difference {
    PositionWrite,
    SubmittedOverflow,
    ListFull,
    CaptureAcrossEnd,
    PositionAcrossEnd,
    ResponseAcrossEnd,
    RestoreListLength,
    Rate88200,
    RatesReply,
    RestoreCrowded,
}

pub const NAMES: [&str; 10] = [
    "position-write",
    "submitted-overflow",
    "list-full",
    "capture-across-end",
    "position-across-end",
    "response-across-end",
    "restore-list-length",
    "rate-88200",
    "rates-reply",
    "restore-crowded",
];

thread_local! {
    // One harness thread drives its own devices: marks of another thread's device are not its own.
    static FIRED: Cell<u16> = const { Cell::new(0) };
}

impl Difference {
    pub(crate) fn fires(self) {
        FIRED.set(FIRED.get() | 1 << self as u16);
    }
}

/// The differences met since the last call of this function, as bits.
pub fn take() -> u16 {
    FIRED.replace(0)
}

/// Whether an access starts inside memory and ends outside. Here alone the Rust moves a part; an access wholly outside moves nothing.
pub(crate) fn crosses_end(memory: &GuestMemory, address: u64, length: usize) -> bool {
    memory.address_in_range(GuestAddress(address)) && !memory.check_range(GuestAddress(address), length)
}
