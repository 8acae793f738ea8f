//! One side of a differential run: a device with its host end and guest memory, behind the calls of document 01.
//!
//! Nothing here knows how a side is made. The Rust devices are two sides (device.rs), the port's C functions a third (ported.rs).
use crate::differences::Differences;
use crate::jitter;
use crate::state::{self, Fields, Stream};
use port::Bounds;

/// A stream's direction. Its number is the stream's index in registers, saved states and host end.
#[derive(Clone, Copy, Debug, PartialEq, Eq)]
pub enum Direction {
    Capture,
    Playback,
}

impl Direction {
    pub const BOTH: [Self; 2] = [Self::Capture, Self::Playback];

    pub fn index(self) -> usize {
        self as usize
    }

    pub fn name(self) -> &'static str {
        ["capture", "playback"][self.index()]
    }
}

/// The numbers that calls return and that Rust and port share.
pub mod number {
    pub const DONE: u32 = 0;
    pub const HOST_CLOSED: u32 = 1;
    pub const ODD_FRAMES: u32 = 11;
    pub const LATENCY: u32 = 12;
    /// Restore's alone, by request T-09; the unchanged Rust never gives it.
    pub const CROWDED: u32 = 20;
    /// Request T-13's; the Rust has no such call.
    pub const REVERSED: u32 = 21;
}

/// One MSI message.
#[derive(Clone, Copy, Debug, PartialEq, Eq)]
pub struct Message {
    pub address: u64,
    pub data: u32,
}

/// The interrupt outcome of a call: the INTx level it left and the MSI messages it sent.
#[derive(Clone, Debug, Default, PartialEq, Eq)]
pub struct Interrupts {
    pub level: bool,
    pub messages: Vec<Message>,
}

/// All that the caller of one call is told.
#[derive(Clone, Debug, Default, PartialEq, Eq)]
pub struct Answer {
    /// Document 01's number.
    pub number: u32,
    /// Frames moved, bytes saved, or the configuration register read.
    pub value: u64,
    /// Bytes read, the buffer after a pull, or the saved state.
    pub bytes: Vec<u8>,
    pub interrupts: Interrupts,
}

/// All that a side holds at rest besides guest memory. Pairs are capture, playback.
#[derive(Clone, Debug, Default, PartialEq, Eq)]
pub struct View {
    /// What save gives.
    pub state: Vec<u8>,
    /// The latch that keeps MSI from being sent twice; no saved state has it.
    pub asserted: bool,
    pub open: [bool; 2],
    pub queues: [Vec<u8>; 2],
    pub opening_fails: [bool; 2],
    pub downstream: u32,
}

impl View {
    /// The whole view as named texts, in a fixed order.
    pub fn fields(&self) -> Fields {
        let mut fields = state::fields(&self.state);
        fields.push(("asserted".into(), u8::from(self.asserted).to_string()));
        fields.push(("downstream".into(), self.downstream.to_string()));
        for direction in Direction::BOTH {
            let (name, index) = (direction.name(), direction.index());
            fields.push((format!("{name}.open"), u8::from(self.open[index]).to_string()));
            fields.push((format!("{name}.queue"), crate::ops::hex(&self.queues[index])));
            fields.push((format!("{name}.opening-fails"), u8::from(self.opening_fails[index]).to_string()));
        }
        fields
    }
}

/// A device with host end and guest memory. Every call of document 01 and of landed requests, and below them what only the harness needs.
pub trait Side {
    const NAME: &'static str;

    /// A new device, a new host end and `memory` bytes of zeros.
    fn new(microphone: bool, memory: usize) -> Self
    where
        Self: Sized;

    fn advance(&mut self, nanoseconds: u64) -> u32;
    fn read(&mut self, offset: u64, data: &mut [u8]) -> u32;
    fn write(&mut self, offset: u64, data: &[u8]) -> u32;
    /// The number and the register.
    fn config_read(&mut self, register: u64) -> (u32, u32);
    fn config_write(&mut self, register: u64, offset: u64, data: &[u8]) -> u32;
    fn change_pin(&mut self, node: u8) -> u32;
    fn set_paused(&mut self, paused: bool) -> u32;
    /// The number and the count of frames.
    fn feed(&mut self, frames: &[u8]) -> (u32, u32);
    /// The number and the count of frames; the rest of the buffer is unchanged.
    fn pull(&mut self, frames: &mut [u8]) -> (u32, u32);
    fn set_opening_fails(&mut self, direction: Direction, fails: bool) -> u32;
    fn set_downstream(&mut self, bytes: u32) -> u32;
    fn save(&mut self) -> (u32, Vec<u8>);
    fn restore(&mut self, state: &[u8]) -> u32;
    /// Request T-09's call: as restore, but crowded lists are emptied. The unchanged Rust has none, and its side restores: the same wherever no list is crowded.
    fn restore_emptied(&mut self, state: &[u8]) -> u32;
    /// Request T-13's call. The Rust devices have none: they are run, on copies, for each time that can make a difference.
    fn advance_bounds(&mut self, shortest: u64, longest: u64) -> Result<[Bounds; 2], u32>
    where
        Self: Sized,
    {
        if shortest > longest { Err(number::REVERSED) } else { Ok(jitter::exhausted(self, shortest, longest).bounds) }
    }

    /// A side of its own with the same device, host end and guest memory.
    fn copied(&self) -> Self
    where
        Self: Sized;
    /// Becomes such a copy of a side with as much guest memory, whatever it was before.
    fn copy_from(&mut self, other: &Self)
    where
        Self: Sized;
    /// Closes the host stream and keeps RUN, which no call does: only so can `advance` be refused.
    fn close(&mut self, direction: Direction);
    /// Gives a stream the counts and the list of another, which no call does and one who lends the bytes may: restore takes no crowded list.
    fn set_list(&mut self, direction: Direction, stream: &Stream);
    fn memory(&self) -> &[u8];
    fn memory_mut(&mut self) -> &mut [u8];
    /// The level now, and the messages since the last time this was asked.
    fn take_interrupts(&mut self) -> Interrupts;
    /// The differences met since the last time this was asked; a side that cannot tell says none.
    fn take_differences(&mut self) -> Differences {
        Differences::default()
    }
    fn view(&self) -> View;
}
