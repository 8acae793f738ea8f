//! What is timed.
use crate::sides::{FRAME, Side};
use bench::noise;
use port::layout::{QUEUE, STATE, device, get, put, stream};
use random::Random;
use std::hint::black_box;

const DESCRIPTORS: usize = 0x1000;
const RING: usize = 0x4000;
const COMMANDS: usize = 0x8000;
const RESPONSES: usize = 0x9000;
const PERIOD: usize = 1024;
const TAG: u8 = 0x10;
/// The format word of 48,000 frames a second, which a converter has after a reset too.
const FORMAT: u16 = 0x0011;

pub trait Operation {
    /// Calls that one run makes; more than one where a call is short.
    const TIMES: usize = 1;
    /// Runs after which both sides are compared, before any is timed.
    const COMPARED: usize = 24;
    /// Rounds that the medians are taken of.
    const ROUNDS: usize = 15;

    fn set_up(&self, side: &mut impl Side);
    /// What is done before each run and not timed. New frames are drawn from `random`, which gives Rust and port the same.
    fn prepare(&self, _: &mut impl Side, _turn: usize, _random: &mut Random) {}
    /// One call; `turn` counts the calls on this side.
    fn run(&self, side: &mut impl Side, turn: usize) -> usize;
    /// Positions pending when a run starts, where that is what the operation is about.
    fn pending(&self) -> Option<usize> {
        None
    }
    /// The state that the port is to have after a run, from the Rust's: the same, where the operation does not part them.
    fn expected(&self, rust: Vec<u8>) -> Vec<u8> {
        rust
    }
}

/// Bus master, out of reset.
fn wake(side: &mut impl Side) {
    side.config_write(1, 0, &[6, 0]);
    side.write(0x08, &[1, 0, 0, 0]);
}

/// A command through the immediate registers.
fn verb(side: &mut impl Side, command: u32) {
    side.write(0x60, &command.to_le_bytes());
    side.write(0x68, &[1]);
}

/// A running stream over a ring of noise with flagged descriptors. 256 frames are due at each `period`.
fn start(side: &mut impl Side, capture: bool, format: u16, descriptors: usize, length: usize) {
    for index in 0..descriptors {
        let descriptor = &mut side.memory()[DESCRIPTORS + 16 * index..][..16];
        descriptor[..8].copy_from_slice(&((RING + length * index) as u64).to_le_bytes());
        descriptor[8..12].copy_from_slice(&(length as u32).to_le_bytes());
        descriptor[12] = 1;
    }
    side.memory()[RING..RING + 4 * PERIOD].copy_from_slice(&noise::<{ 4 * PERIOD }>());
    let base = if capture { 0x80 } else { 0xa0 };
    side.write(base + 0x02, &[TAG]);
    side.write(base + 0x08, &((descriptors * length) as u32).to_le_bytes());
    side.write(base + 0x0c, &[(descriptors - 1) as u8, 0]);
    side.write(base + 0x12, &format.to_le_bytes());
    side.write(base + 0x18, &(DESCRIPTORS as u64).to_le_bytes());
    side.write(base, &[2]);
    // A part of a frame ahead, so that rounding to nanoseconds never takes a frame from a period.
    side.advance(1000);
}

/// The time of 256 frames at 48 kHz, in whole nanoseconds that keep to it.
fn period(side: &mut impl Side, turn: usize) {
    side.advance(5_333_333 + u64::from(turn % 3 == 2));
}

/// Connects the converter to the stream's tag and format, with one gain on both sides.
fn connect(side: &mut impl Side, capture: bool, format: u16, gain: u8) {
    let (node, amplifier) = if capture { (4, 0x3_7000) } else { (2, 0x3_b000) };
    verb(side, node << 20 | 0x7_0600 | u32::from(TAG));
    verb(side, node << 20 | 0x2_0000 | u32::from(format));
    verb(side, node << 20 | amplifier | u32::from(gain));
}

/// An advance that moves one period of 256 frames.
pub struct Period {
    pub capture: bool,
    /// None: not connected.
    pub gain: Option<u8>,
}

impl Operation for Period {
    fn set_up(&self, side: &mut impl Side) {
        wake(side);
        if let Some(gain) = self.gain {
            connect(side, self.capture, FORMAT, gain);
        }
        start(side, self.capture, FORMAT, 4, PERIOD);
    }
    fn prepare(&self, side: &mut impl Side, _: usize, _: &mut Random) {
        if self.capture {
            side.feed(&noise::<PERIOD>());
        } else {
            side.pull(&mut [0; PERIOD]);
        }
    }
    fn run(&self, side: &mut impl Side, turn: usize) -> usize {
        period(side, turn);
        0
    }
}

/// The turns that fill a list as far as the downstream count makes it grow; the queue is left with `left` periods.
fn fill(side: &mut impl Side, downstream: u32, left: usize) {
    side.set_downstream(downstream);
    for turn in 0..21 {
        if turn >= left {
            side.pull(&mut [0; PERIOD]);
        }
        period(side, turn);
    }
}

/// An advance that moves a period in 256 pieces, each a flagged descriptor of one frame, with the list as long as the device lets it grow.
pub struct Pieces;

impl Operation for Pieces {
    fn set_up(&self, side: &mut impl Side) {
        wake(side);
        connect(side, false, FORMAT, 0x4a);
        start(side, false, FORMAT, PERIOD / FRAME, FRAME);
        fill(side, 14_336, 2);
    }
    fn prepare(&self, side: &mut impl Side, _: usize, _: &mut Random) {
        // One position less would be pending, and one frame less would fit into the queue.
        side.pull(&mut [0; PERIOD - FRAME]);
        side.advance(0);
        side.pull(&mut [0; FRAME]);
    }
    fn run(&self, side: &mut impl Side, turn: usize) -> usize {
        period(side, turn);
        0
    }
    fn pending(&self) -> Option<usize> {
        Some(3841)
    }
}

/// An advance that moves so many frames, at most 512, of a connected playback at unity, in so many pieces for each period of 256.
pub struct Frames {
    pub frames: usize,
    pub pieces: usize,
}

impl Operation for Frames {
    fn set_up(&self, side: &mut impl Side) {
        wake(side);
        connect(side, false, FORMAT, 0x4a);
        start(side, false, FORMAT, 4 * self.pieces.min(64), PERIOD / self.pieces);
    }
    fn prepare(&self, side: &mut impl Side, _: usize, _: &mut Random) {
        side.pull(&mut [0; 2 * PERIOD]);
    }
    fn run(&self, side: &mut impl Side, turn: usize) -> usize {
        let due = |turn: usize| (turn * self.frames) as u64 * 1_000_000_000 / 48_000;
        side.advance(due(turn + 1) - due(turn));
        0
    }
}

/// A rate and the format word of 16-bit stereo at it.
#[derive(Clone, Copy)]
pub struct Rate {
    pub frames: usize,
    pub format: u16,
}

/// What a host does each millisecond: an advance and the pull of what was played, or the feed of what was recorded and an advance.
pub struct Tick {
    pub capture: bool,
    pub rate: Rate,
    /// None: not connected.
    pub gain: Option<u8>,
}

impl Tick {
    /// The ring that a Linux driver was seen with.
    const DESCRIPTORS: usize = 4;
    const LENGTH: usize = 4800;
    const NANOSECONDS: u64 = 1_000_000;

    /// Frames due before a turn: whole ones, so that rates that are no multiple of 1,000 have ticks of two lengths.
    fn due(&self, turn: usize) -> usize {
        turn * self.rate.frames / 1000
    }

    fn frames(&self, turn: usize) -> usize {
        self.due(turn + 1) - self.due(turn)
    }

    /// A capture that is not connected leaves what was recorded in the queue, which then stays full.
    fn full(&self) -> bool {
        self.capture && self.gain.is_none()
    }
}

impl Operation for Tick {
    // At every rate the ring comes round.
    const COMPARED: usize = 128;
    // A tick may be as short as a tenth of a microsecond, and a device makes one between two looks at the clock, since each has new frames.
    const ROUNDS: usize = 101;

    fn set_up(&self, side: &mut impl Side) {
        wake(side);
        if let Some(gain) = self.gain {
            connect(side, self.capture, self.rate.format, gain);
        }
        start(side, self.capture, self.rate.format, Self::DESCRIPTORS, Self::LENGTH);
        if self.full() {
            side.feed(&noise::<QUEUE>());
        }
    }
    /// The guest refills its ring, or the host records. Old frames would make a tick look fast: a processor learns which samples are negative.
    fn prepare(&self, side: &mut impl Side, turn: usize, random: &mut Random) {
        if self.capture {
            random.fill(&mut side.buffer()[..FRAME * self.frames(turn)]);
        } else {
            for frame in self.due(turn)..self.due(turn + 1) {
                let place = FRAME * frame % (Self::DESCRIPTORS * Self::LENGTH);
                random.fill(&mut side.memory()[RING + place..][..FRAME]);
            }
        }
    }
    fn run(&self, side: &mut impl Side, turn: usize) -> usize {
        let frames = self.frames(turn);
        let moved = if self.capture {
            let fed = side.feed_buffer(frames);
            side.advance(Self::NANOSECONDS);
            fed
        } else {
            side.advance(Self::NANOSECONDS);
            side.pull_buffer(frames)
        };
        assert_eq!(moved, if self.full() { 0 } else { frames }, "a tick feeds or pulls what is due");
        moved
    }
}

pub struct Read {
    /// As for [`Save`].
    pub pending: usize,
}

impl Operation for Read {
    const TIMES: usize = 64;

    fn set_up(&self, side: &mut impl Side) {
        hold(side, self.pending);
    }
    fn pending(&self) -> Option<usize> {
        Some(self.pending)
    }
    fn run(&self, side: &mut impl Side, _: usize) -> usize {
        let mut bytes = [0; 4];
        side.read(black_box(0xa4), &mut bytes);
        u32::from_le_bytes(bytes) as usize
    }
}

/// A register without effects.
pub struct Write;

impl Operation for Write {
    const TIMES: usize = 64;

    fn set_up(&self, side: &mut impl Side) {
        wake(side);
    }
    fn run(&self, side: &mut impl Side, turn: usize) -> usize {
        side.write(black_box(0x74), &(turn as u32).to_le_bytes());
        0
    }
}

pub struct ConfigRead;

impl Operation for ConfigRead {
    const TIMES: usize = 64;

    fn set_up(&self, side: &mut impl Side) {
        wake(side);
    }
    fn run(&self, side: &mut impl Side, _: usize) -> usize {
        side.config_read(black_box(1)) as usize
    }
}

/// The interrupt line, which is stored and nothing else.
pub struct ConfigWrite;

impl Operation for ConfigWrite {
    const TIMES: usize = 64;

    fn set_up(&self, side: &mut impl Side) {
        wake(side);
    }
    fn run(&self, side: &mut impl Side, turn: usize) -> usize {
        side.config_write(black_box(15), 0, &[turn as u8]);
        0
    }
}

/// A write of CORBWP that runs one verb and stores its response.
pub struct Command;

impl Operation for Command {
    const TIMES: usize = 64;

    fn set_up(&self, side: &mut impl Side) {
        wake(side);
        for command in side.memory()[COMMANDS..COMMANDS + 1024].chunks_mut(4) {
            command.copy_from_slice(&0x000f_0000_u32.to_le_bytes());
        }
        side.write(0x40, &(COMMANDS as u64).to_le_bytes());
        side.write(0x50, &(RESPONSES as u64).to_le_bytes());
        side.write(0x5a, &[1]);
        side.write(0x4c, &[2]);
        side.write(0x5c, &[2]);
    }
    fn run(&self, side: &mut impl Side, turn: usize) -> usize {
        side.write(0x48, &[(turn + 1) as u8, 0]);
        0
    }
}

/// An advance with no stream running.
pub struct Idle;

impl Operation for Idle {
    const TIMES: usize = 64;

    fn set_up(&self, side: &mut impl Side) {
        wake(side);
    }
    fn run(&self, side: &mut impl Side, _: usize) -> usize {
        side.advance(black_box(1_000_000));
        0
    }
}

pub struct Save {
    /// At most 3,840, and at least 256 where not 0.
    pub pending: usize,
}

/// A device with positions pending, whose playback then runs.
fn hold(side: &mut impl Side, pending: usize) {
    wake(side);
    if pending != 0 {
        start(side, false, FORMAT, PERIOD / FRAME, FRAME);
        fill(side, (FRAME * pending - PERIOD) as u32, 1);
    }
}

impl Operation for Save {
    const TIMES: usize = 8;

    fn set_up(&self, side: &mut impl Side) {
        hold(side, self.pending);
    }
    fn run(&self, side: &mut impl Side, _: usize) -> usize {
        side.save()
    }
    fn pending(&self) -> Option<usize> {
        Some(self.pending)
    }
}

/// The device takes its own state.
pub struct Restore {
    /// As for [`Save`].
    pub pending: usize,
}

impl Operation for Restore {
    const TIMES: usize = 8;

    fn set_up(&self, side: &mut impl Side) {
        hold(side, self.pending);
        side.keep();
    }
    fn run(&self, side: &mut impl Side, _: usize) -> usize {
        side.restore();
        0
    }
    fn pending(&self) -> Option<usize> {
        Some(self.pending)
    }
}

/// The device takes its own state by the call for crowded lists.
pub struct RestoreEmptied {
    /// As for [`Save`]; at least 256 where the list is crowded.
    pub pending: usize,
    /// Whether the last position is kept a byte lower, close to the one before: so all are read before the list is found to be crowded.
    pub crowded: bool,
}

impl Operation for RestoreEmptied {
    const TIMES: usize = 8;

    fn set_up(&self, side: &mut impl Side) {
        hold(side, self.pending);
        side.keep();
        if self.crowded {
            let kept = side.kept();
            let last = kept.len() - 8;
            put::<8>(kept, last, get::<8>(kept, last) - 1);
        }
    }
    fn run(&self, side: &mut impl Side, _: usize) -> usize {
        side.restore_emptied();
        0
    }
    fn pending(&self) -> Option<usize> {
        Some(self.pending)
    }
    /// The port has no positions where the list was crowded; the Rust keeps them.
    fn expected(&self, mut rust: Vec<u8>) -> Vec<u8> {
        if self.crowded {
            rust.truncate(STATE);
            put::<4>(&mut rust, device::stream(1) + stream::PENDING, 0);
        }
        rust
    }
}
