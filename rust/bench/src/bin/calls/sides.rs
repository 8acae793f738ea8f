//! The calls that every device answers here, each with host end and guest memory; and the port behind them.
use port::Machine;
use port::layout::{MAX_STATE, QUEUE};

pub const MEMORY: usize = 0x1_0000;
pub const FRAME: usize = 4;

pub trait Side {
    fn new() -> Self;
    fn advance(&mut self, nanos: u64);
    fn read(&mut self, offset: u64, into: &mut [u8]);
    fn write(&mut self, offset: u64, bytes: &[u8]);
    fn config_read(&mut self, register: u64) -> u32;
    fn config_write(&mut self, register: u64, offset: u64, bytes: &[u8]);
    fn feed(&mut self, frames: &[u8]);
    fn pull(&mut self, into: &mut [u8]);
    /// The host's buffer: what it recorded or what it pulled last, as many bytes as a queue has.
    fn buffer(&mut self) -> &mut [u8];
    /// Feeds the first frames of the buffer, and says how many were taken.
    fn feed_buffer(&mut self, frames: usize) -> usize;
    /// Pulls into the start of the buffer, and says how many frames came.
    fn pull_buffer(&mut self, frames: usize) -> usize;
    fn set_downstream(&mut self, bytes: u32);
    /// Saves as the side's caller would, and gives the length.
    fn save(&mut self) -> usize;
    fn saved(&mut self) -> Vec<u8>;
    /// Keeps its state, which the two below then take.
    fn keep(&mut self);
    /// What is kept, to be edited.
    fn kept(&mut self) -> &mut [u8];
    fn restore(&mut self);
    /// As the port's call for crowded lists; the Rust has none, and takes them by its restore.
    fn restore_emptied(&mut self);
    fn memory(&mut self) -> &mut [u8];
    /// The bytes queued, for capture and for playback.
    fn queues(&self) -> [Vec<u8>; 2];
}

pub struct Port {
    machine: Machine,
    memory: Vec<u8>,
    buffer: Vec<u8>,
    state: Vec<u8>,
    kept: Vec<u8>,
}

impl Side for Port {
    fn new() -> Self {
        Self { machine: Machine::new(true), memory: vec![0; MEMORY], buffer: vec![0; QUEUE], state: vec![0; MAX_STATE], kept: Vec::new() }
    }
    fn advance(&mut self, nanos: u64) {
        assert_eq!(self.machine.advance(&mut self.memory, nanos).number, 0);
    }
    fn read(&mut self, offset: u64, into: &mut [u8]) {
        assert_eq!(self.machine.bar_read(0, offset, into).number, 0);
    }
    fn write(&mut self, offset: u64, bytes: &[u8]) {
        assert_eq!(self.machine.bar_write(&mut self.memory, 0, offset, bytes).number, 0);
    }
    fn config_read(&mut self, register: u64) -> u32 {
        self.machine.config_read(register).value
    }
    fn config_write(&mut self, register: u64, offset: u64, bytes: &[u8]) {
        assert_eq!(self.machine.config_write(&mut self.memory, register, offset, bytes).number, 0);
    }
    fn feed(&mut self, frames: &[u8]) {
        assert_eq!(self.machine.feed(frames).number, 0);
    }
    fn pull(&mut self, into: &mut [u8]) {
        assert_eq!(self.machine.pull(into).number, 0);
    }
    fn buffer(&mut self) -> &mut [u8] {
        &mut self.buffer
    }
    fn feed_buffer(&mut self, frames: usize) -> usize {
        let answer = self.machine.feed(&self.buffer[..FRAME * frames]);
        assert_eq!(answer.number, 0);
        answer.value as usize
    }
    fn pull_buffer(&mut self, frames: usize) -> usize {
        let answer = self.machine.pull(&mut self.buffer[..FRAME * frames]);
        assert_eq!(answer.number, 0);
        answer.value as usize
    }
    fn set_downstream(&mut self, bytes: u32) {
        assert_eq!(self.machine.set_downstream(bytes).number, 0);
    }
    fn save(&mut self) -> usize {
        self.machine.save(&mut self.state).value as usize
    }
    fn saved(&mut self) -> Vec<u8> {
        self.machine.saved().1
    }
    fn keep(&mut self) {
        self.kept = self.saved();
    }
    fn kept(&mut self) -> &mut [u8] {
        &mut self.kept
    }
    fn restore(&mut self) {
        assert_eq!(self.machine.restore(&self.kept).number, 0);
    }
    fn restore_emptied(&mut self) {
        assert_eq!(self.machine.restore_emptied(&self.kept).number, 0);
    }
    fn memory(&mut self) -> &mut [u8] {
        &mut self.memory
    }
    fn queues(&self) -> [Vec<u8>; 2] {
        port::Stream::EACH.map(|stream| self.machine.queue(stream).to_vec())
    }
}
