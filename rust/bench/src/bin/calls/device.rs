//! The Rust of the crate that the module above calls `oracle`, behind its own traits, with a host end that has queues of the port's size.
use super::oracle::audio::{AudioClock, AudioFormat, CaptureSource, HostAudio, PlaybackSink};
use super::oracle::hda::Hda;
use super::oracle::{DeviceError, GuestMemory, MsiMessage, MsiSink, PciDevice, Snapshot};
use crate::sides::{FRAME, MEMORY, Side};
use port::layout::QUEUE;
use std::collections::VecDeque;
use std::hint::black_box;
use std::sync::atomic::{AtomicUsize, Ordering::Relaxed};
use std::sync::{Arc, Mutex, MutexGuard};
use std::time::Duration;
use vm_memory::{GuestAddress, GuestMemory as _};

/// Both host queues.
#[derive(Default)]
struct Host {
    queues: [Mutex<VecDeque<u8>>; 2],
    downstream: AtomicUsize,
}

impl Host {
    fn queue(&self, index: usize) -> MutexGuard<'_, VecDeque<u8>> {
        self.queues[index].lock().unwrap()
    }

    /// Puts as many bytes as fit, and says how many.
    fn put(&self, index: usize, bytes: &[u8]) -> usize {
        let mut queue = self.queue(index);
        let count = bytes.len().min(QUEUE - queue.len());
        queue.extend(&bytes[..count]);
        count
    }

    /// Takes as many bytes as there are, and says how many.
    fn take(&self, index: usize, into: &mut [u8]) -> usize {
        let mut queue = self.queue(index);
        let count = into.len().min(queue.len());
        let (front, back) = queue.as_slices();
        let first = count.min(front.len());
        into[..first].copy_from_slice(&front[..first]);
        into[first..count].copy_from_slice(&back[..count - first]);
        queue.drain(..count);
        count
    }
}

struct Stream(Arc<Host>);

impl PlaybackSink for Stream {
    fn write_period(&mut self, pcm: &[u8]) {
        self.0.queue(1).extend(pcm);
    }
    fn latency_bytes(&self) -> usize {
        self.queued_bytes() + self.0.downstream.load(Relaxed)
    }
    fn queued_bytes(&self) -> usize {
        self.0.queue(1).len()
    }
}

impl CaptureSource for Stream {
    fn read_period(&mut self, out: &mut [u8]) {
        let count = self.0.take(0, out);
        out[count..].fill(0);
    }
    fn latency_bytes(&self) -> usize {
        self.0.queue(0).len()
    }
}

/// Each opening empties the queue.
struct Opener(Arc<Host>);

impl HostAudio for Opener {
    fn name(&self) -> &'static str {
        "bench"
    }
    fn open_playback(&self, _: AudioFormat) -> Result<Box<dyn PlaybackSink>, DeviceError> {
        self.0.queue(1).clear();
        Ok(Box::new(Stream(self.0.clone())))
    }
    fn open_capture(&self, _: AudioFormat) -> Result<Box<dyn CaptureSource>, DeviceError> {
        self.0.queue(0).clear();
        Ok(Box::new(Stream(self.0.clone())))
    }
}

struct NoMessages;

impl MsiSink for NoMessages {
    fn signal(&self, _: MsiMessage) {}
}

pub struct Rust {
    device: Hda,
    host: Arc<Host>,
    memory: GuestMemory,
    buffer: Vec<u8>,
    kept: Vec<u8>,
}

/// The device as the hypervisor has it: behind traits.
impl Rust {
    fn bus(&mut self) -> &mut dyn PciDevice {
        black_box(&mut self.device)
    }
    fn clock(&mut self) -> &mut dyn AudioClock {
        black_box(&mut self.device)
    }
    fn snapshot(&self) -> &dyn Snapshot {
        black_box(&self.device)
    }
}

impl Side for Rust {
    fn new() -> Self {
        let memory = GuestMemory::from_ranges(&[(GuestAddress(0), MEMORY)]).unwrap();
        let host = Arc::new(Host::default());
        let device = Hda::new("hda", memory.clone(), Arc::new(Opener(host.clone())), Arc::new(NoMessages), None, true);
        Self { device, host, memory, buffer: vec![0; QUEUE], kept: Vec::new() }
    }
    fn advance(&mut self, nanos: u64) {
        self.clock().advance(Duration::from_nanos(nanos)).unwrap();
    }
    fn read(&mut self, offset: u64, into: &mut [u8]) {
        self.bus().bar_read(0, offset, into);
    }
    fn write(&mut self, offset: u64, bytes: &[u8]) {
        self.bus().bar_write(0, offset, bytes);
    }
    fn config_read(&mut self, register: u64) -> u32 {
        self.bus().config_read(register as usize)
    }
    fn config_write(&mut self, register: u64, offset: u64, bytes: &[u8]) {
        self.bus().config_write(register as usize, offset, bytes);
    }
    fn feed(&mut self, frames: &[u8]) {
        self.host.put(0, frames);
    }
    fn pull(&mut self, into: &mut [u8]) {
        self.host.take(1, into);
    }
    fn buffer(&mut self) -> &mut [u8] {
        &mut self.buffer
    }
    fn feed_buffer(&mut self, frames: usize) -> usize {
        self.host.put(0, &self.buffer[..FRAME * frames]) / FRAME
    }
    fn pull_buffer(&mut self, frames: usize) -> usize {
        self.host.take(1, &mut self.buffer[..FRAME * frames]) / FRAME
    }
    fn set_downstream(&mut self, bytes: u32) {
        self.host.downstream.store(bytes as usize, Relaxed);
    }
    fn save(&mut self) -> usize {
        self.saved().len()
    }
    fn saved(&mut self) -> Vec<u8> {
        self.snapshot().save_state().unwrap()
    }
    fn keep(&mut self) {
        self.kept = self.saved();
    }
    fn kept(&mut self) -> &mut [u8] {
        &mut self.kept
    }
    fn restore_emptied(&mut self) {
        self.restore();
    }
    fn restore(&mut self) {
        let device: &mut dyn Snapshot = black_box(&mut self.device);
        device.restore_state(&self.kept).unwrap();
    }
    fn memory(&mut self) -> &mut [u8] {
        let start = self.memory.get_host_address(GuestAddress(0)).unwrap();
        // The mapping lives as long as self.memory, and the device does not run while self is borrowed.
        unsafe { std::slice::from_raw_parts_mut(start, MEMORY) }
    }
    fn queues(&self) -> [Vec<u8>; 2] {
        [0, 1].map(|index| self.host.queue(index).iter().copied().collect())
    }
}
