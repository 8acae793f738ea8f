//! Sides over the Rust devices: `reference`, unchanged, and `amended`, with the differences.
//!
//! The two crates are built from the same text, yet their types and traits are not the same to the compiler: a macro writes the glue twice.
//! What glue is not stands in host.rs.

macro_rules! rust_side {
    ($side:ident, $crate_name:ident, $restore_emptied:expr, $differences:expr) => {
        pub mod $side {
            use crate::differences::Differences;
            use crate::host::{HOST_CLOSED, HostEnd, Queue, Wires, number_of};
            use crate::side::{Direction, Interrupts, Message, Side, View, number};
            use crate::state::Stream;
            use std::sync::Arc;
            use std::time::Duration;
            use vm_memory::{GuestAddress, GuestMemory as _};
            use $crate_name::audio::{AudioFormat, CaptureSource, HostAudio, PlaybackSink};
            use $crate_name::hda::Hda;
            use $crate_name::{DeviceError, GuestMemory, IrqLine, MsiMessage, MsiSink, PciDevice, Snapshot};

            struct Sink {
                queue: Arc<Queue>,
                host: Arc<HostEnd>,
            }

            impl PlaybackSink for Sink {
                fn write_period(&mut self, pcm: &[u8]) {
                    assert_eq!(self.queue.put(pcm), pcm.len(), "the device wrote past the queue's limit");
                }
                fn latency_bytes(&self) -> usize {
                    self.queue.length() + self.host.downstream() as usize
                }
                fn queued_bytes(&self) -> usize {
                    self.queue.length()
                }
            }

            struct Source(Arc<Queue>);

            impl CaptureSource for Source {
                fn read_period(&mut self, out: &mut [u8]) {
                    let count = self.0.take(out);
                    out[count..].fill(0);
                }
                fn latency_bytes(&self) -> usize {
                    self.0.length()
                }
            }

            struct Host(Arc<HostEnd>);

            impl Host {
                fn open(&self, direction: Direction) -> Result<Arc<Queue>, DeviceError> {
                    self.0.open(direction).ok_or_else(|| DeviceError::Other(HOST_CLOSED.into()))
                }
            }

            impl HostAudio for Host {
                fn name(&self) -> &'static str {
                    "harness"
                }
                fn open_playback(&self, _: AudioFormat) -> Result<Box<dyn PlaybackSink>, DeviceError> {
                    Ok(Box::new(Sink { queue: self.open(Direction::Playback)?, host: self.0.clone() }))
                }
                fn open_capture(&self, _: AudioFormat) -> Result<Box<dyn CaptureSource>, DeviceError> {
                    Ok(Box::new(Source(self.open(Direction::Capture)?)))
                }
            }

            struct Line(Arc<Wires>);

            impl IrqLine for Line {
                fn set_level(&self, high: bool) {
                    self.0.set_level(high);
                }
            }

            impl MsiSink for Line {
                fn signal(&self, message: MsiMessage) {
                    self.0.send(Message { address: message.address, data: message.data });
                }
            }

            pub struct Device {
                device: Hda,
                host: Arc<HostEnd>,
                wires: Arc<Wires>,
                memory: GuestMemory,
                length: usize,
            }

            impl Device {
                fn memory_start(&self) -> *mut u8 {
                    self.memory.get_host_address(GuestAddress(0)).expect("guest memory starts at address 0")
                }
            }

            fn number(result: Result<(), DeviceError>) -> u32 {
                result.map_or_else(|error| number_of(&error.to_string()), |()| number::DONE)
            }

            impl Side for Device {
                const NAME: &'static str = stringify!($crate_name);

                fn new(microphone: bool, length: usize) -> Self {
                    let memory = GuestMemory::from_ranges(&[(GuestAddress(0), length)]).expect("guest memory can be had");
                    let (host, wires) = (Arc::new(HostEnd::default()), Arc::new(Wires::default()));
                    let msi = Arc::new(Line(wires.clone()));
                    let device = Hda::new("hda", memory.clone(), Arc::new(Host(host.clone())), msi.clone(), Some(msi), microphone);
                    Self { device, host, wires, memory, length }
                }

                fn advance(&mut self, nanoseconds: u64) -> u32 {
                    number(self.device.advance(Duration::from_nanos(nanoseconds)))
                }
                fn read(&mut self, offset: u64, data: &mut [u8]) -> u32 {
                    self.device.bar_read(0, offset, data);
                    number::DONE
                }
                fn write(&mut self, offset: u64, data: &[u8]) -> u32 {
                    self.device.bar_write(0, offset, data);
                    number::DONE
                }
                fn config_read(&mut self, register: u64) -> (u32, u32) {
                    (number::DONE, self.device.config_read(register as usize))
                }
                fn config_write(&mut self, register: u64, offset: u64, data: &[u8]) -> u32 {
                    self.device.config_write(register as usize, offset, data);
                    number::DONE
                }
                fn change_pin(&mut self, node: u8) -> u32 {
                    self.device.pin_presence_changed(node);
                    number::DONE
                }
                fn set_paused(&mut self, paused: bool) -> u32 {
                    self.device.set_paused(paused);
                    number::DONE
                }
                fn feed(&mut self, frames: &[u8]) -> (u32, u32) {
                    self.host.feed(frames)
                }
                fn pull(&mut self, frames: &mut [u8]) -> (u32, u32) {
                    self.host.pull(frames)
                }
                fn set_opening_fails(&mut self, direction: Direction, fails: bool) -> u32 {
                    self.host.set_opening_fails(direction, fails);
                    number::DONE
                }
                fn set_downstream(&mut self, bytes: u32) -> u32 {
                    self.host.set_downstream(bytes)
                }
                fn save(&mut self) -> (u32, Vec<u8>) {
                    (number::DONE, self.device.save_state().expect("the Rust saves every state"))
                }
                fn restore(&mut self, state: &[u8]) -> u32 {
                    number(self.device.restore_state(state))
                }
                fn restore_emptied(&mut self, state: &[u8]) -> u32 {
                    number($restore_emptied(&mut self.device, state))
                }

                fn copied(&self) -> Self {
                    let mut copy = Self::new(true, self.length);
                    copy.copy_from(self);
                    copy
                }
                fn copy_from(&mut self, other: &Self) {
                    self.host.let_all_open();
                    other.device.probe_copy_to(&mut self.device);
                    self.host.take_after(&other.host);
                    self.wires.take();
                    self.memory_mut().copy_from_slice(other.memory());
                }
                fn close(&mut self, direction: Direction) {
                    self.device.probe_close(direction.index());
                }
                fn set_list(&mut self, direction: Direction, stream: &Stream) {
                    self.device.probe_set_list(direction.index(), stream.submitted, stream.consumed, &stream.pending);
                }
                fn memory(&self) -> &[u8] {
                    // The mapping lives as long as self.memory, and no device runs while self is borrowed.
                    unsafe { std::slice::from_raw_parts(self.memory_start(), self.length) }
                }
                fn memory_mut(&mut self) -> &mut [u8] {
                    // As above, and nobody else has the mapping.
                    unsafe { std::slice::from_raw_parts_mut(self.memory_start(), self.length) }
                }
                fn take_interrupts(&mut self) -> Interrupts {
                    self.wires.take()
                }
                fn take_differences(&mut self) -> Differences {
                    $differences
                }
                fn view(&self) -> View {
                    View {
                        state: self.device.save_state().expect("the Rust saves every state"),
                        asserted: self.device.probe_asserted(),
                        open: self.device.probe_open(),
                        queues: Direction::BOTH.map(|direction| self.host.contents(direction)),
                        opening_fails: Direction::BOTH.map(|direction| self.host.opening_fails(direction)),
                        downstream: self.host.downstream(),
                    }
                }
            }
        }
    };
}

rust_side!(unchanged, reference, Hda::restore_state, Differences::default());
rust_side!(edited, amended, Hda::restore_emptied, Differences::from_bits(amended::differences::take()));

/// The judge: the Rust as it is.
pub type Reference = unchanged::Device;
/// The Rust with the differences, which it reports.
pub type Amended = edited::Device;
