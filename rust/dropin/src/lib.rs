//! The proved device in the place of the Rust's `Hda`, behind the hypervisor's own traits: `BusDevice`, `PciDevice`, `AudioClock` and `Snapshot`.
//!
//! Two things differ for the hypervisor. The device calls no host backend: the host's sound driver feeds, pulls and sets through this type ([`Hda::feed`],
//! [`Hda::pull`] and the three settings). And guest memory is one region from address 0 on, lent whole to each call.
use port::{Answer, number};
pub use port::{Bounds, Machine, Scratch, Stream};
use reference::audio::AudioClock;
use reference::{BarInfo, BarKind, BusDevice, DeviceError, GuestMemory, IrqLine, MsiMessage, MsiSink, PciDevice, Snapshot};
use std::sync::Arc;
use std::time::Duration;
use vm_memory::{GuestAddress, GuestMemory as _, GuestMemoryRegion as _};

/// An ICH9 HDA PCI function.
pub struct Hda {
    id: String,
    machine: Machine,
    memory: GuestMemory,
    msi: Arc<dyn MsiSink>,
    intx: Option<Arc<dyn IrqLine>>,
}

impl Hda {
    /// A device at reset, with a host end at its start. Memory of several regions, or that does not start at address 0, is refused.
    ///
    /// # Safety
    ///
    /// The device has guest memory as a `&mut [u8]` while [`Hda::advance`], [`Hda::advance_bounds`], [`Hda::pin_presence_changed`] or a trait's `write`, `config_write` or `bar_write` runs.
    /// Meanwhile nothing else in this process may read or write that memory, and nothing outside of it may write there: no virtual processor, no other process
    /// that has it mapped.
    pub unsafe fn new(
        id: impl Into<String>,
        memory: GuestMemory,
        msi: Arc<dyn MsiSink>,
        intx: Option<Arc<dyn IrqLine>>,
        microphone: bool,
    ) -> Result<Self, DeviceError> {
        if memory.num_regions() != 1 || memory.find_region(GuestAddress(0)).is_none() {
            return Err(DeviceError::Memory("the HDA device needs guest memory in one region from address 0 on".into()));
        }
        if let Some(line) = &intx {
            line.set_level(false);
        }
        Ok(Self { id: id.into(), machine: Machine::new(microphone), memory, msi, intx })
    }

    /// What the records hold: which streams are open, what is queued.
    pub fn machine(&self) -> &Machine {
        &self.machine
    }

    /// Makes a call that is lent guest memory, and delivers its interrupts.
    fn with_memory(&mut self, call: impl FnOnce(&mut Machine, &mut [u8]) -> Answer) -> Answer {
        let answer = self.lend_memory(call);
        self.deliver(answer)
    }

    fn lend_memory<T>(&mut self, call: impl FnOnce(&mut Machine, &mut [u8]) -> T) -> T {
        let length = self.memory.find_region(GuestAddress(0)).map_or(0, |region| region.len() as usize);
        let start = self.memory.get_host_address(GuestAddress(0)).expect("new has found the region");
        // The mapping has that length and lives as long as self.memory; that nobody else uses it now is what `new` asks for.
        let memory = unsafe { std::slice::from_raw_parts_mut(start, length) };
        call(&mut self.machine, memory)
    }

    /// Drives the interrupt line, and sends the message if there is one.
    fn deliver(&self, answer: Answer) -> Answer {
        if let Some(line) = &self.intx {
            line.set_level(answer.level);
        }
        if let Some(message) = answer.message {
            self.msi.signal(MsiMessage { address: message.address, data: message.data });
        }
        answer
    }

    /// Service a machine timer interval. Longer than 2^64 - 1 nanoseconds counts as that.
    pub fn advance(&mut self, elapsed: Duration) -> Result<(), DeviceError> {
        result(self.with_memory(|machine, memory| machine.advance(memory, nanoseconds(elapsed)))).map(drop)
    }

    /// Between which counts of submitted bytes each stream ends after a timer interval that is known no better, every opening taken as one that succeeds. Nothing of the device, its interrupts and guest memory
    /// changes. The scratch needs as much memory as the guest has.
    pub fn advance_bounds(
        &mut self,
        shortest: Duration,
        longest: Duration,
        scratch: &mut Scratch,
    ) -> Result<[Bounds; Stream::EACH.len()], DeviceError> {
        let range = (nanoseconds(shortest), nanoseconds(longest));
        self.lend_memory(|machine, memory| machine.advance_bounds(memory, range.0, range.1, scratch)).map_err(error)
    }

    /// Freeze DMA, position and the wall clock.
    pub fn set_paused(&mut self, paused: bool) {
        let answer = self.machine.set_paused(paused);
        self.deliver(answer);
    }

    /// Report a physical pin-presence change.
    pub fn pin_presence_changed(&mut self, node: u8) {
        self.with_memory(|machine, memory| machine.pin_presence_changed(memory, u32::from(node)));
    }

    /// As `restore_state` of [`Snapshot`], for a stored state that it refuses since completions stand too close: each such list is emptied, and nothing else changes. These
    /// completions are lost, so it is no call to make unasked: the guest gets no interrupt for them.
    pub fn restore_state_emptied(&mut self, state: &[u8]) -> Result<(), DeviceError> {
        let answer = self.machine.restore_emptied(state);
        state_result(self.deliver(answer))
    }
}

/// The host's sound driver's side. Frames are 4 bytes; the format is the stream's.
impl Hda {
    /// Captured frames for the guest, as many as fit; how many were taken.
    pub fn feed(&mut self, frames: &[u8]) -> Result<usize, DeviceError> {
        result(self.machine.feed(frames)).map(|answer| answer.value as usize)
    }

    /// Frames to play, as many as there are; how many were given. The rest of `into` stays.
    pub fn pull(&mut self, into: &mut [u8]) -> Result<usize, DeviceError> {
        result(self.machine.pull(into)).map(|answer| answer.value as usize)
    }

    /// Whether openings for playback fail.
    pub fn set_playback_fails(&mut self, fails: bool) -> Result<(), DeviceError> {
        result(self.machine.set_playback_fails(fails)).map(drop)
    }

    /// Whether openings for capture fail.
    pub fn set_capture_fails(&mut self, fails: bool) -> Result<(), DeviceError> {
        result(self.machine.set_capture_fails(fails)).map(drop)
    }

    /// How many bytes of playback the host holds that were pulled and are not heard yet.
    pub fn set_downstream(&mut self, bytes: u32) -> Result<(), DeviceError> {
        result(self.machine.set_downstream(bytes)).map(drop)
    }
}

/// Longer than 2^64 - 1 nanoseconds counts as that.
fn nanoseconds(time: Duration) -> u64 {
    u64::try_from(time.as_nanos()).unwrap_or(u64::MAX)
}

/// An answer whose number is 0, or the number as the hypervisor's error.
fn result(answer: Answer) -> Result<Answer, DeviceError> {
    if answer.number == number::DONE { Ok(answer) } else { Err(error(answer.number)) }
}

fn error(number: u8) -> DeviceError {
    let error = match number {
        number::HOST_CLOSED => "host closed",
        number::ODD_FRAMES => "no whole frames",
        number::LATENCY => "latency out of range",
        number::REVERSED => "shortest time above the longest",
        number::SHORT_SPACE => "scratch shorter than guest memory",
        // 9 and 10: a machine that only calls have changed meets every condition and has its lengths.
        _ => "invalid HDA device",
    };
    DeviceError::Other(error.into())
}

/// The error of a refused state, as the Rust has it; of its format word the number does not tell which. Crowded lists the Rust takes.
fn state_error(number: u8) -> DeviceError {
    let error = match number {
        number::HOST_CLOSED => return DeviceError::Other("host closed".into()),
        number::SHORT_STATE => "truncated HDA snapshot",
        number::WRONG_MARK => "bad HDA snapshot version",
        number::MICROPHONE => "HDA microphone configuration mismatch",
        number::FORMAT => "unsupported HDA format",
        number::LIST_LENGTH => "invalid HDA completion count",
        number::LIST_ORDER => "invalid HDA completion position",
        number::STREAM => "invalid HDA stream state",
        number::CROWDED => "crowded HDA completion positions",
        _ => "invalid HDA snapshot state",
    };
    DeviceError::State(error.into())
}

/// What a restore has answered.
fn state_result(answer: Answer) -> Result<(), DeviceError> {
    match answer.number {
        number::DONE => Ok(()),
        refused => Err(state_error(refused)),
    }
}

impl Snapshot for Hda {
    fn state_id(&self) -> String {
        self.id.clone()
    }
    /// In the Rust's own layout.
    fn save_state(&self) -> Result<Vec<u8>, DeviceError> {
        let (answer, state) = self.machine.saved();
        result(answer).map(|_| state)
    }
    fn restore_state(&mut self, state: &[u8]) -> Result<(), DeviceError> {
        let answer = self.machine.restore(state);
        state_result(self.deliver(answer))
    }
}

impl BusDevice for Hda {
    fn read(&mut self, offset: u64, data: &mut [u8]) {
        let answer = self.machine.read(offset, data);
        self.deliver(answer);
    }
    fn write(&mut self, offset: u64, data: &[u8]) {
        self.with_memory(|machine, memory| machine.write(memory, offset, data));
    }
}

impl PciDevice for Hda {
    fn config_read(&mut self, reg: usize) -> u32 {
        let answer = self.machine.config_read(reg as u64);
        self.deliver(answer).value
    }
    fn config_write(&mut self, reg: usize, offset: u64, data: &[u8]) {
        self.with_memory(|machine, memory| machine.config_write(memory, reg as u64, offset, data));
    }
    fn bars(&self) -> Vec<BarInfo> {
        vec![BarInfo { index: 0, size: 0x4000, kind: BarKind::Mmio32 }]
    }
    fn bar_read(&mut self, bar: u8, offset: u64, data: &mut [u8]) {
        let answer = self.machine.bar_read(u32::from(bar), offset, data);
        self.deliver(answer);
    }
    fn bar_write(&mut self, bar: u8, offset: u64, data: &[u8]) {
        self.with_memory(|machine, memory| machine.bar_write(memory, u32::from(bar), offset, data));
    }
}

impl AudioClock for Hda {
    fn advance(&mut self, elapsed: Duration) -> Result<(), DeviceError> {
        Hda::advance(self, elapsed)
    }
    fn set_paused(&mut self, paused: bool) {
        Hda::set_paused(self, paused)
    }
}
