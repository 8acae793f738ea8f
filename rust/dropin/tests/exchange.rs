//! One device exchanged for the other: the same driver on the Rust's `Hda` and on the drop-in, through the hypervisor's traits. All that the guest, the host and the
//! wires see must be the same.
use dropin::{Bounds, Scratch, Stream};
use reference::audio::{AudioClock, AudioFormat, CaptureSource, HostAudio, PlaybackSink};
use reference::{BusDevice, DeviceError, GuestMemory, IrqLine, MsiMessage, MsiSink, PciDevice, Snapshot};
use std::collections::VecDeque;
use std::sync::{Arc, Mutex};
use std::time::Duration;
use vm_memory::{Bytes, GuestAddress};

const MEMORY: usize = 65_536;
const QUEUE: usize = 2048;

/// What the interrupt wires saw.
#[derive(Default)]
struct Wires(Mutex<(bool, Vec<MsiMessage>)>);

impl IrqLine for Wires {
    fn set_level(&self, high: bool) {
        self.0.lock().unwrap().0 = high;
    }
}

impl MsiSink for Wires {
    fn signal(&self, message: MsiMessage) {
        self.0.lock().unwrap().1.push(message);
    }
}

/// A host backend with a queue for each direction, which an opening empties, as document 01's host end has.
#[derive(Clone, Default)]
struct Backend {
    playback: Arc<Mutex<VecDeque<u8>>>,
    capture: Arc<Mutex<VecDeque<u8>>>,
}

impl PlaybackSink for Backend {
    fn write_period(&mut self, pcm: &[u8]) {
        self.playback.lock().unwrap().extend(pcm);
    }
    fn latency_bytes(&self) -> usize {
        self.playback.lock().unwrap().len()
    }
}

impl CaptureSource for Backend {
    fn read_period(&mut self, out: &mut [u8]) {
        out.fill(0);
        take(&self.capture, out);
    }
    fn latency_bytes(&self) -> usize {
        0
    }
}

impl HostAudio for Backend {
    fn name(&self) -> &'static str {
        "queues"
    }
    fn open_playback(&self, _: AudioFormat) -> Result<Box<dyn PlaybackSink>, DeviceError> {
        self.playback.lock().unwrap().clear();
        Ok(Box::new(self.clone()))
    }
    fn open_capture(&self, _: AudioFormat) -> Result<Box<dyn CaptureSource>, DeviceError> {
        self.capture.lock().unwrap().clear();
        Ok(Box::new(self.clone()))
    }
}

fn take(queue: &Mutex<VecDeque<u8>>, out: &mut [u8]) -> usize {
    let mut queue = queue.lock().unwrap();
    let count = out.len().min(queue.len());
    for (to, from) in out.iter_mut().zip(queue.drain(..count)) {
        *to = from;
    }
    count
}

/// What the hypervisor uses of a device, and the host's side of sound.
trait Sound: BusDevice + PciDevice + AudioClock + Snapshot {
    fn feed(&mut self, frames: &[u8]) -> usize;
    fn pull(&mut self, into: &mut [u8]) -> usize;
    fn pin_presence_changed(&mut self, node: u8);
}

struct Original(reference::hda::Hda, Backend);

/// The traits, forwarded to the Rust's device.
impl BusDevice for Original {
    fn read(&mut self, offset: u64, data: &mut [u8]) {
        self.0.read(offset, data)
    }
    fn write(&mut self, offset: u64, data: &[u8]) {
        self.0.write(offset, data)
    }
}

impl PciDevice for Original {
    fn config_read(&mut self, reg: usize) -> u32 {
        self.0.config_read(reg)
    }
    fn config_write(&mut self, reg: usize, offset: u64, data: &[u8]) {
        self.0.config_write(reg, offset, data)
    }
    fn bars(&self) -> Vec<reference::BarInfo> {
        self.0.bars()
    }
    fn bar_read(&mut self, bar: u8, offset: u64, data: &mut [u8]) {
        self.0.bar_read(bar, offset, data)
    }
    fn bar_write(&mut self, bar: u8, offset: u64, data: &[u8]) {
        self.0.bar_write(bar, offset, data)
    }
}

impl AudioClock for Original {
    fn advance(&mut self, elapsed: Duration) -> Result<(), DeviceError> {
        self.0.advance(elapsed)
    }
    fn set_paused(&mut self, paused: bool) {
        self.0.set_paused(paused)
    }
}

impl Snapshot for Original {
    fn state_id(&self) -> String {
        self.0.state_id()
    }
    fn save_state(&self) -> Result<Vec<u8>, DeviceError> {
        self.0.save_state()
    }
    fn restore_state(&mut self, state: &[u8]) -> Result<(), DeviceError> {
        self.0.restore_state(state)
    }
}

impl Sound for Original {
    fn feed(&mut self, frames: &[u8]) -> usize {
        let mut queue = self.1.capture.lock().unwrap();
        let count = frames.len().min(QUEUE - queue.len());
        queue.extend(&frames[..count]);
        count / 4
    }
    fn pull(&mut self, into: &mut [u8]) -> usize {
        take(&self.1.playback, into) / 4
    }
    fn pin_presence_changed(&mut self, node: u8) {
        self.0.pin_presence_changed(node)
    }
}

impl Sound for dropin::Hda {
    fn feed(&mut self, frames: &[u8]) -> usize {
        dropin::Hda::feed(self, frames).unwrap()
    }
    fn pull(&mut self, into: &mut [u8]) -> usize {
        dropin::Hda::pull(self, into).unwrap()
    }
    fn pin_presence_changed(&mut self, node: u8) {
        dropin::Hda::pin_presence_changed(self, node)
    }
}

/// All that is seen: a line for everything that was read, pulled or signalled.
fn scenario(device: &mut dyn Sound, memory: &GuestMemory, wires: &Wires, messages: bool) -> Vec<String> {
    let mut seen = vec![format!("{:?}", device.bars())];
    // Bus mastering, and messages or the interrupt line.
    device.config_write(1, 0, &[6]);
    device.config_write(0x64 / 4, 0, &[0, 0, 0xe0, 0xfe, 0, 0, 0, 0, 0x41, 0]);
    device.config_write(0x60 / 4, 2, &[u8::from(messages)]);
    let mut writes: Vec<(u64, Vec<u8>)> = vec![(8, vec![1, 1, 0, 0]), (0x20, vec![3, 0, 0, 0xc0])];
    // Rings at 0x800 and 0x1000, with commands that connect node 2 to tag 2 and node 4 to tag 1, at 48,000 and unity gain, and make node 3 report.
    let commands: [u32; 8] = [0x000f_0000, 0x0027_0620, 0x0022_0011, 0x0023_b04a, 0x0047_0610, 0x0042_0011, 0x0043_704a, 0x0037_0885];
    for (place, command) in commands.iter().enumerate() {
        memory.write_slice(&command.to_le_bytes(), GuestAddress(0x804 + 4 * place as u64)).unwrap();
    }
    writes.extend([
        (0x40, vec![0, 8, 0, 0]),
        (0x50, vec![0, 0x10, 0, 0]),
        (0x5c, vec![3]),
        (0x4c, vec![2]),
        (0x48, vec![commands.len() as u8]),
    ]);
    // A position buffer at 0x2000, and for each stream two flagged buffers of 1,024 bytes.
    writes.push((0x70, vec![1, 0x20, 0, 0]));
    for stream in 0..2_u64 {
        let (list, buffers) = (0x2100 + 0x80 * stream, 0x4000 + 0x1000 * stream);
        for place in 0..2 {
            let mut descriptor = [0; 16];
            descriptor[..8].copy_from_slice(&(buffers + 1024 * place).to_le_bytes());
            descriptor[8..].copy_from_slice(&[0, 4, 0, 0, 1, 0, 0, 0]);
            memory.write_slice(&descriptor, GuestAddress(list + 16 * place)).unwrap();
        }
        let tone: Vec<u8> = (0..2048).map(|place| (place * 7 + place / 256) as u8).collect();
        memory.write_slice(&tone, GuestAddress(buffers)).unwrap();
        let base = 0x80 + 32 * stream;
        writes.extend([(base + 0x12, vec![0x11, 0]), (base + 8, vec![0, 8, 0, 0]), (base + 0xc, vec![1])]);
        writes.extend([(base + 0x18, list.to_le_bytes().to_vec()), (base + 2, vec![(stream as u8 + 1) << 4]), (base, vec![0x1e])]);
    }
    for (place, (offset, data)) in writes.iter().enumerate() {
        if place.is_multiple_of(2) {
            device.write(*offset, data)
        } else {
            device.bar_write(0, *offset, data)
        }
        seen.push(look(device, memory, wires));
    }
    let mut kept = Vec::new();
    for step in 0..60_u64 {
        if step == 15 {
            kept = device.save_state().unwrap();
        }
        if step == 22 {
            // Back to step 15: streams, registers and codec as then, empty queues, the clock as now.
            seen.push(restored(device, &kept));
            seen.push(look(device, memory, wires));
        }
        if step == 45 {
            seen.extend(damaged(&kept).iter().map(|state| restored(device, state)));
        }
        if step == 30 {
            device.set_paused(true);
        }
        if step == 33 {
            device.set_paused(false);
        }
        if step.is_multiple_of(7) {
            device.pin_presence_changed(3);
            device.bar_write(1, 8, &[0]);
        }
        device.feed(&vec![step as u8; 4 * (40 + step as usize)]);
        device.advance(Duration::from_micros(900 + 37 * step)).unwrap();
        let mut frames = [0xee; 400];
        let count = device.pull(&mut frames);
        seen.push(format!("{count} {frames:?}"));
        seen.push(look(device, memory, wires));
        if step.is_multiple_of(3) {
            // An interrupt handler acknowledges.
            device.write(0x83, &[0x1c]);
            device.write(0xa3, &[0x1c]);
            device.write(0x5d, &[5]);
        }
    }
    seen.push(format!("{} {:?}", device.state_id(), device.save_state()));
    seen
}

/// What a restore answers; of an unsupported format the Rust's text also tells the word.
fn restored(device: &mut dyn Sound, state: &[u8]) -> String {
    let answer = format!("{:?}", device.restore_state(state));
    match answer.find(" 0x") {
        Some(word) => answer[..word].to_string() + "\"))",
        None => answer,
    }
}

/// States that every number of restore but 1 refuses.
fn damaged(state: &[u8]) -> Vec<Vec<u8>> {
    let with = |place: usize, bytes: &[u8]| {
        let mut state = state.to_vec();
        state[place..place + bytes.len()].copy_from_slice(bytes);
        state
    };
    vec![
        state[..700].to_vec(),
        with(0, b"HDA2"),
        with(4, &[0]),
        with(518 + 24 * 2 + 10, &[0x10, 0]),
        with(710, &[0xff; 4]),
        with(694, &[0xff; 8]),
        with(680, &[0, 1]),
        with(5, &[2]),
    ]
}

/// Registers, configuration, guest memory and wires, now.
fn look(device: &mut dyn Sound, memory: &GuestMemory, wires: &Wires) -> String {
    let (mut registers, mut aliases, mut other) = ([0; 256], [1; 4], [1; 4]);
    device.read(0, &mut registers);
    device.bar_read(0, 0x2030, &mut aliases);
    device.bar_read(2, 0, &mut other);
    let config: Vec<u32> = (0..65).map(|register| device.config_read(register)).collect();
    let mut bytes = vec![0; MEMORY];
    memory.read_slice(&mut bytes, GuestAddress(0)).unwrap();
    let digest = bytes.iter().fold(0_u64, |sum, byte| (sum ^ u64::from(*byte)).wrapping_mul(0x100_0000_01b3));
    let wires = wires.0.lock().unwrap();
    format!("{registers:?} {aliases:?} {other:?} {config:?} {digest:x} {} {:?}", wires.0, wires.1)
}

fn run(messages: bool, make: impl FnOnce(GuestMemory, Arc<Wires>) -> Box<dyn Sound>) -> Vec<String> {
    let memory = GuestMemory::from_ranges(&[(GuestAddress(0), MEMORY)]).unwrap();
    let wires = Arc::new(Wires::default());
    let mut device = make(memory.clone(), wires.clone());
    let seen = scenario(&mut *device, &memory, &wires, messages);
    let wires = wires.0.lock().unwrap();
    assert_eq!(messages, !wires.1.is_empty(), "the scenario interrupts by the kind it asked for");
    seen
}

fn original(memory: GuestMemory, wires: Arc<Wires>) -> Box<dyn Sound> {
    let backend = Backend::default();
    let device = reference::hda::Hda::new("hda", memory, Arc::new(backend.clone()), wires.clone(), Some(wires), true);
    Box::new(Original(device, backend))
}

fn proved(memory: GuestMemory, wires: Arc<Wires>) -> dropin::Hda {
    // The test's only other use of the memory is between calls.
    unsafe { dropin::Hda::new("hda", memory, wires.clone(), Some(wires), true) }.unwrap()
}

fn dropped_in(memory: GuestMemory, wires: Arc<Wires>) -> Box<dyn Sound> {
    Box::new(proved(memory, wires))
}

#[test]
fn the_two_are_exchanged_and_nothing_shows() {
    for messages in [false, true] {
        let (rust, port) = (run(messages, original), run(messages, dropped_in));
        assert_eq!(rust.len(), port.len());
        for (place, (rust, port)) in rust.iter().zip(&port).enumerate() {
            assert_eq!(rust, port, "line {place}");
        }
        assert!(rust.iter().any(|line| line.starts_with("100 ")), "frames were played");
        let refusals: Vec<&String> = rust.iter().filter(|line| line.starts_with("Err(State(")).collect();
        assert_eq!((refusals.len(), rust.iter().filter(|line| *line == "Ok(())").count()), (8, 1), "{refusals:?}");
        assert_eq!(!messages, rust.iter().any(|line| line.contains(" true [")), "the line was high where messages are off");
    }
}

/// A device with its memory and wires.
fn made<D>(make: impl Fn(GuestMemory, Arc<Wires>) -> D) -> (D, GuestMemory, Arc<Wires>) {
    let memory = GuestMemory::from_ranges(&[(GuestAddress(0), MEMORY)]).unwrap();
    let wires = Arc::new(Wires::default());
    (make(memory.clone(), wires.clone()), memory, wires)
}

/// Either takes what the other saved: a guest can be moved from one to the other, and back.
#[test]
fn states_are_exchanged() {
    for [from, to] in [[original, dropped_in], [dropped_in, original]] {
        let ((mut from, memory, wires), (mut to, _, _)) = (made(from), made(to));
        scenario(&mut *from, &memory, &wires, false);
        let state = from.save_state().unwrap();
        to.restore_state(&state).unwrap();
        assert!(to.save_state().unwrap() == state);
    }
}

/// A state whose playback has all but 2,048 bytes consumed and these completions pending, counted backwards from the place where its present descriptor began.
fn with_completions(state: &[u8], before: &[u64]) -> Vec<u8> {
    let number = |place: usize| u64::from_le_bytes(state[place..place + 8].try_into().unwrap());
    let playback = 714 + 8 * (number(710) as u32) as usize;
    let (offset, submitted) = (u64::from(number(playback + 2) as u32), number(playback + 6));
    let mut edited = state[..playback + 34].to_vec();
    edited[playback + 14..][..8].copy_from_slice(&(submitted - 2048).to_le_bytes());
    edited[playback + 30..].copy_from_slice(&(before.len() as u32).to_le_bytes());
    edited.extend(before.iter().flat_map(|bytes| (submitted - offset - bytes).to_le_bytes()));
    edited
}

/// The Rust's device takes completions a byte apart, and saves them again. The drop-in refuses that state and stays as it was; by a method of its own it takes the state with
/// that list emptied.
#[test]
fn crowded_completions_of_the_rust_are_emptied() {
    let ((mut from, memory, wires), (mut to, _, _)) = (made(original), made(proved));
    scenario(&mut *from, &memory, &wires, false);
    let state = from.save_state().unwrap();
    let [spaced, close] = [[4, 0], [1, 0]].map(|before| with_completions(&state, &before));
    from.restore_state(&close).unwrap();
    assert!(from.save_state().unwrap() == close);
    let before = to.save_state().unwrap();
    let refused = format!("{:?}", to.restore_state(&close));
    assert_eq!(refused, "Err(State(\"crowded HDA completion positions\"))");
    assert!(to.restore_state_emptied(&close[1..]).is_err());
    assert!(to.save_state().unwrap() == before);
    to.restore_state_emptied(&close).unwrap();
    assert!(to.save_state().unwrap() == with_completions(&state, &[]) && to.machine().open(Stream::Playback));
    // A list that is not crowded stays, by either method.
    to.restore_state_emptied(&spaced).unwrap();
    assert!(to.save_state().unwrap() == spaced);
    to.restore_state(&spaced).unwrap();
    assert!(to.save_state().unwrap() == spaced);
}

/// The drop-in says between which counts a timer with jitter ends, and nothing of it shows.
#[test]
fn a_timer_with_jitter() {
    let (mut device, memory, wires) = made(proved);
    memory.write_slice(&[0, 0x10, 0, 0, 0, 0, 0, 0, 0, 4, 0, 0, 1, 0, 0, 0], GuestAddress(0)).unwrap();
    device.config_write(1, 0, &[6]);
    for (offset, bytes) in
        [(0x08, [1, 0, 0, 0]), (0x20, [3, 0, 0, 0xc0]), (0xa8, [0, 4, 0, 0]), (0xb2, [0x11, 0, 0, 0]), (0xa0, [6, 0, 0, 0])]
    {
        device.write(offset, &bytes[..if offset == 0xb2 { 2 } else { 4 }]);
    }
    let half = Duration::from_micros(500);
    let seen = |device: &dropin::Hda| {
        let mut bytes = vec![0; MEMORY];
        memory.read_slice(&mut bytes, GuestAddress(0)).unwrap();
        (device.save_state().unwrap(), bytes, wires.0.lock().unwrap().0)
    };
    let before = seen(&device);
    let mut scratch = Scratch::new(MEMORY);
    let bounds = device.advance_bounds(half, 3 * half, &mut scratch).unwrap();
    assert_eq!(bounds[Stream::Playback.index()], Bounds { lowest: 96, highest: 288 });
    let most = device.advance_bounds(half, Duration::MAX, &mut scratch).unwrap();
    assert_eq!(most[Stream::Playback.index()], Bounds { lowest: 96, highest: 2048 });
    let reversed = format!("{:?}", device.advance_bounds(half, Duration::ZERO, &mut scratch));
    assert_eq!(reversed, "Err(Other(\"shortest time above the longest\"))");
    let short = format!("{:?}", device.advance_bounds(half, half, &mut Scratch::new(MEMORY - 1)));
    assert_eq!(short, "Err(Other(\"scratch shorter than guest memory\"))");
    assert!(seen(&device) == before);
    device.advance(2 * half).unwrap();
    assert_eq!(device.machine().submitted(Stream::Playback), 192);
}

#[test]
fn memory_that_is_not_one_region_from_zero_is_refused() {
    let wires = Arc::new(Wires::default());
    for ranges in [vec![(GuestAddress(4096), 4096)], vec![(GuestAddress(0), 4096), (GuestAddress(8192), 4096)]] {
        let memory = GuestMemory::from_ranges(&ranges).unwrap();
        assert!(unsafe { dropin::Hda::new("hda", memory, wires.clone(), None, true) }.is_err());
    }
}

#[test]
fn refusals_become_errors() {
    let memory = GuestMemory::from_ranges(&[(GuestAddress(0), 4096)]).unwrap();
    let mut device = unsafe { dropin::Hda::new("hda", memory, Arc::new(Wires::default()), None, true) }.unwrap();
    assert_eq!(device.state_id(), "hda");
    assert!(device.feed(&[0; 3]).is_err() && device.pull(&mut [0; 3]).is_err() && device.set_downstream(2).is_err());
    assert!(device.set_playback_fails(true).is_ok() && device.set_capture_fails(true).is_ok() && device.set_downstream(400).is_ok());
    // An opening that fails at RUN stops the stream, which the guest sees.
    device.write(0xb2, &[0x11, 0]);
    device.write(0xa0, &[2]);
    let mut status = [0; 4];
    device.read(0xa0, &mut status);
    assert_eq!((status[0], status[3]), (0, 0x10));
    // The same switch refuses a state in which the stream runs.
    let mut state = device.save_state().unwrap();
    state[262 + 0xa0] = 2;
    assert!(matches!(device.restore_state(&state), Err(DeviceError::Other(_))));
    device.set_playback_fails(false).unwrap();
    assert!(!device.machine().open(Stream::Playback));
    assert!(device.restore_state(&state).is_ok() && device.machine().open(Stream::Playback) && device.restore_state(&state[1..]).is_err());
}
