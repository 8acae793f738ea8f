//! A host whose timer comes early or late asks before each call what it must be ready to take and to give: so its buffers are large enough, and the guest's recording has no gap. `cargo run -p port --example jitter`
//! in rust/.
use port::layout::put;
use port::{Bounds, Machine, Scratch, Stream, number};

/// The guest's rings, one buffer for each stream, and their descriptor lists.
const RING: usize = 4096;
const RINGS: [usize; 2] = [0x1000, 0x2000];
const DESCRIPTORS: [usize; 2] = [0x0, 0x80];
const MEMORY: usize = 0x3000;
/// The timer comes every millisecond, sooner or later by half of one.
const NOMINAL: u64 = 1_000_000;
const JITTER: u64 = 500_000;
const TICKS: u64 = 200;
/// Bytes of a millisecond at 48,000 frames a second.
const NOMINAL_BYTES: usize = 192;
const FRAME: usize = 4;

/// How a host chooses what it feeds before a tick.
#[derive(Clone, Copy, PartialEq, Eq)]
enum Feeding {
    /// A nominal period's frames.
    Nominal,
    /// As many as the tick may take.
    Bounds,
}

/// A device with guest memory, and its host.
struct Host {
    machine: Machine,
    memory: Vec<u8>,
    /// Kept for all calls: each leaves it zero.
    scratch: Scratch,
    /// What the guest finds in its capture ring.
    recording: Vec<u8>,
    /// Frames of the microphone so far.
    spoken: u32,
    /// The largest buffer that a tick asked for, and the most bytes that one gave.
    largest: u64,
    fullest: u64,
    /// The most bytes that wait to be captured after a tick.
    waiting: usize,
}

impl Host {
    /// A guest that plays and captures at 48,000 frames a second.
    fn new() -> Self {
        let mut host = Self {
            machine: Machine::new(true),
            memory: vec![0; MEMORY],
            scratch: Scratch::new(MEMORY),
            recording: Vec::new(),
            spoken: 0,
            largest: 0,
            fullest: 0,
            waiting: 0,
        };
        host.machine.config_write(&mut host.memory, 1, 0, &[6]);
        host.write(0x08, &[1]);
        // Nodes 2 and 4 play and capture stream tag 1 at unity gain.
        for command in [0x0027_0610_u32, 0x0022_0011, 0x0023_b04a, 0x0047_0610, 0x0042_0011, 0x0043_704a] {
            host.write(0x60, &command.to_le_bytes());
            host.write(0x68, &[1]);
        }
        for stream in Stream::EACH.map(Stream::index) {
            let (control, descriptor) = (0x80 + 0x20 * stream as u64, DESCRIPTORS[stream]);
            put::<8>(&mut host.memory, descriptor, RINGS[stream] as u64);
            put::<4>(&mut host.memory, descriptor + 8, RING as u64);
            host.write(control + 0x02, &[0x10]);
            host.write(control + 0x08, &(RING as u32).to_le_bytes());
            host.write(control + 0x12, &0x0011_u16.to_le_bytes());
            host.write(control + 0x18, &(descriptor as u64).to_le_bytes());
            host.write(control, &[2]);
        }
        host
    }

    fn write(&mut self, offset: u64, bytes: &[u8]) {
        assert_eq!(self.machine.write(&mut self.memory, offset, bytes).number, number::DONE);
    }

    /// What the next tick moves at least and at most, in bytes.
    fn expected(&mut self, shortest: u64, longest: u64) -> [Bounds; 2] {
        let bounds = self.machine.advance_bounds(&self.memory, shortest, longest, &mut self.scratch).expect("times and scratch are right");
        Stream::EACH.map(|stream| {
            let (Bounds { lowest, highest }, before) = (bounds[stream.index()], self.machine.submitted(stream));
            Bounds { lowest: lowest - before, highest: highest - before }
        })
    }

    /// A tick whose true length is found out by the call alone.
    fn tick(&mut self, elapsed: u64, feeding: Feeding) {
        let [capture, playback] = self.expected(NOMINAL - JITTER, NOMINAL + JITTER);
        let queued = self.machine.queue(Stream::Capture).len();
        self.speak(match feeding {
            Feeding::Nominal => NOMINAL_BYTES,
            Feeding::Bounds => (capture.highest as usize).saturating_sub(queued),
        });
        let before = Stream::EACH.map(|stream| self.machine.submitted(stream));
        assert_eq!(self.machine.advance(&mut self.memory, elapsed).number, number::DONE);
        let moved = Stream::EACH.map(|stream| self.machine.submitted(stream) - before[stream.index()]);
        for (moved, Bounds { lowest, highest }) in moved.into_iter().zip([capture, playback]) {
            assert!((lowest..=highest).contains(&moved), "a tick of {elapsed} ns moved {moved} bytes, not {lowest} to {highest}");
        }
        self.record(before[0] as usize, moved[0] as usize);
        // A buffer that is as long as was said takes all that there is.
        let mut buffer = vec![0; playback.highest as usize];
        let given = FRAME as u64 * u64::from(self.machine.pull(&mut buffer).value);
        assert!(given == moved[1] && self.machine.queue(Stream::Playback).is_empty());
        self.largest = self.largest.max(playback.highest);
        self.fullest = self.fullest.max(given);
        self.waiting = self.waiting.max(self.machine.queue(Stream::Capture).len());
    }

    /// The microphone brings so many bytes. No frame of it is silence.
    fn speak(&mut self, bytes: usize) {
        let frames: Vec<u8> = (0..bytes / FRAME).flat_map(|frame| (self.spoken + 1 + frame as u32).to_le_bytes()).collect();
        self.spoken += self.machine.feed(&frames).value;
    }

    /// The guest looks at what has come into its ring.
    fn record(&mut self, from: usize, bytes: usize) {
        self.recording.extend((from..from + bytes).map(|place| self.memory[RINGS[0] + place % RING]));
    }

    /// Frames of the recording that the microphone did not bring.
    fn silence(&self) -> usize {
        self.recording.chunks(FRAME).filter(|frame| frame.iter().all(|byte| *byte == 0)).count()
    }
}

/// The true length of a tick, which the host does not know: late two times out of three.
fn elapsed(tick: u64) -> u64 {
    let off = tick * 309_017 % (JITTER + 1);
    if tick.is_multiple_of(3) { NOMINAL - off } else { NOMINAL + off }
}

/// What happens, as lines.
pub fn story() -> Vec<String> {
    let mut lines = Vec::new();
    let Bounds { lowest, highest } = Host::new().expected(NOMINAL - JITTER, NOMINAL + JITTER)[1];
    lines.push(format!("a timer of 1 ms, half of one early or late: a stream moves {lowest} to {highest} bytes"));
    for (feeding, name) in [(Feeding::Nominal, "a nominal period"), (Feeding::Bounds, "what the tick may take")] {
        let mut host = Host::new();
        (0..TICKS).for_each(|tick| host.tick(elapsed(tick), feeding));
        lines.push(format!(
            "fed with {name}: {} of {} captured frames are silence, and up to {} wait",
            host.silence(),
            host.recording.len() / FRAME,
            host.waiting / FRAME
        ));
        if feeding == Feeding::Bounds {
            lines.push(format!("the host had {} bytes of buffer for each pull, and got up to {}", host.largest, host.fullest));
        }
    }
    // The guest shows a buffer of which ten frames are left before the end of its memory: a tick that asks for more fails, and moves nothing.
    let mut host = Host::new();
    put::<8>(&mut host.memory, DESCRIPTORS[1], (MEMORY - 10 * FRAME) as u64);
    let [short, long, between] =
        [(100_000, 100_000), (500_000, 500_000), (100_000, 500_000)].map(|(shortest, longest)| host.expected(shortest, longest)[1]);
    lines.push(format!(
        "near the end of memory 0.1 ms move {} bytes and 0.5 ms {}; in between it is {} to {}",
        short.highest, long.highest, between.lowest, between.highest
    ));
    lines
}

fn main() {
    for line in story() {
        println!("{line}");
    }
}
