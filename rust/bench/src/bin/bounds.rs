//! bounds [MIB]: times of the call on a timer with jitter (request T-13), as a table for docs/PERFORMANCE.md, with 256 MiB of guest memory if no other size is named. It clears the scratch that it is lent, which is as long as guest memory, so that it is timed against clearing the
//! same bytes, by turns, in one run.
use bench::{cpu_time, median};
use port::layout::put;
use port::{Bounds, Machine, Scratch, number};
use std::hint::black_box;

const MIB: usize = 1 << 20;
const MEMORY: usize = 256;
const ROUNDS: usize = 15;
const MILLISECOND: f64 = 1e6;
/// Of 1 ms, half of one more or less: at most so many times the clearing.
const SHORT_AIM: f64 = 1.1;
/// Of 0 to 1 s with a capture at unity: at most so many milliseconds beyond the clearing.
const LONG_AIM: f64 = 100.0;
/// Of a range that has no more cases than the one before: beyond the clearing at most so many times what that takes, and a millisecond more, below which a clearing cannot be told from another.
const SAME_AIM: f64 = 1.25;
const NOISE: f64 = 1.0;

/// Ranges in nanoseconds.
const TICK: (u64, u64) = (500_000, 1_500_000);
const SECOND: (u64, u64) = (0, 1_000_000_000);
const ANY: (u64, u64) = (0, u64::MAX);
const RANGES: [(&str, (u64, u64)); 4] =
    [("1 ms ± 0.5 ms", TICK), ("0 to 20 ms", (0, 20_000_000)), ("0 to 1 s", SECOND), ("0 to 2^64 - 1 ns", ANY)];

/// The guest's rings: descriptors of 1,024 bytes, lists and buffers apart.
const DESCRIPTORS: usize = 32;
const BUFFER: usize = 1024;

/// Which streams run.
#[derive(Clone, Copy, PartialEq, Eq)]
enum Streams {
    CaptureAtUnity,
    CaptureWithGain,
    /// The guest has never touched the capture.
    PlaybackAlone,
    /// The guest has set up the capture, and does not run it.
    CaptureStopped,
}

impl Streams {
    const EACH: [(Self, &str); 4] = [
        (Self::CaptureAtUnity, "capture at unity and playback"),
        (Self::CaptureWithGain, "capture with a gain and playback"),
        (Self::PlaybackAlone, "playback alone"),
        (Self::CaptureStopped, "playback, and a capture that is set up and stopped"),
    ];

    fn captures(self) -> bool {
        matches!(self, Self::CaptureAtUnity | Self::CaptureWithGain)
    }
}

fn main() {
    let size = std::env::args().nth(1).map_or(MEMORY, |word| word.parse().expect("MiB of guest memory"));
    let mut memory: Vec<u8> = (0..size * MIB).map(|place| (place >> 12) as u8).collect();
    let mut scratch = Scratch::new(memory.len());
    println!("{size} MiB of guest memory; milliseconds of CPU time, median of {ROUNDS} rounds");
    println!("| Streams | Range | Clearing, ms | Call, ms | Call / clearing | Beyond clearing, ms | Aim |");
    println!("|---|---|---|---|---|---|---|");
    for (streams, name) in Streams::EACH {
        let machine = running(&mut memory, streams);
        // What the range before takes beyond the clearing.
        let mut before = 0.0;
        for (range_name, range) in RANGES {
            check(&machine, &memory, range, &mut scratch, streams);
            let times = time(&machine, &memory, range, &mut scratch);
            println!("{}", times.row(name, range_name, times.aim(streams, range, before)));
            before = times.beyond;
        }
    }
}

/// A machine that plays at 48,000 frames a second, and captures if it is told to, at unity or not.
fn running(memory: &mut [u8], streams: Streams) -> Machine {
    let mut machine = Machine::new(true);
    machine.config_write(memory, 1, 0, &[6]);
    machine.write(memory, 0x08, &[1]);
    // Nodes 2 and 4 have stream tag 1 at 48,000; node 2 plays at unity.
    let gain = if streams == Streams::CaptureWithGain { 0x0043_7044 } else { 0x0043_704a };
    for command in [0x0027_0610_u32, 0x0022_0011, 0x0023_b04a, 0x0047_0610, 0x0042_0011, gain] {
        machine.write(memory, 0x60, &command.to_le_bytes());
        machine.write(memory, 0x68, &[1]);
    }
    for stream in 0..2 {
        let (list, buffers, control) = (0x10000 + 0x1000 * stream, 0x20000 + 0x10000 * stream, 0x80 + 0x20 * stream as u64);
        for place in 0..DESCRIPTORS {
            let descriptor = &mut memory[list + 16 * place..][..16];
            put::<8>(descriptor, 0, (buffers + BUFFER * place) as u64);
            put::<4>(descriptor, 8, BUFFER as u64);
            put::<4>(descriptor, 12, 1);
        }
        if stream == 0 && streams == Streams::PlaybackAlone {
            continue;
        }
        machine.write(memory, control + 0x02, &[0x10]);
        machine.write(memory, control + 0x08, &((DESCRIPTORS * BUFFER) as u32).to_le_bytes());
        machine.write(memory, control + 0x0c, &[DESCRIPTORS as u8 - 1, 0]);
        machine.write(memory, control + 0x12, &0x0011_u16.to_le_bytes());
        machine.write(memory, control + 0x18, &(list as u64).to_le_bytes());
        if stream == 1 || streams.captures() {
            machine.write(memory, control, &[2]);
        }
    }
    machine.feed(&[3; 512]);
    machine
}

/// What the call says is what such a machine does; times of a wrong answer would say nothing. It touches all bytes once.
fn check(machine: &Machine, memory: &[u8], range: (u64, u64), scratch: &mut Scratch, streams: Streams) {
    let bytes = |nanoseconds: u64| 4 * (u128::from(nanoseconds) * 48_000 / 1_000_000_000).min(8192) as u64;
    let capture = Bounds { lowest: bytes(range.0), highest: bytes(range.1) };
    let playback = Bounds { lowest: bytes(range.0).min(2048), highest: bytes(range.1).min(2048) };
    let still = Bounds { lowest: 0, highest: 0 };
    scratch.memory.fill(1);
    let found = machine.advance_bounds(memory, range.0, range.1, scratch);
    assert_eq!(found, Ok([if streams.captures() { capture } else { still }, playback]));
    assert!(scratch.memory.iter().all(|byte| *byte == 0));
    assert_eq!(machine.advance_bounds(memory, 1, 0, scratch), Err(number::REVERSED));
}

/// Median times in milliseconds.
struct Times {
    clearing: f64,
    call: f64,
    /// Medians of the rounds' quotients and differences.
    ratio: f64,
    beyond: f64,
}

/// Rounds of clearing and call by turns, which of the two is first by turns too.
fn time(machine: &Machine, memory: &[u8], range: (u64, u64), scratch: &mut Scratch) -> Times {
    let mut rounds: Vec<(f64, f64)> = Vec::new();
    for round in 0..ROUNDS {
        let mut times = [0.0; 2];
        for side in [round % 2, 1 - round % 2] {
            let start = cpu_time();
            if side == 0 {
                clear(black_box(scratch));
            } else {
                black_box(machine.advance_bounds(black_box(memory), range.0, range.1, scratch)).expect("the call is accepted");
            }
            times[side] = (cpu_time() - start) as f64 / MILLISECOND;
        }
        rounds.push(times.into());
    }
    let median_of = |part: fn(&(f64, f64)) -> f64| median(rounds.iter().map(part).collect());
    Times {
        clearing: median_of(|times| times.0),
        call: median_of(|times| times.1),
        ratio: median_of(|times| times.1 / times.0),
        beyond: median_of(|times| times.1 - times.0),
    }
}

fn clear(scratch: &mut Scratch) {
    scratch.lists.fill(0);
    scratch.queues.fill(0);
    scratch.memory.fill(0);
    black_box(scratch);
}

impl Times {
    /// The aim of a row, and whether it is met.
    fn aim(&self, streams: Streams, range: (u64, u64), before: f64) -> Option<(String, bool)> {
        let is_same = self.beyond <= SAME_AIM * before + NOISE;
        if range == TICK {
            Some((format!("at most {SHORT_AIM} × clearing"), self.ratio <= SHORT_AIM))
        } else if range == SECOND && streams == Streams::CaptureAtUnity {
            Some((format!("at most {LONG_AIM} ms beyond"), self.beyond <= LONG_AIM))
        } else if range == SECOND && streams == Streams::PlaybackAlone {
            // The queue is full after 10.7 ms.
            Some(("what 0 to 20 ms takes".into(), is_same))
        } else if range == ANY {
            Some(("what 0 to 1 s takes".into(), is_same))
        } else {
            None
        }
    }

    fn row(&self, streams: &str, range: &str, aim: Option<(String, bool)>) -> String {
        let aim = aim.map_or("no aim".into(), |(aim, met)| format!("{aim}, {}", if met { "met" } else { "not met" }));
        let Self { clearing, call, ratio, beyond } = self;
        format!("| {streams} | {range} | {clearing:.1} | {call:.1} | {ratio:.3} | {beyond:.2} | {aim} |")
    }
}
