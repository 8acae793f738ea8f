//! Times of the amplifier's two forms, in place with a copy afterwards and in one pass, in one run, as tables for docs/PERFORMANCE.md; and whether some count of frames is slow.
use bench::{by_turns, clock, cpu_time, leaves};
use random::Random;
use std::hint::black_box;

const FRAME: usize = 4;
/// Frames of the longest buffer: a period.
const LONGEST: usize = 256;
/// Buffers that are amplified one after another between two looks at the clock, each with frames of its own.
const BATCH: usize = 32;
/// A target is longer than a source, so that the distance between the two is another for each pair: processors mind whether two addresses have the same low bits.
const TARGET: usize = FRAME * LONGEST + 192;
const ROUNDS: usize = 501;
/// Rounds over every count of frames.
const SWEEPS: usize = 301;
/// Nanoseconds that a count of frames may take beyond the next larger multiple of 16.
const EXCESS: f64 = 40.0;
const SEED: u64 = 3;

const FACTOR: u8 = 0x44;
const UNITY: u8 = 0x4a;
const SILENCE: u8 = 0xca;

type Form = fn(&mut [u8], &mut [u8], u8, u8);

fn two_steps(pcm: &mut [u8], into: &mut [u8], left: u8, right: u8) {
    assert_eq!(leaves::amplify_then_copy(pcm, into, left, right), leaves::DONE);
}

fn one_pass(pcm: &mut [u8], into: &mut [u8], left: u8, right: u8) {
    assert_eq!(leaves::amplify_into(pcm, into, left, right), leaves::DONE);
}

fn in_place(pcm: &mut [u8], _: &mut [u8], left: u8, right: u8) {
    leaves::amplify(pcm, left, right);
}

fn main() {
    compare();
    let mut buffers = Buffers::new();
    println!();
    forms(&mut buffers);
    println!();
    lengths(&mut buffers);
}

/// Both forms give the same bytes, as many as the target has room for, and the one pass leaves its source as it was; times of two that differ would say nothing.
fn compare() {
    const COUNT: usize = 100_000;
    const LENGTHS: u64 = (FRAME * LONGEST + 8) as u64;
    let mut random = Random::new(SEED);
    let gain = |random: &mut Random| match random.below(4) {
        0 => UNITY,
        1 => SILENCE,
        _ => random.byte(),
    };
    for _ in 0..COUNT {
        let length = random.between(0, LENGTHS) as usize;
        let pcm = random.bytes(length);
        let (left, right) = (gain(&mut random), gain(&mut random));
        // Mostly a target that the source fills, now and then a longer one.
        let target = random.below(length as u64 + 1 + length as u64 / 16) as usize;
        let space = random.bytes(LENGTHS as usize * 2);
        let (mut source, mut passed, mut copied) = (pcm.clone(), space.clone(), space.clone());
        let numbers = [
            leaves::amplify_into(&source, &mut passed[..target], left, right),
            leaves::amplify_then_copy(&mut pcm.clone(), &mut copied[..target], left, right),
        ];
        assert!(source == pcm, "{length} bytes, {left:#04x} and {right:#04x}: the one pass changed its source");
        assert!(passed == copied, "{length} bytes into {target}, {left:#04x} and {right:#04x}: the forms differ");
        assert_eq!(numbers, [if target > length { leaves::SHORT } else { leaves::DONE }; 2], "{length} bytes into {target}");
        leaves::amplify(&mut source, left, right);
        let amplified = source.get(..target).unwrap_or(&space[..target]);
        assert!([amplified, &space[target..]].concat() == passed, "{length} bytes into {target}: not what the amplifier gives");
    }
    println!(
        "{COUNT} random buffers of up to {LENGTHS} bytes, into targets of other lengths: both forms equal, the one pass leaves its source"
    );
}

/// Both forms side by side.
fn forms(buffers: &mut Buffers) {
    const FRAMES: [usize; 5] = [16, 48, 64, 100, 256];
    println!("Nanoseconds of CPU time a call, new frames at each; medians of {ROUNDS} rounds of {BATCH} calls.");
    println!();
    println!("| Left / right | Form |{} frames |", columns(FRAMES.map(|frames| frames.to_string())));
    println!("|---|---|{}", "---|".repeat(FRAMES.len()));
    for (name, left, right) in [
        ("factor / factor", FACTOR, FACTOR),
        ("factor / unity", FACTOR, UNITY),
        ("unity / factor", UNITY, FACTOR),
        ("factor / silence", FACTOR, SILENCE),
        ("silence / factor", SILENCE, FACTOR),
        ("unity / unity", UNITY, UNITY),
        ("silence / silence", SILENCE, SILENCE),
    ] {
        let times = FRAMES
            .map(|frames| by_turns(ROUNDS, || (buffers.time(two_steps, frames, left, right), buffers.time(one_pass, frames, left, right))));
        println!("| {name} | amplify, then copy |{} |", columns(times.each_ref().map(|times| format!("{:.0}", times.other))));
        println!("| | one pass |{} |", columns(times.each_ref().map(|times| format!("{:.0}", times.port))));
    }
}

/// No count of frames is much slower than the next larger multiple of 16, in either form.
fn lengths(buffers: &mut Buffers) {
    const FRAMES: [usize; 17] = [1, 15, 16, 17, 31, 32, 44, 45, 47, 48, 63, 64, 100, 127, 128, 255, 256];
    const FORMS: [(&str, Form); 2] = [("one pass", one_pass), ("in place", in_place)];
    // Round by round over all counts and both forms, so that what disturbs the machine for a while meets all of them.
    let mut times = FORMS.map(|_| vec![Vec::new(); LONGEST]);
    for _ in 0..SWEEPS {
        for frames in 1..=LONGEST {
            for ((_, form), times) in FORMS.iter().zip(&mut times) {
                times[frames - 1].push(buffers.time(*form, frames, FACTOR, FACTOR));
            }
        }
    }
    println!(
        "Every count of frames from 1 to {LONGEST}, factor / factor. Nanoseconds as above, but lower quartiles of {SWEEPS} rounds, since \
         what disturbs a call only adds to its time. Excess: over the next larger multiple of 16, the most of all counts."
    );
    println!();
    println!("| Form |{} frames | Excess, ns | At most |", columns(FRAMES.map(|frames| frames.to_string())));
    println!("|---|{}---|---|", "---|".repeat(FRAMES.len()));
    for ((name, _), times) in FORMS.iter().zip(times) {
        let times: Vec<f64> = times.into_iter().map(lower_quartile).collect();
        let time = |frames: usize| times[frames - 1];
        let excess = |frames: usize| time(frames) - time(frames.next_multiple_of(16));
        let worst = (1..=LONGEST).filter(|frames| frames % 16 != 0).max_by(|&a, &b| excess(a).total_cmp(&excess(b))).unwrap();
        let met = if excess(worst) <= EXCESS { "met" } else { "not met" };
        let times = columns(FRAMES.map(|frames| format!("{:.0}", time(frames))));
        println!("| {name} |{times} | {:.0} at {worst} frames | {EXCESS:.0}, {met} |", excess(worst));
    }
}

fn columns<const N: usize>(cells: [String; N]) -> String {
    format!(" {}", cells.join(" | "))
}

fn lower_quartile(mut times: Vec<f64>) -> f64 {
    times.sort_by(f64::total_cmp);
    times[times.len() / 4]
}

/// Sources and targets of a batch.
struct Buffers {
    sources: Vec<[u8; FRAME * LONGEST]>,
    targets: Vec<[u8; TARGET]>,
    random: Random,
    clock: f64,
}

impl Buffers {
    fn new() -> Self {
        Self { sources: vec![[0; FRAME * LONGEST]; BATCH], targets: vec![[0; TARGET]; BATCH], random: Random::new(SEED), clock: clock() }
    }

    /// Nanoseconds a call. The frames are new, and drawn before the clock starts: a processor learns the signs of old ones, and where code branches on them it then looks fast.
    fn time(&mut self, form: Form, frames: usize, left: u8, right: u8) -> f64 {
        let bytes = FRAME * frames;
        for source in &mut self.sources {
            self.random.fill(&mut source[..bytes]);
        }
        let start = cpu_time();
        for (source, target) in self.sources.iter_mut().zip(&mut self.targets) {
            form(black_box(&mut source[..bytes]), black_box(&mut target[..bytes]), left, right);
        }
        ((cpu_time() - start) as f64 - self.clock) / BATCH as f64
    }
}
