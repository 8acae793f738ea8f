//! Times of the two calls on takes against a plain copy of their frames, in one run, as a table for docs/PERFORMANCE.md.
use bench::{by_turns, cpu_time, noise};
use port::calls::{wav_read, wav_write};
use port::wav::{self, HEADER};
use port::{WavReply, number};
use std::hint::black_box;
use std::ops::Range;

const RATE: u32 = 48_000;
/// Bytes of frames in a second.
const SECOND: usize = 4 * RATE as usize;
/// Bytes of frames that a side moves between two looks at the clock: the longest take once, shorter ones as often as it takes.
const MOVED: usize = 600 * SECOND;
const ROUNDS: usize = 25;
/// How many times as fast as the copy a call is to be.
const AIM: f64 = 0.80;

fn main() {
    println!("| Call | Plain copy, ns | Port, ns | Copy / port | At least |");
    println!("|---|---|---|---|---|");
    for (name, seconds) in [("1 s (192,000 bytes)", 1), ("1 minute (11,520,000 bytes)", 60), ("10 minutes (115,200,000 bytes)", 600)] {
        // A prime number of bytes again and again, so that frames at a wrong place show.
        let frames: Vec<u8> = noise::<65_521>().into_iter().cycle().take(seconds * SECOND).collect();
        let file = wav::file(RATE, &frames).expect("frames of a take");
        row(&format!("take written, {name}"), HEADER, &frames, 0..frames.len(), |frames, into| wav_write(RATE, frames, into));
        row(&format!("take read, {name}"), 0, &file, HEADER..file.len(), wav_read);
    }
}

/// A line of the table: a call on `given` that fills a space with `start` bytes and the frames in it, against a plain copy of the frames to the same place.
fn row(name: &str, start: usize, given: &[u8], frames: Range<usize>, call: impl Fn(&[u8], &mut [u8]) -> WavReply) {
    let runs = MOVED / frames.len();
    // By rounds the copy or the call is first, and each round has memory of its own, in which both move the same bytes between the same places: order and place count, and favour neither. Memory that
    // is given back would be handed out again, so it is kept; that of the longest take goes back to the system itself, and would be too much.
    let (mut order, mut kept) = ([0, 1], Vec::new());
    let times = by_turns(ROUNDS, || {
        let (given, mut space) = (given.to_vec(), vec![0; start + frames.len()]);
        let times = round(name, start, &given, frames.clone(), &mut space, &call, runs, order);
        order.reverse();
        if runs > 1 {
            kept.push((given, space));
        }
        times
    });
    println!("{}", times.row(name, Some(AIM)));
}

/// The times of copy and call in the order that is named, by 0 and 1, after they were compared.
#[allow(clippy::too_many_arguments)]
fn round(
    name: &str,
    start: usize,
    given: &[u8],
    frames: Range<usize>,
    space: &mut [u8],
    call: impl Fn(&[u8], &mut [u8]) -> WavReply,
    runs: usize,
    order: [usize; 2],
) -> (f64, f64) {
    let copy = |into: &mut [u8]| into[start..].copy_from_slice(black_box(&given[frames.clone()]));
    let call = |into: &mut [u8]| call(black_box(given), into);
    compare(name, start, space, copy, call);
    let mut times = [0.0; 2];
    for side in order {
        times[side] = time(runs, || if side == 0 { copy(black_box(space)) } else { _ = black_box(call(black_box(space))) });
    }
    times.into()
}

/// Both leave the same from `start` on; times of two that differ would say nothing. It touches the whole space, so that no page of it is made while the clock runs.
fn compare(name: &str, start: usize, space: &mut [u8], copy: impl Fn(&mut [u8]), call: impl Fn(&mut [u8]) -> WavReply) {
    space.fill(0xff);
    copy(space);
    let copied = space[start..].to_vec();
    space.fill(0xff);
    let reply = call(space);
    assert_eq!((reply.number(), reply.bytes(), reply.rate()), (number::DONE, space.len() as u64, RATE), "{name}: reply");
    assert!(space[start..] == copied, "{name}: the call and the copy differ");
}

/// Nanoseconds a run.
fn time(runs: usize, mut run: impl FnMut()) -> f64 {
    let start = cpu_time();
    for _ in 0..runs {
        run();
    }
    (cpu_time() - start) as f64 / runs as f64
}
