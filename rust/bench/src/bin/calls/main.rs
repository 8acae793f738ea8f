//! Times of the device's C functions against the unchanged Rust's methods, in one run, as tables for docs/PERFORMANCE.md. With the argument `ticks` only the last of them.
mod edited;
mod operations;
mod sides;
mod unchanged;

use bench::{by_turns, clock, cpu_time};
use operations::{
    Command, ConfigRead, ConfigWrite, Frames, Idle, Operation, Period, Pieces, Rate, Read, Restore, RestoreEmptied, Save, Tick, Write,
};
use random::Random;
use sides::{Port, Side};
use std::env;
use std::hint::black_box;

/// Devices of a side that are run one after another between two looks at the clock.
const BATCH: usize = 16;
const TURNS: usize = 30;
/// Rust and port draw the same frames.
const SEED: u64 = 3;

fn main() {
    let clock = clock();
    if env::args().nth(1).as_deref() != Some("ticks") {
        calls(clock);
        println!();
        growth(clock);
        println!();
    }
    ticks(clock);
}

/// Each call, and periods of 256 frames.
fn calls(clock: f64) {
    println!("| Call | Rust, ns | Port, ns | Rust / port | At least |");
    println!("|---|---|---|---|---|");
    for capture in [false, true] {
        let direction = if capture { "capture" } else { "playback" };
        for (name, gain, aim) in
            [("gained (-6 dB)", Some(0x44), 8.0), ("unity", Some(0x4a), 5.0), ("muted", Some(0xca), 1.0), ("unconnected", None, 1.0)]
        {
            row(clock, &format!("a period, {direction}, {name}"), Some(aim), Period { capture, gain });
        }
    }
    row(clock, "a period of 256 flagged pieces, 3,841 pending", Some(1.0), Pieces);
    row(clock, "register read, 4 bytes", Some(1.0 / 3.0), Read { pending: 0 });
    row(clock, "register write, 4 bytes", Some(1.0 / 8.0), Write);
    row(clock, "configuration read", Some(1.0 / 8.0), ConfigRead);
    row(clock, "configuration write, 1 byte", Some(1.0 / 8.0), ConfigWrite);
    row(clock, "CORBWP written, one verb run", Some(1.0 / 8.0), Command);
    row(clock, "advance without a turn", None, Idle);
    row(clock, "save, none pending", Some(1.0 / 1.5), Save { pending: 0 });
    row(clock, "save, 1,000 pending", Some(1.0 / 1.5), Save { pending: 1000 });
    row(clock, "restore, none pending", Some(1.0 / 3.0), Restore { pending: 0 });
    row(clock, "restore, 1,000 pending", Some(1.0 / 3.0), Restore { pending: 1000 });
    // The Rust has one restore, which takes crowded lists.
    row(clock, "restore emptied, 1,000 pending", Some(1.0 / 3.0), RestoreEmptied { pending: 1000, crowded: false });
    row(clock, "restore emptied, 1,000 crowded", Some(1.0 / 3.0), RestoreEmptied { pending: 1000, crowded: true });
}

/// How the cost grows with frames, pieces and pending positions.
fn growth(clock: f64) {
    println!("| Call | Rust, ns | Port, ns | Rust / port | At least |");
    println!("|---|---|---|---|---|");
    for frames in [16, 64, 256, 512] {
        row(clock, &format!("{frames} frames, playback, unity"), None, Frames { frames, pieces: 1 });
    }
    for pieces in [1, 4, 16, 64] {
        row(clock, &format!("256 frames in {pieces} flagged pieces"), None, Frames { frames: 256, pieces });
    }
    for pending in [256, 1024, 3840] {
        row(clock, &format!("register read, {pending} pending"), None, Read { pending });
        row(clock, &format!("save, {pending} pending"), None, Save { pending });
        row(clock, &format!("restore, {pending} pending"), None, Restore { pending });
    }
}

/// What a host does each millisecond.
fn ticks(clock: f64) {
    println!(
        "Playback: an advance and a pull. Capture: a feed and an advance. At 88,200, which the unchanged Rust refuses, the Rust is rust/amended."
    );
    println!();
    println!("| A tick of 1 ms | Rust, ns | Port, ns | Rust / port | At least |");
    println!("|---|---|---|---|---|");
    for capture in [false, true] {
        let direction = if capture { "capture" } else { "playback" };
        for (name, rate) in [
            ("44,100", Rate { frames: 44_100, format: 0x4011 }),
            ("48,000", Rate { frames: 48_000, format: 0x0011 }),
            ("88,200", Rate { frames: 88_200, format: 0x4811 }),
            ("96,000", Rate { frames: 96_000, format: 0x0811 }),
        ] {
            let row = if rate.frames == 88_200 { row_against::<edited::Rust, Tick> } else { row };
            for (gained, gain, aim) in [
                ("gained (-6 dB)", Some(0x44), Some(9.0)),
                ("unity", Some(0x4a), None),
                ("muted", Some(0xca), None),
                ("unconnected", None, None),
            ] {
                row(clock, &format!("{direction} at {name}, {gained}"), aim, Tick { capture, rate, gain });
            }
        }
    }
}

/// A line of the table. The aim is how many times as fast as the Rust the port is to be.
fn row<O: Operation>(clock: f64, name: &str, aim: Option<f64>, operation: O) {
    row_against::<unchanged::Rust, O>(clock, name, aim, operation);
}

fn row_against<R: Side, O: Operation>(clock: f64, name: &str, aim: Option<f64>, operation: O) {
    compare::<R, O>(name, &operation);
    let mut rust = Batch::<R>::new(&operation);
    let mut port = Batch::<Port>::new(&operation);
    let times = by_turns(O::ROUNDS, || (rust.time(clock, &operation), port.time(clock, &operation)));
    println!("{}", times.row(name, aim));
}

/// Both give the same and leave the same, or what the operation says; times of two that differ would say nothing.
fn compare<R: Side, O: Operation>(name: &str, operation: &O) {
    let (mut rust, mut port) = (R::new(), Port::new());
    let [mut for_rust, mut for_port] = [SEED; 2].map(Random::new);
    operation.set_up(&mut rust);
    operation.set_up(&mut port);
    for turn in 0..O::COMPARED {
        operation.prepare(&mut rust, turn, &mut for_rust);
        operation.prepare(&mut port, turn, &mut for_port);
        if let Some(pending) = operation.pending() {
            assert_eq!(rust.saved().len(), 748 + 8 * pending, "{name}: pending at turn {turn}");
        }
        assert_eq!(operation.run(&mut rust, turn), operation.run(&mut port, turn), "{name}: results at turn {turn}");
        assert!(operation.expected(rust.saved()) == port.saved(), "{name}: states at turn {turn}");
        assert!(rust.memory() == port.memory(), "{name}: guest memory at turn {turn}");
        assert!(rust.queues() == port.queues(), "{name}: queues at turn {turn}");
        assert!(rust.buffer() == port.buffer(), "{name}: the hosts' buffers at turn {turn}");
    }
}

/// Devices of one side, all in the same state; where frames are drawn, each has its own.
struct Batch<S> {
    sides: Vec<S>,
    turn: usize,
    random: Random,
}

impl<S: Side> Batch<S> {
    fn new(operation: &impl Operation) -> Self {
        let side = || {
            let mut side = S::new();
            operation.set_up(&mut side);
            side
        };
        Self { sides: (0..BATCH).map(|_| side()).collect(), turn: 0, random: Random::new(SEED) }
    }

    /// Nanoseconds a call.
    fn time<O: Operation>(&mut self, clock: f64, operation: &O) -> f64 {
        let mut spent = 0.0;
        for _ in 0..TURNS {
            for side in &mut self.sides {
                operation.prepare(side, self.turn, &mut self.random);
            }
            let start = cpu_time();
            for side in &mut self.sides {
                for time in 0..O::TIMES {
                    black_box(operation.run(side, self.turn + time));
                }
            }
            spent += (cpu_time() - start) as f64 - clock;
            self.turn += O::TIMES;
        }
        spent / (TURNS * BATCH * O::TIMES) as f64
    }
}
