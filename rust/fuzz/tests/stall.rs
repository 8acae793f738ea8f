//! How soon a stall is over (request T-10): the exact cases of the bound, machines made at random, and the judge of these itself.
use fuzz::any::{Call, Lent};
use fuzz::catchup::{Callback, ENOUGH, FRAME, LEAST_PULL, Outcome, PLAYBACK, QUEUE_FRAMES, Tally, Watch, call_back, deferred};
use fuzz::stalled;
use port::layout::{QUEUE, device, get, host, put, stream};
use port::{Machine, number};
use random::Random;
use std::ops::RangeInclusive;

/// Whole frames that are deferred at most.
const MOST: u64 = 8192;
const MEMORY: usize = 4096;

/// A machine whose playback stream runs at 48,000 over one buffer; its queue is empty, and nothing is deferred.
fn running(index: usize) -> Lent {
    let mut lent = Lent::of(&Machine::new(false), MEMORY, 0);
    put::<8>(&mut lent.memory, 0, 0x800);
    put::<4>(&mut lent.memory, 8, 2048);
    lent.buffer = vec![6];
    Call::ConfigWrite(1, 0).make(&mut lent);
    let base = 0x80 + 32 * index as u64;
    for (offset, width, value) in [(8, 4, 1), (base + 8, 4, 2048), (base + 0x12, 2, 0x0011), (base, 1, 2)] {
        assert_eq!(lent.write(offset, width, value).number(), number::DONE);
    }
    assert_eq!(lent.host[host::open(index)], 1);
    lent
}

/// The same with as many frames deferred as can be.
fn late(index: usize) -> Lent {
    let mut lent = running(index);
    put::<8>(&mut lent.device, device::stream(index) + stream::TIME, MOST * FRAME);
    lent
}

/// The same with a full queue: here the bound is exact.
fn stall(index: usize) -> Lent {
    let mut lent = late(index);
    put::<8>(&mut lent.device, device::stream(index) + stream::SUBMITTED, QUEUE as u64);
    put::<4>(&mut lent.host, host::length(index), QUEUE as u64);
    lent
}

/// Frames that are deferred after each of so many pulls, which have an `advance` by 0 ns behind them. What they leave is judged.
fn deferred_after_each(lent: &Lent, index: usize, callbacks: u64, frames: u64) -> Vec<u64> {
    let mut lent = lent.clone();
    let mut watches = Watch::each(&lent.device);
    let mut step = |_| {
        call_back(&mut lent, 4 * frames as usize, &mut watches).unwrap();
        deferred(&lent.device, index)
    };
    (0..callbacks).map(&mut step).collect()
}

/// The same after the callbacks that are named, of which the last is the last one.
fn deferred_after<const N: usize>(lent: &Lent, index: usize, callbacks: [usize; N], frames: u64) -> [u64; N] {
    let each = deferred_after_each(lent, index, callbacks[N - 1] as u64, frames);
    callbacks.map(|callbacks| each[callbacks - 1])
}

#[test]
fn pulls_of_a_period_need_32_calls_and_not_31() {
    for index in PLAYBACK {
        let lent = stall(index);
        assert_eq!(deferred_after(&lent, index, [1, 31, 32, 33], LEAST_PULL), [7936, 256, 0, 0]);
    }
}

#[test]
fn pulls_of_a_frame_less_need_33() {
    for index in PLAYBACK {
        let lent = stall(index);
        assert_eq!(deferred_after(&lent, index, [1, 32, 33], LEAST_PULL - 1), [7937, 32, 0]);
    }
}

#[test]
fn pulls_of_n_frames_need_8192_by_n_calls_up_to_a_whole_queue() {
    for index in PLAYBACK {
        let lent = stall(index);
        for frames in LEAST_PULL..=600 {
            let late = deferred_after_each(&lent, index, ENOUGH, frames).iter().filter(|deferred| **deferred > 0).count();
            assert_eq!(late as u64 + 1, MOST.div_ceil(frames.min(QUEUE_FRAMES)), "{frames} frames");
        }
    }
}

/// The first call finds the room of a whole queue, since a stream opens with an empty one.
#[test]
fn an_empty_queue_and_a_closed_stream_need_fewer() {
    for index in PLAYBACK {
        let empty = late(index);
        let mut closed = late(index);
        closed.host[host::open(index)] = 0;
        for lent in [empty, closed] {
            assert_eq!(deferred_after(&lent, index, [1, 30, 31], LEAST_PULL), [7680, 256, 0]);
        }
    }
}

/// No running stream of a new device has frames deferred and nothing queued, but a state may say so.
#[test]
fn a_restored_stream_catches_up() {
    for index in PLAYBACK {
        let mut lent = running(index);
        let mut state = lent.saved();
        put::<8>(&mut state, device::stream(index) + stream::TIME, MOST * FRAME);
        lent.buffer = state;
        assert_eq!(Call::Restore.make(&mut lent).number(), number::DONE);
        assert_eq!(deferred(&lent.device, index), MOST);
        assert_eq!(deferred_after(&lent, index, [1, 30, 31], LEAST_PULL), [7680, 256, 0]);
    }
}

#[test]
fn no_frame_is_dropped() {
    for index in PLAYBACK {
        let mut lent = stall(index);
        let submitted = |lent: &Lent| get::<8>(&lent.device, device::stream(index) + stream::SUBMITTED);
        let before = submitted(&lent);
        for _ in 0..ENOUGH {
            call_back(&mut lent, 4 * LEAST_PULL as usize, &mut []).unwrap();
        }
        assert_eq!(submitted(&lent), before + 4 * MOST);
    }
}

/// A machine for each seed, and up to 40 callbacks of its host.
fn tally(seeds: RangeInclusive<u64>) -> Tally {
    let mut tally = Tally::default();
    for seed in seeds {
        let mut random = Random::new(seed);
        let most_callbacks = random.between(1, 40);
        if let Err(error) = stalled::play(&mut random, most_callbacks, &mut tally) {
            panic!("machine {seed}: {error}");
        }
    }
    tally
}

#[test]
fn machines_made_at_random() {
    let tally = tally(1..=3000);
    for outcome in Outcome::EACH {
        assert!(tally.outcomes(outcome) >= 100, "{outcome:?} came {} times", tally.outcomes(outcome));
    }
    assert_eq!(tally.most_needed(), ENOUGH);
}

#[test]
#[ignore = "takes minutes"]
fn a_million_machines_made_at_random() {
    let tally = tally(71_000_001..=72_000_000);
    for (count, name) in tally.lines() {
        println!("{count:>9}  {name}");
    }
    println!("{} calls", tally.calls());
}

/// A callback of 256 frames to a stalled machine, with what it found and left.
struct Seen {
    index: usize,
    watch: Watch,
    found: Vec<u8>,
    left: Vec<u8>,
}

impl Seen {
    fn new(index: usize) -> Self {
        let lent = stall(index);
        let mut after = lent.clone();
        call_back(&mut after, 4 * LEAST_PULL as usize, &mut []).unwrap();
        Self { index, watch: Watch::new(&lent.device, index), found: lent.device, left: after.device }
    }

    /// What the judge says, and of the stall, with so many frames asked for and these numbers returned.
    fn judged(&self, asked: u64, numbers: [u8; 2]) -> (bool, Outcome) {
        let mut watch = self.watch.clone();
        let is_right = watch.judge(&Callback { asked, numbers, found: &self.found, left: &self.left }).is_ok();
        (is_right, watch.outcome())
    }

    fn is_right(&self) -> bool {
        self.judged(LEAST_PULL, [number::DONE; 2]).0
    }

    fn numbers(&mut self) -> &mut [u8] {
        &mut self.left[device::stream(self.index)..][..device::STREAM]
    }
}

#[test]
fn the_judge_sees_one_frame_too_many_and_one_too_few() {
    for index in PLAYBACK {
        assert!(Seen::new(index).is_right());
        for (deferred, submitted) in [(7937, 3072), (7937, 3068), (7935, 3072), (7936, 3068), (7936, 3076)] {
            let mut seen = Seen::new(index);
            put::<8>(seen.numbers(), stream::TIME, deferred * FRAME);
            put::<8>(seen.numbers(), stream::SUBMITTED, submitted);
            assert!(!seen.is_right(), "{deferred} deferred, {submitted} submitted");
        }
    }
}

/// No call takes a record with more than 8,192 frames deferred. The judge does, and then the bound by itself would allow some for longer.
#[test]
fn the_judge_sees_a_frame_left_after_32_callbacks() {
    for index in PLAYBACK {
        let mut record = stall(index).device;
        let mut moved = |frames: u64| {
            let numbers = &mut record[device::stream(index)..];
            put::<8>(numbers, stream::TIME, (MOST + 1 - frames) * FRAME);
            put::<8>(numbers, stream::SUBMITTED, 4 * frames);
            record.clone()
        };
        let mut watch = Watch::new(&moved(0), index);
        for callbacks in 1..=ENOUGH {
            let (found, left) = (moved(LEAST_PULL * (callbacks - 1)), moved(LEAST_PULL * callbacks));
            let judged = watch.judge(&Callback { asked: LEAST_PULL, numbers: [number::DONE; 2], found: &found, left: &left });
            assert_eq!(judged.is_ok(), callbacks < ENOUGH, "{callbacks}");
        }
    }
}

#[test]
fn the_judge_sees_a_frame_left_in_a_stopped_stream() {
    for index in PLAYBACK {
        let mut seen = Seen::new(index);
        seen.left[device::REGISTERS + 0x80 + 32 * index] = 0;
        assert!(!seen.is_right());
        put::<8>(seen.numbers(), stream::TIME, FRAME - 1);
        assert_eq!(seen.judged(LEAST_PULL, [number::DONE; 2]), (true, Outcome::Failed));
        put::<8>(seen.numbers(), stream::TIME, FRAME);
        assert!(!seen.is_right());
        assert!(!seen.judged(LEAST_PULL, [number::DONE, number::HOST_CLOSED]).0);
    }
}

/// Nothing is claimed where a condition does not hold, whatever the call left.
#[test]
fn the_judge_knows_each_condition() {
    for index in PLAYBACK {
        let unclaimed = (true, Outcome::Unclaimed);
        let mut wrong = Seen::new(index);
        wrong.left.clone_from(&wrong.found);
        assert!(!wrong.is_right());
        assert_eq!(wrong.judged(LEAST_PULL - 1, [number::DONE; 2]), unclaimed);
        for numbers in [[number::STATE, number::STATE], [number::DONE, number::HOST_CLOSED], [number::ODD_FRAMES, number::DONE]] {
            assert_eq!(wrong.judged(LEAST_PULL, numbers), (true, Outcome::Refused));
        }
        let control = device::REGISTERS + 0x80 + 32 * index;
        let sync = (device::REGISTERS + 0x38, 1 << index);
        let broken = [(device::PAUSED, 1), (device::CONFIG + 4, 2), (device::REGISTERS + 8, 0), (control, 0), (control, 3), sync];
        for (place, byte) in broken {
            let mut seen = Seen::new(index);
            seen.found[place] = byte;
            seen.left.clone_from(&seen.found);
            assert_eq!(seen.judged(LEAST_PULL, [number::DONE; 2]), unclaimed, "byte {byte} at {place}");
        }
        // Another stream's sync bit is none.
        wrong.found[device::REGISTERS + 0x38] = !(1 << index);
        wrong.left.clone_from(&wrong.found);
        assert!(!wrong.is_right());
    }
}
