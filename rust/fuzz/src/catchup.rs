//! How soon a stall is over, for tests: what request T-10 says of a playback stream's deferred whole frames, from the moment on at which its host pulls again and no time passes. It is
//! written from the request's text and the places of docs/LAYOUT.md, and shares no code with the device.
use crate::any::{Call, Lent};
use port::layout::{QUEUE, STREAMS, device, get, stream};
use port::number;
use std::collections::BTreeMap;
use std::ops::Range;

/// The streams that play. They stand behind those that capture, which are as many.
pub const PLAYBACK: Range<usize> = STREAMS / 2..STREAMS;
/// Frames that a pull asks for at least, where the request speaks of it.
pub const LEAST_PULL: u64 = 256;
/// Frames that a queue holds.
pub const QUEUE_FRAMES: u64 = QUEUE as u64 / 4;
/// Callbacks after which nothing is deferred, whatever the state was.
pub const ENOUGH: u64 = 32;
/// A frame in a stream's time.
pub const FRAME: u64 = 1_000_000_000;

/// Whole frames that are due and were not moved.
pub fn deferred(record: &[u8], index: usize) -> u64 {
    get::<8>(record, device::stream(index) + stream::TIME) / FRAME
}

/// Bytes submitted, and those that the deferred frames will be: while the stream runs, frames only become the one from the other.
fn owed(record: &[u8], index: usize) -> u128 {
    u128::from(get::<8>(record, device::stream(index) + stream::SUBMITTED)) + 4 * u128::from(deferred(record, index))
}

/// A stream's control byte.
fn control(record: &[u8], index: usize) -> u8 {
    record[device::REGISTERS + 0x80 + 32 * index]
}

fn is_run_set(record: &[u8], index: usize) -> bool {
    control(record, index) & 2 != 0
}

/// What the request asks of the record that `advance` finds: out of reset, not paused, DMA on; the stream runs, is not in its own reset, and its sync bit is clear.
fn is_served(record: &[u8], index: usize) -> bool {
    let sync = get::<4>(record, device::REGISTERS + 0x38);
    record[device::REGISTERS + 8] & 1 != 0
        && record[device::PAUSED] == 0
        && record[device::CONFIG + 4] & 4 != 0
        && control(record, index) & 3 == 2
        && sync >> index & 1 == 0
}

/// A callback of the host: a pull, and an `advance` by 0 ns behind it, as the caller of both sees them.
pub struct Callback<'a> {
    /// Frames that the pull asked for.
    pub asked: u64,
    /// What the two calls returned.
    pub numbers: [u8; 2],
    /// The device record that `advance` found, and the one that it left.
    pub found: &'a [u8],
    pub left: &'a [u8],
}

/// What became of a stall.
#[derive(Clone, Copy, Debug, PartialEq, Eq, PartialOrd, Ord)]
pub enum Outcome {
    /// Frames are still deferred, no more than the request allows.
    Late,
    /// None is.
    CaughtUp,
    /// The stream has stopped, and none is.
    Failed,
    /// A call was refused, after which the request says nothing.
    Refused,
    /// Another of its conditions did not hold, after which it says nothing.
    Unclaimed,
}

impl Outcome {
    pub const EACH: [Self; 5] = [Self::Late, Self::CaughtUp, Self::Failed, Self::Refused, Self::Unclaimed];
}

/// A playback stream that is watched from a moment on, for as long as the request speaks of it.
#[derive(Clone, Debug)]
pub struct Watch {
    index: usize,
    /// Deferred frames at that moment, and [`owed`].
    deferred: u64,
    owed: u128,
    /// Callbacks so far, and frames by which they bring the deferred ones down at least.
    callbacks: u64,
    least: u64,
    /// Callbacks until nothing was deferred.
    needed: u64,
    outcome: Outcome,
    is_claimed: bool,
}

impl Watch {
    pub fn new(record: &[u8], index: usize) -> Self {
        let (deferred, owed) = (deferred(record, index), owed(record, index));
        Self { index, deferred, owed, callbacks: 0, least: 0, needed: 0, outcome: Outcome::Late, is_claimed: true }
    }

    /// Every playback stream.
    pub fn each(record: &[u8]) -> Vec<Self> {
        PLAYBACK.map(|index| Self::new(record, index)).collect()
    }

    pub fn outcome(&self) -> Outcome {
        self.outcome
    }

    /// Judges what a callback left.
    pub fn judge(&mut self, callback: &Callback) -> Result<(), String> {
        if !self.is_claimed {
            return Ok(());
        }
        let stopped = is_run_set(callback.found, self.index) && !is_run_set(callback.left, self.index);
        if stopped && deferred(callback.left, self.index) != 0 {
            return Err(format!("stream {} stopped, and has frames deferred", self.index));
        }
        if callback.numbers != [number::DONE; 2] {
            self.end(Outcome::Refused);
        } else if callback.asked < LEAST_PULL || !is_served(callback.found, self.index) {
            self.end(Outcome::Unclaimed);
        } else {
            self.judge_frames(callback, stopped)?;
        }
        Ok(())
    }

    /// The same where all that the request asks held.
    fn judge_frames(&mut self, callback: &Callback, stopped: bool) -> Result<(), String> {
        self.callbacks += 1;
        self.least += callback.asked.min(QUEUE_FRAMES);
        let (left, allowed) = (deferred(callback.left, self.index), self.deferred.saturating_sub(self.least));
        let of_callback = format!("stream {} after {} callbacks", self.index, self.callbacks);
        if left > allowed {
            return Err(format!("{of_callback}: {left} frames are deferred, and {allowed} may be"));
        }
        if left != 0 && self.callbacks >= ENOUGH {
            return Err(format!("{of_callback}: {left} frames are deferred"));
        }
        if stopped {
            self.end(Outcome::Failed);
            return Ok(());
        }
        if owed(callback.left, self.index) != self.owed {
            return Err(format!("{of_callback}: submitted and deferred are {}, not {}", owed(callback.left, self.index), self.owed));
        }
        if left == 0 && self.outcome == Outcome::Late {
            (self.outcome, self.needed) = (Outcome::CaughtUp, self.callbacks);
        }
        Ok(())
    }

    /// From here on nothing is claimed. A stream that had caught up before has.
    fn end(&mut self, outcome: Outcome) {
        self.is_claimed = false;
        if self.outcome == Outcome::Late {
            self.outcome = outcome;
        }
    }
}

/// The host pulls into so many bytes, then `advance` by 0 ns. All that the request says of the watched streams is judged.
pub fn call_back(lent: &mut Lent, bytes: usize, watches: &mut [Watch]) -> Result<(), String> {
    lent.buffer = vec![0; bytes];
    let pulled = Call::Pull.make(lent).number();
    let found = lent.device.clone();
    let advanced = Call::Advance(0).make(lent).number();
    let callback = Callback { asked: bytes as u64 / 4, numbers: [pulled, advanced], found: &found, left: &lent.device };
    watches.iter_mut().try_for_each(|watch| watch.judge(&callback))
}

/// What became of many stalls.
#[derive(Default)]
pub struct Tally {
    outcomes: BTreeMap<Outcome, u64>,
    callbacks: u64,
    most_needed: u64,
}

impl Tally {
    /// Counts the stalls of a machine that was called back so many times.
    pub fn count(&mut self, watches: &[Watch], callbacks: u64) {
        self.callbacks += callbacks;
        for watch in watches {
            *self.outcomes.entry(watch.outcome).or_default() += 1;
            self.most_needed = self.most_needed.max(watch.needed);
        }
    }

    pub fn outcomes(&self, outcome: Outcome) -> u64 {
        self.outcomes.get(&outcome).copied().unwrap_or_default()
    }

    /// Calls that were made: two a callback.
    pub fn calls(&self) -> u64 {
        2 * self.callbacks
    }

    /// The most callbacks that a stream needed to catch up.
    pub fn most_needed(&self) -> u64 {
        self.most_needed
    }

    /// Each outcome with its count.
    pub fn lines(&self) -> [(u64, String); 5] {
        Outcome::EACH.map(|outcome| {
            let name = match outcome {
                Outcome::Late => "stalls were not over at the last callback".into(),
                Outcome::CaughtUp => format!("stalls were over, after {} callbacks at most", self.most_needed),
                Outcome::Failed => "stalls ended as the stream failed".into(),
                Outcome::Refused => "stalls met a call that was refused".into(),
                Outcome::Unclaimed => "stalls met another condition that did not hold".into(),
            };
            (self.outcomes(outcome), name)
        })
    }
}
