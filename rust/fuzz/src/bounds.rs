//! Between which counts streams end under a timer with jitter, for tests: what the call of request T-13 returns and leaves. It is written from the request's text and the places of docs/LAYOUT.md. The counts are found by
//! `advance` itself, on a copy of all bytes for each time that can make a difference; how the device finds them is no matter here.
use crate::any::{Call, Handed, Lent};
use port::layout::{BOUND, BOUNDS, LISTS, QUEUES, STREAMS, device, get, host, put, stream};
use port::{Bounds, Reply, calls, format, number};

/// A frame in a stream's time, and the most whole frames that are due to it.
const FRAME: u128 = 1_000_000_000;
const MOST_DUE: u128 = 8192;

/// What the call is lent besides the machine: scratch, and the space that it fills.
#[derive(Clone, PartialEq, Eq)]
pub struct Space {
    pub lists: Vec<u8>,
    pub queues: Vec<u8>,
    pub memory: Vec<u8>,
    pub into: Vec<u8>,
}

impl Space {
    /// As little as serves a guest of so many bytes, full of bytes that would show.
    pub fn enough(memory: usize) -> Self {
        Self { lists: vec![0xa5; LISTS], queues: vec![0x5a; QUEUES], memory: vec![0xc3; memory], into: vec![0xee; BOUNDS] }
    }

    pub fn ask(&mut self, lent: &Lent, shortest: u64, longest: u64) -> Reply {
        let Lent { device, host, lists, queues, memory, .. } = lent;
        calls::advance_bounds(
            device,
            host,
            lists,
            queues,
            memory,
            shortest,
            longest,
            &mut self.lists,
            &mut self.queues,
            &mut self.memory,
            &mut self.into,
        )
    }

    /// Whether the scratch is what a call with that reply leaves of another: all zero, or as it was where it refused.
    pub fn has_scratch_of(&self, before: &Self, reply: Reply) -> bool {
        let parts = [(&self.lists, &before.lists), (&self.queues, &before.queues), (&self.memory, &before.memory)];
        parts.into_iter().all(|(left, before)| {
            left.len() == before.len() && if reply.number() == number::DONE { left.iter().all(|byte| *byte == 0) } else { left == before }
        })
    }

    /// The number that the call gives, where it refuses: first what every call refuses that is handed a device, then its own.
    fn refusal(&self, lent: &Lent, shortest: u64, longest: u64) -> Option<u8> {
        let is_short =
            self.lists.len() < LISTS || self.queues.len() < QUEUES || self.memory.len() < lent.memory.len() || self.into.len() < BOUNDS;
        let own = if shortest > longest {
            Some(number::REVERSED)
        } else if is_short {
            Some(number::SHORT_SPACE)
        } else {
            None
        };
        lent.refusal(Handed::Machine).or(own)
    }

    /// What the call returns and leaves; and, where it answers, what was seen on the way.
    pub fn expected(&self, lent: &Lent, shortest: u64, longest: u64) -> (Reply, Self, Option<Exhausted>) {
        // Nothing changes, so that the level is what a call that only reads finds.
        let level = u64::from(Call::ConfigRead(0).make(&mut lent.clone()).level()) << 8;
        let mut after = self.clone();
        if let Some(number) = self.refusal(lent, shortest, longest) {
            return (Reply(level | u64::from(number)), after, None);
        }
        let exhausted = Exhausted::of(lent, shortest, longest);
        for part in [&mut after.lists, &mut after.queues, &mut after.memory] {
            part.fill(0);
        }
        for (index, bounds) in exhausted.bounds.iter().enumerate() {
            put::<8>(&mut after.into, BOUND * index, bounds.lowest);
            put::<8>(&mut after.into, BOUND * index + 8, bounds.highest);
        }
        (Reply((BOUNDS as u64) << 32 | level), after, Some(exhausted))
    }

    /// Makes the call, and judges all that it returns and leaves.
    pub fn judge(&self, lent: &Lent, shortest: u64, longest: u64) -> Result<(Reply, Option<Exhausted>), String> {
        let (expected, after, exhausted) = self.expected(lent, shortest, longest);
        let mut space = self.clone();
        assert!([&space.lists, &space.queues, &space.memory, &space.into].iter().all(|part| part.capacity() == part.len()));
        let came = space.ask(lent, shortest, longest);
        let what = if came != expected {
            format!("not {:#x}", expected.0)
        } else if space.into != after.into {
            let bounds = exhausted.as_ref().map(|exhausted| exhausted.bounds);
            format!("the result is {:02x?}, not that of {bounds:?}", space.into)
        } else if space != after {
            "the scratch is not as the request says".into()
        } else {
            return Ok((came, exhausted));
        };
        Err(format!("bounds of {shortest} to {longest} ns returned {:#x}: {what}", came.0))
    }
}

/// Bytes submitted, by stream.
type Counts = [u64; STREAMS];

/// What `advance` has shown for all times of a range.
pub struct Exhausted {
    pub bounds: [Bounds; STREAMS],
    /// What the shortest and the longest time alone would say.
    pub ends: [Bounds; STREAMS],
    pub cases: u64,
}

impl Exhausted {
    /// Of a valid machine, and a range with a time in it.
    pub fn of(lent: &Lent, shortest: u64, longest: u64) -> Self {
        let mut copy = lent.clone();
        let mut seen = Vec::new();
        for (first, last) in cases(&lent.device, shortest, longest) {
            let counts = counts_after(lent, &mut copy, first);
            assert_eq!(counts, counts_after(lent, &mut copy, last), "as many frames are due after {first} and after {last} ns");
            seen.push(counts);
        }
        let ends = [seen[0], seen[seen.len() - 1]];
        Self { bounds: bounds(&seen), ends: bounds(&ends), cases: seen.len() as u64 }
    }
}

/// The counts after a time, on a copy of all bytes with both switches off.
fn counts_after(lent: &Lent, copy: &mut Lent, nanos: u64) -> Counts {
    copy.device.clone_from(&lent.device);
    copy.host.clone_from(&lent.host);
    copy.lists.clone_from(&lent.lists);
    copy.queues.clone_from(&lent.queues);
    copy.memory.clone_from(&lent.memory);
    copy.host[host::PLAYBACK_FAILS] = 0;
    copy.host[host::CAPTURE_FAILS] = 0;
    let reply = Call::Advance(nanos).make(copy);
    assert_eq!(reply.number(), number::DONE, "no opening fails");
    std::array::from_fn(|index| get::<8>(&copy.device, device::stream(index) + stream::SUBMITTED))
}

/// Least and greatest of each stream.
fn bounds(counts: &[Counts]) -> [Bounds; STREAMS] {
    std::array::from_fn(|index| {
        let of_stream = || counts.iter().map(|counts| counts[index]);
        Bounds { lowest: of_stream().min().unwrap(), highest: of_stream().max().unwrap() }
    })
}

/// The times from `shortest` to `longest`, cut where one more frame becomes due to a stream: the first and the last of each part.
pub fn cases(record: &[u8], shortest: u64, longest: u64) -> Vec<(u64, u64)> {
    let mut cases = Vec::new();
    let mut first = shortest;
    loop {
        let next = (0..STREAMS).filter_map(|index| next_due(record, index, first)).min().filter(|next| *next <= longest);
        cases.push((first, next.map_or(longest, |next| next - 1)));
        let Some(next) = next else { return cases };
        first = next;
    }
}

/// The first time after which more whole frames are due to a stream than after `nanos`, where there is one.
fn next_due(record: &[u8], index: usize, nanos: u64) -> Option<u64> {
    let rate = u128::from(format::rate(get::<2>(record, device::format(index)) as u16)?);
    let time = u128::from(get::<8>(record, device::stream(index) + stream::TIME));
    let due = (u128::from(nanos) * rate + time) / FRAME;
    if due >= MOST_DUE { None } else { u64::try_from(((due + 1) * FRAME - time).div_ceil(rate)).ok() }
}

/// What became of many questions.
#[derive(Default)]
pub struct Tally {
    pub answered: u64,
    pub cases: u64,
    /// Streams whose count differs from case to case, and those of which the shortest and the longest time alone would say something else.
    pub moving: Counts,
    pub wrong_ends: Counts,
}

impl Tally {
    pub fn count(&mut self, exhausted: &Exhausted) {
        self.answered += 1;
        self.cases += exhausted.cases;
        for index in 0..STREAMS {
            let Bounds { lowest, highest } = exhausted.bounds[index];
            self.moving[index] += u64::from(lowest != highest);
            self.wrong_ends[index] += u64::from(exhausted.bounds[index] != exhausted.ends[index]);
        }
    }

    pub fn lines(&self) -> [(u64, String); 4] {
        [
            (self.answered, "questions of a timer with jitter were answered".into()),
            (self.cases, "cases were tried for that, each at its first and its last nanosecond".into()),
            (self.moving.iter().sum(), format!("counts depend on the time; by stream {:?}", self.moving)),
            (
                self.wrong_ends.iter().sum(),
                format!("of these the two ends alone would say something else; by stream {:?}", self.wrong_ends),
            ),
        ]
    }
}
