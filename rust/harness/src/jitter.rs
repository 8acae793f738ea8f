//! A timer with jitter (request T-13): between which counts streams end where a time is known between two ends only. The answer is found by running a side, on copies of all that it has, for each time that can
//! make a difference; and random machines are made whose descriptor lists, buffers, rings and position buffer lie over one another, so that a longer time may end lower and one stream changes what another finds.
use crate::device::Amended;
use crate::ops::{Op, execute};
use crate::ported::Port;
use crate::side::{Direction, Side};
use crate::state::{State, progress};
use amended::hda::Hda;
use port::Bounds;
use random::Random;
use std::fmt;

/// A frame in a stream's time, and the most whole frames that are due to it.
const FRAME: u128 = 1_000_000_000;
const MOST_DUE: u128 = 8192;

/// Bytes submitted by capture and playback.
type Counts = [u64; 2];

/// Runs copies of a side.
struct Copies<'a, S> {
    of: &'a S,
    copy: S,
}

impl<'a, S: Side> Copies<'a, S> {
    fn new(of: &'a S) -> Self {
        Self { of, copy: of.copied() }
    }

    /// The counts after a time, on a fresh copy whose host opens every stream.
    fn counts_after(&mut self, nanoseconds: u64) -> Counts {
        self.copy.copy_from(self.of);
        for direction in Direction::BOTH {
            self.copy.set_opening_fails(direction, false);
        }
        self.copy.advance(nanoseconds);
        progress(&self.copy.save().1).map(|stream| stream.submitted)
    }
}

/// How a stream's time goes on.
struct Clock {
    /// Frames a second; none where the format is one that the device does not take: no frame is ever due.
    rate: Option<u128>,
    time: u128,
}

impl Clock {
    fn each(state: &State) -> [Self; 2] {
        Direction::BOTH.map(|direction| {
            let format = 0x92 + 0x20 * direction.index();
            let word = u16::from_le_bytes([state.registers[format], state.registers[format + 1]]);
            Self { rate: Hda::probe_format(word).map(u128::from), time: u128::from(state.streams[direction.index()].time) }
        })
    }

    /// The first time after which more whole frames are due than after `nanoseconds`, where there is one.
    fn next(&self, nanoseconds: u64) -> Option<u64> {
        let rate = self.rate?;
        let due = (u128::from(nanoseconds) * rate + self.time) / FRAME;
        if due >= MOST_DUE {
            return None;
        }
        u64::try_from(((due + 1) * FRAME - self.time).div_ceil(rate)).ok()
    }
}

/// The times from `shortest` to `longest`, cut where one more frame becomes due to a stream: the first and the last of each part.
pub fn cases<S: Side>(side: &S, shortest: u64, longest: u64) -> Vec<(u64, u64)> {
    let state = State::parse(&side.view().state).expect("a side saves what it holds");
    let clocks = Clock::each(&state);
    let mut cases = Vec::new();
    let mut first = shortest;
    loop {
        let next = clocks.iter().filter_map(|clock| clock.next(first)).min().filter(|next| *next <= longest);
        cases.push((first, next.map_or(longest, |next| next - 1)));
        let Some(next) = next else { return cases };
        first = next;
    }
}

/// What running a side for all times of a range has shown.
pub struct Exhausted {
    pub bounds: [Bounds; 2],
    /// What the shortest and the longest time alone would say.
    pub ends: [Bounds; 2],
    pub cases: u64,
}

/// Runs the side for each case at its first and at its last time, which have to end alike.
pub fn exhausted<S: Side>(side: &S, shortest: u64, longest: u64) -> Exhausted {
    let (cases, mut copies) = (cases(side, shortest, longest), Copies::new(side));
    let counts = cases.iter().map(|&(first, last)| {
        let counts = copies.counts_after(first);
        if first != last {
            assert_eq!(counts, copies.counts_after(last), "as many frames are due after {first} and after {last} ns");
        }
        counts
    });
    let counts: Vec<Counts> = counts.collect();
    let ends = [counts[0], counts[counts.len() - 1]];
    Exhausted { bounds: bounds(&counts), ends: bounds(&ends), cases: cases.len() as u64 }
}

/// The same for every nanosecond: for short ranges.
fn each_nanosecond<S: Side>(side: &S, shortest: u64, longest: u64) -> [Bounds; 2] {
    let mut copies = Copies::new(side);
    let counts: Vec<Counts> = (shortest..=longest).map(|nanoseconds| copies.counts_after(nanoseconds)).collect();
    bounds(&counts)
}

/// Least and greatest of each stream.
fn bounds(counts: &[Counts]) -> [Bounds; 2] {
    Direction::BOTH.map(|direction| {
        let of_stream = || counts.iter().map(|counts| counts[direction.index()]);
        Bounds { lowest: of_stream().min().expect("a count"), highest: of_stream().max().expect("a count") }
    })
}

/// A machine, by the calls that make it, and a range of times.
#[derive(Clone, Debug)]
pub struct Question {
    pub ops: Vec<Op>,
    pub shortest: u64,
    pub longest: u64,
}

impl fmt::Display for Question {
    /// An op log.
    fn fmt(&self, f: &mut fmt::Formatter) -> fmt::Result {
        self.ops.iter().try_for_each(|op| writeln!(f, "{op}"))?;
        writeln!(f, "{}", Op::AdvanceBounds { shortest: self.shortest, longest: self.longest })
    }
}

/// What many questions came to.
#[derive(Default)]
pub struct Tally {
    pub machines: u64,
    pub cases: u64,
    /// Machines that were asked for every nanosecond of a short range, and these nanoseconds.
    pub short_ranges: u64,
    pub nanoseconds: u64,
    /// Streams whose count differs from case to case, and those of which shortest and longest time alone would say something else; capture and playback.
    pub moving: [u64; 2],
    pub wrong_ends: [u64; 2],
}

impl fmt::Display for Tally {
    fn fmt(&self, f: &mut fmt::Formatter) -> fmt::Result {
        writeln!(f, "{:>9}  captures and {} playbacks whose count depends on the time", self.moving[0], self.moving[1])?;
        writeln!(
            f,
            "{:>9}  captures and {} playbacks of which the two ends alone would say something else",
            self.wrong_ends[0], self.wrong_ends[1]
        )?;
        writeln!(f, "{:>9}  short ranges of {} nanoseconds, each of them tried", self.short_ranges, self.nanoseconds)?;
        write!(f, "{} machines, {} cases: the port says of each what the amended oracle shows", self.machines, self.cases)
    }
}

/// Asks the port and the amended oracle the question of a seed. The error shows the op log and the two answers.
pub fn judge(seed: u64, tally: &mut Tally) -> Result<(), String> {
    let question = question(seed);
    answer(&question, tally).map_err(|error| format!("seed {seed}: {error}\n{question}"))
}

fn answer(question: &Question, tally: &mut Tally) -> Result<(), String> {
    let Question { ops, shortest, longest } = question;
    let (mut oracle, mut port) = (Amended::new(true, 0x1000), Port::new(true, 0x1000));
    for op in ops {
        let answers = (execute(&mut oracle, op), execute(&mut port, op));
        if answers.0 != answers.1 {
            return Err(format!("they part at {op} already"));
        }
    }
    let before = port.view();
    if oracle.view() != before || oracle.memory() != port.memory() {
        return Err("they part before the question".into());
    }
    let memory = port.memory().to_vec();
    let truth = exhausted(&oracle, *shortest, *longest);
    compare(&mut port, *shortest, *longest, truth.bounds)?;
    // Around a moment at which a frame becomes due, or any other.
    let around = cases(&oracle, *shortest, *longest).last().map_or(*longest, |case| case.0);
    let (first, last) = (around.saturating_sub(SHORT), around.saturating_add(SHORT));
    if ops.len().is_multiple_of(4) {
        compare(&mut port, first, last, each_nanosecond(&oracle, first, last))?;
        tally.short_ranges += 1;
        tally.nanoseconds += last - first + 1;
    }
    if port.view() != before || port.memory() != memory {
        return Err("the call changed the machine".into());
    }
    tally.machines += 1;
    tally.cases += truth.cases;
    for direction in Direction::BOTH.map(Direction::index) {
        tally.moving[direction] += u64::from(truth.bounds[direction].lowest != truth.bounds[direction].highest);
        tally.wrong_ends[direction] += u64::from(truth.bounds[direction] != truth.ends[direction]);
    }
    Ok(())
}

/// Nanoseconds before and after the middle of a short range.
const SHORT: u64 = 12;

fn compare(port: &mut Port, shortest: u64, longest: u64, truth: [Bounds; 2]) -> Result<(), String> {
    let came = port.advance_bounds(shortest, longest);
    if came == Ok(truth) {
        Ok(())
    } else {
        Err(format!("{shortest} to {longest} ns: the port says {came:?}, the amended oracle {truth:?}"))
    }
}

/// The question of a seed.
pub fn question(seed: u64) -> Question {
    let mut maker = Maker { random: Random::new(seed), ops: Vec::new(), memory: 0, lists: [0; 2] };
    maker.controller();
    for direction in Direction::BOTH {
        maker.stream(direction);
    }
    maker.run();
    let (shortest, longest) = maker.range();
    Question { ops: maker.ops, shortest, longest }
}

/// Makes the calls of a machine.
struct Maker {
    random: Random,
    ops: Vec<Op>,
    memory: u64,
    /// Where the descriptor lists are, near to each other or in one place.
    lists: [u64; 2],
}

/// Codec commands: a converter's tag and format, and an input amplifier at unity, at another gain, or silent.
const PLAYBACK_TAG: u32 = 0x0027_0610;
const CAPTURE_TAG: u32 = 0x0047_0610;
const CONVERTER_FORMATS: [u32; 2] = [0x0042_0000, 0x0022_0000];
const CAPTURE_UNITY: u32 = 0x0043_704a;
const CAPTURE_GAIN: u32 = 0x0043_7044;
const CAPTURE_MUTE: u32 = 0x0043_70ca;
const CAPTURE_OTHER_TAG: u32 = 0x0047_0620;

impl Maker {
    fn write(&mut self, offset: u64, data: &[u8]) {
        self.ops.push(Op::Write { offset, data: data.to_vec() });
    }

    /// A codec command by the immediate registers.
    fn command(&mut self, word: u32) {
        self.write(0x60, &[word.to_le_bytes().as_slice(), &[0, 0, 0, 0, 1]].concat());
    }

    fn set_bus_master(&mut self, on: bool) {
        self.ops.push(Op::ConfigWrite { register: 1, offset: 0, data: vec![if on { 6 } else { 2 }] });
    }

    /// One chance in so many.
    fn rarely(&mut self, chances: u64) -> bool {
        self.random.below(chances) == 0
    }

    fn controller(&mut self) {
        let (size, over) = (self.random.pick(&[1024, 2048, 4096]), 4 * self.random.below(3));
        self.memory = size + over;
        // From the start of memory on, or with room for a ring before them.
        let start = self.random.pick(&[0, 0x180]);
        self.lists = [start; 2].map(|start| start + 128 * self.random.below(5));
        let microphone = !self.rarely(8);
        self.ops.push(Op::New { microphone, memory: self.memory as usize });
        self.set_bus_master(true);
        self.write(8, &[1]);
        let gain = if self.rarely(4) { CAPTURE_GAIN } else { CAPTURE_UNITY };
        for command in [PLAYBACK_TAG, CAPTURE_TAG, gain] {
            if !self.rarely(8) {
                self.command(command);
            }
        }
        if self.rarely(4) {
            let bytes = 4 * self.random.below(600) as u32;
            self.ops.push(Op::Downstream(bytes));
        }
    }

    /// A stream's registers and its list.
    fn stream(&mut self, direction: Direction) {
        let (base, list, last) = (0x80 + 0x20 * direction.index() as u64, self.lists[direction.index()], self.random.below(5));
        let cyclic = 4 * self.random.between(1, 600) as u32;
        let format: u16 = self.random.weighted(&[(8, 0x0011), (8, 0x4011), (8, 0x0811), (4, 0x4811), (1, 0x2011)]);
        if !self.rarely(8) {
            // Without a converter of the same format a capture is silence.
            self.command(CONVERTER_FORMATS[direction.index()] | u32::from(format));
        }
        self.write(base + 0x08, &cyclic.to_le_bytes());
        self.write(base + 0x0c, &(last as u16).to_le_bytes());
        self.write(base + 0x12, &format.to_le_bytes());
        self.write(base + 0x18, &list.to_le_bytes());
        self.write(base + 0x02, &[0x10]);
        self.list(list, last);
    }

    fn list(&mut self, list: u64, last: u64) {
        for place in 0..=last {
            let descriptor = self.descriptor();
            self.ops.push(Op::Poke { address: list + 16 * place, data: descriptor });
        }
    }

    fn start(&mut self) {
        for direction in Direction::BOTH {
            if !self.rarely(12) {
                self.write(0x80 + 0x20 * direction.index() as u64, &[2]);
            }
        }
    }

    /// Mostly one whose buffer lies over a list.
    fn descriptor(&mut self) -> Vec<u8> {
        let step = self.random.pick(&[4, 16]);
        let (anywhere, near) =
            (4 * self.random.below(self.memory / 4), self.random.pick(&self.lists) + step * self.random.below(128 / step));
        let address = self.random.weighted(&[(1, anywhere), (2, near)]);
        let frames = self.random.pick(&[12, 300]);
        let length = 4 * self.random.between(1, frames) as u32;
        let flag = self.random.below(2) as u32;
        [address.to_le_bytes().as_slice(), &length.to_le_bytes(), &flag.to_le_bytes()].concat()
    }

    /// Starts the streams, then lets some of their past happen.
    fn run(&mut self) {
        if self.random.flag() {
            let address = 128 * self.random.below(6) + 1;
            self.write(0x70, &address.to_le_bytes());
        }
        self.start();
        self.feed();
        if self.random.flag() {
            let time = self.random.pick(&[1_000_000, 12_000_000]);
            let (time, pulled) = (self.random.below(time), 4 * self.random.below(600) as usize);
            self.ops.extend([Op::Advance(time), Op::Pull(pulled), Op::Advance(0)]);
            if self.random.flag() {
                // The guest lays its lists again and starts what has failed.
                for list in self.lists {
                    self.list(list, 4);
                }
                self.start();
                self.feed();
            }
        }
        if self.rarely(2) {
            self.commands();
        }
        if self.rarely(8) {
            let held = self.random.below(4) as u8;
            self.write(0x38, &[held]);
        }
        if self.rarely(6) {
            // Openings fail; a stream that runs is to be opened.
            let direction = self.random.pick(&Direction::BOTH);
            self.ops.extend(Direction::BOTH.map(|direction| Op::Fail { direction, fails: true }));
            self.ops.push(Op::Close(direction));
        }
        if self.rarely(40) {
            self.ops.push(Op::Pause(true));
        }
    }

    /// What a capture writes over a list: descriptors, or numbers that are addresses, lengths and flags, and some that lead outside.
    fn feed(&mut self) {
        let (frames, are_descriptors) = (self.random.below(512) as usize, self.random.flag());
        let mut data = Vec::new();
        while data.len() < 4 * frames {
            if are_descriptors {
                let mut descriptor = self.descriptor();
                descriptor[4] = self.random.weighted(&[(12, 0), (1, 1)]);
                data.extend(descriptor);
            } else {
                data.extend(self.number().to_le_bytes());
            }
        }
        data.truncate(4 * frames);
        self.ops.push(Op::Feed(data));
    }

    fn number(&mut self) -> u32 {
        let (small, any) = (4 * self.random.below(300) as u32, self.random.next_u64() as u32);
        self.random.pick(&[0, 4, 64, 256, 0x400, 1 << 20, small, any])
    }

    /// Commands that wait until the range begins. A call that finds the bus master bit set carries them out, so that they come in while it is clear, and a restored state has it set.
    fn commands(&mut self) {
        let [over, anywhere] = [0; 2].map(|_| 128 * self.random.below(8));
        // Over a list or behind it, or before both: there no list of a few descriptors reaches.
        let before = 128 * self.random.below(1 + self.lists[0].min(self.lists[1]) / 128);
        let commands = self.random.pick(&[anywhere, before]);
        // Many responses would leave nothing of a list.
        let responses = self.random.pick(&[over, 0x380, 0x380]);
        let (few, many, any) = (self.random.between(1, 4), self.random.below(40), self.random.below(8));
        let (written, first) = (self.random.pick(&[few, few, many]) as u8, self.random.pick(&[0, 0, any]));
        self.set_bus_master(false);
        // Such as change what is captured. The first that is carried out stands in entry 1.
        for place in first..first + self.random.below(4) {
            let command = self.random.pick(&[CAPTURE_TAG, CAPTURE_UNITY, CAPTURE_GAIN, CAPTURE_MUTE, CAPTURE_OTHER_TAG]);
            self.ops.push(Op::Poke { address: commands + 4 * (1 + place), data: command.to_le_bytes().to_vec() });
        }
        self.write(0x40, &commands.to_le_bytes());
        self.write(0x50, &responses.to_le_bytes());
        self.write(0x5c, &[2]);
        self.write(0x4c, &[2]);
        self.write(0x48, &[written, 0]);
        let mut side = Amended::new(true, 0x1000);
        for op in &self.ops {
            execute(&mut side, op);
        }
        let (_, saved) = side.save();
        let mut state = State::parse(&saved).expect("a side saves what it holds");
        state.config[4] = 6;
        self.ops.push(Op::Restore(state.bytes()));
        // Queues are empty after it.
        self.feed();
    }

    /// Mostly some milliseconds; now and then as far as the numbers go, and a single time.
    fn range(&mut self) -> (u64, u64) {
        let shortest = self.random.below(3) * self.random.below(9_000_000);
        let most = self.random.pick(&[200_000, 2_000_000, 9_000_000]);
        let longest = shortest + self.random.below(most);
        match self.random.below(1000) {
            0 => (shortest, u64::MAX),
            1 => (0, shortest + 170_700_000),
            2..10 => (shortest, shortest),
            _ => (shortest, longest),
        }
    }
}

#[cfg(test)]
mod tests {
    use super::*;

    #[test]
    fn the_port_says_what_the_oracle_shows() {
        let mut tally = Tally::default();
        for seed in 1..=300 {
            judge(seed, &mut tally).unwrap();
        }
        assert_eq!(tally.machines, 300);
        // Machines that the two ends tell would say little.
        assert!(tally.wrong_ends.iter().all(|wrong| *wrong > 2), "{tally}");
        assert!(tally.moving.iter().all(|moving| *moving > 80), "{tally}");
    }

    #[test]
    fn a_copy_is_a_side_of_its_own() {
        fn check<S: Side>() {
            let question = question(7);
            let mut side = S::new(true, 4096);
            question.ops.iter().for_each(|op| drop(execute(&mut side, op)));
            let (before, memory) = (side.view(), side.memory().to_vec());
            let mut copy = side.copied();
            assert!(copy.view() == before && copy.memory() == memory, "{}", S::NAME);
            execute(&mut copy, &Op::Advance(5_000_000));
            assert!(copy.view() != before && side.view() == before && side.memory() == memory, "{}", S::NAME);
            execute(&mut side, &Op::Advance(5_000_000));
            assert!(copy.view() == side.view() && copy.memory() == side.memory(), "{}", S::NAME);
        }
        check::<crate::device::Reference>();
        check::<Amended>();
        check::<Port>();
    }

    #[test]
    fn cases_are_cut_where_a_frame_becomes_due() {
        let mut port = Port::new(true, 4096);
        // The first frame at 48,000 is due after 20,833.3 nanoseconds, at 44,100 after 22,675.7.
        execute(&mut port, &Op::Write { offset: 0x92, data: vec![0x11, 0] });
        assert_eq!(cases(&port, 0, 50_000), [(0, 20_833), (20_834, 41_666), (41_667, 50_000)]);
        execute(&mut port, &Op::Write { offset: 0xb2, data: vec![0x11, 0x40] });
        assert_eq!(cases(&port, 0, 41_667), [(0, 20_833), (20_834, 22_675), (22_676, 41_666), (41_667, 41_667)]);
        assert_eq!(cases(&port, 7, 7), [(7, 7)]);
        let all = cases(&port, 0, u64::MAX);
        // Both count 8,192 frames; every 1.6 ms, after 80 frames of the one and 73.5 of the other, or twice as many, they fall together.
        assert_eq!(all.last().unwrap().1, u64::MAX);
        assert!(all.windows(2).all(|pair| pair[0].1 + 1 == pair[1].0));
        assert!((16_000..=16_385).contains(&all.len()), "{}", all.len());
    }
}
