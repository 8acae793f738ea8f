//! What program `rehearse` (crates/rehearse) runs with no Rust at hand: calls with what the Rust answered to each, as bytes.
//!
//! A call is 35 bytes, and the bytes that it hands over: 0 kind and whose answer it is (1), 1 count of these bytes (2), 3 room for bytes to come (4),
//! 7 first number (8), 15 second number (8), 23 what it returns (8), 31 digest (4). What it returns is what the port's C function does; the digest is that
//! of the room and of all that device and host end hold, in the layout of docs/LAYOUT.md, or that of guest memory for the kind that looks at it.
//!
//! The unchanged Rust answers up to the first call of a sequence at which a difference makes it part; from there on the amended oracle does, and each
//! such call says so. States are restored as the generator has them, and at times the device's own: damaged, by both calls that restore, so that every
//! number is among the answers, then as it is.
use crate::device::{Amended, Reference};
use crate::generate::Generator;
use crate::ops::{Op, execute};
use crate::refused;
use crate::scenes;
use crate::side::{Answer, Direction, Side, View};
use crate::state::State;
use crate::trace::{self, Step};
use port::layout::{self, device, host, put};

/// The kinds of calls, as crates/rehearse/src/calls.rt has them.
mod kind {
    pub const NEW: u8 = 0;
    pub const MEMORY: u8 = 1;
    pub const POKE: u8 = 2;
    pub const LOOK: u8 = 3;
    pub const ADVANCE: u8 = 10;
    pub const WRITE: u8 = 11;
    pub const BAR_WRITE: u8 = 12;
    pub const CONFIG_WRITE: u8 = 13;
    pub const PIN: u8 = 14;
    pub const PAUSE: u8 = 15;
    pub const RESTORE: u8 = 16;
    pub const RESTORE_EMPTIED: u8 = 17;
    pub const READ: u8 = 20;
    pub const BAR_READ: u8 = 21;
    pub const CONFIG_READ: u8 = 22;
    pub const SAVE: u8 = 23;
    pub const FEED: u8 = 30;
    pub const PULL: u8 = 31;
    pub const PLAYBACK_FAILS: u8 = 32;
    pub const CAPTURE_FAILS: u8 = 33;
    pub const DOWNSTREAM: u8 = 34;
}

/// Added to the kind of a call that the amended oracle answered.
const AMENDED: u8 = 128;
/// Seeds, wild and tame by turns, and calls of a sequence.
const SEEDS: u64 = 24;
const LENGTH: usize = 240;
/// Calls between two restores of the device's own state, and the longest state that is restored: one with 32 positions, so that the file stays small.
const RESTORES: usize = 120;
const LONGEST: usize = 748 + 8 * 32;
/// Calls between two looks at guest memory, but in sequences written by hand, which are short: these look after each.
const LOOKS: usize = 32;
/// The driver's trace: its first lines, in which it asks for everything that the codec declares; its guest memory, the lines between two advances,
/// their time, and the lines between two visits of the host.
const TRACE_PROBE: usize = 1500;
const TRACE_MEMORY: usize = 1 << 18;
const TRACE_LINES: usize = 4;
const TRACE_TIME: u64 = 400_000;
const TRACE_VISIT: usize = 40;

/// The recorded sequences: generated ones, those written by hand, then a driver's trace: its first lines as they are, and all of it without the question
/// for the rates, which the unchanged Rust answers to the end.
pub fn record(text: &str) -> Result<Vec<u8>, String> {
    let mut data = Vec::new();
    for seed in 1..=SEEDS {
        data.extend(generated(seed, seed.is_multiple_of(2)));
    }
    for scene in scenes::all() {
        data.extend(sequence(&scene, 1));
    }
    let mut steps = trace::parse(text)?;
    data.extend(sequence(&traced(&steps[..steps.len().min(TRACE_PROBE)]), LOOKS));
    trace::ask_no_rates(&mut steps);
    data.extend(sequence(&traced(&steps), LOOKS));
    Ok(data)
}

/// A sequence of a seed.
fn generated(seed: u64, tame: bool) -> Vec<u8> {
    let mut generator = Generator::new(seed, tame);
    let mut recorder = Recorder::new(LOOKS);
    let mut calls = 0;
    while calls < LENGTH {
        let op = generator.next_op();
        if !is_recorded(&op) {
            continue;
        }
        let answer = recorder.call(&op);
        generator.observe(&op, &answer);
        calls += 1;
        if calls.is_multiple_of(RESTORES) {
            recorder.restores(seed as usize * LENGTH / RESTORES + calls / RESTORES);
        }
    }
    recorder.look();
    recorder.data
}

/// Whether there is a kind for the call, and the bytes that it hands over are few enough.
fn is_recorded(op: &Op) -> bool {
    match op {
        Op::Restore(state) | Op::RestoreEmptied(state) => state.len() <= LONGEST,
        Op::List { .. } | Op::RestoreList { .. } | Op::Close(_) | Op::Peek { .. } | Op::AdvanceBounds { .. } => false,
        _ => true,
    }
}

/// A sequence that is given, with so many calls between two looks at guest memory.
fn sequence(ops: &[Op], looks: usize) -> Vec<u8> {
    let mut recorder = Recorder::new(looks);
    for op in ops {
        recorder.call(op);
    }
    recorder.look();
    recorder.data
}

/// A driver's trace, with time passing and the host pulling and feeding.
fn traced(steps: &[Step]) -> Vec<Op> {
    let mut ops = vec![Op::New { microphone: true, memory: TRACE_MEMORY }];
    for (line, step) in steps.iter().enumerate() {
        ops.push(step.op.clone());
        if line.is_multiple_of(TRACE_LINES) {
            ops.push(Op::Advance(TRACE_TIME));
        }
        if line.is_multiple_of(TRACE_VISIT) {
            ops.extend([Op::Pull(2048), Op::Feed(vec![line as u8; 400])]);
        }
    }
    ops
}

/// Both oracles, with the bytes so far.
struct Recorder {
    /// Gone where it has parted.
    reference: Option<Reference>,
    amended: Amended,
    data: Vec<u8>,
    calls: usize,
    /// Calls between two looks at guest memory.
    looks: usize,
    /// Whether the next register access goes by its base address: both forms are recorded, by turns.
    by_bar: bool,
}

/// A call as it is laid into bytes, without what it gave.
#[derive(Default)]
struct Call<'a> {
    kind: u8,
    bytes: &'a [u8],
    room: usize,
    first: u64,
    second: u64,
}

impl Recorder {
    fn new(looks: usize) -> Self {
        let (reference, amended) = (Some(Reference::new(true, 0x1000)), Amended::new(true, 0x1000));
        Self { reference, amended, data: Vec::new(), calls: 0, looks, by_bar: false }
    }

    /// Makes a call and records it.
    fn call(&mut self, op: &Op) -> Answer {
        if let Op::Noise(seed) = op {
            return self.noise(seed % (MODULUS - 1) + 1);
        }
        self.amended.take_differences();
        let answer = execute(&mut self.amended, op);
        if self.parts(op, &answer) {
            assert!(!self.amended.take_differences().is_empty(), "parted with no difference at {op}");
            self.reference = None;
        }
        self.lay(op, &answer);
        self.calls += 1;
        if self.calls.is_multiple_of(self.looks) {
            self.look();
        }
        answer
    }

    /// Makes the call on the unchanged Rust, if it is there, and says whether it now differs from the amended oracle.
    fn parts(&mut self, op: &Op, amended: &Answer) -> bool {
        self.reference.as_mut().is_some_and(|reference| {
            let answer = execute(reference, op);
            answer != *amended || reference.view() != self.amended.view() || reference.memory() != self.amended.memory()
        })
    }

    /// The device's own state damaged as the turn says, then as it is.
    fn restores(&mut self, turn: usize) {
        let saved = self.call(&Op::Save).bytes;
        let scene = refused::scene(turn, &saved);
        for op in scene.into_iter().chain([Op::Restore(saved)]).filter(is_recorded) {
            self.call(&op);
        }
    }

    fn lay(&mut self, op: &Op, answer: &Answer) {
        let room = answer.bytes.len();
        let turn = matches!(op, Op::Read { .. } | Op::Write { .. });
        self.by_bar ^= turn;
        let by_bar = self.by_bar;
        let plain = Call::default();
        let call = match op {
            Op::New { microphone, memory } => return self.begin(*microphone, *memory),
            Op::Advance(time) => Call { kind: kind::ADVANCE, first: *time, ..plain },
            Op::Write { offset, data } => {
                Call { kind: if by_bar { kind::BAR_WRITE } else { kind::WRITE }, first: *offset, bytes: data, ..plain }
            }
            Op::ConfigWrite { register, offset, data } => {
                Call { kind: kind::CONFIG_WRITE, first: *register, second: *offset, bytes: data, ..plain }
            }
            Op::Pin(node) => Call { kind: kind::PIN, first: u64::from(*node), ..plain },
            Op::Pause(paused) => Call { kind: kind::PAUSE, first: u64::from(*paused), ..plain },
            Op::Restore(state) => Call { kind: kind::RESTORE, bytes: state, ..plain },
            Op::RestoreEmptied(state) => Call { kind: kind::RESTORE_EMPTIED, bytes: state, ..plain },
            Op::Read { offset, .. } => Call { kind: if by_bar { kind::BAR_READ } else { kind::READ }, first: *offset, room, ..plain },
            Op::ConfigRead(register) => Call { kind: kind::CONFIG_READ, first: *register, ..plain },
            Op::Save => Call { kind: kind::SAVE, room, ..plain },
            Op::Feed(frames) => Call { kind: kind::FEED, bytes: frames, ..plain },
            Op::Pull(_) => Call { kind: kind::PULL, room, ..plain },
            Op::Fail { direction: Direction::Playback, fails } => Call { kind: kind::PLAYBACK_FAILS, first: u64::from(*fails), ..plain },
            Op::Fail { direction: Direction::Capture, fails } => Call { kind: kind::CAPTURE_FAILS, first: u64::from(*fails), ..plain },
            Op::Downstream(bytes) => Call { kind: kind::DOWNSTREAM, first: u64::from(*bytes), ..plain },
            Op::Poke { address, data } => Call { kind: kind::POKE, first: *address, bytes: data, ..plain },
            _ => unreachable!("no other call is recorded: {op}"),
        };
        // Calls on guest memory or the host end alone report no interrupt.
        let reported = call.kind >= kind::ADVANCE && call.kind < kind::FEED;
        let reply = returned(answer, reported, &self.amended.view());
        self.push(&call, reply, held(&answer.bytes, &self.amended.view()));
    }

    /// A new device and host end, and memory of zeros.
    fn begin(&mut self, microphone: bool, memory: usize) {
        let digest = held(&[], &self.amended.view());
        self.push(&Call { kind: kind::NEW, first: u64::from(microphone), ..Call::default() }, 0, digest);
        self.push(&Call { kind: kind::MEMORY, first: memory as u64, ..Call::default() }, 0, digest);
    }

    fn noise(&mut self, seed: u64) -> Answer {
        fill(self.amended.memory_mut(), seed);
        if let Some(reference) = &mut self.reference {
            fill(reference.memory_mut(), seed);
        }
        let (length, digest) = (self.amended.memory().len() as u64, held(&[], &self.amended.view()));
        self.push(&Call { kind: kind::MEMORY, first: length, second: seed, ..Call::default() }, 0, digest);
        Answer::default()
    }

    /// Records what guest memory holds.
    fn look(&mut self) {
        let digest = digest(START, self.amended.memory());
        self.push(&Call { kind: kind::LOOK, ..Call::default() }, 0, digest);
    }

    fn push(&mut self, call: &Call, reply: u64, digest: u32) {
        let data = &mut self.data;
        data.push(call.kind | if self.reference.is_some() { 0 } else { AMENDED });
        data.extend(u16::try_from(call.bytes.len()).expect("calls hand over few bytes").to_le_bytes());
        data.extend(u32::try_from(call.room).expect("calls give few bytes").to_le_bytes());
        data.extend(call.first.to_le_bytes());
        data.extend(call.second.to_le_bytes());
        data.extend(reply.to_le_bytes());
        data.extend(digest.to_le_bytes());
        data.extend(call.bytes);
    }
}

/// What the C function returns. A message is the one that the device's configuration has.
fn returned(answer: &Answer, reported: bool, view: &View) -> u64 {
    let Answer { number, value, interrupts, .. } = answer;
    let mut reply = u64::from(*number) | value << 32;
    if reported {
        let message = |message: &crate::side::Message| {
            let config = &view.state[device::CONFIG..];
            assert_eq!((message.address, u64::from(message.data)), (layout::get::<8>(config, 0x64), layout::get::<2>(config, 0x6c)));
        };
        assert!(interrupts.messages.len() <= 1, "a call sends one message at most");
        interrupts.messages.iter().for_each(message);
        reply |= u64::from(interrupts.level) << 8 | (interrupts.messages.len() as u64) << 9;
    }
    reply
}

/// The digest of bytes that a call gave, and of all that device and host end hold.
fn held(bytes: &[u8], view: &View) -> u32 {
    let state = State::parse(&view.state).expect("a device saves a state");
    let (mut record, mut end) = ([0; layout::DEVICE], [0; layout::HOST]);
    let mut saved = view.state.as_slice();
    let mut laid = 0;
    for (index, stream) in state.streams.iter().enumerate() {
        let numbers = device::stream(index + 1) - laid;
        record[laid..][..numbers].copy_from_slice(&saved[..numbers]);
        saved = &saved[numbers + 8 * stream.pending.len()..];
        laid += numbers;
        end[host::open(index)] = u8::from(view.open[index]);
        put::<4>(&mut end, host::length(index), view.queues[index].len() as u64);
    }
    record[device::ASSERTED] = u8::from(view.asserted);
    end[host::PLAYBACK_FAILS] = u8::from(view.opening_fails[Direction::Playback.index()]);
    end[host::CAPTURE_FAILS] = u8::from(view.opening_fails[Direction::Capture.index()]);
    put::<4>(&mut end, host::DOWNSTREAM, u64::from(view.downstream));
    let mut sum = digest(digest(digest(START, bytes), &record), &end);
    for stream in &state.streams {
        sum = stream.pending.iter().fold(sum, |sum, position| digest(sum, &position.to_le_bytes()));
    }
    view.queues.iter().fold(sum, |sum, queue| digest(sum, queue))
}

/// The digest that crates/rehearse/src/digest.rt has: a polynomial modulo a prime.
const START: u32 = 1;

fn digest(start: u32, bytes: &[u8]) -> u32 {
    bytes.iter().fold(start, |sum, byte| ((u64::from(sum) * 16_777_619 + u64::from(*byte)) % 4_294_967_291) as u32)
}

/// The noise that crates/rehearse/src/noise.rt has: powers of a primitive root modulo a prime; from 0 on, zeros.
const MODULUS: u64 = 2_147_483_647;

fn fill(memory: &mut [u8], seed: u64) {
    let mut power = seed;
    for byte in memory {
        power = power * 48_271 % MODULUS;
        *byte = (power / 8_388_608) as u8;
    }
}

#[cfg(test)]
mod tests {
    use super::*;
    use crate::side::number;
    use std::collections::BTreeSet;

    /// The numbers that recorded calls of a kind returned.
    fn numbers(mut data: &[u8], wanted: u8) -> BTreeSet<u8> {
        let mut numbers = BTreeSet::new();
        while let Some(kind) = data.first() {
            if kind & !AMENDED == wanted {
                numbers.insert(data[23]);
            }
            data = &data[35 + layout::get::<2>(data, 1) as usize..];
        }
        numbers
    }

    #[test]
    fn restores_are_accepted_and_refused_with_every_number() {
        let data = record("").expect("an empty trace is one");
        let shared: BTreeSet<u8> = (0..=9).collect();
        assert_eq!(numbers(&data, kind::RESTORE_EMPTIED), shared);
        assert_eq!(numbers(&data, kind::RESTORE), &shared | &BTreeSet::from([number::CROWDED as u8]));
    }

    /// How many calls the unchanged Rust answered, and how many the amended oracle.
    fn answered(mut data: &[u8]) -> [usize; 2] {
        let mut calls = [0; 2];
        while let Some(kind) = data.first() {
            calls[usize::from(kind / AMENDED)] += 1;
            data = &data[35 + layout::get::<2>(data, 1) as usize..];
        }
        calls
    }

    #[test]
    fn the_unchanged_rust_answers_sequences_written_by_hand_whole() {
        let data = record("").expect("an empty trace is one");
        for scene in scenes::all() {
            let recorded = sequence(&scene, 1);
            assert_eq!(answered(&recorded)[1], 0);
            assert!(data.windows(recorded.len()).any(|part| part == recorded));
        }
    }

    #[test]
    fn the_amended_oracle_answers_from_the_first_parting_on() {
        let write = |offset, data: &[u8]| Op::Write { offset, data: data.to_vec() };
        let begin = [Op::New { microphone: true, memory: 4096 }, write(0x08, &[1])];
        let rates = [write(0x60, &[0x0a, 0, 0x2f, 0, 0, 0, 0, 0, 1]), Op::Advance(0)];
        let calls = sequence(&begin, 99);
        // A new device is recorded as two calls, and the last call is a look at guest memory.
        assert_eq!(answered(&calls), [4, 0]);
        assert_eq!(answered(&sequence(&[&begin[..], &rates].concat(), 99)), [3, 3]);
    }
}
