//! Sides in step: the same call on each, then answer, view and guest memory are compared.
use crate::coverage::Coverage;
use crate::differences::Differences;
use crate::generate::Generator;
use crate::ops::{Op, execute};
use crate::side::{Answer, Side, View};
use std::fmt;
use std::panic::{AssertUnwindSafe, catch_unwind};

/// Memory of a side whose log does not begin with `new`.
pub const DEFAULT_MEMORY: usize = 65_536;
/// Differing fields that a parting shows.
const SHOWN: usize = 12;

/// The first call after which two sides were not the same.
#[derive(Clone, Debug)]
pub struct Parting {
    /// Names of the two.
    pub sides: [&'static str; 2],
    /// Place of the call in its sequence, from 0.
    pub place: usize,
    pub op: Op,
    /// The differences that this very call met. Views before it were the same: nothing earlier explains the parting.
    pub fired: Differences,
    /// Whether a difference excuses these two: one of them is the unchanged reference.
    pub excusable: bool,
    /// What differs, one line each.
    pub what: Vec<String>,
}

impl Parting {
    pub fn is_explained(&self) -> bool {
        self.excusable && !self.fired.is_empty()
    }
}

impl fmt::Display for Parting {
    fn fmt(&self, f: &mut fmt::Formatter) -> fmt::Result {
        let op = self.op.to_string();
        let short: String = op.chars().take(100).collect();
        let [left, right] = self.sides;
        writeln!(f, "{left} | {right} part at call {} ({}): {short}{}", self.place, self.fired, if op.len() > 100 { ".." } else { "" })?;
        for line in &self.what {
            writeln!(f, "    {line}")?;
        }
        Ok(())
    }
}

/// Sides that are driven together.
pub trait InStep {
    fn new() -> Self;
    /// Makes one call on every side. The answer is given back; where two sides differ, the parting.
    fn step(&mut self, op: &Op) -> Result<Answer, Box<Parting>>;
    /// Whether the unchanged Rust has judged every call so far.
    fn is_judged_by_reference(&self) -> bool;
    fn coverage(&mut self) -> &mut Coverage;
}

/// Two sides with what they held after the last call.
pub struct Lockstep<L, R> {
    pub left: L,
    pub right: R,
    place: usize,
    before: Vec<u8>,
    coverage: Coverage,
}

impl<L: Side, R: Side> InStep for Lockstep<L, R> {
    fn new() -> Self {
        let (left, right) = (L::new(true, DEFAULT_MEMORY), R::new(true, DEFAULT_MEMORY));
        let before = left.view().state;
        Self { left, right, place: 0, before, coverage: Coverage::default() }
    }

    fn step(&mut self, op: &Op) -> Result<Answer, Box<Parting>> {
        self.take_differences();
        let (left, right) = (Seen::after(&mut self.left, op), Seen::after(&mut self.right, op));
        let fired = self.take_differences();
        let what = differing((&self.left, &left), (&self.right, &right));
        let place = self.place;
        self.place += 1;
        if let Some(Seen { answer, view }) = &left {
            self.coverage.record(op, answer, &self.before, &view.state, fired);
        }
        match left {
            Some(Seen { answer, view }) if what.is_empty() => {
                self.before = view.state;
                Ok(answer)
            }
            _ => Err(Box::new(Parting { sides: [L::NAME, R::NAME], place, op: op.clone(), fired, excusable: true, what })),
        }
    }

    fn is_judged_by_reference(&self) -> bool {
        true
    }

    fn coverage(&mut self) -> &mut Coverage {
        &mut self.coverage
    }
}

impl<L: Side, R: Side> Lockstep<L, R> {
    fn take_differences(&mut self) -> Differences {
        self.left.take_differences().union(self.right.take_differences())
    }
}

/// What a call told, and what its side then held.
pub struct Seen {
    pub answer: Answer,
    pub view: View,
}

impl Seen {
    /// Makes the call; none where it panicked.
    pub fn after<S: Side>(side: &mut S, op: &Op) -> Option<Self> {
        catch_unwind(AssertUnwindSafe(|| {
            let answer = execute(side, op);
            Self { answer, view: side.view() }
        }))
        .ok()
    }
}

/// What differs between two sides after a call, one line each; nothing if they are the same.
pub fn differing<L: Side, R: Side>(left: (&L, &Option<Seen>), right: (&R, &Option<Seen>)) -> Vec<String> {
    let ((left, left_seen), (right, right_seen)) = (left, right);
    let (Some(left_seen), Some(right_seen)) = (left_seen, right_seen) else {
        return vec![format!("panicked: {} | {}", left_seen.is_none(), right_seen.is_none())];
    };
    let same = left_seen.answer == right_seen.answer && left_seen.view == right_seen.view && left.memory() == right.memory();
    if same {
        return Vec::new();
    }
    let mut what = differing_answer(&left_seen.answer, &right_seen.answer);
    what.extend(differing_fields(&left_seen.view, &right_seen.view));
    what.extend(differing_memory(left.memory(), right.memory()));
    what
}

fn differing_answer(left: &Answer, right: &Answer) -> Vec<String> {
    let text = |answer: &Answer| format!("{answer:?}").chars().take(200).collect::<String>();
    if left == right { Vec::new() } else { vec![format!("answer: {} | {}", text(left), text(right))] }
}

fn differing_fields(left: &View, right: &View) -> Vec<String> {
    let (left, right) = (left.fields(), right.fields());
    let differ = left.iter().zip(&right).filter(|(left, right)| left != right);
    let mut lines: Vec<String> = differ.map(|(left, right)| format!("{}: {} | {}", left.0, short(&left.1), short(&right.1))).collect();
    let more = lines.len().saturating_sub(SHOWN);
    lines.truncate(SHOWN);
    if more > 0 {
        lines.push(format!("and {more} fields more"));
    }
    lines
}

fn short(text: &str) -> String {
    if text.len() <= 80 { text.into() } else { format!("{}.. ({} characters)", &text[..80], text.len()) }
}

fn differing_memory(left: &[u8], right: &[u8]) -> Option<String> {
    if left.len() != right.len() {
        return Some(format!("memory length: {} | {}", left.len(), right.len()));
    }
    let place = left.iter().zip(right).position(|(left, right)| left != right)?;
    let count = left.iter().zip(right).filter(|(left, right)| left != right).count();
    let shown = |memory: &[u8]| crate::ops::hex(&memory[place..(place + 16).min(memory.len())]);
    Some(format!("memory from {place:#x}, {count} bytes: {} | {}", shown(left), shown(right)))
}

/// How a sequence ended, and the calls it made: those up to the parting, which is the last.
pub struct Run {
    pub ops: Vec<Op>,
    pub parting: Option<Box<Parting>>,
}

/// Drives sides with `length` calls of a seed.
pub fn run_seed<T: InStep>(seed: u64, length: usize, tame: bool, coverage: &mut Coverage) -> Run {
    let mut generator = Generator::new(seed, tame);
    let mut sides = T::new();
    std::mem::swap(sides.coverage(), coverage);
    let mut run = Run { ops: Vec::new(), parting: None };
    while run.ops.len() < length && run.parting.is_none() {
        let op = generator.next_op();
        match sides.step(&op) {
            Ok(answer) => generator.observe(&op, &answer),
            Err(parting) => run.parting = Some(parting),
        }
        run.ops.push(op);
    }
    std::mem::swap(sides.coverage(), coverage);
    run
}

/// Drives sides with a list of calls, up to the first parting.
pub fn run_ops<T: InStep>(ops: &[Op]) -> Option<Box<Parting>> {
    let mut sides = T::new();
    ops.iter().find_map(|op| sides.step(op).err())
}
