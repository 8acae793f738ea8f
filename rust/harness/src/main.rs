//! The judge: runs devices against each other and says where they part.
use harness::coverage::Coverage;
use harness::device::{Amended, Reference};
use harness::generate::Generator;
use harness::jitter;
use harness::lockstep::{DEFAULT_MEMORY, InStep, Lockstep, Parting, Run, run_ops, run_seed};
use harness::ops::{Op, execute, number, parse_log, result_line};
use harness::ported::Port;
use harness::record;
use harness::shrink::shrink;
use harness::side::Side;
use harness::trace::{self, Step};
use harness::trio::Trio;
use std::collections::BTreeMap;
use std::io::Write as _;
use std::process::ExitCode;
use std::time::{Duration, Instant};

const USAGE: &str = "\
judge lockstep --first SEED --count N --length L [--tame] [--port]
    N random sequences of L calls, one for each seed from SEED on: the reference against the amended oracle.
    Fails if they part at a call that met no difference. --tame keeps all addresses in range.
    --port, here and below: the port against the amended oracle, from which it may never part, and against the
    reference until a difference fires.
judge soak SECONDS [--first SEED] [--port]
    The same for a time, wild and tame by turns.
judge generate SEED LENGTH [--tame]
    Prints the op log of a seed with the reference's results.
judge shrink SEED LENGTH [--tame] [--port] | judge shrink FILE [--port]
    Prints a small op log on which sides still part as they do in the sequence of a seed, or in a file.
judge run FILE [--side reference|amended|port]
    Runs an op log and prints each call with its result.
judge trace FILE [--port]
    Replays a driver's trace, with time passing between its lines; then once more with another parameter asked for in the
    place of the rates, which the unchanged Rust judges to the end.
judge record FILE
    Writes the calls that program rehearse runs, with the reference's answers, or the amended oracle's where a difference
    has made the reference part: generated sequences, some written by hand, then the trace of FILE.
judge jitter --first SEED --count N
    N random machines, one for each seed from SEED on, whose lists, buffers, rings and position buffer lie over one
    another: the counts between which the port says that streams end after any time of a range, against the amended
    oracle, which is run on a copy for each time that can make a difference. Fails at the first machine of which they
    say something else, and prints its op log.
judge --help";

/// Unexplained partings that are shown in full.
const SHOWN: usize = 5;
const PROGRESS: Duration = Duration::from_secs(10);
/// Calls of a sequence in a soak.
const SOAK_LENGTH: usize = 400;
/// Time between two lines of a trace.
const TRACE_STEP: u64 = 100_000;
/// Guest memory of a trace: what the driver's addresses need.
const TRACE_MEMORY: usize = 1 << 20;

fn main() -> ExitCode {
    let words: Vec<String> = std::env::args().skip(1).collect();
    match command(&words) {
        Ok(true) => ExitCode::SUCCESS,
        Ok(false) => ExitCode::FAILURE,
        Err(error) => {
            eprintln!("judge: {error}");
            ExitCode::from(2)
        }
    }
}

fn command(words: &[String]) -> Result<bool, String> {
    let options = Options::parse(words)?;
    if let Some(fault) = amended::FAULT {
        eprintln!("the amended oracle has the seeded fault {fault}");
    }
    if options.port { compare::<Trio>(options) } else { compare::<Lockstep<Reference, Amended>>(options) }
}

/// The commands, for sides in step.
fn compare<T: InStep>(mut options: Options) -> Result<bool, String> {
    match options.word()?.as_str() {
        "lockstep" => {
            let (first, count, length) = (options.named("--first")?, options.named("--count")?, options.named("--length")? as usize);
            options.end()?;
            Ok(lockstep::<T>(first, count, length, options.tame))
        }
        "soak" => {
            let (seconds, first) = (options.number()?, options.named("--first").unwrap_or(1));
            options.end()?;
            Ok(soak::<T>(Duration::from_secs(seconds), first))
        }
        "generate" => {
            let (seed, length) = (options.number()?, options.number()? as usize);
            options.end()?;
            generate(seed, length, options.tame);
            Ok(true)
        }
        "shrink" => shrink_command::<T>(options),
        "run" => run(options),
        "trace" => {
            let text = read(&options.word()?)?;
            options.end()?;
            replay_twice::<T>(&text)
        }
        "record" => {
            let text = read(&options.word()?)?;
            options.end()?;
            let data = record::record(&text)?;
            std::io::stdout().write_all(&data).map_err(|error| error.to_string())?;
            Ok(true)
        }
        "jitter" => {
            let (first, count) = (options.named("--first")?, options.named("--count")?);
            options.end()?;
            Ok(jittery(first, count))
        }
        "--help" | "help" => {
            println!("{USAGE}");
            Ok(true)
        }
        unknown => Err(format!("no command {unknown}\n{USAGE}")),
    }
}

/// The words of the command line: options by name, the rest in order.
struct Options {
    words: std::vec::IntoIter<String>,
    named: BTreeMap<String, String>,
    tame: bool,
    port: bool,
}

impl Options {
    fn parse(words: &[String]) -> Result<Self, String> {
        let mut options = Self { words: Vec::new().into_iter(), named: BTreeMap::new(), tame: false, port: false };
        let mut rest = Vec::new();
        let mut words = words.iter();
        while let Some(word) = words.next() {
            match word.as_str() {
                "--tame" => options.tame = true,
                "--port" => options.port = true,
                "--first" | "--count" | "--length" | "--side" => {
                    let value = words.next().ok_or_else(|| format!("{word} without a value"))?;
                    options.named.insert(word.clone(), value.clone());
                }
                _ => rest.push(word.clone()),
            }
        }
        options.words = rest.into_iter();
        Ok(options)
    }

    fn word(&mut self) -> Result<String, String> {
        self.words.next().ok_or_else(|| format!("too few words\n{USAGE}"))
    }

    fn number(&mut self) -> Result<u64, String> {
        let word = self.word()?;
        number(&word).ok_or_else(|| format!("no number: {word}"))
    }

    fn named(&mut self, name: &str) -> Result<u64, String> {
        let word = self.named.remove(name).ok_or_else(|| format!("{name} is missing\n{USAGE}"))?;
        number(&word).ok_or_else(|| format!("no number: {word}"))
    }

    fn end(&mut self) -> Result<(), String> {
        match self.words.next().or_else(|| self.named.pop_first().map(|(name, _)| name)) {
            Some(word) => Err(format!("{word} is not understood here\n{USAGE}")),
            None => Ok(()),
        }
    }
}

fn read(path: &str) -> Result<String, String> {
    std::fs::read_to_string(path).map_err(|error| format!("{path}: {error}"))
}

/// What many sequences gave.
struct Tally {
    start: Instant,
    shown: Instant,
    sequences: u64,
    coverage: Coverage,
    /// Partings by the differences that explain them.
    explained: BTreeMap<String, u64>,
    unexplained: u64,
}

impl Tally {
    fn new() -> Self {
        let now = Instant::now();
        Self { start: now, shown: now, sequences: 0, coverage: Coverage::default(), explained: BTreeMap::new(), unexplained: 0 }
    }

    fn sequence<T: InStep>(&mut self, seed: u64, length: usize, tame: bool) {
        let run = run_seed::<T>(seed, length, tame, &mut self.coverage);
        self.sequences += 1;
        if let Some(parting) = run.parting {
            self.part(seed, length, tame, &parting);
        }
        if self.shown.elapsed() >= PROGRESS {
            self.shown = Instant::now();
            eprintln!("{}", self.summary());
        }
    }

    fn part(&mut self, seed: u64, length: usize, tame: bool, parting: &Parting) {
        if parting.is_explained() {
            *self.explained.entry(parting.fired.to_string()).or_default() += 1;
            return;
        }
        self.unexplained += 1;
        if self.unexplained <= SHOWN as u64 {
            let (tame, port) = (if tame { " --tame" } else { "" }, if parting.excusable { "" } else { " --port" });
            println!("seed {seed}: {parting}  to shrink it: judge shrink {seed} {length}{tame}{port}");
        }
    }

    fn summary(&self) -> String {
        let (ops, seconds) = (self.coverage.ops(), self.start.elapsed().as_secs_f64());
        format!(
            "{} sequences, {ops} calls, {} partings explained, {} unexplained, {:.0} calls a second",
            self.sequences,
            self.explained.values().sum::<u64>(),
            self.unexplained,
            ops as f64 / seconds
        )
    }

    /// Prints everything; true if every parting is explained.
    fn report(&self) -> bool {
        print!("{}", self.coverage);
        for (differences, count) in &self.explained {
            println!("{count:>9}  parting by {differences}");
        }
        println!("{}", self.summary());
        self.unexplained == 0
    }
}

fn lockstep<T: InStep>(first: u64, count: u64, length: usize, tame: bool) -> bool {
    let mut tally = Tally::new();
    for seed in first..first.saturating_add(count) {
        tally.sequence::<T>(seed, length, tame);
    }
    tally.report()
}

fn soak<T: InStep>(time: Duration, first: u64) -> bool {
    let mut tally = Tally::new();
    let mut seed = first;
    while tally.start.elapsed() < time {
        tally.sequence::<T>(seed, SOAK_LENGTH, seed.is_multiple_of(2));
        seed += 1;
    }
    println!("seeds {first} to {}", seed - 1);
    tally.report()
}

/// Random machines under a timer with jitter; true if the port says of each what the amended oracle shows.
fn jittery(first: u64, count: u64) -> bool {
    let (mut tally, mut shown) = (jitter::Tally::default(), Instant::now());
    for seed in first..first.saturating_add(count) {
        if let Err(error) = jitter::judge(seed, &mut tally) {
            println!("{error}");
            return false;
        }
        if shown.elapsed() >= PROGRESS {
            shown = Instant::now();
            eprintln!("{} machines, {} cases", tally.machines, tally.cases);
        }
    }
    println!("{tally}");
    true
}

fn generate(seed: u64, length: usize, tame: bool) {
    let mut generator = Generator::new(seed, tame);
    let mut side = Reference::new(true, DEFAULT_MEMORY);
    for _ in 0..length {
        let op = generator.next_op();
        let answer = execute(&mut side, &op);
        generator.observe(&op, &answer);
        println!("{op}\n{}", result_line(&side, &op, &answer));
    }
}

fn shrink_command<T: InStep>(mut options: Options) -> Result<bool, String> {
    let word = options.word()?;
    let run = match number(&word) {
        Some(seed) => {
            let length = options.number()? as usize;
            run_seed::<T>(seed, length, options.tame, &mut Coverage::default())
        }
        None => {
            let ops = parse_log(&read(&word)?)?;
            let parting = run_ops::<T>(&ops);
            Run { ops, parting }
        }
    };
    options.end()?;
    let Some(parting) = run.parting else {
        println!("no parting");
        return Ok(true);
    };
    let shows = |ops: &[Op]| run_ops::<T>(ops).is_some_and(|found| (found.sides, found.fired) == (parting.sides, parting.fired));
    let small = shrink(&run.ops, shows);
    for op in &small {
        println!("{op}");
    }
    for line in run_ops::<T>(&small).map(|found| found.to_string()).unwrap_or_default().lines() {
        println!("# {line}");
    }
    Ok(parting.is_explained())
}

fn run(mut options: Options) -> Result<bool, String> {
    let ops = parse_log(&read(&options.word()?)?)?;
    let side = options.named.remove("--side").unwrap_or_else(|| "reference".into());
    options.end()?;
    match side.as_str() {
        "reference" => run_side::<Reference>(&ops),
        "amended" => run_side::<Amended>(&ops),
        "port" => run_side::<Port>(&ops),
        _ => return Err(format!("no side {side}")),
    }
    Ok(true)
}

fn run_side<S: Side>(ops: &[Op]) {
    let mut side = S::new(true, DEFAULT_MEMORY);
    for op in ops {
        let answer = execute(&mut side, op);
        println!("{op}\n{}", result_line(&side, op, &answer));
    }
}

/// A driver's trace as it is, and once more without the question for the rates, so that the unchanged Rust judges it to the end.
fn replay_twice<T: InStep>(text: &str) -> Result<bool, String> {
    let mut steps = trace::parse(text)?;
    let as_it_is = replay::<T>(&steps);
    trace::ask_no_rates(&mut steps);
    let without_rates = replay::<T>(&steps);
    Ok(as_it_is.is_some() && without_rates == Some(true))
}

/// A driver's trace on all sides; the host pulls and feeds as time passes. None if the sides part and no difference explains it, else whether the
/// unchanged Rust judged every call.
fn replay<T: InStep>(steps: &[Step]) -> Option<bool> {
    let mut sides = T::new();
    let (mut reads, mut as_recorded) = (0, 0);
    let mut calls = vec![(Op::New { microphone: true, memory: TRACE_MEMORY }, None)];
    for (line, step) in steps.iter().enumerate() {
        calls.push((step.op.clone(), step.recorded.map(|_| step)));
        calls.push((Op::Advance(TRACE_STEP), None));
        if line.is_multiple_of(20) {
            calls.extend([(Op::Pull(2048), None), (Op::Feed(vec![line as u8; 400]), None)]);
        }
    }
    for (op, read) in calls {
        let answer = match sides.step(&op) {
            Ok(answer) => answer,
            Err(parting) => {
                print!("{parting}");
                return parting.is_explained().then_some(false);
            }
        };
        if let Some(step) = read {
            reads += 1;
            let value = (answer.value as u32).to_le_bytes();
            as_recorded += u64::from(step.matches(if answer.bytes.is_empty() { &value } else { &answer.bytes }));
        }
    }
    print!("{}", sides.coverage());
    let judge = if sides.is_judged_by_reference() { "the unchanged Rust" } else { "the amended oracle from a difference on" };
    println!(
        "{} lines, judged by {judge}; {as_recorded} of {reads} reads gave the value of the trace, which knows other times",
        steps.len()
    );
    Some(sides.is_judged_by_reference())
}
