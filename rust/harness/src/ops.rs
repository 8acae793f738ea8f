//! The op log: one call a line. Numbers are decimal or hexadecimal with `0x`, bytes are hexadecimal, `-` is no bytes, `#` starts a comment.
//! Lines that begin with `<` are results and lines that begin with `?` are expectations of a case; neither is a call.
use crate::random::Random;
use crate::side::{Answer, Direction, Side, View};
use crate::state::{SPACING, State};
use port::layout::POSITIONS;
use std::fmt::{self, Write as _};

/// One call. Those from `Poke` on are the harness's own, the others are calls of document 01, and one each of requests T-09 and T-13.
#[derive(Clone, Debug, PartialEq, Eq)]
pub enum Op {
    New {
        microphone: bool,
        memory: usize,
    },
    Advance(u64),
    Read {
        offset: u64,
        length: usize,
    },
    Write {
        offset: u64,
        data: Vec<u8>,
    },
    ConfigRead(u64),
    ConfigWrite {
        register: u64,
        offset: u64,
        data: Vec<u8>,
    },
    Pin(u8),
    Pause(bool),
    Feed(Vec<u8>),
    Pull(usize),
    Fail {
        direction: Direction,
        fails: bool,
    },
    Downstream(u32),
    Save,
    Restore(Vec<u8>),
    RestoreEmptied(Vec<u8>),
    /// Between which counts the streams end after a time that is known so well; the bytes are those of docs/LAYOUT.md.
    AdvanceBounds {
        shortest: u64,
        longest: u64,
    },
    /// Writes guest memory; out of range it does nothing and answers 1.
    Poke {
        address: u64,
        data: Vec<u8>,
    },
    /// Reads guest memory; out of range it answers 1.
    Peek {
        address: u64,
        length: usize,
    },
    /// Fills guest memory with the noise of a seed: in a memory of zeros a wrong gain or address shows nothing.
    Noise(u64),
    /// Closes the host stream and keeps RUN.
    Close(Direction),
    /// Gives the stream a list of `count` positions, one apart and the last at submitted, which no restore takes; where the lent bytes do not hold that many,
    /// it does nothing and answers 1.
    List {
        direction: Direction,
        count: usize,
    },
    /// Saves, gives the stream a list of `count` positions, no farther apart than they must be, and restores.
    RestoreList {
        direction: Direction,
        count: usize,
    },
}

/// What a pull's buffer holds beforehand: bytes that the call leaves alone stay this.
const UNTOUCHED: u8 = 0xee;

impl Op {
    /// The word that starts the op's line.
    pub fn kind(&self) -> &'static str {
        match self {
            Self::New { .. } => "new",
            Self::Advance(_) => "advance",
            Self::Read { .. } => "read",
            Self::Write { .. } => "write",
            Self::ConfigRead(_) => "cread",
            Self::ConfigWrite { .. } => "cwrite",
            Self::Pin(_) => "pin",
            Self::Pause(_) => "pause",
            Self::Feed(_) => "feed",
            Self::Pull(_) => "pull",
            Self::Fail { .. } => "fail",
            Self::Downstream(_) => "down",
            Self::Save => "save",
            Self::Restore(_) => "restore",
            Self::RestoreEmptied(_) => "restore-emptied",
            Self::AdvanceBounds { .. } => "bounds",
            Self::Poke { .. } => "poke",
            Self::Peek { .. } => "peek",
            Self::Noise(_) => "noise",
            Self::Close(_) => "close",
            Self::List { .. } => "list",
            Self::RestoreList { .. } => "restore-list",
        }
    }

    /// Reads one line. A line without a call gives none.
    pub fn parse(line: &str) -> Result<Option<Self>, String> {
        let line = line.split('#').next().unwrap_or_default().trim();
        if line.is_empty() || line.starts_with(['<', '?']) {
            return Ok(None);
        }
        let mut words = Words { line, rest: line.split_whitespace() };
        let op = match words.next()? {
            "new" => Self::New { microphone: words.flag()?, memory: words.number()? as usize },
            "advance" => Self::Advance(words.number()?),
            "read" => Self::Read { offset: words.number()?, length: words.number()? as usize },
            "write" => Self::Write { offset: words.number()?, data: words.bytes()? },
            "cread" => Self::ConfigRead(words.number()?),
            "cwrite" => Self::ConfigWrite { register: words.number()?, offset: words.number()?, data: words.bytes()? },
            "pin" => Self::Pin(words.number()? as u8),
            "pause" => Self::Pause(words.flag()?),
            "feed" => Self::Feed(words.bytes()?),
            "pull" => Self::Pull(words.number()? as usize),
            "fail" => Self::Fail { direction: words.direction()?, fails: words.flag()? },
            "down" => Self::Downstream(words.number()? as u32),
            "save" => Self::Save,
            "restore" => Self::Restore(words.bytes()?),
            "restore-emptied" => Self::RestoreEmptied(words.bytes()?),
            "bounds" => Self::AdvanceBounds { shortest: words.number()?, longest: words.number()? },
            "poke" => Self::Poke { address: words.number()?, data: words.bytes()? },
            "peek" => Self::Peek { address: words.number()?, length: words.number()? as usize },
            "noise" => Self::Noise(words.number()?),
            "close" => Self::Close(words.direction()?),
            "list" => Self::List { direction: words.direction()?, count: words.number()? as usize },
            "restore-list" => Self::RestoreList { direction: words.direction()?, count: words.number()? as usize },
            unknown => return Err(format!("unknown op {unknown}")),
        };
        words.end()?;
        Ok(Some(op))
    }
}

impl fmt::Display for Op {
    fn fmt(&self, f: &mut fmt::Formatter) -> fmt::Result {
        f.write_str(self.kind())?;
        match self {
            Self::New { microphone, memory } => write!(f, " {} {memory}", u8::from(*microphone)),
            Self::Advance(number) | Self::ConfigRead(number) | Self::Noise(number) => write!(f, " {number}"),
            Self::Read { offset, length } => write!(f, " {offset:#x} {length}"),
            Self::Write { offset, data } => write!(f, " {offset:#x} {}", hex(data)),
            Self::ConfigWrite { register, offset, data } => write!(f, " {register} {offset} {}", hex(data)),
            Self::Pin(node) => write!(f, " {node}"),
            Self::Pause(paused) => write!(f, " {}", u8::from(*paused)),
            Self::Feed(bytes) | Self::Restore(bytes) | Self::RestoreEmptied(bytes) => write!(f, " {}", hex(bytes)),
            Self::Pull(length) => write!(f, " {length}"),
            Self::Fail { direction, fails } => write!(f, " {} {}", direction.name(), u8::from(*fails)),
            Self::Downstream(bytes) => write!(f, " {bytes}"),
            Self::Save => Ok(()),
            Self::AdvanceBounds { shortest, longest } => write!(f, " {shortest} {longest}"),
            Self::Poke { address, data } => write!(f, " {address:#x} {}", hex(data)),
            Self::Peek { address, length } => write!(f, " {address:#x} {length}"),
            Self::Close(direction) => write!(f, " {}", direction.name()),
            Self::List { direction, count } | Self::RestoreList { direction, count } => write!(f, " {} {count}", direction.name()),
        }
    }
}

/// The words of a line, with errors that show the line.
struct Words<'a> {
    line: &'a str,
    rest: std::str::SplitWhitespace<'a>,
}

impl<'a> Words<'a> {
    fn next(&mut self) -> Result<&'a str, String> {
        self.rest.next().ok_or_else(|| format!("too few words: {}", self.line))
    }

    fn number(&mut self) -> Result<u64, String> {
        let word = self.next()?;
        number(word).ok_or_else(|| format!("no number {word}: {}", self.line))
    }

    fn flag(&mut self) -> Result<bool, String> {
        Ok(self.number()? != 0)
    }

    fn bytes(&mut self) -> Result<Vec<u8>, String> {
        let word = self.next()?;
        unhex(word).ok_or_else(|| format!("no bytes {word}"))
    }

    fn direction(&mut self) -> Result<Direction, String> {
        let word = self.next()?;
        let found = Direction::BOTH.into_iter().find(|direction| direction.name() == word);
        found.ok_or_else(|| format!("neither capture nor playback: {word}"))
    }

    fn end(&mut self) -> Result<(), String> {
        if self.rest.next().is_none() { Ok(()) } else { Err(format!("too many words: {}", self.line)) }
    }
}

pub fn number(word: &str) -> Option<u64> {
    match word.strip_prefix("0x") {
        Some(digits) => u64::from_str_radix(digits, 16).ok(),
        None => word.parse().ok(),
    }
}

pub fn hex(bytes: &[u8]) -> String {
    if bytes.is_empty() {
        return "-".into();
    }
    let mut text = String::with_capacity(2 * bytes.len());
    for byte in bytes {
        write!(text, "{byte:02x}").expect("a String takes all");
    }
    text
}

pub fn unhex(text: &str) -> Option<Vec<u8>> {
    if text == "-" {
        return Some(Vec::new());
    }
    let (pairs, odd) = text.as_bytes().as_chunks::<2>();
    let byte = |pair: &[u8; 2]| u8::from_str_radix(str::from_utf8(pair).ok()?, 16).ok();
    if odd.is_empty() { pairs.iter().map(byte).collect() } else { None }
}

/// Reads an op log.
pub fn parse_log(text: &str) -> Result<Vec<Op>, String> {
    let mut ops = Vec::new();
    for (line, text) in text.lines().enumerate() {
        ops.extend(Op::parse(text).map_err(|error| format!("line {}: {error}", line + 1))?);
    }
    Ok(ops)
}

/// Makes the call and gathers what its caller is told.
pub fn execute<S: Side>(side: &mut S, op: &Op) -> Answer {
    let mut answer = Answer::default();
    match op {
        Op::New { microphone, memory } => *side = S::new(*microphone, *memory),
        Op::Advance(nanoseconds) => answer.number = side.advance(*nanoseconds),
        Op::Read { offset, length } => {
            answer.bytes = vec![UNTOUCHED; *length];
            answer.number = side.read(*offset, &mut answer.bytes);
        }
        Op::Write { offset, data } => answer.number = side.write(*offset, data),
        Op::ConfigRead(register) => {
            let (number, value) = side.config_read(*register);
            (answer.number, answer.value) = (number, u64::from(value));
        }
        Op::ConfigWrite { register, offset, data } => answer.number = side.config_write(*register, *offset, data),
        Op::Pin(node) => answer.number = side.change_pin(*node),
        Op::Pause(paused) => answer.number = side.set_paused(*paused),
        Op::Feed(frames) => {
            let (number, frames) = side.feed(frames);
            (answer.number, answer.value) = (number, u64::from(frames));
        }
        Op::Pull(length) => {
            answer.bytes = vec![UNTOUCHED; *length];
            let (number, frames) = side.pull(&mut answer.bytes);
            (answer.number, answer.value) = (number, u64::from(frames));
        }
        Op::Fail { direction, fails } => answer.number = side.set_opening_fails(*direction, *fails),
        Op::Downstream(bytes) => answer.number = side.set_downstream(*bytes),
        Op::Save => {
            (answer.number, answer.bytes) = side.save();
            answer.value = answer.bytes.len() as u64;
        }
        Op::Restore(state) => answer.number = side.restore(state),
        Op::RestoreEmptied(state) => answer.number = side.restore_emptied(state),
        Op::AdvanceBounds { shortest, longest } => match side.advance_bounds(*shortest, *longest) {
            Ok(bounds) => {
                answer.bytes = bounds.iter().flat_map(|bounds| [bounds.lowest, bounds.highest]).flat_map(u64::to_le_bytes).collect();
                answer.value = answer.bytes.len() as u64;
            }
            Err(number) => answer.number = number,
        },
        Op::Poke { address, data } => match range(*address, data.len(), side.memory().len()) {
            Some(range) => side.memory_mut()[range].copy_from_slice(data),
            None => answer.number = 1,
        },
        Op::Peek { address, length } => match range(*address, *length, side.memory().len()) {
            Some(range) => answer.bytes = side.memory()[range].to_vec(),
            None => answer.number = 1,
        },
        Op::Noise(seed) => Random::new(*seed).fill(side.memory_mut()),
        Op::Close(direction) => side.close(*direction),
        Op::List { direction, count } => answer.number = set_list(side, *direction, *count),
        Op::RestoreList { direction, count } => answer.number = restore_list(side, *direction, *count as u64),
    }
    answer.interrupts = side.take_interrupts();
    answer
}

/// Gives the side a list as crowded as it can be.
fn set_list<S: Side>(side: &mut S, direction: Direction, count: usize) -> u32 {
    if count > POSITIONS {
        return 1;
    }
    let (number, saved) = side.save();
    let Some(mut state) = State::parse(&saved) else { return number };
    let stream = &mut state.streams[direction.index()];
    stream.submitted = stream.submitted.max(count as u64);
    stream.consumed = stream.submitted - count as u64;
    stream.pending = (stream.consumed + 1..=stream.submitted).collect();
    side.set_list(direction, stream);
    number
}

/// Restores the side's own state with a list that is only just not crowded.
fn restore_list<S: Side>(side: &mut S, direction: Direction, count: u64) -> u32 {
    let (number, saved) = side.save();
    let Some(mut state) = State::parse(&saved) else { return number };
    state.streams[direction.index()].fill(count, SPACING);
    side.restore(&state.bytes())
}

fn range(address: u64, length: usize, memory: usize) -> Option<std::ops::Range<usize>> {
    let end = address.checked_add(length as u64)?;
    (end <= memory as u64).then_some(address as usize..end as usize)
}

/// The result line of an op: number, value, bytes, interrupts, and digests of what the side then holds.
pub fn result_line<S: Side>(side: &S, op: &Op, answer: &Answer) -> String {
    let messages: Vec<String> =
        answer.interrupts.messages.iter().map(|message| format!("{:x}:{:x}", message.address, message.data)).collect();
    format!(
        "< {} {} {} intx={} msi={} device={:016x} memory={:016x}",
        answer.number,
        answer.value,
        // A saved state is shown whole: it can be restored.
        if *op == Op::Save { hex(&answer.bytes) } else { shortened(&answer.bytes) },
        u8::from(answer.interrupts.level),
        if messages.is_empty() { "-".into() } else { messages.join(",") },
        view_digest(&side.view()),
        digest(0, side.memory()),
    )
}

/// The bytes, or their count and digest where they would fill the screen.
fn shortened(bytes: &[u8]) -> String {
    if bytes.len() <= 64 { hex(bytes) } else { format!("{}-bytes:{:016x}", bytes.len(), digest(0, bytes)) }
}

fn view_digest(view: &View) -> u64 {
    let mut all = digest(0, &view.state);
    for index in 0..2 {
        all = digest(all, &[u8::from(view.open[index]), u8::from(view.opening_fails[index])]);
        all = digest(all, &view.queues[index]);
    }
    all = digest(all, &view.downstream.to_le_bytes());
    digest(all, &[u8::from(view.asserted)])
}

/// FNV-1a, carried on from `start`.
fn digest(start: u64, bytes: &[u8]) -> u64 {
    bytes.iter().fold(start ^ 0xcbf2_9ce4_8422_2325, |sum, byte| (sum ^ u64::from(*byte)).wrapping_mul(0x100_0000_01b3))
}

#[cfg(test)]
mod tests {
    use super::*;
    use crate::device::{Amended, Reference};
    use crate::generate::Generator;
    use crate::ported::Port;
    use crate::side::number;

    #[test]
    fn what_is_printed_is_read_back() {
        for seed in 0..20 {
            for op in Generator::new(seed, false).take_ops(300) {
                assert_eq!(Op::parse(&op.to_string()), Ok(Some(op)));
            }
        }
    }

    #[test]
    fn restores_and_lists_are_read_and_printed() {
        for line in ["restore 0a", "restore-emptied 0b", "restore-emptied -", "list playback 3", "restore-list capture 4"] {
            assert_eq!(Op::parse(line).map(|op| op.unwrap().to_string()), Ok(line.into()));
        }
    }

    #[test]
    fn bounds_are_read_printed_and_answered_by_every_side() {
        let line = "bounds 41667 20834";
        let reversed = Op::parse(line).unwrap().unwrap();
        assert_eq!(reversed.to_string(), line);
        let still = Op::AdvanceBounds { shortest: 0, longest: u64::MAX };
        fn answers<S: Side>(ops: [&Op; 2]) -> [(u32, u64, usize); 2] {
            let mut side = S::new(true, 4096);
            ops.map(|op| execute(&mut side, op)).map(|answer| (answer.number, answer.value, answer.bytes.len()))
        }
        let expected = [(number::REVERSED, 0, 0), (number::DONE, 32, 32)];
        let came =
            [answers::<Reference>([&reversed, &still]), answers::<Amended>([&reversed, &still]), answers::<Port>([&reversed, &still])];
        assert_eq!(came, [expected; 3]);
    }

    #[test]
    fn a_device_takes_no_longer_list_than_its_bytes_hold() {
        let (mut port, direction) = (Port::new(true, 4096), Direction::Capture);
        let lists = [POSITIONS, POSITIONS + 1].map(|count| Op::List { direction, count });
        let restored = [POSITIONS, POSITIONS + 1].map(|count| Op::RestoreList { direction, count });
        assert_eq!(lists.map(|op| execute(&mut port, &op).number), [0, 1]);
        assert_eq!(restored.map(|op| execute(&mut port, &op).number), [0, 6]);
    }

    #[test]
    fn lines_that_are_no_calls_and_lines_that_are_wrong() {
        assert_eq!(["", "  # new 1 4096", "< 0 0 -", "? both number 0"].map(Op::parse), [const { Ok(None) }; 4]);
        for wrong in ["advance", "advance x", "advance 1 2", "write 0x0 123", "fail up 1", "jump 3"] {
            assert!(Op::parse(wrong).is_err(), "{wrong}");
        }
    }
}
