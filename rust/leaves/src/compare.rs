//! Every leaf, asked of both oracles and of the proved code.
use crate::draw::{self, ANY_RATES, EDGES};
use crate::oracles::{Judge, Oracles, Unexplained};
use crate::parting::Parting;
use crate::port::Port;
use crate::question::{Answer, CodecBytes, Question, Side};
use crate::random::Random;
use crate::unchanged::fresh_codec;
use std::fmt;

/// Questions of each kind that are drawn, beside the commands, whose number the caller gives.
const BUFFERS: u64 = 20_000;
const CONNECTIONS: u64 = 5_000_000;
const TIMES: u64 = 10_000_000;

/// Commands that one codec is given before another is drawn.
const COMMANDS_A_CODEC: u64 = 64;

/// Why a comparison fails.
#[derive(Debug)]
pub enum Failure {
    /// The port does not answer as its judge does.
    Port(Box<Parting>),
    /// The oracles part, so that neither can judge.
    Oracles(Box<Unexplained>),
}

impl fmt::Display for Failure {
    fn fmt(&self, out: &mut fmt::Formatter) -> fmt::Result {
        match self {
            Self::Port(parting) => write!(out, "The port and the Rust differ.\n{parting}"),
            Self::Oracles(unexplained) => unexplained.fmt(out),
        }
    }
}

type Result<T = ()> = std::result::Result<T, Failure>;

/// Asks everything, with `commands` random commands, and prints what was equal.
pub fn compare(commands: u64, seed: u64) -> Result {
    let mut sides = Sides::new(seed);
    sides.section("format: every word", Sides::formats)?;
    sides.section("gain: 256 bytes, each on 65,536 samples, both sides, both directions", Sides::gains)?;
    sides.section("gain: random bytes and buffers, odd lengths too", Sides::buffers)?;
    sides.section("codec: every verb and payload of nodes 0 to 5", Sides::every_verb)?;
    sides.section("codec: every address, node and short verb", Sides::every_node)?;
    sides.section("codec: random commands", |sides| sides.random_commands(commands))?;
    sides.section("connected: codecs that are or nearly are", Sides::connections)?;
    sides.section("wall clock: edges, through a device", Sides::clock_edges)?;
    sides.section("wall clock: random, through a device", |sides| sides.drawn(TIMES, draw::clock))?;
    sides.section("frame time: edges, through a device at the rates that it takes, at others by its expressions", Sides::time_edges)?;
    sides.section("frame time: random, likewise", |sides| sides.drawn(TIMES, draw::time))?;
    Ok(())
}

struct Sides {
    oracles: Oracles,
    port: Port,
    random: Random,
    fresh: CodecBytes,
    /// Questions of this section so far, how many of them the amended oracle judged, and how many were answered "connected".
    asked: u64,
    amended: u64,
    connected: u64,
}

impl Sides {
    fn new(seed: u64) -> Self {
        let (oracles, random, fresh) = (Oracles::new(), Random::new(seed), fresh_codec());
        Self { oracles, port: Port, random, fresh, asked: 0, amended: 0, connected: 0 }
    }

    /// One part of the comparison, with its counts.
    fn section(&mut self, name: &str, ask: impl FnOnce(&mut Self) -> Result) -> Result {
        (self.asked, self.amended, self.connected) = (0, 0, 0);
        eprintln!("{name} ..");
        ask(self)?;
        let of_them = |count: u64, what: &str| if count == 0 { String::new() } else { format!(", {count} of them {what}") };
        let (amended, connected) = (of_them(self.amended, "by the amended oracle"), of_them(self.connected, "connected"));
        println!("{name}: {} questions, equal{amended}{connected}", self.asked);
        Ok(())
    }

    /// Asks oracles and port, and gives the answer where it is the same.
    fn ask(&mut self, question: Question) -> Result<Answer> {
        let (rust, judge) = self.oracles.answer(&question).map_err(Failure::Oracles)?;
        let port = self.port.answer(&question);
        if rust != port {
            let (names, answers) = ([judge.name(), "port"], [rust, port]);
            return Err(Failure::Port(Box::new(Parting { question, names, answers })));
        }
        self.asked += 1;
        self.amended += u64::from(judge == Judge::Amended);
        if self.asked.is_multiple_of(2_000_000) {
            eprintln!("  {} questions", self.asked);
        }
        Ok(rust)
    }

    fn drawn(&mut self, count: u64, draw: impl Fn(&mut Random) -> Question) -> Result {
        for _ in 0..count {
            let question = draw(&mut self.random);
            self.ask(question)?;
        }
        Ok(())
    }

    fn formats(&mut self) -> Result {
        (0..=u16::MAX).try_for_each(|word| self.ask(Question::Format { word }).map(drop))
    }

    /// Frames that have every sample on both sides.
    fn gains(&mut self) -> Result {
        let samples: Vec<u8> = (0..=u16::MAX).flat_map(|sample| [sample.to_le_bytes(); 2]).flatten().collect();
        for byte in 0..=u8::MAX {
            for input in [true, false] {
                let (left, right, pcm) = (byte, byte, samples.clone());
                self.ask(Question::Amplify { input, left, right, pcm })?;
            }
        }
        Ok(())
    }

    /// Lengths to past four runs of the 64 samples a side that the port amplifies at a time.
    fn buffers(&mut self) -> Result {
        self.drawn(BUFFERS, |random| {
            let length = random.below(1100) as usize;
            let (input, left, right, pcm) = (random.once_in(2), random.byte(), random.byte(), random.bytes(length));
            Question::Amplify { input, left, right, pcm }
        })
    }

    /// Commands one after the other to a codec, and a new codec now and then.
    fn commands(&mut self, commands: impl Iterator<Item = u32>) -> Result {
        let mut codec = self.fresh;
        for (turn, command) in (0..).zip(commands) {
            if turn % COMMANDS_A_CODEC == 0 {
                codec = draw::codec(&mut self.random, &self.fresh);
            }
            if let Answer::Reply { codec: after, .. } = self.ask(Question::Verb { codec, command })? {
                codec = after;
            }
        }
        Ok(())
    }

    fn every_verb(&mut self) -> Result {
        self.commands(0..6 << 20)
    }

    /// Bits 31 to 16 of a command, the address, bit 27, the node and a short verb, each with four payloads.
    fn every_node(&mut self) -> Result {
        let mut random = Random::new(self.random.word());
        self.commands((0..4 << 16).map(|high| high << 14 & 0xffff_0000 | random.below(1 << 16) as u32))
    }

    fn random_commands(&mut self, count: u64) -> Result {
        let mut random = Random::new(self.random.word());
        self.commands((0..count).map(|_| draw::command(&mut random)))
    }

    fn connections(&mut self) -> Result {
        for _ in 0..CONNECTIONS {
            let question = draw::connected(&mut self.random, &self.fresh);
            let answer = self.ask(question)?;
            self.connected += u64::from(answer == Answer::Connected(true));
        }
        Ok(())
    }

    fn clock_edges(&mut self) -> Result {
        for ticks in EDGES {
            for fraction in EDGES {
                for nanos in EDGES {
                    self.ask(Question::Clock { ticks, fraction, nanos })?;
                }
            }
        }
        Ok(())
    }

    fn time_edges(&mut self) -> Result {
        for rate in ANY_RATES {
            for fraction in EDGES {
                for nanos in EDGES {
                    self.ask(Question::Time { fraction, nanos, rate })?;
                }
            }
        }
        Ok(())
    }
}
