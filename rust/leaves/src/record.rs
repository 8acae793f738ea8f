//! The recorded answers: a sample of every leaf's cases with what the Rust answers, the same at each run. A line's letter says which oracle did.
use crate::draw::{self, ANY_RATES, BILLION, EDGES, LONG_VERBS, PARAMETERS, WORDS};
use crate::oracles::Oracles;
use crate::question::{CodecBytes, Question};
use crate::random::Random;
use crate::unchanged::fresh_codec;
use std::collections::BTreeSet;
use std::io::{self, Write};

const SEED: u64 = 1;

/// Writes the lines.
pub fn record(out: &mut impl Write) -> io::Result<()> {
    let mut oracles = Oracles::new();
    let mut random = Random::new(SEED);
    let mut questions = formats(&mut random);
    questions.extend(gains(&mut random));
    questions.extend(verbs(&mut oracles, &mut random));
    questions.extend(converter_formats(&mut oracles, &mut random));
    questions.extend(connections(&mut oracles, &mut random));
    questions.extend(clocks(&mut random));
    questions.extend(times(&mut random));
    for question in questions {
        let (answer, judge) = oracles.answer(&question).map_err(io::Error::other)?;
        writeln!(out, "{}", question.line(&answer, judge))?;
    }
    Ok(())
}

/// The accepted words, those that differ from one in a bit or by 1, and a sample of the others.
fn formats(random: &mut Random) -> Vec<Question> {
    let near = |word: u16| (0..16).map(move |bit| word ^ 1 << bit).chain([word - 1, word, word + 1]);
    let mut words: BTreeSet<u16> = WORDS.into_iter().flat_map(near).collect();
    words.extend((0..1000).map(|_| random.word() as u16));
    words.into_iter().map(|word| Question::Format { word }).collect()
}

/// Every gain byte on either side. Each eighth buffer is long enough for the port's runs of 64 samples a side.
fn gains(random: &mut Random) -> Vec<Question> {
    (0..=u8::MAX)
        .map(|left| {
            let length = random.below(48) + if left % 8 == 2 { 256 } else { 0 };
            let pcm = random.bytes(length as usize);
            Question::Amplify { input: false, left, right: left.wrapping_mul(5).wrapping_add(31), pcm }
        })
        .collect()
}

/// Every node, every known verb and parameter of nodes 0 to 5, every short verb, every address, and random ones; on fresh, used and any codecs.
fn verbs(oracles: &mut Oracles, random: &mut Random) -> Vec<Question> {
    let mut commands = Vec::new();
    for node in 0..6 {
        commands.extend(LONG_VERBS.map(|verb| node << 20 | verb << 8 | draw::payload(random)));
        commands.extend((0..PARAMETERS as u32).map(|parameter| node << 20 | 0xf_0000 | parameter));
        commands.extend((0..16).map(|verb| node << 20 | verb << 16 | random.below(1 << 16) as u32));
    }
    commands.extend((6..128).map(|node| node << 20 | draw::command(random) & 0xf_ffff));
    commands.extend((1..32).map(|address| address << 27 | draw::command(random) & 0x7ff_ffff));
    commands.extend((0..150).map(|_| draw::command(random)));
    commands.into_iter().map(|command| Question::Verb { codec: any_codec(oracles, random), command }).collect()
}

fn any_codec(oracles: &mut Oracles, random: &mut Random) -> CodecBytes {
    if random.once_in(2) { draw::used_codec(random, oracles) } else { draw::codec(random, &fresh_codec()) }
}

/// Each accepted word set at either converter, then read there.
fn converter_formats(oracles: &mut Oracles, random: &mut Random) -> Vec<Question> {
    let mut questions = Vec::new();
    for node in [2, 4] {
        for word in WORDS {
            let (codec, set, get) = (any_codec(oracles, random), node << 20 | 0x2_0000 | u32::from(word), node << 20 | 0xa_0000);
            questions.push(Question::Verb { codec, command: set });
            questions.push(Question::Verb { codec: oracles.after(&codec, set), command: get });
        }
    }
    questions
}

/// Each direction connected at each accepted word, by a codec that commands have reached; then by any codec, and disturbed.
fn connections(oracles: &mut Oracles, random: &mut Random) -> Vec<Question> {
    let mut questions = Vec::new();
    for input in [true, false] {
        for format in WORDS {
            let (mut codec, tag) = (draw::used_codec(random, oracles), 1 + random.below(15) as u8);
            draw::connect(&mut codec, input, tag, format);
            questions.push(Question::Connected { codec, input, tag, format });
        }
    }
    questions.extend((0..194).map(|_| draw::connected(random, &fresh_codec())));
    questions
}

/// The remainders at their ends with every edge of elapsed time, the tick count about to wrap, and random ones.
fn clocks(random: &mut Random) -> Vec<Question> {
    let mut questions = Vec::new();
    for nanos in EDGES {
        for (ticks, fraction) in [(0, 0), (0, BILLION - 1), (u64::MAX, 0), (u64::MAX, BILLION - 1), (u64::MAX - 23_999_999, u64::MAX)] {
            questions.push(Question::Clock { ticks, fraction, nanos });
        }
    }
    questions.extend((0..275).map(|_| draw::clock(random)));
    questions
}

/// Each rate with every edge of elapsed time, and random ones.
fn times(random: &mut Random) -> Vec<Question> {
    let mut questions = Vec::new();
    for rate in ANY_RATES {
        for nanos in EDGES {
            questions.extend([0, 8193 * BILLION - 1].map(|fraction| Question::Time { fraction, nanos, rate }));
        }
    }
    questions.extend((0..250).map(|_| draw::time(random)));
    questions
}
