//! The two oracles, and which of them judges the port. The unchanged Rust does wherever both answer the same. Where they part, the question must
//! have met what request T-01 asks otherwise than the Rust, and the amended oracle judges; a parting of any other kind is an error here.
use crate::parting::Parting;
use crate::question::{Answer, CodecBytes, Question, Side};
use crate::{edited, unchanged};
use amended::differences::{self, Difference};
use std::error::Error;
use std::fmt;

/// Whose answer is taken.
#[derive(Clone, Copy, Debug, PartialEq, Eq)]
pub enum Judge {
    Unchanged,
    Amended,
}

impl Judge {
    pub fn name(self) -> &'static str {
        match self {
            Self::Unchanged => "Rust",
            Self::Amended => "amended oracle",
        }
    }
}

pub struct Oracles {
    unchanged: unchanged::Rust,
    amended: edited::Rust,
}

/// The two oracles part, though the question met no difference that has these answers.
#[derive(Debug)]
pub struct Unexplained(Parting);

impl fmt::Display for Unexplained {
    fn fmt(&self, out: &mut fmt::Formatter) -> fmt::Result {
        write!(out, "The two oracles part where no difference explains it.\n{}", self.0)
    }
}

impl Error for Unexplained {}

impl Oracles {
    pub fn new() -> Self {
        Self { unchanged: unchanged::Rust::new(), amended: edited::Rust::new() }
    }

    /// The answer that the port must give, and the oracle that gives it.
    pub fn answer(&mut self, question: &Question) -> Result<(Answer, Judge), Box<Unexplained>> {
        let unchanged = self.unchanged.answer(question);
        // What was met before is no mark of this question.
        differences::take();
        let amended = self.amended.answer(question);
        let met = differences::take();
        if unchanged == amended {
            Ok((unchanged, Judge::Unchanged))
        } else if explained(&unchanged, &amended, met) {
            Ok((amended, Judge::Amended))
        } else {
            let names = [Judge::Unchanged, Judge::Amended].map(Judge::name);
            Err(Box::new(Unexplained(Parting { question: question.clone(), names, answers: [unchanged, amended] })))
        }
    }

    /// A command's effect on the codec, which is the same by both.
    pub fn after(&mut self, codec: &CodecBytes, command: u32) -> CodecBytes {
        self.unchanged.verb(codec, command).1
    }
}

impl Default for Oracles {
    fn default() -> Self {
        Self::new()
    }
}

/// Whether two answers part as request T-01 asks, where the differences `met` say so: the new rate of a word that the Rust refuses, and the reply
/// that declares it. The codec after a command stays the unchanged Rust's.
fn explained(unchanged: &Answer, amended: &Answer, met: u16) -> bool {
    let met = |difference: Difference| met >> difference as u16 & 1 != 0;
    match (unchanged, amended) {
        (Answer::Rate(0), Answer::Rate(88_200)) => met(Difference::Rate88200),
        (Answer::Reply { value: Some(0x20160), codec }, Answer::Reply { value: Some(0x201e0), codec: other }) => {
            codec == other && met(Difference::RatesReply)
        }
        _ => false,
    }
}

#[cfg(test)]
mod tests {
    use super::*;
    use crate::draw::{RATES, WORDS};

    fn amended_of(questions: impl Iterator<Item = Question>) -> Vec<String> {
        let mut oracles = Oracles::new();
        let mut lines = Vec::new();
        for question in questions {
            let (answer, judge) = oracles.answer(&question).unwrap();
            if judge == Judge::Amended {
                lines.push(question.line(&answer, judge));
            }
        }
        lines
    }

    #[test]
    fn two_words_are_judged_by_the_amended_oracle() {
        let words = (0..=u16::MAX).map(|word| Question::Format { word });
        assert_eq!(amended_of(words), ["f114888580100", "f115988580100"]);
    }

    #[test]
    fn the_rates_of_three_nodes_are_judged_by_the_amended_oracle() {
        let codec = unchanged::fresh_codec();
        let parameters = (0..6 << 8).map(|place| (place >> 8, place & 0xff));
        let lines = amended_of(parameters.map(|(node, parameter)| Question::Verb { codec, command: node << 20 | 0xf_0000 | parameter }));
        let reads: Vec<&str> = lines.iter().map(|line| &line[1 + 2 * 144..1 + 2 * 153]).collect();
        assert_eq!(reads, ["0a001f0001e0010200", "0a002f0001e0010200", "0a004f0001e0010200"]);
    }

    #[test]
    fn the_amended_oracle_takes_the_twelve_words_and_runs_at_all_rates() {
        let taken = |takes: fn(u16) -> bool| (0..=u16::MAX).filter(|word| takes(*word)).collect::<Vec<u16>>();
        assert_eq!(taken(edited::takes), WORDS);
        assert_eq!(taken(unchanged::takes), WORDS.into_iter().filter(|word| ![0x4811, 0x5911].contains(word)).collect::<Vec<u16>>());
        assert_eq!(edited::Rust::new().rates(), RATES.map(|(rate, _)| rate));
        assert_eq!(unchanged::Rust::new().rates(), [44_100, 48_000, 96_000]);
        assert_eq!(edited::fresh_codec(), unchanged::fresh_codec());
    }

    #[test]
    fn other_partings_are_not_explained() {
        let (codec, all) = (unchanged::fresh_codec(), u16::MAX);
        let reply = |value, codec| Answer::Reply { value: Some(value), codec };
        assert!(explained(&Answer::Rate(0), &Answer::Rate(88_200), 1 << Difference::Rate88200 as u16));
        assert!(!explained(&Answer::Rate(0), &Answer::Rate(88_200), !(1 << Difference::Rate88200 as u16)));
        assert!(!explained(&Answer::Rate(0), &Answer::Rate(48_000), all));
        assert!(!explained(&Answer::Rate(88_200), &Answer::Rate(0), all));
        assert!(explained(&reply(0x20160, codec), &reply(0x201e0, codec), 1 << Difference::RatesReply as u16));
        assert!(!explained(&reply(0x20160, codec), &reply(0x201e0, codec), !(1 << Difference::RatesReply as u16)));
        assert!(!explained(&reply(0x20160, codec), &reply(0x201e0, [1; 144]), all));
        assert!(!explained(&Answer::Time(0), &Answer::Time(1), all));
    }
}
