//! What a leaf is asked and what it answers, and both as a line of text.
use crate::oracles::Judge;
use std::fmt::Write;

/// The codec's six records of 24 bytes.
pub type CodecBytes = [u8; 144];

#[derive(Clone, Debug)]
pub enum Question {
    Format {
        word: u16,
    },
    /// `input` names the amplifier of the Rust that is used; the port's function is the same for both.
    Amplify {
        input: bool,
        left: u8,
        right: u8,
        pcm: Vec<u8>,
    },
    Verb {
        codec: CodecBytes,
        command: u32,
    },
    Clock {
        ticks: u64,
        fraction: u64,
        nanos: u64,
    },
    Time {
        fraction: u64,
        nanos: u64,
        rate: u32,
    },
    Connected {
        codec: CodecBytes,
        input: bool,
        tag: u8,
        format: u16,
    },
}

#[derive(Clone, Debug, PartialEq, Eq)]
pub enum Answer {
    /// Frames a second, 0 where the format is unsupported.
    Rate(u32),
    Pcm(Vec<u8>),
    Reply {
        value: Option<u32>,
        codec: CodecBytes,
    },
    Clock {
        ticks: u64,
        fraction: u64,
    },
    Time(u64),
    Connected(bool),
    /// A number that a C function gives for bytes that it does not take. The Rust never answers so.
    Refused(u32),
}

/// Whoever answers: one of the two oracles, or the proved code.
pub trait Side {
    fn answer(&mut self, question: &Question) -> Answer;
}

impl Question {
    /// The line of the recorded answers: a letter, a capital where the unchanged Rust answered and a lower-case one where the amended oracle did,
    /// then the bytes in hexadecimal, numbers with the lowest byte first.
    pub fn line(&self, answer: &Answer, judge: Judge) -> String {
        let letter = match judge {
            Judge::Unchanged => self.letter(),
            Judge::Amended => self.letter().to_ascii_lowercase(),
        };
        let mut line = String::from(letter);
        for byte in self.bytes().into_iter().chain(answer.bytes()) {
            write!(line, "{byte:02x}").unwrap();
        }
        line
    }

    fn letter(&self) -> char {
        match self {
            Self::Format { .. } => 'F',
            Self::Amplify { .. } => 'A',
            Self::Verb { .. } => 'V',
            Self::Clock { .. } => 'C',
            Self::Time { .. } => 'T',
            Self::Connected { .. } => 'K',
        }
    }

    fn bytes(&self) -> Vec<u8> {
        match self {
            Self::Format { word } => word.to_le_bytes().to_vec(),
            Self::Amplify { left, right, pcm, .. } => {
                let length = u16::try_from(pcm.len()).expect("the length of a recorded buffer has two bytes");
                [&[*left, *right][..], &length.to_le_bytes(), pcm].concat()
            }
            Self::Verb { codec, command } => [&codec[..], &command.to_le_bytes()].concat(),
            Self::Clock { ticks, fraction, nanos } => [ticks.to_le_bytes(), fraction.to_le_bytes(), nanos.to_le_bytes()].concat(),
            Self::Time { fraction, nanos, rate } => [&fraction.to_le_bytes()[..], &nanos.to_le_bytes(), &rate.to_le_bytes()].concat(),
            Self::Connected { codec, input, tag, format } => [&codec[..], &[u8::from(*input), *tag], &format.to_le_bytes()].concat(),
        }
    }
}

impl Answer {
    fn bytes(&self) -> Vec<u8> {
        match self {
            Self::Rate(rate) => rate.to_le_bytes().to_vec(),
            Self::Pcm(pcm) => pcm.clone(),
            Self::Reply { value, codec } => [&[u8::from(value.is_some())][..], &value.unwrap_or(0).to_le_bytes(), codec].concat(),
            Self::Clock { ticks, fraction } => [ticks.to_le_bytes(), fraction.to_le_bytes()].concat(),
            Self::Time(fraction) => fraction.to_le_bytes().to_vec(),
            Self::Connected(connected) => vec![u8::from(*connected)],
            Self::Refused(number) => number.to_le_bytes().to_vec(),
        }
    }
}
