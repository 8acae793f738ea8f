//! A question with two answers, as it is shown.
use crate::oracles::Judge;
use crate::question::{Answer, Question};
use std::fmt;

/// Two sides part at a question: each one's name, and its answer.
#[derive(Debug)]
pub struct Parting {
    pub question: Question,
    pub names: [&'static str; 2],
    pub answers: [Answer; 2],
}

impl fmt::Display for Parting {
    fn fmt(&self, out: &mut fmt::Formatter) -> fmt::Result {
        let [first, second] = self.names;
        if let (Question::Amplify { input, left, right, pcm }, [Answer::Pcm(one), Answer::Pcm(other)]) = (&self.question, &self.answers) {
            let frame = first_difference(one, other) / 4 * 4;
            let (before, one, other) = (part(pcm, frame), part(one, frame), part(other, frame));
            let direction = if *input { "input" } else { "output" };
            writeln!(out, "{direction} amplifier {left:02x} {right:02x}, frame {before:02x?} at {frame} of {} bytes", pcm.len())?;
            return write!(out, "{first}: {one:02x?}\n{second}: {other:02x?}");
        }
        let [one, other] = self.answers.each_ref().map(|answer| self.question.line(answer, Judge::Unchanged));
        write!(out, "{first}: {one}\n{second}: {other}")
    }
}

fn first_difference(one: &[u8], other: &[u8]) -> usize {
    one.iter().zip(other).take_while(|(one, other)| one == other).count()
}

/// A frame of a buffer, or the bytes that are left at its end.
fn part(pcm: &[u8], frame: usize) -> &[u8] {
    &pcm[frame..pcm.len().min(frame + 4)]
}

#[cfg(test)]
mod tests {
    use super::*;

    #[test]
    fn a_difference_in_a_long_buffer_is_shown_by_its_frame() {
        let (mut port, pcm) = (vec![0; 100_000], vec![7; 100_000]);
        port[4098] = 1;
        let question = Question::Amplify { input: true, left: 0x4a, right: 0xca, pcm };
        let parting = Parting { question, names: ["Rust", "port"], answers: [vec![0; 100_000], port].map(Answer::Pcm) };
        let shown = "input amplifier 4a ca, frame [07, 07, 07, 07] at 4096 of 100000 bytes\nRust: [00, 00, 00, 00]\nport: [00, 00, 01, 00]";
        assert_eq!(parting.to_string(), shown);
    }
}
