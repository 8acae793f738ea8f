//! Replays a driver's trace: `R OFFSET WIDTH VALUE` and `W ..` are register accesses, `CR` and `CW` those of configuration, `M ADDRESS BYTES` is a
//! write of the driver to guest memory. Values of reads are what the driver saw when the trace was taken.
use crate::ops::{Op, number, unhex};

/// A call and, for reads, the value that the trace has.
pub struct Step {
    pub op: Op,
    pub recorded: Option<u64>,
    /// The place of a configuration read inside its register, and the bytes of a read.
    place: usize,
    width: usize,
}

impl Step {
    /// Whether the bytes a read gave are the recorded value.
    pub fn matches(&self, bytes: &[u8]) -> bool {
        let recorded = self.recorded.unwrap_or_default().to_le_bytes();
        bytes.get(self.place..self.place + self.width) == recorded.get(..self.width)
    }
}

pub fn parse(text: &str) -> Result<Vec<Step>, String> {
    let mut steps = Vec::new();
    for (line, text) in text.lines().enumerate() {
        let words: Vec<&str> = text.split('#').next().unwrap_or_default().split_whitespace().collect();
        if !words.is_empty() {
            steps.push(step(&words).ok_or_else(|| format!("line {}: {text}", line + 1))?);
        }
    }
    Ok(steps)
}

/// Parameter 0x0a, the rates, asked of any node, without the node's number; and the place of the parameter's number in the command's bytes.
const RATES: u32 = 0x000f_000a;
const PARAMETER: usize = 0;

/// Asks for parameter 0x0b wherever the driver asks for the rates. To those request T-01 gives another reply than the Rust; the rest of the trace is then
/// the unchanged Rust's to judge.
pub fn ask_no_rates(steps: &mut [Step]) {
    for step in steps {
        if let Op::Poke { data, .. } = &mut step.op
            && let Ok(command) = <[u8; 4]>::try_from(data.as_slice())
            && u32::from_le_bytes(command) & 0xf00f_ffff == RATES
        {
            data[PARAMETER] = 0x0b;
        }
    }
}

fn step(words: &[&str]) -> Option<Step> {
    let [kind, first, rest @ ..] = words else { return None };
    let first = number(first)?;
    if *kind == "M" {
        let [data] = rest else { return None };
        return Some(Step { op: Op::Poke { address: first, data: unhex(data)? }, recorded: None, place: 0, width: 0 });
    }
    let [width, value] = rest else { return None };
    let (width, value) = (number(width)? as usize, number(value)?);
    let data = value.to_le_bytes().get(..width)?.to_vec();
    let (register, offset) = (first / 4, first % 4);
    let (op, recorded, place) = match *kind {
        "R" => (Op::Read { offset: first, length: width }, Some(value), 0),
        "W" => (Op::Write { offset: first, data }, None, 0),
        "CR" => (Op::ConfigRead(register), Some(value), offset as usize),
        "CW" => (Op::ConfigWrite { register, offset, data }, None, 0),
        _ => return None,
    };
    Some(Step { op, recorded, place, width })
}

#[cfg(test)]
mod tests {
    use super::*;

    #[test]
    fn accesses_become_calls_and_reads_keep_their_value() {
        let steps = parse("# comment\nCR 0x62 2 0x80\nCW 0x6c 2 0x26\nR 0x24 4 0x1\nW 0x5d 1 0x5\nM 0x1004 00000f00 # CORB\n").unwrap();
        let ops: Vec<String> = steps.iter().map(|step| step.op.to_string()).collect();
        assert_eq!(ops, ["cread 24", "cwrite 27 0 2600", "read 0x24 4", "write 0x5d 05", "poke 0x1004 00000f00"]);
        assert!(steps[0].matches(&[5, 0, 0x80, 0]) && !steps[0].matches(&[5, 0, 0x81, 0]));
        assert!(parse("R 0x24 4").is_err() && parse("X 0x24 4 0").is_err());
    }

    #[test]
    fn another_parameter_is_asked_for_in_the_place_of_the_rates() {
        let mut steps = parse("M 0x1004 0a002f00\nM 0x1008 0a003f00 # a node without rates\nM 0x100c 0c002f00\nW 0x48 2 0xa\n").unwrap();
        ask_no_rates(&mut steps);
        let ops: Vec<String> = steps.iter().map(|step| step.op.to_string()).collect();
        assert_eq!(ops, ["poke 0x1004 0b002f00", "poke 0x1008 0b003f00", "poke 0x100c 0c002f00", "write 0x48 0a00"]);
    }
}
