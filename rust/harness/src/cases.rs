//! Known answers: an op log with expectations, run on the reference, the amended oracle and the port.
//!
//! A line `? SIDE WHAT VALUE` is about the call before it. SIDE is `reference`, `amended`, which the port follows, or `both`; WHAT is `number`, `value`, `bytes`, `intx`, `msi`,
//! a field of the view, such as `capture.submitted` or `register.83`, or after the call `bounds` what it says of a stream, such as `playback.bounds` with the value `0-40`. A line `? parts NAMES` says that the two are the same up to the call
//! before it and part there, by these differences (joined by `+`). Without such a line they are the same to the end.
use crate::device::{Amended, Reference};
use crate::differences::Differences;
use crate::lockstep::{DEFAULT_MEMORY, Lockstep, run_ops};
use crate::ops::{Op, execute, hex};
use crate::ported::Port;
use crate::side::{Answer, Direction, Side};
use port::Bounds;

struct Expectation {
    line: usize,
    side: String,
    what: String,
    value: String,
}

#[derive(Default)]
struct Case {
    ops: Vec<Op>,
    /// Each with the count of calls made before it is looked at.
    expectations: Vec<(usize, Expectation)>,
    parting: Option<(usize, Differences)>,
}

/// Runs a case; the error says what was expected and what came.
pub fn check(text: &str) -> Result<(), String> {
    let case = parse(text)?;
    check_side::<Reference>(&case, "reference")?;
    check_side::<Amended>(&case, "amended")?;
    check_side::<Port>(&case, "amended").map_err(|error| format!("port: {error}"))?;
    let parting = run_ops::<Lockstep<Reference, Amended>>(&case.ops).map(|parting| (parting.place + 1, parting.fired));
    if parting != case.parting {
        return Err(format!("parting (calls made, differences): expected {:?}, came {parting:?}", case.parting));
    }
    Ok(())
}

fn parse(text: &str) -> Result<Case, String> {
    let mut case = Case::default();
    for (line, text) in text.lines().enumerate() {
        let words: Vec<&str> = text.split('#').next().unwrap_or_default().split_whitespace().collect();
        match words.as_slice() {
            ["?", "parts", names] => case.parting = Some((case.ops.len(), Differences::from_names(names)?)),
            ["?", side @ ("reference" | "amended" | "both"), what, value] => {
                let expectation = Expectation { line: line + 1, side: (*side).into(), what: (*what).into(), value: (*value).into() };
                case.expectations.push((case.ops.len(), expectation));
            }
            ["?", ..] => return Err(format!("line {}: no expectation: {text}", line + 1)),
            _ => case.ops.extend(Op::parse(text).map_err(|error| format!("line {}: {error}", line + 1))?),
        }
    }
    Ok(case)
}

fn check_side<S: Side>(case: &Case, name: &str) -> Result<(), String> {
    let mut side = S::new(true, DEFAULT_MEMORY);
    for (place, op) in case.ops.iter().enumerate() {
        let answer = execute(&mut side, op);
        for (_, expectation) in case.expectations.iter().filter(|(calls, _)| *calls == place + 1) {
            if expectation.side != name && expectation.side != "both" {
                continue;
            }
            let came = seen(&side, &answer, &expectation.what).ok_or_else(|| format!("no field {}", expectation.what))?;
            if came != expectation.value {
                let Expectation { line, what, value, .. } = expectation;
                return Err(format!("line {line}, {name}: {what} should be {value}, is {came}"));
            }
        }
    }
    Ok(())
}

/// What an expectation is compared with.
fn seen<S: Side>(side: &S, answer: &Answer, what: &str) -> Option<String> {
    let messages = &answer.interrupts.messages;
    Some(match what {
        "number" => answer.number.to_string(),
        "value" => answer.value.to_string(),
        "bytes" => hex(&answer.bytes),
        "intx" => u8::from(answer.interrupts.level).to_string(),
        "msi" => messages.len().to_string(),
        "capture.bounds" => bounds(answer, Direction::Capture)?,
        "playback.bounds" => bounds(answer, Direction::Playback)?,
        field => side.view().fields().into_iter().find(|(name, _)| name == field)?.1,
    })
}

/// What a call `bounds` answered of a stream.
fn bounds(answer: &Answer, direction: Direction) -> Option<String> {
    let Bounds { lowest, highest } = Bounds::each(answer.bytes.as_slice().try_into().ok()?)[direction.index()];
    Some(format!("{lowest}-{highest}"))
}
