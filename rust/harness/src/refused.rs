//! States that restore refuses, made of one that a device saved: each number of document 01, some by several of its conditions, and request T-09's. The separate call
//! gets the same states: it takes those with a crowded list, and refuses the others with the same number.
use crate::ops::Op;
use crate::side::{Direction, number};
use crate::state::{SPACING, State, Stream};

/// Where a stream's control byte stands in the registers, and its format word from there.
const CONTROL: [usize; 2] = [0x80, 0xa0];
const FORMAT: usize = 0x12;
/// The control bit that lets a stream run.
const RUN: u8 = 2;
/// A format word that is accepted, and one that is not.
const ACCEPTED: u16 = 0x0011;
const REFUSED: u16 = 0x8011;
/// Where the count of the first list stands in a state.
const COUNT: usize = 710;

/// The numbers, each with a damage of a sound state for which restore gives it.
const DAMAGES: [(u32, fn(State) -> Vec<u8>); 18] = [
    (2, |state| cut(&state, 1)),
    (2, |state| cut(&state, 300)),
    (3, |state| State { mark: *b"HDA2", ..state }.bytes()),
    (4, |state| State { microphone: 1 - state.microphone, ..state }.bytes()),
    (5, |state| with_node_format(state, 2, REFUSED).bytes()),
    (5, |state| with_node_format(state, 4, REFUSED).bytes()),
    (5, |state| with_format(state, Direction::Playback, REFUSED).bytes()),
    (6, |state| with_count(&state, 100)),
    (7, |state| with_position(state, Direction::Capture, |_, submitted| submitted.wrapping_add(1))),
    (7, |state| with_position(state, Direction::Playback, |consumed, _| consumed)),
    (8, |state| with_descriptor(state, 256)),
    (8, |state| with_time(state, 8193 * 1_000_000_000)),
    (9, |state| State { paused: 2, ..state }.bytes()),
    (9, |state| State { remainder: 1_000_000_000, ..state }.bytes()),
    (9, |state| State { responses: 256, ..state }.bytes()),
    (9, |state| [state.bytes(), vec![0]].concat()),
    // Neighbours 5 and 3 apart; and the last, with the offset, one above submitted.
    (number::CROWDED, |state| crowded(state, Direction::Capture, |stream| stream.pending[1] += 1)),
    (number::CROWDED, |state| crowded(state, Direction::Playback, |stream| stream.offset += 1)),
];
/// One for each damage, then one for each stream's opening.
pub const TURNS: usize = DAMAGES.len() + Direction::BOTH.len();

/// The calls of a turn, which restore a state made of `saved` that is refused.
pub fn scene(turn: usize, saved: &[u8]) -> Vec<Op> {
    let state = sound(State::parse(saved).expect("a device saves a state"));
    match DAMAGES.get(turn % TURNS) {
        Some((_, damage)) => by_both_calls(damage(state)),
        None => refused_opening(state, Direction::BOTH[turn % TURNS - DAMAGES.len()]),
    }
}

fn by_both_calls(state: Vec<u8>) -> Vec<Op> {
    vec![Op::Restore(state.clone()), Op::RestoreEmptied(state)]
}

/// The state with accepted formats: a guest may have stored others, which would be refused first.
fn sound(mut state: State) -> State {
    for node in [2, 4] {
        state = with_node_format(state, node, ACCEPTED);
    }
    for direction in Direction::BOTH {
        state = with_format(state, direction, ACCEPTED);
    }
    state
}

/// A state in which one stream runs, restored while the host refuses to open it.
fn refused_opening(mut state: State, direction: Direction) -> Vec<Op> {
    for other in Direction::BOTH {
        state.registers[CONTROL[other.index()]] &= !RUN;
    }
    state.registers[CONTROL[direction.index()]] |= RUN;
    let switch = |fails| Op::Fail { direction, fails };
    [vec![switch(true)], by_both_calls(state.bytes()), vec![switch(false)]].concat()
}

fn cut(state: &State, count: usize) -> Vec<u8> {
    let mut bytes = state.bytes();
    bytes.truncate(bytes.len() - count);
    bytes
}

fn with_node_format(mut state: State, node: usize, format: u16) -> State {
    state.codec[24 * node + 10..][..2].copy_from_slice(&format.to_le_bytes());
    state
}

fn with_format(mut state: State, direction: Direction, format: u16) -> State {
    state.registers[CONTROL[direction.index()] + FORMAT..][..2].copy_from_slice(&format.to_le_bytes());
    state
}

/// The state with a count of the first list that its bytes are too few for.
fn with_count(state: &State, more: usize) -> Vec<u8> {
    let mut bytes = state.bytes();
    let count = (bytes.len() / 8 + more) as u32;
    bytes[COUNT..][..4].copy_from_slice(&count.to_le_bytes());
    bytes
}

/// The state with one position in a list, made of the stream's consumed and submitted.
fn with_position(mut state: State, direction: Direction, position: fn(u64, u64) -> u64) -> Vec<u8> {
    let stream = &mut state.streams[direction.index()];
    stream.pending = vec![position(stream.consumed, stream.submitted)];
    state.bytes()
}

fn with_descriptor(mut state: State, descriptor: u16) -> Vec<u8> {
    state.streams[Direction::Capture.index()].descriptor = descriptor;
    state.bytes()
}

fn with_time(mut state: State, time: u64) -> Vec<u8> {
    state.streams[Direction::Playback.index()].time = time;
    state.bytes()
}

/// The state with a list of three positions in both streams, one of which is then crowded.
fn crowded(mut state: State, direction: Direction, crowd: fn(&mut Stream)) -> Vec<u8> {
    for stream in &mut state.streams {
        stream.fill(3, SPACING);
    }
    crowd(&mut state.streams[direction.index()]);
    state.bytes()
}

#[cfg(test)]
mod tests {
    use super::*;
    use crate::device::{Amended, Reference};
    use crate::ops::execute;
    use crate::side::Side;

    /// The numbers that a turn's restores give on a new device, which a refused one leaves as it was.
    fn restores<S: Side>(turn: usize) -> Vec<u32> {
        let mut device = S::new(true, 4096);
        let saved = device.save().1;
        let mut numbers = Vec::new();
        for op in scene(turn, &saved) {
            let number = execute(&mut device, &op).number;
            if !matches!(op, Op::Fail { .. }) {
                assert_eq!(device.save().1 == saved, number != number::DONE, "turn {turn}");
                numbers.push(number);
            }
        }
        numbers
    }

    #[test]
    fn each_is_refused_with_its_number_and_the_separate_call_takes_crowded_lists_alone() {
        for turn in 0..TURNS {
            let expected = DAMAGES.get(turn).map_or(number::HOST_CLOSED, |(number, _)| *number);
            if expected == number::CROWDED {
                assert_eq!(restores::<Amended>(turn), [number::CROWDED, number::DONE], "turn {turn}");
            } else {
                assert_eq!([restores::<Reference>(turn), restores::<Amended>(turn)], [[expected; 2]; 2], "turn {turn}");
            }
        }
    }

    #[test]
    fn the_separate_call_keeps_the_list_that_is_not_crowded() {
        for (turn, _) in DAMAGES.iter().enumerate().filter(|(_, (number, _))| *number == number::CROWDED) {
            let mut device = Amended::new(true, 4096);
            let saved = device.save().1;
            let scene = scene(turn, &saved);
            let Some(Op::RestoreEmptied(handed)) = scene.last() else { panic!("turn {turn} has no separate call") };
            let mut expected = State::parse(handed).unwrap();
            for stream in expected.streams.iter_mut().filter(|stream| stream.is_crowded()) {
                stream.pending.clear();
            }
            device.restore_emptied(handed);
            assert_eq!(State::parse(&device.save().1), Some(expected), "turn {turn}");
        }
    }
}
