//! Which lists of a state are crowded (request T-09), at each edge, and what the two calls that take a state make of them: restore gives 20 and changes no byte; the call for
//! such states empties these lists and takes everything else as it stands.
use fuzz::any::{Call, Lent};
use fuzz::states;
use port::layout::{LIST, POSITIONS, device, get, put, stream};
use port::{Machine, number};

const MAX: u64 = u64::MAX;
/// The largest descriptor offset.
const FAR: u64 = u32::MAX as u64;
/// What the list space has before a call, so that what the call leaves shows.
const FILLER: u8 = 0xaa;

/// A stream's list in a state, with the numbers that decide whether it is crowded.
#[derive(Clone, Debug)]
struct Listed {
    consumed: u64,
    positions: Vec<u64>,
    offset: u64,
    submitted: u64,
    crowded: bool,
}

fn apart(consumed: u64, positions: &[u64], offset: u64, submitted: u64) -> Listed {
    Listed { consumed, positions: positions.to_vec(), offset, submitted, crowded: false }
}

fn crowded(consumed: u64, positions: &[u64], offset: u64, submitted: u64) -> Listed {
    Listed { crowded: true, ..apart(consumed, positions, offset, submitted) }
}

/// As many positions as a list may have, 4 apart, up to `last`.
fn full(last: u64) -> Vec<u64> {
    (0..POSITIONS as u64).rev().map(|place| last - 4 * place).collect()
}

/// Lists that are not crowded, most of them by a byte.
fn lists_apart() -> Vec<Listed> {
    vec![
        // An empty list never is, wherever the descriptor's offset is.
        apart(0, &[], 0, 0),
        apart(0, &[], 1, 0),
        apart(7, &[], FAR, 8),
        apart(MAX, &[], FAR, MAX),
        // What was consumed is no neighbour.
        apart(0, &[1], 0, 1),
        apart(60, &[61, 65, 69], 0, 69),
        apart(0, &[4, 8, 13, 17], 0, 17),
        apart(0, &[10], 5, 15),
        apart(0, &[10, 14], FAR, 14 + FAR),
        // Up to the largest position, and to the largest sum.
        apart(MAX - 9, &[MAX - 8, MAX - 4, MAX], 0, MAX),
        apart(0, &[1, 5, MAX], 0, MAX),
        apart(0, &[MAX - 4], 4, MAX),
        apart(0, &[MAX - FAR], FAR, MAX),
        apart(0, &full(20_000), 9, 20_009),
        apart(0, &full(MAX), 0, MAX),
    ]
}

/// Lists that are crowded: two neighbours anywhere, or the last and the offset.
fn crowded_lists() -> Vec<Listed> {
    let mut lists = vec![
        crowded(0, &[10], 1, 10),
        crowded(0, &[10], 6, 15),
        crowded(0, &[10], FAR, 9 + FAR),
        crowded(0, &[10, 14], 4, 17),
        crowded(0, &full(20_000), 9, 20_008),
        // Sums that 64 bits do not hold; without the bits above they would be small.
        crowded(0, &[MAX], 1, MAX),
        crowded(0, &[MAX], FAR, MAX),
        crowded(0, &[MAX - 4], 5, MAX),
        crowded(0, &[MAX - FAR + 1], FAR, MAX),
        crowded(0, &full(MAX), 1, MAX),
    ];
    for gap in 1..4 {
        let mut last_is_close = full(20_000);
        last_is_close[POSITIONS - 1] -= 4 - gap;
        lists.extend([
            crowded(0, &[10, 10 + gap], 0, 100),
            crowded(0, &[10, 10 + gap, 40, 50], 0, 100),
            crowded(0, &[10, 20, 20 + gap, 40], 4, 100),
            crowded(0, &[10, 20, 40, 40 + gap], 4, MAX),
            crowded(0, &[10, MAX - gap, MAX], 0, MAX),
            crowded(MAX - 8, &[MAX - 3 - gap, MAX - 3], 3, MAX),
            crowded(0, &last_is_close, 0, 20_000),
        ]);
    }
    lists
}

/// A state of a new device with these two lists.
fn state(listed: [&Listed; 2]) -> Vec<u8> {
    let mut state = Machine::new(true).saved().1;
    for (index, listed) in listed.into_iter().enumerate().rev() {
        let numbers = device::stream(index);
        put::<2>(&mut state, numbers + stream::DESCRIPTOR, 7 + index as u64);
        put::<4>(&mut state, numbers + stream::OFFSET, listed.offset);
        put::<8>(&mut state, numbers + stream::SUBMITTED, listed.submitted);
        put::<8>(&mut state, numbers + stream::CONSUMED, listed.consumed);
        put::<8>(&mut state, numbers + stream::TIME, 123);
        put::<4>(&mut state, numbers + stream::PENDING, listed.positions.len() as u64);
        let end = numbers + device::STREAM;
        state.splice(end..end, listed.positions.iter().flat_map(|position| position.to_le_bytes()));
    }
    state
}

/// A machine whose list space is full of bytes that would show; the buffer is the state.
fn lent(state: Vec<u8>) -> Lent {
    let mut lent = Lent::of(&Machine::new(true), 64, 0);
    lent.lists.fill(FILLER);
    lent.buffer = state;
    lent
}

/// What a call gives, and the machine that it leaves, which is the expected one.
fn called(call: Call, before: &Lent) -> (u8, Lent) {
    let mut after = before.clone();
    let number = call.make(&mut after).number();
    let found = if number == number::DONE { Ok(states::without_interrupts(after.clone())) } else { Err(number) };
    let expected = states::restored(before, call.crowded().unwrap()).map(states::without_interrupts);
    assert!(found == expected, "{call:?} gave {number}");
    assert!(number == number::DONE || after == *before, "{call:?}: a refusal changed a byte");
    (number, after)
}

/// Whether a machine has a stream's list as the state has it, or has it empty: no other number of the stream differs, and the list space has the positions or what it had.
fn has(lent: &Lent, index: usize, listed: &Listed) -> bool {
    let positions = if listed.crowded { &[][..] } else { &listed.positions };
    let (numbers, list) = (device::stream(index), &lent.lists[LIST * index..][..LIST]);
    let (laid, rest) = list.split_at(8 * positions.len());
    get::<2>(&lent.device, numbers + stream::DESCRIPTOR) == 7 + index as u64
        && get::<4>(&lent.device, numbers + stream::OFFSET) == listed.offset
        && get::<8>(&lent.device, numbers + stream::SUBMITTED) == listed.submitted
        && get::<8>(&lent.device, numbers + stream::CONSUMED) == listed.consumed
        && get::<8>(&lent.device, numbers + stream::TIME) == 123
        && get::<4>(&lent.device, numbers + stream::PENDING) == positions.len() as u64
        && laid.chunks(8).zip(positions).all(|(bytes, position)| get::<8>(bytes, 0) == *position)
        && rest.iter().all(|byte| *byte == FILLER)
}

/// The list as the call for crowded lists takes it.
fn emptied(listed: &Listed) -> Listed {
    if listed.crowded { Listed { positions: Vec::new(), crowded: false, ..listed.clone() } } else { listed.clone() }
}

/// Every list in either stream beside every other.
#[test]
fn each_pair_of_lists() {
    let lists = [lists_apart(), crowded_lists()].concat();
    for first in &lists {
        for second in &lists {
            let before = lent(state([first, second]));
            let (number, after) = called(Call::RestoreEmptied, &before);
            assert!(number == number::DONE && has(&after, 0, first) && has(&after, 1, second), "{first:?} {second:?}");
            let expected = if first.crowded || second.crowded { number::CROWDED } else { number::DONE };
            assert_eq!(called(Call::Restore, &before).0, expected, "{first:?} {second:?}");
            // Restore takes the state without the crowded lists, and leaves the same.
            let without = lent(state([&emptied(first), &emptied(second)]));
            let (number, other) = called(Call::Restore, &without);
            assert!(number == number::DONE && Lent { buffer: before.buffer, ..other } == after, "{first:?} {second:?}");
        }
    }
}

/// A device record may have a crowded list: no call refuses it, and it is saved as it stands. Only restore asks for more.
#[test]
fn records_with_crowded_lists() {
    for listed in crowded_lists() {
        let mut lent = lent(Vec::new());
        for index in 0..2 {
            let numbers = device::stream(index);
            put::<4>(&mut lent.device, numbers + stream::OFFSET, listed.offset);
            put::<8>(&mut lent.device, numbers + stream::SUBMITTED, listed.submitted);
            put::<8>(&mut lent.device, numbers + stream::CONSUMED, listed.consumed);
            put::<4>(&mut lent.device, numbers + stream::PENDING, listed.positions.len() as u64);
            for (place, position) in listed.positions.iter().enumerate() {
                put::<8>(&mut lent.lists, LIST * index + 8 * place, *position);
            }
        }
        lent.buffer = lent.saved();
        for call in Call::EACH {
            let number = call.make(&mut lent.clone()).number();
            let expected = if call == Call::Restore { number::CROWDED } else { number::DONE };
            assert_eq!(number, expected, "{call:?} {listed:?}");
        }
    }
}
