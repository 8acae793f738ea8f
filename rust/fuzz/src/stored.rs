//! Random states for the calls that take one: mostly such as are accepted, or wrong in one way.
use fuzz::any::{Handed, Lent};
use port::Machine;
use port::layout::{device, get, put, stream};
use random::Random;

/// The machine's own state or a new device's with a few fields changed, or any bytes.
pub fn state(random: &mut Random, lent: &Lent) -> Vec<u8> {
    if random.percent(8) {
        let length = random.below(800) as usize;
        return random.bytes(length);
    }
    let mut state = if random.percent(60) && lent.refusal(Handed::Machine).is_none() {
        lent.saved()
    } else {
        Machine::new(lent.device.get(device::MICROPHONE) != Some(&0)).saved().1
    };
    for _ in 0..random.below(5) {
        change_state(random, &mut state);
    }
    // Last, what makes the places of fields uncertain.
    match random.below(20) {
        0 => state.truncate(random.below(state.len() as u64) as usize),
        1 => state.push(random.byte()),
        2 => {
            let count = random.pick(&[1, 2, 4352, 4353, u64::from(u32::MAX)]);
            put::<4>(&mut state, device::stream(0) + stream::PENDING, count);
        }
        _ => {}
    }
    state
}

/// A valid machine's own state, of which one list may be another.
pub fn relisted(random: &mut Random, lent: &Lent) -> Vec<u8> {
    let mut state = lent.saved();
    if random.flag() {
        let numbers = numbers_in(&state, random.below(2) as usize);
        lay_list(random, &mut state, numbers);
    }
    state
}

/// Where a whole state has a stream's numbers: those of the second stand behind the list of the first.
fn numbers_in(state: &[u8], index: usize) -> usize {
    let first = get::<4>(state, device::stream(0) + stream::PENDING) as usize;
    device::stream(index) + 8 * first * index
}

/// One field of a whole state, mostly to what a device takes.
fn change_state(random: &mut Random, state: &mut Vec<u8>) {
    let index = random.below(2) as usize;
    let registers = device::REGISTERS + 0x80 + 32 * index;
    let numbers = numbers_in(state, index);
    let (word, any) = (random.pick(&[0x0011, 0x4011, 0x5b11, 0x0911, 0, 0x2011]), random.next_u64());
    let billions = random.pick(&[0, 999_999_999, 1_000_000_000, 8192 * 1_000_000_000, 8193 * 1_000_000_000 - 1, 8193 * 1_000_000_000]);
    match random.below(16) {
        0 => state[random.pick(&[device::MICROPHONE, device::PAUSED, device::PAUSED, 3])] = random.pick(&[0, 1, b'1', 2]),
        1 => put::<2>(state, device::CODEC + 24 * random.pick(&[2, 4]) + 10, word),
        2 => put::<2>(state, registers + 0x12, word),
        3..6 => state[registers] = random.pick(&[2, 6, 0, 3]),
        6 => put::<8>(state, device::TICKS, random.pick(&[0, any, u64::MAX])),
        7 => put::<8>(state, device::REMAINDER, billions),
        8 => put::<2>(state, device::RESPONSES, random.pick(&[0, 255, 256])),
        9 => put::<2>(state, numbers + stream::DESCRIPTOR, random.pick(&[0, 255, 255, 256])),
        10 => put::<8>(state, numbers + stream::TIME, billions),
        11 => {
            let place = random.below(device::stream(0) as u64) as usize;
            state[place] = random.byte();
        }
        12 => put::<4>(state, numbers + stream::OFFSET, random.pick(&[0, 4, 1024, u64::from(u32::MAX)])),
        _ => lay_list(random, state, numbers),
    }
}

/// Counts and positions of the stream whose numbers stand at a place, in the room that its list has there: crowded or not, mostly by one byte.
fn lay_list(random: &mut Random, state: &mut Vec<u8>, numbers: usize) {
    let (list, length) = (numbers + device::STREAM, 8 * get::<4>(state, numbers + stream::PENDING) as usize);
    let count = random.pick(&[0, 1, 2, 3, 40, 4352, 4353]);
    let (small, room) = (random.below(1000), 4 * count + random.pick(&[0, 1, 4, 20, 30_000]));
    let consumed = random.pick(&[0, small, u64::MAX - room]);
    let mut positions: Vec<u64> = (1..=count).map(|place| consumed + 4 * place).collect();
    let (submitted, offset) = beyond(random, consumed + 4 * count);
    put::<8>(state, numbers + stream::CONSUMED, consumed);
    put::<8>(state, numbers + stream::SUBMITTED, submitted);
    put::<4>(state, numbers + stream::OFFSET, offset);
    put::<4>(state, numbers + stream::PENDING, count);
    if count > 0 && random.percent(40) {
        let place = random.below(count) as usize;
        let position = positions[place];
        // From 1 to 3 below it is close to the one before, but the first has none.
        let others = [0, consumed, position - 1, position - 2, position - 3, position - 4, position.saturating_add(4), u64::MAX];
        positions[place] = random.pick(&others);
    }
    let bytes = positions.iter().flat_map(|position| position.to_le_bytes());
    state.splice(list..list + length, bytes);
}

/// What was submitted and the descriptor offset, which may reach just as far beyond the last position as was submitted, or a byte further.
fn beyond(random: &mut Random, last: u64) -> (u64, u64) {
    let offset = random.weighted(&[(8, 0), (4, 4), (1, 1), (1, 1000), (1, u64::from(u32::MAX))]);
    let more = random.below(3);
    let submitted = random.weighted(&[(6, offset), (4, offset + more), (2, offset.saturating_sub(1)), (1, 0)]);
    (last.saturating_add(submitted), offset)
}
