//! Sequences written by hand, for what generated ones hardly reach: the two words of an unsolicited response, a restore where two clocks
//! are less than a tick apart, and a stall from its longest to its end (request T-10).
use crate::device::Reference;
use crate::ops::{Op, execute};
use crate::side::Side;

const MEMORY: usize = 4096;
const BEGIN: Op = Op::New { microphone: true, memory: MEMORY };
/// Where guest memory has the rings, of 16 entries each.
const COMMANDS: u64 = 0x400;
const RESPONSES: u64 = 0x800;

/// The pins that may respond, and what verb 0x708 sets at both, turn by turn: tags that differ, the largest and one with bit 6 set, the enable
/// clear at either, and both on again.
const PINS: [u8; 2] = [3, 5];
const CONTROLS: [[u8; 2]; 5] = [[0x85, 0xaa], [0xbf, 0xc1], [0x3f, 0x9c], [0xe3, 0x7f], [0x96, 0xb1]];
/// Nodes that never respond, and what the same verb sets there, where there is such a node.
const OTHERS: [u8; 5] = [1, 2, 4, 6, 0x13];
const OTHERS_CONTROL: u8 = 0x99;

/// Nanoseconds after which a clock has 24,000 ticks, the same and a larger remainder, and one tick more with the smallest remainder.
const MOMENTS: [u64; 3] = [1_000_003, 1_000_013, 1_000_042];

/// Frames that each pull after a stall asks for, and how many pulls there are: as many as it takes.
const STALLS: [(usize, usize); 2] = [(256, 32), (255, 33)];
/// The pull before which guest memory is rewritten, and the pulls between two changes of the downstream count, each to the next of these.
const REWRITING_PULL: usize = 10;
const DOWNSTREAM_PULLS: usize = 4;
const DOWNSTREAM: [u32; 3] = [0, 14_336, 400];
/// Addresses, lengths and flags of the descriptors, which a rewriting exchanges for the others. The lengths stay, since the stream stands inside of one.
const DESCRIPTORS: [[(u64, u32, u32); 3]; 2] =
    [[(0x400, 1020, 1), (0x800, 900, 0), (0xc00, 8, 1)], [(0xa04, 1020, 0), (0x104, 900, 1), (0x600, 8, 1)]];

/// The sequences; none of their calls meets a difference.
pub fn all() -> [Vec<Op>; 3] {
    [unsolicited(), clocks(), stalls()]
}

/// Pin changes while unsolicited responses are on and off, at the pin, at the controller, and for want of DMA or of the response ring.
fn unsolicited() -> Vec<Op> {
    let mut ops = vec![
        BEGIN,
        Op::Noise(1),
        Op::Poke { address: COMMANDS + 4, data: commands() },
        bus_master(true),
        // GCTL: out of reset, and unsolicited responses accepted. INTCTL: the controller's interrupts.
        write(0x08, &[1, 1]),
        write(0x20, &[0, 0, 0, 0xc0]),
        // The rings' bases and sizes, two responses to an interrupt, and both rings on.
        write(0x40, &COMMANDS.to_le_bytes()),
        write(0x50, &RESPONSES.to_le_bytes()),
        write(0x4e, &[1]),
        write(0x5e, &[1]),
        write(0x5a, &[2]),
        write(0x4c, &[2]),
        write(0x5c, &[7]),
    ];
    for turn in 1..=CONTROLS.len() {
        ops.push(write(0x48, &[(OTHERS.len() + PINS.len() * turn) as u8]));
        ops.extend(pin_changes());
    }
    // Off and on: GCTL's acceptance, DMA, the response ring.
    let switches = [[write(0x09, &[0]), write(0x09, &[1])], [bus_master(false), bus_master(true)], [write(0x5c, &[5]), write(0x5c, &[7])]];
    for [off, on] in switches {
        ops.push(off);
        ops.extend(pin_changes());
        ops.push(on);
    }
    ops.extend(pin_changes());
    ops
}

/// The commands of all turns, as they stand in the ring, behind those to the other nodes.
fn commands() -> Vec<u8> {
    let command = |(node, control): (u8, u8)| u32::from(node) << 20 | 0x708 << 8 | u32::from(control);
    let others = OTHERS.into_iter().map(|node| (node, OTHERS_CONTROL));
    let turns = CONTROLS.into_iter().flat_map(|controls| PINS.into_iter().zip(controls));
    others.chain(turns).map(command).flat_map(u32::to_le_bytes).collect()
}

/// A change at every pin and at other nodes; then the response ring's pointer and status are read, and the status is cleared.
fn pin_changes() -> Vec<Op> {
    let mut ops: Vec<Op> = PINS.into_iter().chain(OTHERS).map(Op::Pin).collect();
    ops.extend([Op::Read { offset: 0x58, length: 2 }, Op::Read { offset: 0x5d, length: 1 }, write(0x5d, &[5])]);
    ops
}

/// Every pair of moments: the device's clock at one, restored with a state that was saved at the other.
fn clocks() -> Vec<Op> {
    let mut ops = vec![BEGIN];
    for own in MOMENTS {
        for other in MOMENTS {
            ops.extend(reset_and_run(own));
            ops.extend([Op::Restore(saved(other)), Op::Save, Op::Read { offset: 0x30, length: 4 }]);
        }
    }
    ops
}

/// Sets the clock to 0 by a reset of the controller, and lets it run.
fn reset_and_run(nanoseconds: u64) -> [Op; 3] {
    [write(0x08, &[0]), write(0x08, &[1]), Op::Advance(nanoseconds)]
}

/// The state of a device that has run for a time.
fn saved(nanoseconds: u64) -> Vec<u8> {
    let mut device = Reference::new(true, MEMORY);
    for op in reset_and_run(nanoseconds) {
        execute(&mut device, &op);
    }
    device.save().1
}

/// A playback stream whose host is away for two seconds, so that its queue is full and 8,192 frames are deferred, and then pulls until none is, while no time
/// passes; once for each of the pulls' lengths.
fn stalls() -> Vec<Op> {
    let mut ops = playing();
    for (stall, (frames, pulls)) in STALLS.into_iter().enumerate() {
        ops.extend([Op::Advance(1_000_000_000), Op::Advance(1_000_000_000)]);
        for pull in 0..pulls {
            if pull == REWRITING_PULL {
                ops.extend(rewritten((stall + 1) % DESCRIPTORS.len()));
            }
            if pull.is_multiple_of(DOWNSTREAM_PULLS) {
                ops.push(Op::Downstream(DOWNSTREAM[pull / DOWNSTREAM_PULLS % DOWNSTREAM.len()]));
            }
            ops.extend([Op::Pull(4 * frames), Op::Advance(0)]);
        }
    }
    ops
}

/// A device that plays noise at 48,000, unity gain, with interrupts on completion.
fn playing() -> Vec<Op> {
    let cyclic: u32 = DESCRIPTORS[0].iter().map(|(_, length, _)| length).sum();
    let mut ops = vec![BEGIN];
    ops.extend(rewritten(0));
    ops.extend([bus_master(true), write(0x08, &[1]), write(0x20, &[2, 0, 0, 0xc0])]);
    // The output converter: stream tag 2, format and gain.
    ops.extend([0x0027_0620, 0x0022_0011, 0x0023_b04a].map(immediate));
    ops.extend([
        write(0xa2, &[0x20]),
        write(0xa8, &cyclic.to_le_bytes()),
        write(0xac, &[DESCRIPTORS[0].len() as u8 - 1]),
        write(0xb2, &[0x11, 0]),
        write(0xa0, &[6]),
    ]);
    ops
}

/// Other noise in guest memory, with one of the descriptor lists at address 0.
fn rewritten(list: usize) -> [Op; 2] {
    let descriptor = |(address, length, flags): (u64, u32, u32)| {
        [address.to_le_bytes(), (u64::from(flags) << 32 | u64::from(length)).to_le_bytes()].concat()
    };
    let data = DESCRIPTORS[list].into_iter().flat_map(descriptor).collect();
    [Op::Noise(2 + list as u64), Op::Poke { address: 0, data }]
}

/// A command by the immediate registers.
fn immediate(command: u32) -> Op {
    let mut data = command.to_le_bytes().to_vec();
    data.extend([0, 0, 0, 0, 1]);
    write(0x60, &data)
}

fn write(offset: u64, data: &[u8]) -> Op {
    Op::Write { offset, data: data.to_vec() }
}

fn bus_master(on: bool) -> Op {
    Op::ConfigWrite { register: 1, offset: 0, data: vec![if on { 6 } else { 2 }] }
}

#[cfg(test)]
mod tests {
    use super::*;
    use crate::side::Direction;
    use crate::state::State;
    use port::layout::get;

    /// Runs a sequence on the unchanged Rust, and gives what is seen after each call, with the call.
    fn run<T>(ops: Vec<Op>, seen: fn(&Reference) -> T) -> Vec<(Op, T)> {
        let mut device = Reference::new(true, MEMORY);
        let step = |op| {
            execute(&mut device, &op);
            (op, seen(&device))
        };
        ops.into_iter().map(step).collect()
    }

    fn state(device: &Reference) -> State {
        State::parse(&device.view().state).expect("a device saves a state")
    }

    /// The response ring's pointer, and the response that stands there.
    fn response(device: &Reference) -> (u64, u64) {
        let pointer = get::<2>(&state(device).registers, 0x58);
        (pointer, get::<8>(device.memory(), (RESPONSES + 8 * pointer) as usize))
    }

    #[test]
    fn a_pin_that_is_on_responds_with_its_tag_and_the_mark() {
        let steps = run(unsolicited(), response);
        let responses = steps.windows(2).filter(|pair| matches!(pair[1].0, Op::Pin(_)) && pair[0].1.0 != pair[1].1.0);
        let came: Vec<u64> = responses.map(|pair| pair[1].1.1).collect();
        // The last controls stand until the end, where all is on again.
        let controls = CONTROLS.iter().chain(CONTROLS.last()).flatten();
        let on = controls.filter(|control| *control & 0x80 != 0);
        let expected: Vec<u64> = on.map(|control| 0x10 << 32 | u64::from(control % 64) << 26).collect();
        assert_eq!(came, expected);
    }

    #[test]
    fn a_restore_takes_the_later_clock() {
        let clock = |device: &Reference| {
            let state = state(device);
            (state.ticks, state.remainder)
        };
        let times = [(24_000, 72_000_000), (24_000, 312_000_000), (24_001, 8_000_000)];
        let steps = run(clocks(), clock);
        let restores: Vec<_> =
            steps.windows(2).filter(|pair| matches!(pair[1].0, Op::Restore(_))).map(|pair| (pair[0].1, pair[1].1)).collect();
        let expected: Vec<_> = times.iter().flat_map(|own| times.iter().map(|other| (*own, *own.max(other)))).collect();
        assert_eq!(restores, expected);
    }

    #[test]
    fn a_stall_is_over_when_its_pulls_are_made_and_not_before() {
        let deferred = |device: &Reference| state(device).streams[Direction::Playback.index()].time / 1_000_000_000;
        let steps = run(stalls(), deferred);
        let came: Vec<u64> = steps.into_iter().filter(|(op, _)| *op == Op::Advance(0)).map(|(_, deferred)| deferred).collect();
        let left = |frames: usize, pull: usize| 8192_u64.saturating_sub((frames * pull) as u64);
        let expected: Vec<u64> = STALLS.iter().flat_map(|(frames, pulls)| (1..=*pulls).map(|pull| left(*frames, pull))).collect();
        assert_eq!(came, expected);
        assert_eq!([31, 32, 64, 65].map(|pulls| came[pulls - 1]), [256, 0, 32, 0]);
    }
}
