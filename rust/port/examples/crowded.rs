//! A stored state whose completions were edited by hand and stand too close: restore refuses it, `restore_emptied` takes it, and playback goes on. `cargo run -p port --example crowded`
//! in rust/.
use port::layout::{STATE, device, get, put, stream};
use port::{Machine, Stream, number};

/// The guest's ring: flagged buffers, each of which is told when it has been heard.
const BUFFERS: usize = 4;
const BUFFER: usize = 1024;
const DESCRIPTORS: usize = 0x800;
const RING: usize = 0x1000;
const MEMORY: usize = RING + BUFFERS * BUFFER;
/// What the host's sound card holds: 20 ms, so that a few completions are always pending.
const DOWNSTREAM: u32 = 3840;
/// Registers of the stream that plays.
const CONTROL: u64 = 0xa0;
const STATUS: u64 = CONTROL + 3;
const COMPLETED: u8 = 4;

/// A device with guest memory, and all that its guest and its host saw of it.
struct Player {
    machine: Machine,
    memory: Vec<u8>,
    /// What the host pulled.
    frames: Vec<u8>,
    /// Bytes heard, each millisecond.
    heard: Vec<u64>,
    /// Ends of buffers that had been heard when the guest was told of a completion.
    told: Vec<u64>,
}

impl Player {
    fn new(memory: Vec<u8>) -> Self {
        let mut machine = Machine::new(true);
        assert_eq!(machine.set_downstream(DOWNSTREAM).number, number::DONE);
        Self { machine, memory, frames: Vec::new(), heard: Vec::new(), told: Vec::new() }
    }

    fn write(&mut self, offset: u64, bytes: &[u8]) {
        assert_eq!(self.machine.write(&mut self.memory, offset, bytes).number, number::DONE);
    }

    /// The guest's driver lets the ring play at 48,000 frames a second.
    fn start(&mut self) {
        self.machine.config_write(&mut self.memory, 1, 0, &[6]);
        self.write(0x08, &[1]);
        // Node 2 plays stream tag 1 at unity gain.
        for command in [0x0027_0610_u32, 0x0022_0011, 0x0023_b04a] {
            self.write(0x60, &command.to_le_bytes());
            self.write(0x68, &[1]);
        }
        self.write(CONTROL + 0x02, &[0x10]);
        self.write(CONTROL + 0x08, &((BUFFERS * BUFFER) as u32).to_le_bytes());
        self.write(CONTROL + 0x0c, &[BUFFERS as u8 - 1]);
        self.write(CONTROL + 0x12, &0x0011_u16.to_le_bytes());
        self.write(CONTROL + 0x18, &(DESCRIPTORS as u64).to_le_bytes());
        self.write(CONTROL, &[6]);
    }

    /// Each millisecond time passes, the host pulls, and the guest serves a completion.
    fn play(&mut self, milliseconds: usize) {
        for _ in 0..milliseconds {
            assert_eq!(self.machine.advance(&mut self.memory, 1_000_000).number, number::DONE);
            let mut pulled = [0; 2048];
            let count = 4 * self.machine.pull(&mut pulled).value as usize;
            self.frames.extend(&pulled[..count]);
            let heard = get::<8>(&self.machine.bytes().device, device::stream(1) + stream::CONSUMED);
            self.heard.push(heard);
            let mut status = [0];
            self.machine.read(STATUS, &mut status);
            if status[0] & COMPLETED != 0 {
                self.told.push(heard - heard % BUFFER as u64);
                self.write(STATUS, &[COMPLETED]);
            }
        }
    }

    /// Completions that the guest waits for.
    fn pending(&self) -> Vec<u64> {
        positions(self.machine.pending(Stream::Playback))
    }
}

fn positions(list: &[u8]) -> Vec<u64> {
    list.chunks(8).map(|position| get::<8>(position, 0)).collect()
}

/// Guest memory with the ring in it.
fn memory() -> Vec<u8> {
    let mut memory: Vec<u8> = (0..MEMORY).map(|place| (place * 7 + place / 256) as u8).collect();
    for place in 0..BUFFERS {
        let descriptor = &mut memory[DESCRIPTORS + 16 * place..][..16];
        put::<8>(descriptor, 0, (RING + BUFFER * place) as u64);
        put::<4>(descriptor, 8, BUFFER as u64);
        put::<4>(descriptor, 12, 1);
    }
    memory
}

/// What happens, as lines.
pub fn story() -> Vec<String> {
    let mut before = Player::new(memory());
    before.start();
    before.play(20);
    let (_, state) = before.machine.saved();
    let mut lines = vec![format!("saved after 20 ms, completions pending at {:?}", before.pending())];

    // The capture has none pending, so that the playback's list is all that stands behind the numbers. The other positions move down to the first, a byte apart.
    let mut edited = state.clone();
    let first = get::<8>(&edited, STATE);
    for (place, position) in edited[STATE..].chunks_mut(8).enumerate() {
        put::<8>(position, 0, first + place as u64);
    }
    lines.push(format!("edited by hand, completions at {:?}", positions(&edited[STATE..])));

    let mut whole = Player::new(before.memory.clone());
    assert_eq!(whole.machine.restore(&state).number, number::DONE);
    let mut emptied = Player::new(before.memory);
    let new = emptied.machine.clone();
    let refused = emptied.machine.restore(&edited).number;
    assert!(refused == number::CROWDED && emptied.machine == new, "a refusal changes nothing");
    lines.push(format!("restore refuses the edited state: {refused}"));
    assert_eq!(emptied.machine.restore_emptied(&edited).number, number::DONE);
    lines.push(format!("restore_emptied takes it, completions pending at {:?}", emptied.pending()));

    whole.play(40);
    emptied.play(40);
    lines.push(format!("40 ms after the state as it was, the guest was told of {:?}", whole.told));
    lines.push(format!("40 ms after the edited one, of {:?}", emptied.told));
    assert!(whole.frames == emptied.frames && whole.heard == emptied.heard, "nothing else is lost");
    let heard = emptied.heard.last().unwrap();
    lines.push(format!("both played the same {} frames, and {heard} bytes were heard", emptied.frames.len() / 4));
    lines
}

fn main() {
    for line in story() {
        println!("{line}");
    }
}
