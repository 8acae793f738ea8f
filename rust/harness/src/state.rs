//! The saved state's layout: 748 bytes and 8 for each pending completion.
use crate::side::Direction;

/// Named texts of a state's parts, in the order of the layout.
pub type Fields = Vec<(String, String)>;

/// A saved state, each part under document 01's name. Every value can be held, also those that restore refuses.
#[derive(Clone, Debug, PartialEq, Eq)]
pub struct State {
    pub mark: [u8; 4],
    pub microphone: u8,
    pub paused: u8,
    pub config: [u8; 256],
    pub registers: [u8; 256],
    pub codec: [u8; 144],
    pub ticks: u64,
    pub remainder: u64,
    pub responses: u16,
    pub streams: [Stream; 2],
}

#[derive(Clone, Debug, Default, PartialEq, Eq)]
pub struct Stream {
    pub descriptor: u16,
    pub offset: u32,
    pub submitted: u64,
    pub consumed: u64,
    pub time: u64,
    pub pending: Vec<u64>,
}

/// Bytes that neighbours of a list are apart at least, else it is crowded.
pub const SPACING: u64 = 4;
/// Where the registers start in a saved state.
pub const REGISTERS: usize = 4 + 1 + 1 + 256;
/// Where the streams start in a saved state.
pub const STREAMS: usize = REGISTERS + 256 + 144 + 8 + 8 + 2;
/// Bytes of a stream before its list.
pub const STREAM_BYTES: usize = 2 + 4 + 8 + 8 + 8 + 4;

/// The places where a field of a state without pending completions starts or ends.
pub const BOUNDARIES: [usize; 22] = [0, 4, 5, 6, 262, 518, 662, 670, 678, 680, 682, 686, 694, 702, 710, 714, 716, 720, 728, 736, 744, 748];

impl State {
    /// Reads what save wrote. Bytes that save never writes give none.
    pub fn parse(bytes: &[u8]) -> Option<Self> {
        let mut reader = Reader(bytes);
        let state = Self {
            mark: reader.take()?,
            microphone: reader.take::<1>()?[0],
            paused: reader.take::<1>()?[0],
            config: reader.take()?,
            registers: reader.take()?,
            codec: reader.take()?,
            ticks: reader.u64()?,
            remainder: reader.u64()?,
            responses: u16::from_le_bytes(reader.take()?),
            streams: [Stream::parse(&mut reader)?, Stream::parse(&mut reader)?],
        };
        reader.0.is_empty().then_some(state)
    }

    pub fn bytes(&self) -> Vec<u8> {
        let mut bytes = self.mark.to_vec();
        bytes.extend([self.microphone, self.paused]);
        bytes.extend(self.config);
        bytes.extend(self.registers);
        bytes.extend(self.codec);
        bytes.extend(self.ticks.to_le_bytes());
        bytes.extend(self.remainder.to_le_bytes());
        bytes.extend(self.responses.to_le_bytes());
        for stream in &self.streams {
            stream.write(&mut bytes);
        }
        bytes
    }
}

impl Stream {
    /// Gives the stream a list of `count` positions `spacing` apart, of which the last is as far below submitted as the descriptor's offset asks.
    pub fn fill(&mut self, count: u64, spacing: u64) {
        let offset = u64::from(self.offset);
        self.submitted = self.submitted.max(spacing * count + offset);
        self.consumed = self.submitted - offset - spacing * count;
        self.pending = (1..=count).map(|place| self.consumed + spacing * place).collect();
    }

    /// Whether restore refuses the list with 20: request T-09's sentence, in sums that do not wrap. The positions need not rise.
    pub fn is_crowded(&self) -> bool {
        let near = |pair: &[u64]| u128::from(pair[0]) + u128::from(SPACING) > u128::from(pair[1]);
        let above = |last: &u64| u128::from(*last) + u128::from(self.offset) > u128::from(self.submitted);
        self.pending.windows(2).any(near) || self.pending.last().is_some_and(above)
    }

    /// Whether the positions rise from consumed to submitted, without which restore gives 7.
    pub fn rises(&self) -> bool {
        let from = std::iter::once(&self.consumed).chain(&self.pending);
        from.zip(&self.pending).all(|(one, next)| one < next && *next <= self.submitted)
    }

    fn parse(reader: &mut Reader) -> Option<Self> {
        let mut stream = Self {
            descriptor: u16::from_le_bytes(reader.take()?),
            offset: u32::from_le_bytes(reader.take()?),
            submitted: reader.u64()?,
            consumed: reader.u64()?,
            time: reader.u64()?,
            pending: Vec::new(),
        };
        for _ in 0..u32::from_le_bytes(reader.take()?) {
            stream.pending.push(reader.u64()?);
        }
        Some(stream)
    }

    fn write(&self, bytes: &mut Vec<u8>) {
        bytes.extend(self.descriptor.to_le_bytes());
        bytes.extend(self.offset.to_le_bytes());
        bytes.extend(self.submitted.to_le_bytes());
        bytes.extend(self.consumed.to_le_bytes());
        bytes.extend(self.time.to_le_bytes());
        bytes.extend((self.pending.len() as u32).to_le_bytes());
        bytes.extend(self.pending.iter().flat_map(|position| position.to_le_bytes()));
    }
}

struct Reader<'a>(&'a [u8]);

impl Reader<'_> {
    fn take<const N: usize>(&mut self) -> Option<[u8; N]> {
        let (head, tail) = self.0.split_first_chunk::<N>()?;
        self.0 = tail;
        Some(*head)
    }

    fn u64(&mut self) -> Option<u64> {
        self.take().map(u64::from_le_bytes)
    }
}

/// What coverage looks at in a stream of a saved state, read in place: parsing a state after every call would be slow.
#[derive(Clone, Copy, Debug, Default, PartialEq, Eq)]
pub struct Progress {
    pub control: u8,
    pub status: u8,
    pub format: u16,
    pub submitted: u64,
    pub pending: u32,
}

/// The progress of both streams in a saved state.
pub fn progress(state: &[u8]) -> [Progress; 2] {
    let mut start = STREAMS;
    Direction::BOTH.map(|direction| {
        let registers = REGISTERS + 0x80 + 32 * direction.index();
        let pending = u32::from_le_bytes(state[start + 30..start + 34].try_into().unwrap());
        let submitted = u64::from_le_bytes(state[start + 6..start + 14].try_into().unwrap());
        start += STREAM_BYTES + 8 * pending as usize;
        let format = u16::from_le_bytes([state[registers + 0x12], state[registers + 0x13]]);
        Progress { control: state[registers], status: state[registers + 3], format, submitted, pending }
    })
}

/// The parts of a state by name; bytes that are no saved state stand under one name.
pub fn fields(bytes: &[u8]) -> Fields {
    let Some(state) = State::parse(bytes) else {
        return vec![("state".into(), crate::ops::hex(bytes))];
    };
    let mut fields = vec![
        ("mark".into(), crate::ops::hex(&state.mark)),
        ("microphone".into(), state.microphone.to_string()),
        ("paused".into(), state.paused.to_string()),
    ];
    push_bytes(&mut fields, "config", &state.config);
    push_bytes(&mut fields, "register", &state.registers);
    for (node, record) in state.codec.chunks(24).enumerate() {
        push_bytes(&mut fields, &format!("node{node}"), record);
    }
    fields.push(("clock.ticks".into(), state.ticks.to_string()));
    fields.push(("clock.remainder".into(), state.remainder.to_string()));
    fields.push(("responses".into(), state.responses.to_string()));
    for direction in Direction::BOTH {
        push_stream(&mut fields, direction.name(), &state.streams[direction.index()]);
    }
    fields
}

fn push_bytes(fields: &mut Fields, name: &str, bytes: &[u8]) {
    fields.extend(bytes.iter().enumerate().map(|(place, byte)| (format!("{name}.{place:02x}"), format!("{byte:#04x}"))));
}

fn push_stream(fields: &mut Fields, name: &str, stream: &Stream) {
    let positions: Vec<String> = stream.pending.iter().map(u64::to_string).collect();
    let numbers = [
        ("descriptor", u64::from(stream.descriptor)),
        ("offset", u64::from(stream.offset)),
        ("submitted", stream.submitted),
        ("consumed", stream.consumed),
        ("time", stream.time),
        ("pending", stream.pending.len() as u64),
    ];
    fields.extend(numbers.map(|(part, number)| (format!("{name}.{part}"), number.to_string())));
    fields.push((format!("{name}.positions"), if positions.is_empty() { "-".into() } else { positions.join(",") }));
}

#[cfg(test)]
mod tests {
    use super::*;
    use crate::device::Reference;
    use crate::side::Side;

    #[test]
    fn a_saved_state_is_read_and_written_back() {
        let (_, saved) = Reference::new(true, 4096).save();
        let mut state = State::parse(&saved).unwrap();
        assert_eq!((saved.len(), state.bytes()), (748, saved));
        state.streams[1] = Stream { submitted: 9, pending: vec![3, 9], ..Stream::default() };
        assert_eq!(State::parse(&state.bytes()).as_ref(), Some(&state));
        assert_eq!(progress(&state.bytes())[1], Progress { submitted: 9, pending: 2, ..Progress::default() });
        assert_eq!(State::parse(&state.bytes()[1..]), None);
    }

    #[test]
    fn a_list_is_crowded_by_its_neighbours_or_by_the_offset_behind_its_last() {
        let mut stream = Stream { offset: 5, ..Stream::default() };
        stream.fill(3, SPACING);
        assert_eq!((stream.submitted, stream.consumed, stream.pending.as_slice()), (17, 0, [4, 8, 12].as_slice()));
        assert!(stream.rises() && !stream.is_crowded());
        assert!(Stream { pending: vec![4, 9, 12], ..stream.clone() }.is_crowded());
        assert!(Stream { offset: 6, ..stream.clone() }.is_crowded());
        assert!(!Stream { offset: u32::MAX, pending: Vec::new(), ..stream.clone() }.is_crowded());
        assert!(!Stream { pending: vec![4, 4], ..stream.clone() }.rises());
        assert!(!Stream { pending: vec![18], ..stream }.rises());
        let last = Stream { offset: 1, submitted: u64::MAX, pending: vec![u64::MAX], ..Stream::default() };
        assert!(last.rises() && last.is_crowded(), "the sum passes 64 bits");
    }
}
