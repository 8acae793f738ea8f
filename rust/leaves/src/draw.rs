//! Questions, drawn so that they meet the cases that the leaves tell apart.
use crate::oracles::Oracles;
use crate::question::{CodecBytes, Question};
use crate::random::Random;
use crate::unchanged::fresh_codec;

/// Nanoseconds in a second, and billionths in a tick or a frame.
pub const BILLION: u64 = 1_000_000_000;

/// Numbers at which time and its remainders turn over: ticks and frames, seconds, 32 bits, the frames that may be deferred, 64 bits.
pub const EDGES: [u64; 25] = [
    0,
    1,
    41,
    42,
    43,
    BILLION - 1,
    BILLION,
    BILLION + 1,
    (1 << 32) - 1,
    1 << 32,
    (1 << 32) + 1,
    8192 * BILLION - 1,
    8192 * BILLION,
    8192 * BILLION + 1,
    8193 * BILLION - 1,
    8193 * BILLION,
    u64::MAX / 24_000_000,
    u64::MAX / BILLION * BILLION,
    (1 << 63) - 1,
    1 << 63,
    u64::MAX - 24_000_000,
    u64::MAX - 23_999_999,
    u64::MAX - 42,
    u64::MAX - 1,
    u64::MAX,
];

/// The rates that a format word can ask for, each with such a word.
pub const RATES: [(u32, u16); 4] = [(44_100, 0x4011), (48_000, 0x0011), (88_200, 0x4811), (96_000, 0x0811)];

/// The words that are accepted, the two of request T-01 among them.
pub const WORDS: [u16; 12] = [0x0011, 0x0811, 0x0911, 0x1211, 0x1911, 0x1b11, 0x4011, 0x4811, 0x4911, 0x5211, 0x5911, 0x5b11];

/// Rates that a format word has, the wall clock's, and the ends of what a rate can be.
pub const ANY_RATES: [u32; 10] = [RATES[0].0, RATES[1].0, RATES[2].0, RATES[3].0, 24_000_000, 0, 1, 2, 1 << 31, u32::MAX];

/// The long verbs that the codec knows, and a neighbour of each run of them.
pub const LONG_VERBS: [u32; 47] = [
    0xf00, 0xf01, 0xf02, 0xf03, 0xf04, 0xf05, 0xf06, 0xf07, 0xf08, 0xf09, 0xf0a, 0xf0c, 0xf0d, 0xf0e, 0xf1b, 0xf1c, 0xf1d, 0xf1f, 0xf20,
    0xf21, 0x700, 0x701, 0x702, 0x703, 0x704, 0x705, 0x706, 0x707, 0x708, 0x709, 0x70a, 0x70c, 0x70d, 0x70e, 0x71b, 0x71c, 0x71d, 0x71e,
    0x71f, 0x720, 0x721, 0x722, 0x723, 0x724, 0x7fe, 0x7ff, 0x800,
];

/// The short verbs that the codec knows: set and get format, set and get amplifier.
pub const SHORT_VERBS: [u32; 4] = [0x2, 0x3, 0xa, 0xb];

/// The parameters that a node can have are below this.
pub const PARAMETERS: u64 = 0x14;

/// A payload of 8 bits, often one at which a mask or a parameter changes.
pub fn payload(random: &mut Random) -> u32 {
    if random.once_in(2) {
        u32::from(random.byte())
    } else {
        random.pick(&[0, 1, 2, 3, 4, 5, 7, 8, 9, 0xa, 0xb, 0xc, 0xd, 0xe, 0xf, 0x10, 0x12, 0x13, 0x40, 0x4a, 0x7f, 0x80, 0xca, 0xff])
    }
}

/// 16 bits: any, or an accepted format word.
pub fn format(random: &mut Random) -> u16 {
    if random.once_in(2) { random.word() as u16 } else { random.pick(&WORDS) }
}

/// A command: mostly to the codec and a node that are there, by a verb that is known. One in sixteen reads a parameter that some node has.
pub fn command(random: &mut Random) -> u32 {
    let address = if random.once_in(24) { random.below(32) as u32 } else { 0 };
    let nodes = if random.once_in(12) { 128 } else { 6 };
    let node = random.below(nodes) as u32;
    let verb = match random.below(16) {
        0 => 0xf_0000 | random.below(PARAMETERS) as u32,
        1..8 => random.pick(&LONG_VERBS) << 8 | payload(random),
        8..14 => random.pick(&SHORT_VERBS) << 16 | u32::from(format(random)),
        _ => random.below(1 << 20) as u32,
    };
    address << 27 | node << 20 | verb
}

/// A codec as a command may find it: fresh, or any bytes, as after a restore.
pub fn codec(random: &mut Random, fresh: &CodecBytes) -> CodecBytes {
    let mut codec = *fresh;
    if random.once_in(2) {
        random.fill(&mut codec);
    }
    codec
}

/// A fresh codec after up to 40 commands.
pub fn used_codec(random: &mut Random, oracles: &mut Oracles) -> CodecBytes {
    let mut codec = fresh_codec();
    for _ in 0..random.below(41) {
        codec = oracles.after(&codec, command(random));
    }
    codec
}

/// Whether a converter is connected, of a codec that was made to be and then changed in up to two of the places that decide it.
pub fn connected(random: &mut Random, fresh: &CodecBytes) -> Question {
    let mut codec = codec(random, fresh);
    let (input, tag, format) = (random.once_in(2), 1 + random.below(15) as u8, format(random));
    connect(&mut codec, input, tag, format);
    let mut question = (codec, input, tag, format);
    for _ in 0..random.below(3) {
        disturb(random, &mut question);
    }
    let (codec, input, tag, format) = question;
    Question::Connected { codec, input, tag, format }
}

/// The places of a codec that decide whether a direction is connected: group, converter and pin.
fn places(input: bool) -> (usize, usize, usize) {
    if input { (24, 4 * 24, 5 * 24) } else { (24, 2 * 24, 3 * 24) }
}

/// Makes a direction of the codec connected.
pub fn connect(codec: &mut CodecBytes, input: bool, tag: u8, format: u16) {
    let (group, converter, pin) = places(input);
    codec[group + 5] = 0;
    codec[converter + 5] = 0;
    codec[pin + 5] = 0;
    codec[converter + 6] = tag << 4;
    codec[converter + 10..converter + 12].copy_from_slice(&format.to_le_bytes());
    codec[pin + 7] |= if input { 0x20 } else { 0x40 };
}

/// One change to what decides: a power state, the tag or channel, the format, the pin's enable bits, the direction asked for.
fn disturb(random: &mut Random, (codec, input, tag, format): &mut (CodecBytes, bool, u8, u16)) {
    let (group, converter, pin) = places(*input);
    let (bit, other) = (1 << random.below(8), random.byte());
    match random.below(9) {
        0 => codec[group + 5] ^= bit,
        1 => codec[converter + 5] ^= bit,
        2 => codec[pin + 5] ^= bit,
        3 => codec[converter + 6] ^= bit,
        4 => codec[converter + 10 + random.below(2) as usize] ^= bit,
        5 => codec[pin + 7] = other,
        6 => *tag = random.pick(&[0, *tag ^ bit, other]),
        7 => *format ^= 1 << random.below(16),
        _ => *input = !*input,
    }
}

/// A number of any size: at an edge, near one, near a whole number of seconds, or with any count of bits.
pub fn number(random: &mut Random) -> u64 {
    let near = random.below(9).wrapping_sub(4);
    match random.below(8) {
        0 => random.pick(&EDGES),
        1 => random.pick(&EDGES).wrapping_add(near),
        2 => random.below(10_000).wrapping_mul(BILLION).wrapping_add(near),
        _ => random.word() >> random.below(64),
    }
}

/// Any remainder below a billion, or any number.
fn fraction(random: &mut Random) -> u64 {
    if random.once_in(2) { random.below(BILLION) } else { number(random) }
}

pub fn clock(random: &mut Random) -> Question {
    let (ticks, fraction, nanos) = (number(random), fraction(random), number(random));
    Question::Clock { ticks, fraction, nanos }
}

pub fn time(random: &mut Random) -> Question {
    let rate = if random.once_in(4) { random.word() as u32 >> random.below(32) } else { random.pick(&ANY_RATES) };
    Question::Time { fraction: fraction(random), nanos: number(random), rate }
}

#[cfg(test)]
mod tests {
    use super::*;

    const DRAWS: usize = 100_000;
    /// The words of request T-01.
    const NEW: [u16; 2] = [0x4811, 0x5911];

    #[test]
    fn commands_often_ask_for_the_rates_and_keep_the_new_words() {
        let (mut random, mut oracles) = (Random::new(1), Oracles::new());
        let (mut reads, mut sets, mut gets) = (0, 0, 0);
        let mut codec = fresh_codec();
        for _ in 0..DRAWS {
            let command = command(&mut random);
            let (node, verb, word) = ((command >> 20) as usize, command >> 16 & 0xf, command as u16);
            let kept = |node: usize| u16::from_le_bytes([codec[24 * node + 10], codec[24 * node + 11]]);
            reads += usize::from(matches!(command, 0x1f_000a | 0x2f_000a | 0x4f_000a));
            sets += usize::from(matches!(node, 2 | 4) && verb == 0x2 && NEW.contains(&word));
            gets += usize::from(matches!(node, 2 | 4) && verb == 0xa && NEW.contains(&kept(node)));
            codec = oracles.after(&codec, command);
        }
        assert!(reads >= DRAWS / 1000, "{reads} reads of parameter 0x0a");
        assert!(sets >= DRAWS / 1000, "{sets} sets");
        assert!(gets >= DRAWS / 1000, "{gets} gets");
    }

    #[test]
    fn the_new_words_are_often_among_the_connected() {
        let mut random = Random::new(1);
        let fresh = fresh_codec();
        let new = |question| matches!(question, Question::Connected { format, .. } if NEW.contains(&format));
        let count = (0..DRAWS).filter(|_| new(connected(&mut random, &fresh))).count();
        assert!(count >= DRAWS / 20, "{count} connections");
    }
}
