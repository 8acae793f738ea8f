//! The proved leaves, by their C functions. Each slice crosses as a pointer and a length.
use crate::question::{Answer, CodecBytes, Question, Side};

unsafe extern "C" {
    fn hda_format(word: u16) -> u32;
    fn hda_amplify(pcm: *mut u8, length: usize, left: u8, right: u8);
    fn hda_amplify_into(pcm: *const u8, length: usize, into: *mut u8, into_length: usize, left: u8, right: u8) -> u32;
    fn hda_verb(codec: *mut u8, codec_length: usize, command: u32, reply: *mut u8, reply_length: usize) -> u32;
    fn hda_connected(codec: *const u8, length: usize, input: u8, tag: u8, format: u16) -> u32;
    fn hda_clock_advance(clock: *mut u8, length: usize, nanos: u64) -> u32;
    fn hda_accrue(fraction: u64, nanos: u64, rate: u32) -> u64;
}

pub struct Port;

// Each function takes every number and every length, and touches its slices alone.
impl Side for Port {
    fn answer(&mut self, question: &Question) -> Answer {
        match question {
            Question::Format { word } => Answer::Rate(unsafe { hda_format(*word) }),
            Question::Amplify { input: true, left, right, pcm } => amplify(pcm.clone(), *left, *right),
            Question::Amplify { input: false, left, right, pcm } => amplify_into(pcm, *left, *right),
            Question::Verb { codec, command } => verb(*codec, *command),
            Question::Clock { ticks, fraction, nanos } => clock(*ticks, *fraction, *nanos),
            Question::Time { fraction, nanos, rate } => Answer::Time(unsafe { hda_accrue(*fraction, *nanos, *rate) }),
            Question::Connected { codec, input, tag, format } => connected(codec, *input, *tag, *format),
        }
    }
}

/// In place, as a capture is amplified.
fn amplify(mut pcm: Vec<u8>, left: u8, right: u8) -> Answer {
    unsafe { hda_amplify(pcm.as_mut_ptr(), pcm.len(), left, right) };
    Answer::Pcm(pcm)
}

/// Into another buffer in one pass, as a playback is. The frames before gain stay.
fn amplify_into(pcm: &[u8], left: u8, right: u8) -> Answer {
    let before = pcm.to_vec();
    let mut into = vec![0xa5; pcm.len()];
    let number = unsafe { hda_amplify_into(pcm.as_ptr(), pcm.len(), into.as_mut_ptr(), into.len(), left, right) };
    assert!(pcm == before, "the pass changed the frames before gain");
    if number == 0 { Answer::Pcm(into) } else { Answer::Refused(number) }
}

fn verb(mut codec: CodecBytes, command: u32) -> Answer {
    let mut reply = [0; 4];
    let count = unsafe { hda_verb(codec.as_mut_ptr(), codec.len(), command, reply.as_mut_ptr(), reply.len()) };
    let value = match count {
        0 => None,
        1 => Some(u32::from_le_bytes(reply)),
        number => return Answer::Refused(number),
    };
    Answer::Reply { value, codec }
}

fn clock(ticks: u64, fraction: u64, nanos: u64) -> Answer {
    let mut clock = [ticks, fraction].map(u64::to_le_bytes);
    let bytes = clock.as_flattened_mut();
    let number = unsafe { hda_clock_advance(bytes.as_mut_ptr(), bytes.len(), nanos) };
    let [ticks, fraction] = clock.map(u64::from_le_bytes);
    if number == 0 { Answer::Clock { ticks, fraction } } else { Answer::Refused(number) }
}

fn connected(codec: &CodecBytes, input: bool, tag: u8, format: u16) -> Answer {
    match unsafe { hda_connected(codec.as_ptr(), codec.len(), u8::from(input), tag, format) } {
        0 => Answer::Connected(false),
        1 => Answer::Connected(true),
        number => Answer::Refused(number),
    }
}
