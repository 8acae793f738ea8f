//! What must hold of a take and of its file.
use crate::guest::FRAME;
use crate::session::{Advance, CatchingUp, Take, due_after, lasting};
use port::layout::{MAX_DEFERRED, QUEUE};
use std::fs;
use std::path::Path;

/// One line of the summary.
pub struct Check {
    pub name: &'static str,
    /// What was seen; or what is wrong.
    pub result: Result<String, String>,
}

/// Those of a take whose file stands at `path`.
pub fn all(take: &Take, path: &Path) -> Vec<Check> {
    let mut checks = of_take(take);
    checks.push(Check { name: "file", result: file(take, path) });
    checks
}

/// Those that need no file.
fn of_take(take: &Take) -> Vec<Check> {
    let mut checks: Vec<Check> = [
        ("commands", commands as fn(&Take) -> Result<String, String>),
        ("rate", rate),
        ("frames", frames),
        ("position", position),
        ("interrupts", interrupts),
    ]
    .map(|(name, check)| Check { name, result: check(take) })
    .into();
    checks.extend(take.stall.map(|_| Check { name: "stall", result: stall(take) }));
    checks
}

fn commands(take: &Take) -> Result<String, String> {
    if take.responses != take.commands {
        return Err(format!("{} sent, {} responses", take.commands, take.responses));
    }
    Ok(format!("{} sent through the rings, each answered once, every setting read back", take.commands))
}

/// The host plays at the guest's rate, and after each call the device has read the frames that were due by then, no more and no fewer. While the host stalls it defers
/// those for which the queue has no room, and all is later by what was due beyond the limit.
fn rate(take: &Take) -> Result<String, String> {
    let rate = count(take.rate as usize);
    if take.rate != take.format.rate {
        return Err(format!("the guest plays {} frames a second, the device {rate}", count(take.format.rate as usize)));
    }
    let mut late = 0;
    for advance in &take.advances {
        late = late.max(beyond_limit(take, advance));
        let due = due_after(advance.time, take.rate) - late;
        let in_stall = take.stall.is_some_and(|stall| (stall.start..=stall.end()).contains(&advance.time));
        let readable = if in_stall { due.min((advance.pulled + QUEUE) / FRAME) } else { due };
        let (read, milliseconds) = (advance.read / FRAME, advance.time / 1_000_000);
        if read != readable {
            return Err(format!("{} frames read at {milliseconds} ms, where {} were due", count(read), count(readable)));
        }
        if advance.deferred != due - readable {
            let [is, should] = [advance.deferred, due - readable].map(count);
            return Err(format!("{is} frames deferred at {milliseconds} ms, where {should} found no room"));
        }
    }
    Ok(match (take.stall, late) {
        (None, _) => format!("{rate} frames a second: after each tick the device has read what was due, to the frame"),
        (_, 0) => format!("{rate} frames a second: after each call the device has read or deferred what was due, to the frame"),
        _ => format!(
            "{rate} frames a second: after each call the device has read or deferred what was due, to the frame; all is {} later, since {} at most are deferred",
            number_of(late, "frame"),
            count(MAX_DEFERRED)
        ),
    })
}

/// The frames that were due when a call ended, beyond those that the host had pulled, those that a queue holds and those that can be deferred.
fn beyond_limit(take: &Take, advance: &Advance) -> usize {
    due_after(advance.time, take.rate).saturating_sub((advance.pulled + QUEUE) / FRAME + MAX_DEFERRED)
}

/// What the device read is what the guest put in, from the first frame on: the host got it, or it was still queued.
fn frames(take: &Take) -> Result<String, String> {
    let read = take.pulled.len() + take.queued.len();
    let put = take.put.chunks(FRAME);
    let got = take.pulled.chunks(FRAME).chain(take.queued.chunks(FRAME));
    if let Some(at) = put.zip(got).position(|(put, got)| put != got) {
        return Err(format!("frame {} is not the one that the guest put in", count(at)));
    }
    if read > take.put.len() {
        return Err(format!("{} frames read, only {} put in", count(read / FRAME), count(take.put.len() / FRAME)));
    }
    if take.pulled.len() < take.sound {
        return Err(format!("{} frames pulled, the drums have {}", count(take.pulled.len() / FRAME), count(take.sound / FRAME)));
    }
    if take.short != 0 {
        return Err(format!("{} pulls found too few frames", take.short));
    }
    Ok(format!(
        "{} pulled and {} still queued: each once, in order, bit for bit what the guest put in",
        count(take.pulled.len() / FRAME),
        count(take.queued.len() / FRAME)
    ))
}

/// Each position is not before the last, and is what was pulled less what is not heard yet.
fn position(take: &Take) -> Result<String, String> {
    let mut last = 0;
    for advance in &take.advances {
        let milliseconds = advance.time / 1_000_000;
        let heard = advance.pulled.saturating_sub(take.host.downstream);
        if advance.position < last {
            return Err(format!("fell from byte {} to {} at {milliseconds} ms", count(last), count(advance.position)));
        }
        if advance.position != heard {
            return Err(format!("byte {} at {milliseconds} ms, where {} were heard", count(advance.position), count(heard)));
        }
        last = advance.position;
    }
    Ok(format!(
        "read {} times: never falls, always the frames heard so far; at the end {}",
        count(take.advances.len()),
        count(last / FRAME)
    ))
}

/// The nth completion interrupt is served with the position past the nth descriptor end and before the next, and none is left out.
fn interrupts(take: &Take) -> Result<String, String> {
    let period = take.ring.period;
    for (before, (time, position)) in take.completions.iter().enumerate() {
        if position / period != before + 1 {
            return Err(format!("number {} at {} ms with {} descriptor ends passed", before + 1, time / 1_000_000, position / period));
        }
    }
    let ends = take.advances.last().map_or(0, |advance| advance.position / period);
    if take.completions.len() != ends {
        return Err(format!("{} completions, {} descriptor ends passed", take.completions.len(), ends));
    }
    if take.messages != take.completions.len() + take.responses {
        return Err(format!("{} messages for {} completions and {} responses", take.messages, take.completions.len(), take.responses));
    }
    Ok(format!("{ends} descriptor ends passed, {ends} completions, one message each with the guest's address and data"))
}

/// Each call of the catching up leaves no more frames deferred than the bound says and drops none, and the host needs no more calls than follow from the bound.
fn stall(take: &Take) -> Result<String, String> {
    let catching_up = take.catching_up().ok_or("the take ended before it was over")?;
    let (CatchingUp { tick, calls, .. }, pull) = (&catching_up, take.host.frames);
    for (number, call) in (1..).zip(*calls) {
        let bound = tick.deferred.saturating_sub(pull * number);
        if call.deferred > bound {
            return Err(format!("{} frames deferred after call {number}, at most {} may be", count(call.deferred), count(bound)));
        }
        let [before, after] = [tick, call].map(|advance| advance.read / FRAME + advance.deferred);
        if before != after {
            return Err(format!("{} frames read or deferred after call {number}, {} before the first", count(after), count(before)));
        }
    }
    let (most, left) = (tick.deferred.div_ceil(pull), calls.last().unwrap_or(tick).deferred);
    if calls.len() > most || left != 0 {
        return Err(format!("{} frames deferred after {}, {most} at most leave none", count(left), number_of(calls.len(), "call")));
    }
    Ok(over(take, &catching_up))
}

/// What a stall was, and how soon it was over.
fn over(take: &Take, catching_up: &CatchingUp) -> String {
    let CatchingUp { stall, tick, calls } = catching_up;
    let stalled = format!("{} ms without a pull", count((stall.length / 1_000_000) as usize));
    if tick.deferred == 0 {
        return format!("{stalled}: 0 frames deferred, since the queue had room for all that was due; 0 calls needed");
    }
    let later = match catching_up.late(take.rate) {
        0 => String::new(),
        late => format!(", from then on {} ms later", milliseconds(late, take.rate)),
    };
    let (deferred, pull) = (count(tick.deferred), take.host.frames);
    let (calls, most) = (number_of(calls.len(), "call"), tick.deferred.div_ceil(pull));
    format!(
        "{stalled}: {deferred} frames deferred{later}; caught up in {calls} of {pull} frames, at most {most} ({deferred} / {pull}); no frame dropped"
    )
}

/// What stands in the file, read back by the proved reader, is what the host got.
fn file(take: &Take, path: &Path) -> Result<String, String> {
    let bytes = fs::read(path).map_err(|error| format!("cannot be read back: {error}"))?;
    let read = port::wav::take(&bytes).map_err(|number| format!("{} bytes: no take, refused with number {number}", count(bytes.len())))?;
    if read.rate != take.rate {
        return Err(format!("{} frames a second, the take has {}", count(read.rate as usize), count(take.rate as usize)));
    }
    if let Some(at) = read.frames.chunks(FRAME).zip(take.pulled.chunks(FRAME)).position(|(read, pulled)| read != pulled) {
        return Err(format!("frame {} is not the one that the host got", count(at)));
    }
    if read.frames.len() != take.pulled.len() {
        return Err(format!("{} frames, the take has {}", count(read.frames.len() / FRAME), count(take.pulled.len() / FRAME)));
    }
    Ok(format!("{} bytes: read back, the same rate and every frame", count(bytes.len())))
}

/// A number with its thousands set apart.
pub fn count(number: usize) -> String {
    let digits = number.to_string();
    let mut text = String::new();
    for (place, digit) in digits.chars().enumerate() {
        if place != 0 && (digits.len() - place).is_multiple_of(3) {
            text.push(',');
        }
        text.push(digit);
    }
    text
}

/// So many of what a noun names.
pub fn number_of(number: usize, noun: &str) -> String {
    format!("{} {noun}{}", count(number), if number == 1 { "" } else { "s" })
}

/// The milliseconds that so many frames last, to a tenth.
pub fn milliseconds(frames: usize, rate: u32) -> String {
    let tenths = (lasting(frames, rate) + 50_000) / 100_000;
    format!("{}.{}", count((tenths / 10) as usize), tenths % 10)
}

#[cfg(test)]
mod tests {
    use super::*;
    use crate::bus::Outcome;
    use crate::format::{FORMATS, Format};
    use crate::guest::Ring;
    use crate::session::{Host, Stall, TICK, play};
    use port::wav;
    use std::{env, process};

    fn take_with(stall: Option<Stall>, format: Format, (period, periods): (usize, usize), downstream: usize) -> Outcome<Take> {
        // No two frames alike.
        let sound: Vec<u8> = (1..20_000_u32).flat_map(u32::to_le_bytes).collect();
        play(&sound, format, Ring { period, periods }, Host { frames: 256, lead: 384, downstream }, stall, |_| ())
    }

    fn take_at(rate: u32, word: u16, ring: (usize, usize), downstream: usize) -> Outcome<Take> {
        take_with(None, Format { rate, word }, ring, downstream)
    }

    /// One whose host stalls after a tenth of a second.
    fn stalled(format: Format, milliseconds: u64) -> Take {
        let stall = Stall { start: 100 * TICK, length: milliseconds * TICK };
        take_with(Some(stall), format, (4800, 4), 3840).unwrap()
    }

    fn take(period: usize, periods: usize, downstream: usize) -> Take {
        take_at(48_000, 0x0011, (period, periods), downstream).unwrap()
    }

    fn failing(take: &Take) -> Vec<&'static str> {
        of_take(take).into_iter().filter(|check| check.result.is_err()).map(|check| check.name).collect()
    }

    #[test]
    fn takes_pass_with_rings_longer_than_what_is_read_ahead() {
        for (period, periods, downstream) in [(4800, 4, 3840), (4800, 4, 0), (4800, 4, 12_352), (1920, 16, 14_336), (4800, 3, 1920)] {
            assert_eq!(failing(&take(period, periods, downstream)), [""; 0]);
        }
    }

    /// Every word that the device accepts.
    #[test]
    fn takes_pass_at_every_word_of_every_rate() {
        for (rate, words) in [
            (44_100, [0x4011, 0x4911, 0x5211, 0x5b11].as_slice()),
            (48_000, &[0x0011, 0x0911, 0x1211, 0x1b11]),
            (88_200, &[0x4811, 0x5911]),
            (96_000, &[0x0811, 0x1911]),
        ] {
            for &word in words {
                let take = take_at(rate, word, (4800, 4), 3840).unwrap();
                assert_eq!((failing(&take), take.rate), (vec![], rate), "{word:#06x}");
            }
        }
    }

    #[test]
    fn a_rate_that_the_codec_does_not_declare_is_not_chosen() {
        let refusal = "the codec does not declare 16 bits at 176400 frames a second: parameter 0x0a of node 2 is 0x201e0";
        assert_eq!(take_at(176_400, 0x5811, (4800, 4), 3840).err(), Some(refusal.into()));
    }

    /// The guest takes the word of 176,400 for one of a rate that is declared.
    #[test]
    fn a_word_that_the_device_does_not_accept_is_a_stream_error() {
        for rate in FORMATS.map(|format| format.rate) {
            assert_eq!(take_at(rate, 0x5811, (4800, 4), 3840).err(), Some("the stream reports error 0x10".into()));
        }
    }

    #[test]
    fn a_word_of_another_rate_is_seen() {
        assert_eq!(failing(&take_at(88_200, 0x0811, (4800, 4), 3840).unwrap()), ["rate"]);
    }

    #[test]
    fn a_ring_not_longer_than_what_is_read_ahead_is_read_again() {
        assert_eq!(failing(&take(3840, 4, 14_336)), ["frames"]);
    }

    #[test]
    fn what_is_wrong_is_seen() {
        let wrong = |change: fn(&mut Take)| {
            let mut take = take(4800, 4, 3840);
            change(&mut take);
            failing(&take)
        };
        assert_eq!(wrong(|take| take.rate = 44_100), ["rate"]);
        assert_eq!(wrong(|take| take.advances[200].read += 4), ["rate"]);
        assert_eq!(wrong(|take| take.pulled[40_000] ^= 1), ["frames"]);
        assert_eq!(wrong(|take| _ = take.pulled.drain(40_000..40_004)), ["frames"]);
        assert_eq!(wrong(|take| take.queued[1] ^= 1), ["frames"]);
        assert_eq!(wrong(|take| take.pulled.truncate(40_000)), ["frames"]);
        assert_eq!(wrong(|take| take.advances[200].position -= 4), ["position"]);
        assert_eq!(wrong(|take| _ = take.completions.remove(7)), ["interrupts"]);
        assert_eq!(wrong(|take| take.completions.insert(7, take.completions[7])), ["interrupts"]);
        assert_eq!(wrong(|take| _ = take.completions.pop()), ["interrupts"]);
        assert_eq!(wrong(|take| take.messages += 1), ["interrupts"]);
        assert_eq!(wrong(|take| take.responses -= 1), ["commands", "interrupts"]);
    }

    /// Too short to defer anything, up to longer than can be deferred.
    const STALLS: [u64; 10] = [1, 5, 11, 12, 50, 100, 181, 182, 250, 1000];

    /// What is due at the end of a stall, less what was pulled and what the queue holds, is deferred up to the limit; each call takes a pull of it.
    #[test]
    fn takes_with_a_stall_pass_and_catch_up_in_as_many_calls_as_the_deferred_frames_ask_for() {
        for (format, milliseconds) in FORMATS.into_iter().flat_map(|format| STALLS.map(|milliseconds| (format, milliseconds))) {
            let take = stalled(format, milliseconds);
            let CatchingUp { stall, tick, calls } = take.catching_up().unwrap();
            let beyond_queue = due_after(stall.end(), format.rate).saturating_sub(tick.pulled / 4 + 512);
            let deferred: Vec<usize> = [&tick].into_iter().chain(calls).map(|advance| advance.deferred).collect();
            let at_first = beyond_queue.min(8192);
            let falling: Vec<usize> = (0..=at_first.div_ceil(256)).map(|call| at_first.saturating_sub(256 * call)).collect();
            assert_eq!((failing(&take), deferred), (vec![], falling), "{milliseconds} ms at {}", format.rate);
        }
    }

    #[test]
    fn a_stall_loses_time_and_no_frame() {
        for format in FORMATS {
            let calm = take_with(None, format, (4800, 4), 3840).unwrap();
            for take in STALLS.map(|milliseconds| stalled(format, milliseconds)) {
                assert_eq!(take.pulled[..take.sound], calm.pulled[..take.sound]);
                let late = take.catching_up().unwrap().late(format.rate);
                // The host's schedule is as fine as a tick.
                let apart = (take.ticks() - calm.ticks()) as u64 * TICK;
                assert!(apart.abs_diff(lasting(late, format.rate)) <= TICK, "{apart} ns for {late} frames");
            }
        }
    }

    #[test]
    fn a_stall_is_told() {
        let told = |milliseconds| stall(&stalled(FORMATS[1], milliseconds)).unwrap();
        assert_eq!(told(1), "1 ms without a pull: 0 frames deferred, since the queue had room for all that was due; 0 calls needed");
        assert_eq!(
            told(8),
            "8 ms without a pull: 64 frames deferred; caught up in 1 call of 256 frames, at most 1 (64 / 256); no frame dropped"
        );
        assert_eq!(
            told(1000),
            "1,000 ms without a pull: 8,192 frames deferred, from then on 822.7 ms later; caught up in 32 calls of 256 frames, at most 32 (8,192 / 256); no frame dropped"
        );
    }

    #[test]
    fn what_is_wrong_after_a_stall_is_seen() {
        let wrong = |change: fn(&mut Take, usize)| {
            let mut take = stalled(FORMATS[1], 250);
            let first_call = take.advances.iter().position(|advance| advance.nanos == 0).unwrap();
            change(&mut take, first_call);
            failing(&take)
        };
        assert_eq!(wrong(|_, _| ()), [""; 0]);
        assert_eq!(wrong(|take, call| take.advances.insert(call + 31, take.advances[call + 31])), ["stall"]);
        assert_eq!(wrong(|take, call| _ = take.advances.remove(call + 31)), ["stall"]);
        assert_eq!(wrong(|take, call| take.advances[call + 9].deferred += 1), ["rate", "stall"]);
        assert_eq!(wrong(|take, call| take.advances[call + 9].deferred -= 1), ["rate", "stall"]);
        assert_eq!(wrong(|take, call| take.advances[call + 9].read -= 4), ["rate", "stall"]);
        assert_eq!(wrong(|take, call| take.advances[call + 9].position -= 4), ["position"]);
        assert_eq!(wrong(|take, call| take.advances[call - 1].deferred -= 1), ["rate", "stall"]);
        assert_eq!(wrong(|take, _| take.pulled[40_000] ^= 1), ["frames"]);
        // The same take as if there had been no stall, or one that was never over.
        assert_eq!(wrong(|take, _| take.stall = None), ["rate"]);
        assert_eq!(wrong(|take, _| take.stall = take.stall.map(|stall| Stall { length: 10_000 * TICK, ..stall })), ["stall"]);
    }

    /// The check of a take with these bytes in its file, which `test` names.
    fn file_with(test: &str, bytes: &[u8], take: &Take) -> Result<String, String> {
        let path = env::temp_dir().join(format!("hda-{test}-{}.wav", process::id()));
        fs::write(&path, bytes).unwrap();
        let result = file(take, &path);
        fs::remove_file(&path).unwrap();
        result
    }

    #[test]
    fn the_file_of_a_take_is_read_back() {
        for Format { rate, word } in FORMATS {
            let take = take_at(rate, word, (4800, 4), 3840).unwrap();
            let bytes = wav::file(take.rate, &take.pulled).unwrap();
            assert_eq!(wav::take(&bytes), Ok(wav::Take { rate, frames: take.pulled.clone() }));
            let seen = format!("{} bytes: read back, the same rate and every frame", count(wav::HEADER + take.pulled.len()));
            assert_eq!(file_with("file-read-back", &bytes, &take), Ok(seen));
        }
    }

    #[test]
    fn a_damaged_file_is_seen() {
        let take = take(4800, 4, 3840);
        let bytes = wav::file(take.rate, &take.pulled).unwrap();
        let damaged = |bytes: &[u8]| file_with("file-damaged", bytes, &take);
        let refused = |length: usize| Err(format!("{} bytes: no take, refused with number 13", count(length)));
        for place in 0..wav::HEADER {
            let mut bytes = bytes.clone();
            bytes[place] ^= 1;
            assert_eq!(damaged(&bytes), refused(bytes.len()), "byte {place}");
        }
        for length in [0, wav::HEADER - 1, wav::HEADER, bytes.len() - 4, bytes.len() - 1] {
            assert_eq!(damaged(&bytes[..length]), refused(length));
        }
        assert_eq!(damaged(&[&bytes[..], &[0; 4]].concat()), refused(bytes.len() + 4));
        let mut changed = bytes.clone();
        changed[wav::HEADER + 4001] ^= 1;
        assert_eq!(damaged(&changed), Err("frame 1,000 is not the one that the host got".into()));
    }

    #[test]
    fn the_file_of_another_take_is_seen() {
        let take = take(4800, 4, 3840);
        let other = |rate, frames: &[u8]| file_with("file-other", &wav::file(rate, frames).unwrap(), &take);
        let [pulled, fewer] = [take.pulled.len(), take.pulled.len() - 4].map(|bytes| count(bytes / 4));
        assert_eq!(other(88_200, &take.pulled), Err("88,200 frames a second, the take has 48,000".into()));
        assert_eq!(other(48_000, &take.pulled[..take.pulled.len() - 4]), Err(format!("{fewer} frames, the take has {pulled}")));
    }

    #[test]
    fn a_file_that_is_not_there_is_seen() {
        let path = env::temp_dir().join(format!("hda-file-nowhere-{}.wav", process::id()));
        let seen = file(&take(4800, 4, 3840), &path).unwrap_err();
        assert!(seen.starts_with("cannot be read back: "), "{seen}");
    }

    #[test]
    fn thousands_are_set_apart() {
        assert_eq!([0, 999, 1000, 1_234_567].map(count), ["0", "999", "1,000", "1,234,567"]);
    }

    #[test]
    fn frames_last_milliseconds_to_a_tenth() {
        let lasting = [(0, 48_000), (8192, 44_100), (8192, 48_000), (512, 96_000), (88_200, 44_100), (95, 96_000)];
        assert_eq!(lasting.map(|(frames, rate)| milliseconds(frames, rate)), ["0.0", "185.8", "170.7", "5.3", "2,000.0", "1.0"]);
    }
}
