//! Two bars of drums at any rate. Sums and products alone make them, so that they are the same on every machine.
//!
//! Every note sounds the same at every rate: tones and levels follow the time that a frame lasts, and noise is made at one rate and drawn out to others.
use random::Random;
use std::f64::consts::PI;

/// The rate that the drums were tuned at: noise has that many samples a second, and decay and fall are said of a frame that long.
const TUNED: u32 = 48_000;
/// Sixteenths at 120 beats a minute: eight a second.
const STEPS: usize = 32;

//                          1 . . . 2 . . . 3 . . . 4 . . . 1 . . . 2 . . . 3 . . . 4 . . .
const KICK: &[u8; STEPS] = b"X.....x.X.x.....X.....x.X.x.....";
const SNARE: &[u8; STEPS] = b"....X..o....X.......X..o....X.oX";
const HAT: &[u8; STEPS] = b"x.o.x.o.x.o.x.oox.o.x.o.x.o.xoxo";

/// The samples of one note at a rate.
type Drum = fn(u32, &mut Random) -> Vec<f64>;

/// The frame at which a step starts.
fn start(rate: u32, step: usize) -> usize {
    rate as usize * step / 8
}

/// All frames, 16-bit stereo, little-endian.
pub fn pattern(rate: u32) -> Vec<u8> {
    let mut mix = vec![[0.0; 2]; start(rate, STEPS)];
    let mut random = Random::new(0x4844_4131);
    for (steps, sides, drum) in [(KICK, [0.62, 0.62], kick as Drum), (SNARE, [0.50, 0.38], snare), (HAT, [0.34, 0.52], hat)] {
        for (step, &mark) in steps.iter().enumerate() {
            let force = match mark {
                b'X' => 1.0,
                b'x' => 0.7,
                b'o' => 0.4,
                _ => continue,
            };
            for (frame, sample) in mix[start(rate, step)..].iter_mut().zip(drum(rate, &mut random)) {
                frame[0] += force * sides[0] * sample;
                frame[1] += force * sides[1] * sample;
            }
        }
    }
    mix.iter().flatten().flat_map(|sample| ((sample.clamp(-1.0, 1.0) * 32_000.0) as i16).to_le_bytes()).collect()
}

/// A tone that falls from 160 to 48 Hz.
fn kick(rate: u32, _: &mut Random) -> Vec<f64> {
    let (mut turns, mut pitch, mut level) = (0.0, 160.0, 1.0);
    let (fall, decay) = (-growth(rate, -0.000_8), factor(rate, 0.999_82));
    let tone = |_| {
        turns += pitch / f64::from(rate);
        pitch += (48.0 - pitch) * fall;
        level *= decay;
        level * sine(turns)
    };
    (0..rate * 2 / 5).map(tone).collect()
}

/// Noise over a short tone.
fn snare(rate: u32, random: &mut Random) -> Vec<f64> {
    let (mut turns, mut tone, mut rattle) = (0.0, 0.7, 0.8);
    let (tone_decay, rattle_decay) = (factor(rate, 0.999_4), factor(rate, 0.999_65));
    let noise: Vec<f64> = (0..TUNED / 4).map(|_| noise(random)).collect();
    let sound = |noise| {
        turns += 190.0 / f64::from(rate);
        tone *= tone_decay;
        rattle *= rattle_decay;
        tone * sine(turns) + rattle * noise
    };
    resampled(rate, &noise).into_iter().map(sound).collect()
}

/// The high part of noise.
fn hat(rate: u32, random: &mut Random) -> Vec<f64> {
    let (mut before, mut level) = (0.0, 1.0);
    let decay = factor(rate, 0.998_7);
    let high = |_| {
        let now = noise(random);
        let high = (now - before) / 2.0;
        before = now;
        high
    };
    let high: Vec<f64> = (0..TUNED / 12).map(high).collect();
    let sound = |high| {
        level *= decay;
        level * high
    };
    resampled(rate, &high).into_iter().map(sound).collect()
}

/// What a level is multiplied by in a frame, where it is `tuned` in a frame of the tuned rate: exactly that at the tuned rate.
fn factor(rate: u32, tuned: f64) -> f64 {
    1.0 + growth(rate, tuned - 1.0)
}

/// The part by which a number changes in a frame, where it changes by the small part `tuned` in a frame of the tuned rate: (1 + tuned)^(TUNED / rate) - 1 by six terms of
/// the binomial series, and exactly `tuned` at the tuned rate.
fn growth(rate: u32, tuned: f64) -> f64 {
    let exponent = f64::from(TUNED) / f64::from(rate);
    let (mut sum, mut term) = (0.0, 1.0);
    for index in 0..6 {
        term *= tuned * (exponent - f64::from(index)) / f64::from(index + 1);
        sum += term;
    }
    sum
}

/// How far a sample reaches in `resampled`, in samples.
const REACH: usize = 12;

/// Samples of the tuned rate at another: a frame that falls between samples is the sum of the sinc functions of those near it, with a window.
fn resampled(rate: u32, samples: &[f64]) -> Vec<f64> {
    let (rate, tuned) = (rate as usize, TUNED as usize);
    let at = |frame: usize| {
        let (whole, rest) = (frame * tuned / rate, frame * tuned % rate);
        if rest == 0 {
            return samples[whole];
        }
        let place = whole as f64 + rest as f64 / rate as f64;
        let near = (whole + 1).saturating_sub(REACH)..samples.len().min(whole + REACH + 1);
        near.map(|index| samples[index] * windowed_sinc(place - index as f64)).sum()
    };
    (0..samples.len() * rate / tuned).map(at).collect()
}

/// The sinc function, not at 0, with a window that ends at `REACH`.
fn windowed_sinc(x: f64) -> f64 {
    let part = x / REACH as f64;
    let window = (1.0 - part * part) * (1.0 - part * part);
    window * sine(x / 2.0) / (PI * x)
}

/// From -1 to 1.
fn noise(random: &mut Random) -> f64 {
    random.below(65_536) as f64 / 32_768.0 - 1.0
}

/// Sine of whole turns, near enough for a drum: a parabola for each half turn, mended once.
fn sine(turns: f64) -> f64 {
    let x = 2.0 * (turns - turns.floor()) - 1.0;
    let y = 4.0 * x * (1.0 - x.abs());
    -(0.775 * y + 0.225 * y * y.abs())
}

#[cfg(test)]
mod tests {
    use super::*;
    use crate::format::FORMATS;

    /// Left and right of all frames.
    fn samples(rate: u32) -> Vec<[f64; 2]> {
        let sample = |bytes: &[u8]| f64::from(i16::from_le_bytes([bytes[0], bytes[1]]));
        pattern(rate).chunks(4).map(|frame| [sample(frame), sample(&frame[2..])]).collect()
    }

    /// The root of the mean square of one side.
    fn loudness(frames: &[[f64; 2]], side: usize) -> f64 {
        (frames.iter().map(|frame| frame[side] * frame[side]).sum::<f64>() / frames.len() as f64).sqrt()
    }

    #[test]
    fn the_pattern_is_four_seconds_and_always_the_same() {
        for rate in FORMATS.map(|format| format.rate) {
            let drums = samples(rate);
            assert_eq!(drums.len(), 4 * rate as usize);
            assert_eq!(drums, samples(rate));
            let peak = drums.iter().flatten().fold(0.0, |peak: f64, sample| peak.max(sample.abs()));
            assert!((16_000.0..32_000.0).contains(&peak), "peak {peak} at {rate}");
        }
    }

    /// Bit for bit: their FNV-1a digest.
    #[test]
    fn the_drums_of_the_tuned_rate_stay_as_they_are() {
        let digest = |digest: u64, byte: u8| (digest ^ u64::from(byte)).wrapping_mul(0x100_0000_01b3);
        assert_eq!(pattern(TUNED).into_iter().fold(0xcbf2_9ce4_8422_2325, digest), 0x8ce7_3689_7232_131e);
    }

    /// Each sixteenth on each side, to half a decibel.
    #[test]
    fn every_note_is_as_loud_at_every_rate() {
        let tuned = samples(TUNED);
        for rate in FORMATS.map(|format| format.rate) {
            let drums = samples(rate);
            for (step, side) in (0..STEPS).flat_map(|step| [(step, 0), (step, 1)]) {
                let here = loudness(&drums[start(rate, step)..start(rate, step + 1)], side);
                let there = loudness(&tuned[start(TUNED, step)..start(TUNED, step + 1)], side);
                assert!((20.0 * (here / there).log10()).abs() < 0.5, "step {step}, side {side} at {rate}: {here}, not {there}");
            }
        }
    }

    /// Every other frame is one of the tuned rate, to a hundredth of full scale: a tone starts half a frame of the tuned rate earlier.
    #[test]
    fn twice_the_rate_is_the_same_sound_in_finer_steps() {
        let (tuned, fine) = (samples(TUNED), samples(2 * TUNED));
        for (frame, (tuned, fine)) in tuned.iter().zip(fine.iter().step_by(2)).enumerate() {
            let apart = (tuned[0] - fine[0]).abs().max((tuned[1] - fine[1]).abs());
            assert!(apart < 320.0, "frame {frame}: {tuned:?} and {fine:?}");
        }
    }

    #[test]
    fn growth_is_near_the_true_power_and_exact_at_the_tuned_rate() {
        for tuned in [-0.000_8_f64, 0.999_82 - 1.0, 0.998_7 - 1.0, 0.01] {
            for rate in FORMATS.map(|format| format.rate) {
                let power = (1.0 + tuned).powf(f64::from(TUNED) / f64::from(rate));
                assert!((1.0 + growth(rate, tuned) - power).abs() < 1e-14);
            }
            assert_eq!(growth(TUNED, tuned), tuned);
        }
        assert_eq!([0.999_82, 0.999_4, 0.999_65, 0.998_7].map(|tuned| factor(TUNED, tuned)), [0.999_82, 0.999_4, 0.999_65, 0.998_7]);
    }

    #[test]
    fn sine_is_near_the_true_one() {
        for step in -100..100 {
            let turns = f64::from(step) / 37.0;
            assert!((sine(turns) - (turns * std::f64::consts::TAU).sin()).abs() < 0.002);
        }
    }
}
