//! Plays a drum pattern through the proved device as a guest would, and leaves the take as a sound file and a picture.
mod bus;
mod checks;
mod drums;
mod format;
mod guest;
mod picture;
mod session;

use checks::Check;
use format::{FORMATS, Format};
use guest::{FRAME, Ring};
use session::{Host, Stall, TICK, Take};
use std::fmt::Display;
use std::io::Write;
use std::ops::RangeInclusive;
use std::path::Path;
use std::process::ExitCode;
use std::{env, fs, io};

/// 4 periods of 25 ms, the ring that a Linux driver was seen to set up; in whole frames.
fn ring(rate: u32) -> Ring {
    Ring { period: rate as usize / 40 * FRAME, periods: 4 }
}

/// Pulls of 256 frames; 20 ms between a pull and the ear.
fn host(rate: u32) -> Host {
    Host { frames: 256, lead: 384, downstream: rate as usize / 50 * FRAME }
}

/// The host may stall one second after the start, for so many milliseconds.
const STALL_START: u64 = 1_000_000_000;
const STALLS: RangeInclusive<u64> = 1..=2000;

/// play [FOLDER [RATE [STALL]]]
fn main() -> ExitCode {
    let mut arguments = env::args_os().skip(1);
    let folder = arguments.next().unwrap_or_else(|| "take".into());
    let mut words = arguments.map(|word| word.to_string_lossy().into_owned());
    let [rate, stall] = [words.next(), words.next()];
    match asked(rate.as_deref(), stall.as_deref()).and_then(|(format, stall)| run(format, stall, Path::new(&folder))) {
        Ok(true) => ExitCode::SUCCESS,
        Ok(false) => ExitCode::from(2),
        Err(message) => {
            eprintln!("play: {message}");
            ExitCode::FAILURE
        }
    }
}

/// What the command line asks for: 48,000 frames a second and no stall unless it says so.
fn asked(rate: Option<&str>, stall: Option<&str>) -> Result<(Format, Option<Stall>), String> {
    Ok((chosen(rate.unwrap_or("48000"))?, stall.map(stall_of).transpose()?))
}

/// The format of a rate, as it is written on the command line.
fn chosen(rate: &str) -> Result<Format, String> {
    let known = FORMATS.map(|format| format.rate.to_string());
    let place = known.iter().position(|known| known == rate);
    place.map(|place| FORMATS[place]).ok_or_else(|| format!("no rate '{rate}': it is one of {}", known.join(" ")))
}

/// The stall of so many milliseconds, as they are written on the command line.
fn stall_of(milliseconds: &str) -> Result<Stall, String> {
    let number = milliseconds.parse().ok().filter(|number: &u64| STALLS.contains(number) && number.to_string() == milliseconds);
    let length = number
        .ok_or_else(|| format!("no stall of '{milliseconds}' ms: it is a whole number from {} to {}", STALLS.start(), STALLS.end()))?;
    Ok(Stall { start: STALL_START, length: length * TICK })
}

/// Whether every check passed.
fn run(format: Format, stall: Option<Stall>, folder: &Path) -> Result<bool, String> {
    fs::create_dir_all(folder).map_err(|error| not_written(folder, error))?;
    let take = play(format, stall)?;
    let [wav, svg] = ["take.wav", "take.svg"].map(|name| folder.join(name));
    let sound = sound_file(&take).map_err(|refusal| not_written(&wav, refusal))?;
    for (path, bytes) in [(&wav, sound), (&svg, picture::draw(&take).into_bytes())] {
        fs::write(path, bytes).map_err(|error| not_written(path, error))?;
    }
    let passed = summary(&take, &checks::all(&take, &wav));
    for path in [wav, svg] {
        println!("wrote {}", path.display());
    }
    Ok(passed)
}

fn not_written(path: &Path, reason: impl Display) -> String {
    format!("cannot write {}: {reason}", path.display())
}

/// What the host got, as a WAV file.
fn sound_file(take: &Take) -> Result<Vec<u8>, String> {
    port::wav::file(take.rate, &take.pulled).map_err(|number| {
        let [bytes, rate] = [take.pulled.len(), take.rate as usize].map(checks::count);
        format!("{bytes} bytes of frames, {rate} frames a second, were refused with number {number}")
    })
}

/// The take, with progress on standard error.
fn play(format: Format, stall: Option<Stall>) -> Result<Take, String> {
    let drums = drums::pattern(format.rate);
    let mut shown = 0;
    let take = session::play(&drums, format, ring(format.rate), host(format.rate), stall, |position| {
        let tenths = 10 * position / drums.len();
        if tenths > shown {
            shown = tenths;
            eprint!("\rplaying: {} %", 10 * tenths.min(10));
            io::stderr().flush().ok();
        }
    });
    eprintln!();
    take
}

/// Whether every check passed.
fn summary(take: &Take, checks: &[Check]) -> bool {
    println!(
        "{} seconds of drums, {} timer ticks, ring of {} periods",
        take.sound / FRAME / take.rate as usize,
        checks::count(take.ticks()),
        take.ring.periods
    );
    for check in checks {
        let (mark, text) = match &check.result {
            Ok(text) => ("ok    ", text),
            Err(text) => ("FAILED", text),
        };
        println!("{mark} {:<10} {text}", check.name);
    }
    let failed = checks.iter().filter(|check| check.result.is_err()).count();
    println!("{} checks passed, {failed} failed", checks.len() - failed);
    failed == 0
}

#[cfg(test)]
mod tests {
    use super::*;

    #[test]
    fn the_drums_pass_at_every_rate_and_both_files_say_which() {
        for (rate, kilohertz, four_seconds) in
            [("44100", "44.1 kHz", "176.4"), ("48000", "48 kHz", "192"), ("88200", "88.2 kHz", "352.8"), ("96000", "96 kHz", "384")]
        {
            let folder = env::temp_dir().join(format!("hda-play-{rate}-{}", std::process::id()));
            assert_eq!(run(chosen(rate).unwrap(), None, &folder), Ok(true), "at {rate}");
            let [wav, svg] = ["take.wav", "take.svg"].map(|name| fs::read(folder.join(name)).unwrap());
            fs::remove_dir_all(&folder).unwrap();
            assert_eq!(port::wav::take(&wav).unwrap().rate.to_string(), rate);
            let picture = String::from_utf8(svg).unwrap();
            assert!(
                picture.contains(&format!(">{kilohertz}, 16-bit stereo;")) && picture.contains(&format!(">{four_seconds}<")),
                "at {rate}"
            );
        }
    }

    #[test]
    fn the_drums_pass_with_a_stall_and_the_picture_says_when_it_is_over() {
        for (rate, stall, over) in [
            ("48000", "1", "nothing was deferred: the queue had room for all that was due"),
            ("44100", "5", "caught up after 1 call"),
            ("96000", "20", "caught up after 7 calls"),
            ("48000", "250", "caught up after 32 calls"),
            ("88200", "2000", "caught up after 32 calls"),
        ] {
            let folder = env::temp_dir().join(format!("hda-play-stall-{stall}-{}", std::process::id()));
            let (format, stall) = asked(Some(rate), Some(stall)).unwrap();
            assert_eq!(run(format, stall, &folder), Ok(true), "{stall:?} at {rate}");
            let picture = fs::read_to_string(folder.join("take.svg")).unwrap();
            fs::remove_dir_all(&folder).unwrap();
            assert!(picture.contains(&format!(">{over}<")), "{stall:?} at {rate}");
        }
    }

    #[test]
    fn a_take_that_no_file_holds_is_refused() {
        let mut take = play(FORMATS[1], None).unwrap();
        take.rate = 50_000;
        assert_eq!(sound_file(&take), Err("772,096 bytes of frames, 50,000 frames a second, were refused with number 13".into()));
        take.rate = 48_000;
        take.pulled.pop();
        assert_eq!(sound_file(&take), Err("772,095 bytes of frames, 48,000 frames a second, were refused with number 13".into()));
    }

    #[test]
    fn other_rates_are_refused() {
        for rate in ["", "50000", "176400", "+48000", "048000", "48000 ", "48 kHz"] {
            assert_eq!(chosen(rate), Err(format!("no rate '{rate}': it is one of 44100 48000 88200 96000")));
        }
    }

    #[test]
    fn other_stalls_are_refused() {
        for stall in ["", "0", "2001", "-1", "+5", "05", "5 ", "1.5", "1e3", "20 ms", "18446744073709551617"] {
            assert_eq!(stall_of(stall), Err(format!("no stall of '{stall}' ms: it is a whole number from 1 to 2000")));
        }
        for (stall, length) in [("1", 1_000_000), ("2000", 2_000_000_000)] {
            assert_eq!(stall_of(stall), Ok(Stall { start: 1_000_000_000, length }));
        }
    }

    #[test]
    fn the_command_line_chooses_rate_and_stall() {
        assert_eq!(asked(None, None), Ok((FORMATS[1], None)));
        assert_eq!(asked(Some("96000"), Some("20")), Ok((FORMATS[3], stall_of("20").ok())));
        assert!(asked(Some("96000"), Some("0")).is_err() && asked(Some("96"), Some("20")).is_err());
    }
}
