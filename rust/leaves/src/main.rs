//! Compares the proved leaves with the Rust, or records what the Rust answers.
use leaves::{compare, record};
use std::process::ExitCode;
use std::{env, io};

const USAGE: &str = "usage: leaves compare [--commands N] [--seed S]
       leaves record > FILE";

fn main() -> ExitCode {
    let arguments: Vec<String> = env::args().skip(1).collect();
    match arguments.split_first() {
        Some((word, options)) if word == "compare" => run_comparison(options),
        Some((word, [])) if word == "record" => run_record(),
        _ => usage(),
    }
}

fn usage() -> ExitCode {
    eprintln!("{USAGE}");
    ExitCode::from(2)
}

fn run_comparison(options: &[String]) -> ExitCode {
    let (mut commands, mut seed) = (20_000_000, 1);
    for pair in options.chunks(2) {
        let (place, value) = match pair {
            [name, value] if name == "--commands" => (&mut commands, value),
            [name, value] if name == "--seed" => (&mut seed, value),
            _ => return usage(),
        };
        let Ok(number) = value.parse() else { return usage() };
        *place = number;
    }
    match compare::compare(commands, seed) {
        Ok(()) => ExitCode::SUCCESS,
        Err(failure) => {
            println!("{failure}");
            ExitCode::FAILURE
        }
    }
}

fn run_record() -> ExitCode {
    match record::record(&mut io::stdout().lock()) {
        Ok(()) => ExitCode::SUCCESS,
        Err(error) => {
            eprintln!("{error}");
            ExitCode::FAILURE
        }
    }
}
