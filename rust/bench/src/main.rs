//! Times of the proved amplifier against the unchanged Rust's, in one run.
mod rust;

use bench::{by_turns, cpu_time, leaves, noise};
use std::hint::black_box;

const PERIOD: usize = 1024;
const BATCH: usize = 16;
const TURNS: usize = 100;
const ROUNDS: usize = 15;

fn main() {
    compare();
    println!("gain: nanoseconds of CPU time a sample, periods of {PERIOD} bytes, median of {ROUNDS} rounds of {} periods", TURNS * BATCH);
    println!("{:<28} {:>8} {:>8} {:>8}", "left / right", "Rust", "port", "ratio");
    for (name, left, right) in [
        ("factor / factor (-6 dB)", 0x44, 0x44),
        ("factor / factor (+20 dB)", 0x5e, 0x5e),
        ("factor / factor (-74 dB)", 0x00, 0x00),
        ("factor / unity", 0x44, 0x4a),
        ("factor / silence", 0x44, 0xca),
        ("unity / unity", 0x4a, 0x4a),
        ("silence / silence", 0xca, 0xca),
    ] {
        let codec = rust::Codec::new(left, right);
        let times = by_turns(ROUNDS, || (time(&|pcm| codec.amplify(pcm)), time(&|pcm| leaves::amplify(pcm, left, right))));
        println!("{name:<28} {:>8.2} {:>8.2} {:>8.1}", times.other, times.port, times.ratio);
    }
}

/// Every gain byte on every sample gives the same in both; times of two that differ would say nothing.
fn compare() {
    let samples: Vec<u8> = (0..=u16::MAX).flat_map(u16::to_le_bytes).collect();
    for byte in 0..=u8::MAX {
        let (mut rust, mut port) = (samples.clone(), samples.clone());
        rust::Codec::new(byte, byte).amplify(&mut rust);
        leaves::amplify(&mut port, byte, byte);
        assert!(rust == port, "byte {byte:#04x}: the port and the Rust differ");
    }
    println!("all 256 gain bytes on all 65,536 samples: equal");
}

/// Nanoseconds a sample, over periods that are filled before the clock starts.
fn time(amplify: &impl Fn(&mut [u8])) -> f64 {
    let noise: [u8; PERIOD] = noise();
    let mut periods = [[0; PERIOD]; BATCH];
    let mut spent = 0;
    for _ in 0..TURNS {
        periods.fill(noise);
        let start = cpu_time();
        for pcm in &mut periods {
            amplify(black_box(pcm));
        }
        spent += cpu_time() - start;
    }
    spent as f64 / (TURNS * BATCH * PERIOD / 2) as f64
}
