//! Short lockstep runs, so that `cargo test` alone already says whether port and oracles keep step. `judge` does the long ones.
use harness::coverage::Coverage;
use harness::device::{Amended, Reference};
use harness::lockstep::{InStep, Lockstep, Parting, run_seed};
use harness::trio::Trio;

const LENGTH: usize = 300;

/// The partings of the first seeds.
fn partings<T: InStep>(seeds: u64, tame: bool) -> Vec<Parting> {
    let mut coverage = Coverage::default();
    (1..=seeds).filter_map(|seed| run_seed::<T>(seed, LENGTH, tame, &mut coverage).parting).map(|parting| *parting).collect()
}

#[test]
fn reference_and_amended_part_only_by_the_differences() {
    for tame in [false, true] {
        let partings = partings::<Lockstep<Reference, Amended>>(60, tame);
        let unexplained: Vec<String> = partings.iter().filter(|parting| !parting.is_explained()).map(Parting::to_string).collect();
        assert!(unexplained.is_empty(), "{}", unexplained.join("\n"));
    }
}

#[test]
fn a_device_never_parts_from_itself() {
    assert!(partings::<Lockstep<Reference, Reference>>(30, false).is_empty());
    assert!(partings::<Lockstep<Amended, Amended>>(30, false).is_empty());
}

#[test]
fn the_port_parts_from_neither() {
    for tame in [false, true] {
        let partings: Vec<String> = partings::<Trio>(60, tame).iter().map(Parting::to_string).collect();
        assert!(partings.is_empty(), "{}", partings.join("\n"));
    }
}
