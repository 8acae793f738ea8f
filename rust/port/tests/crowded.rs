//! The example of a stored state that was edited by hand: of its guest only the completions of the emptied list are lost.
#[allow(dead_code)]
#[path = "../examples/crowded.rs"]
mod example;

#[test]
fn playback_goes_on_and_later_completions_come() {
    let told = [
        "saved after 20 ms, completions pending at [1024, 2048, 3072]",
        "edited by hand, completions at [1024, 1025, 1026]",
        "restore refuses the edited state: 20",
        "restore_emptied takes it, completions pending at []",
        "40 ms after the state as it was, the guest was told of [1024, 2048, 3072, 4096, 5120, 6144, 7168]",
        "40 ms after the edited one, of [4096, 5120, 6144, 7168]",
        "both played the same 1920 frames, and 7488 bytes were heard",
    ];
    assert_eq!(example::story(), told);
}
