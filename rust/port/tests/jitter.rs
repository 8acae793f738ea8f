//! The example of a timer with jitter: what the host made ready is enough at every tick, and not more than a tick can need.
#[allow(dead_code)]
#[path = "../examples/jitter.rs"]
mod example;

#[test]
fn the_host_is_ready_for_every_tick() {
    let told = [
        "a timer of 1 ms, half of one early or late: a stream moves 96 to 288 bytes",
        "fed with a nominal period: 744 of 10344 captured frames are silence, and up to 30 wait",
        "fed with what the tick may take: 0 of 10344 captured frames are silence, and up to 48 wait",
        "the host had 288 bytes of buffer for each pull, and got up to 288",
        "near the end of memory 0.1 ms move 16 bytes and 0.5 ms 0; in between it is 0 to 40",
    ];
    assert_eq!(example::story(), told);
}
