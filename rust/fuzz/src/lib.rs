//! Tests of the port's C functions on any bytes: [`any`] makes any call on any slices and knows what is refused, [`states`] which saved states are taken and what they
//! leave, [`takes`] makes the two calls on WAV files and knows all that they return and leave, [`catchup`] knows how soon a stall is over, and [`stalled`] makes machines in one, [`bounds`] knows
//! between which counts a timer with jitter ends, and [`jittery`] makes machines for which that is not what the shortest and the longest time say. They are written from document 01's text, what is said of crowded lists from request
//! T-09's, of takes from T-02's, of stalls from T-10's and of jitter from T-13's, and share no code with the device.
pub mod any;
pub mod bounds;
pub mod catchup;
pub mod jittery;
pub mod stalled;
pub mod states;
pub mod takes;
