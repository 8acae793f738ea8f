//! The proved leaves. Each slice crosses as a pointer and a length.
//!
//! The functions are inlined: so a program calls what it times with nothing in between, and one that calls none needs no archive of them.
unsafe extern "C" {
    fn hda_amplify(pcm: *mut u8, length: usize, left: u8, right: u8);
    fn hda_amplify_into(pcm: *const u8, pcm_length: usize, into: *mut u8, into_length: usize, left: u8, right: u8) -> u32;
    fn hda_amplify_then_copy(pcm: *mut u8, pcm_length: usize, into: *mut u8, into_length: usize, left: u8, right: u8) -> u32;
}

/// What a call gives that is done, and one whose target is longer than its source.
pub const DONE: u32 = 0;
pub const SHORT: u32 = 10;

/// Amplifies in place.
#[inline]
pub fn amplify(pcm: &mut [u8], left: u8, right: u8) {
    // The function takes every length and touches the slice alone.
    unsafe { hda_amplify(pcm.as_mut_ptr(), pcm.len(), left, right) }
}

/// Amplifies into `into` in one pass, as much as it has room for.
#[inline]
pub fn amplify_into(pcm: &[u8], into: &mut [u8], left: u8, right: u8) -> u32 {
    // As above; of the two slices it writes the second alone.
    unsafe { hda_amplify_into(pcm.as_ptr(), pcm.len(), into.as_mut_ptr(), into.len(), left, right) }
}

/// Amplifies in place, then copies as much as `into` has room for.
#[inline]
pub fn amplify_then_copy(pcm: &mut [u8], into: &mut [u8], left: u8, right: u8) -> u32 {
    // As above.
    unsafe { hda_amplify_then_copy(pcm.as_mut_ptr(), pcm.len(), into.as_mut_ptr(), into.len(), left, right) }
}
