//! Each C function over slices of any length and content; docs/LAYOUT.md says what they do.
//!
//! What makes all of them safe: a function reads and writes the slices that it is handed, at most to their lengths, whatever they hold; it keeps none of them. A slice that it
//! writes comes as `&mut`, so that no other overlaps it.
use crate::c;
use crate::{Reply, WavReply};

/// A new device into `device`.
pub fn new(device: &mut [u8], lists: &[u8], queues: &[u8], microphone: bool) -> Reply {
    Reply(unsafe {
        c::hda_new(device.as_mut_ptr(), device.len(), lists.as_ptr(), lists.len(), queues.as_ptr(), queues.len(), u32::from(microphone))
    })
}

/// A new host end into `host`.
pub fn host_new(host: &mut [u8], queues: &[u8]) -> Reply {
    Reply(unsafe { c::hda_host_new(host.as_mut_ptr(), host.len(), queues.as_ptr(), queues.len()) })
}

/// `nanos` nanoseconds pass.
pub fn advance(device: &mut [u8], host: &mut [u8], lists: &mut [u8], queues: &mut [u8], memory: &mut [u8], nanos: u64) -> Reply {
    Reply(unsafe {
        c::hda_advance(
            device.as_mut_ptr(),
            device.len(),
            host.as_mut_ptr(),
            host.len(),
            lists.as_mut_ptr(),
            lists.len(),
            queues.as_mut_ptr(),
            queues.len(),
            memory.as_mut_ptr(),
            memory.len(),
            nanos,
        )
    })
}

/// Between which counts the streams' submitted bytes end after an [`advance`] of `shortest` to `longest` nanoseconds, every opening taken as one that succeeds: the lowest and the highest of each stream into
/// the start of `into`; the reply's value is their length. All of the scratch is 0 afterwards, and as it was where the call refuses.
#[allow(clippy::too_many_arguments)]
pub fn advance_bounds(
    device: &[u8],
    host: &[u8],
    lists: &[u8],
    queues: &[u8],
    memory: &[u8],
    shortest: u64,
    longest: u64,
    scratch_lists: &mut [u8],
    scratch_queues: &mut [u8],
    scratch_memory: &mut [u8],
    into: &mut [u8],
) -> Reply {
    Reply(unsafe {
        c::hda_advance_bounds(
            device.as_ptr(),
            device.len(),
            host.as_ptr(),
            host.len(),
            lists.as_ptr(),
            lists.len(),
            queues.as_ptr(),
            queues.len(),
            memory.as_ptr(),
            memory.len(),
            shortest,
            longest,
            scratch_lists.as_mut_ptr(),
            scratch_lists.len(),
            scratch_queues.as_mut_ptr(),
            scratch_queues.len(),
            scratch_memory.as_mut_ptr(),
            scratch_memory.len(),
            into.as_mut_ptr(),
            into.len(),
        )
    })
}

/// Registers from `offset` on, into `into`.
pub fn read(device: &[u8], host: &[u8], lists: &[u8], queues: &[u8], offset: u64, into: &mut [u8]) -> Reply {
    Reply(unsafe {
        c::hda_read(
            device.as_ptr(),
            device.len(),
            host.as_ptr(),
            host.len(),
            lists.as_ptr(),
            lists.len(),
            queues.as_ptr(),
            queues.len(),
            offset,
            into.as_mut_ptr(),
            into.len(),
        )
    })
}

/// A guest's write to the registers from `offset` on.
pub fn write(device: &mut [u8], host: &mut [u8], lists: &[u8], queues: &[u8], memory: &mut [u8], offset: u64, bytes: &[u8]) -> Reply {
    Reply(unsafe {
        c::hda_write(
            device.as_mut_ptr(),
            device.len(),
            host.as_mut_ptr(),
            host.len(),
            lists.as_ptr(),
            lists.len(),
            queues.as_ptr(),
            queues.len(),
            memory.as_mut_ptr(),
            memory.len(),
            offset,
            bytes.as_ptr(),
            bytes.len(),
        )
    })
}

/// As [`read`] at base address 0; others read zeros.
pub fn bar_read(device: &[u8], host: &[u8], lists: &[u8], queues: &[u8], bar: u32, offset: u64, into: &mut [u8]) -> Reply {
    Reply(unsafe {
        c::hda_bar_read(
            device.as_ptr(),
            device.len(),
            host.as_ptr(),
            host.len(),
            lists.as_ptr(),
            lists.len(),
            queues.as_ptr(),
            queues.len(),
            bar,
            offset,
            into.as_mut_ptr(),
            into.len(),
        )
    })
}

/// As [`write`] at base address 0; others drop the write.
#[allow(clippy::too_many_arguments)]
pub fn bar_write(
    device: &mut [u8],
    host: &mut [u8],
    lists: &[u8],
    queues: &[u8],
    memory: &mut [u8],
    bar: u32,
    offset: u64,
    bytes: &[u8],
) -> Reply {
    Reply(unsafe {
        c::hda_bar_write(
            device.as_mut_ptr(),
            device.len(),
            host.as_mut_ptr(),
            host.len(),
            lists.as_ptr(),
            lists.len(),
            queues.as_ptr(),
            queues.len(),
            memory.as_mut_ptr(),
            memory.len(),
            bar,
            offset,
            bytes.as_ptr(),
            bytes.len(),
        )
    })
}

/// A configuration register, which is the reply's value.
pub fn config_read(device: &[u8], host: &[u8], lists: &[u8], queues: &[u8], register: u64) -> Reply {
    Reply(unsafe {
        c::hda_config_read(
            device.as_ptr(),
            device.len(),
            host.as_ptr(),
            host.len(),
            lists.as_ptr(),
            lists.len(),
            queues.as_ptr(),
            queues.len(),
            register,
        )
    })
}

/// A write to the configuration, from byte `offset` of a register on.
#[allow(clippy::too_many_arguments)]
pub fn config_write(
    device: &mut [u8],
    host: &[u8],
    lists: &[u8],
    queues: &[u8],
    memory: &mut [u8],
    register: u64,
    offset: u64,
    bytes: &[u8],
) -> Reply {
    Reply(unsafe {
        c::hda_config_write(
            device.as_mut_ptr(),
            device.len(),
            host.as_ptr(),
            host.len(),
            lists.as_ptr(),
            lists.len(),
            queues.as_ptr(),
            queues.len(),
            memory.as_mut_ptr(),
            memory.len(),
            register,
            offset,
            bytes.as_ptr(),
            bytes.len(),
        )
    })
}

/// Something was plugged in or out at a node.
pub fn pin_presence_changed(device: &mut [u8], host: &[u8], lists: &[u8], queues: &[u8], memory: &mut [u8], node: u32) -> Reply {
    Reply(unsafe {
        c::hda_pin_presence_changed(
            device.as_mut_ptr(),
            device.len(),
            host.as_ptr(),
            host.len(),
            lists.as_ptr(),
            lists.len(),
            queues.as_ptr(),
            queues.len(),
            memory.as_mut_ptr(),
            memory.len(),
            node,
        )
    })
}

/// Streams and clock stand still while paused.
pub fn set_paused(device: &mut [u8], host: &[u8], lists: &[u8], queues: &[u8], paused: bool) -> Reply {
    Reply(unsafe {
        c::hda_set_paused(
            device.as_mut_ptr(),
            device.len(),
            host.as_ptr(),
            host.len(),
            lists.as_ptr(),
            lists.len(),
            queues.as_ptr(),
            queues.len(),
            u32::from(paused),
        )
    })
}

/// The saved state into the start of `into`; the reply's value is its length.
pub fn save(device: &[u8], host: &[u8], lists: &[u8], queues: &[u8], into: &mut [u8]) -> Reply {
    Reply(unsafe {
        c::hda_save(
            device.as_ptr(),
            device.len(),
            host.as_ptr(),
            host.len(),
            lists.as_ptr(),
            lists.len(),
            queues.as_ptr(),
            queues.len(),
            into.as_mut_ptr(),
            into.len(),
        )
    })
}

/// The device takes a saved state: the whole of `state`.
pub fn restore(device: &mut [u8], host: &mut [u8], lists: &mut [u8], queues: &[u8], state: &[u8]) -> Reply {
    Reply(unsafe {
        c::hda_restore(
            device.as_mut_ptr(),
            device.len(),
            host.as_mut_ptr(),
            host.len(),
            lists.as_mut_ptr(),
            lists.len(),
            queues.as_ptr(),
            queues.len(),
            state.as_ptr(),
            state.len(),
        )
    })
}

/// The same for a state with crowded lists, which are emptied: completions that the guest waits for are lost.
pub fn restore_emptied(device: &mut [u8], host: &mut [u8], lists: &mut [u8], queues: &[u8], state: &[u8]) -> Reply {
    Reply(unsafe {
        c::hda_restore_emptied(
            device.as_mut_ptr(),
            device.len(),
            host.as_mut_ptr(),
            host.len(),
            lists.as_mut_ptr(),
            lists.len(),
            queues.as_ptr(),
            queues.len(),
            state.as_ptr(),
            state.len(),
        )
    })
}

/// Frames for capture; the reply's value says how many were taken.
pub fn feed(host: &mut [u8], queues: &mut [u8], frames: &[u8]) -> Reply {
    Reply(unsafe { c::hda_feed(host.as_mut_ptr(), host.len(), queues.as_mut_ptr(), queues.len(), frames.as_ptr(), frames.len()) })
}

/// Frames of playback; the reply's value says how many were given.
pub fn pull(host: &mut [u8], queues: &mut [u8], into: &mut [u8]) -> Reply {
    Reply(unsafe { c::hda_pull(host.as_mut_ptr(), host.len(), queues.as_mut_ptr(), queues.len(), into.as_mut_ptr(), into.len()) })
}

/// Whether openings for playback fail.
pub fn set_playback_fails(host: &mut [u8], queues: &[u8], fails: bool) -> Reply {
    Reply(unsafe { c::hda_set_playback_fails(host.as_mut_ptr(), host.len(), queues.as_ptr(), queues.len(), u32::from(fails)) })
}

/// Whether openings for capture fail.
pub fn set_capture_fails(host: &mut [u8], queues: &[u8], fails: bool) -> Reply {
    Reply(unsafe { c::hda_set_capture_fails(host.as_mut_ptr(), host.len(), queues.as_ptr(), queues.len(), u32::from(fails)) })
}

/// How many bytes the host holds beyond the playback queue.
pub fn set_downstream(host: &mut [u8], queues: &[u8], bytes: u32) -> Reply {
    Reply(unsafe { c::hda_set_downstream(host.as_mut_ptr(), host.len(), queues.as_ptr(), queues.len(), bytes) })
}

/// Pulled frames as a WAV file into the start of `into`.
pub fn wav_write(rate: u32, frames: &[u8], into: &mut [u8]) -> WavReply {
    WavReply(unsafe { c::hda_wav_write(rate, frames.as_ptr(), frames.len(), into.as_mut_ptr(), into.len()) })
}

/// The frames of a WAV file, the whole of `file`, into the start of `into`.
pub fn wav_read(file: &[u8], into: &mut [u8]) -> WavReply {
    WavReply(unsafe { c::hda_wav_read(file.as_ptr(), file.len(), into.as_mut_ptr(), into.len()) })
}
