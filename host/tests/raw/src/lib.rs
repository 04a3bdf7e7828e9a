//! The C entries for the tests: structs of numbers by value, borrowed slices, any bytes.
//!
//! `cableowl-sys` declares them; here they get the oracle's lanes. [`convert`] converts between the structs and the
//! oracle's types.
#![warn(missing_docs)]

mod bytes;
pub mod convert;

pub use bytes::{REPLAY_BYTES, ReplayBytes, STATE_BYTES, StateBytes};

/// The structs, by their names in C.
pub use cableowl_sys::{
    Commanded as CableowlCommanded, Commands as CableowlCommands, Created as CableowlCreated,
    Entry as CableowlEntry, LoopSlot as CableowlLoopSlot, LoopTable as CableowlLoopTable,
    Place as CableowlPlace, Processed as CableowlProcessed, Region as CableowlRegion,
    Replay as CableowlReplay, Replayed as CableowlReplayed, Settings as CableowlSettings,
    Signals as CableowlSignals, State as CableowlState,
};
/// The entries, with slices for their pointers and lengths.
pub use cableowl_sys::{
    clear_loop, loop_table, new, on_start_processing, read_loop, replay, replay_step,
    replay_step_v2, replay_v2, stretch, take_loop, version, write_loop,
};

/// The borrowed lanes of a block; each may have another length.
pub use oracle::Lanes;

/// The held lanes of a block: five numbers for all its frames.
#[derive(Debug, Clone, Copy)]
pub struct Held {
    /// The fade's amplitude.
    pub fade: f32,
    /// The volume's amplitude.
    pub volume: f32,
    /// The left channel's gain.
    pub left: f32,
    /// The right channel's gain.
    pub right: f32,
    /// The rate.
    pub rate: f64,
}

/// A block into an output of its own.
#[must_use]
#[inline]
pub fn process(
    state: CableowlState,
    sound: &[f32],
    lanes: &Lanes,
    dt: f64,
    signals: CableowlSignals,
    out: &mut [f32],
) -> CableowlProcessed {
    cableowl_sys::process(state, sound, sys_lanes(lanes), dt, signals, out)
}

/// A block into the middle of a longer mix, from the given frame on.
#[must_use]
#[inline]
pub fn process_into(
    state: CableowlState,
    sound: &[f32],
    lanes: &Lanes,
    dt: f64,
    signals: CableowlSignals,
    mix: &mut [f32],
    from: u64,
) -> CableowlProcessed {
    cableowl_sys::process_into(state, sound, sys_lanes(lanes), dt, signals, mix, from)
}

fn sys_lanes<'a>(lanes: &Lanes<'a>) -> cableowl_sys::Lanes<'a> {
    cableowl_sys::Lanes {
        fade: lanes.fade,
        volume: lanes.volume,
        left: lanes.left,
        right: lanes.right,
        rate: lanes.rate,
    }
}

/// A block with held lanes, into an output of its own.
#[must_use]
pub fn process_held(
    state: CableowlState,
    sound: &[f32],
    held: Held,
    dt: f64,
    signals: CableowlSignals,
    out: &mut [f32],
) -> CableowlProcessed {
    // SAFETY: pointers and lengths are those of borrowed slices; no other slice overlaps the output.
    unsafe {
        cableowl_sys::cableowl_process_held(
            state,
            sound.as_ptr(),
            sound.len(),
            held.fade,
            held.volume,
            held.left,
            held.right,
            held.rate,
            dt,
            signals,
            out.as_mut_ptr(),
            out.len(),
        )
    }
}

/// This many frames of it into the middle of a longer mix, from the given frame on.
#[must_use]
#[allow(clippy::too_many_arguments)]
pub fn process_held_into(
    state: CableowlState,
    sound: &[f32],
    held: Held,
    dt: f64,
    signals: CableowlSignals,
    mix: &mut [f32],
    from: u64,
    frames: u64,
) -> CableowlProcessed {
    // SAFETY: pointers and lengths are those of borrowed slices; no other slice overlaps the mix.
    unsafe {
        cableowl_sys::cableowl_process_held_into(
            state,
            sound.as_ptr(),
            sound.len(),
            held.fade,
            held.volume,
            held.left,
            held.right,
            held.rate,
            dt,
            signals,
            mix.as_mut_ptr(),
            mix.len(),
            from,
            frames,
        )
    }
}
