//! A voice's whole state, to save and restore: docs/assurance/RULES.md, "Well formed".

use crate::{PlaybackState, ffi};

/// Two samples, left and right.
#[derive(Debug, Clone, Copy, PartialEq, Default)]
pub struct Frame {
    /// The left sample.
    pub left: f32,
    /// The right sample.
    pub right: f32,
}

/// An entry of the window of four: a frame and its frame index.
#[derive(Debug, Clone, Copy, PartialEq, Default)]
pub struct RecentFrame {
    /// The frame.
    pub frame: Frame,
    /// The position that it had in the slice.
    pub frame_index: usize,
}

/// How often a voice has wrapped round its loop, forward and backward.
///
/// A step that wraps counts once, however many loop lengths it covers, also from outside the loop (as
/// after a loop command). Creation's three steps count, seeks do not, and no command clears a count. To
/// count the wraps of an evening or of one loop, take the difference of two readings. A count stays at
/// 4,294,967,295. The direction is the one in which the position moves: a sound in reverse at rate 1
/// counts backward.
///
/// In a block of a voice that plays inside its loop of `l` frames, as long as the count has not reached
/// its limit: position after = position before + steps - `l` * wraps (backward: - steps + `l` * wraps).
#[derive(Debug, Clone, Copy, PartialEq, Eq, Hash, Default)]
#[non_exhaustive]
pub struct Wraps {
    /// Forward steps that wrapped.
    pub forward: u32,
    /// Backward steps that wrapped.
    pub backward: u32,
}

/// The whole state of a voice between two calls. [`StaticSound::state`](crate::StaticSound::state)
/// returns it, [`StaticSound::from_state`](crate::StaticSound::from_state) checks and restores it;
/// [`State::to_bytes`] and [`State::from_bytes`] save it. The default is the blank state, which no
/// voice has.
#[derive(Debug, Clone, Copy, PartialEq)]
#[non_exhaustive]
pub struct State {
    /// The sample rate of the sound.
    pub sample_rate: u32,
    /// The number of frames of the whole sound.
    pub num_frames: usize,
    /// The slice; the end is exclusive.
    pub slice: Option<(usize, usize)>,
    /// Whether the sound plays in reverse.
    pub reverse: bool,
    /// The held rate.
    pub playback_rate: f64,
    /// Whether the sound has started.
    pub started: bool,
    /// The playback state.
    pub playback_state: PlaybackState,
    /// The position between two frames, at least 0 and below 1.
    pub fractional_position: f64,
    /// The index of the frame that the next update pushes, counted from the slice's start.
    pub position: usize,
    /// The loop, counted from the slice's start; the end is exclusive.
    pub loop_region: Option<(usize, usize)>,
    /// Whether the position still moves: it has not passed the sound's end.
    pub playing: bool,
    /// The window of four, oldest first. A reading at fraction 0 returns the second entry.
    pub window: [RecentFrame; 4],
    /// The window's count: how many more pushes without a frame until the window is empty.
    pub time_until_empty: u32,
    /// The loop wraps; any two counts are well formed.
    pub wraps: Wraps,
}

impl State {
    /// Whether the position moves backward. It does if the held rate's sign bit is set; `reverse` turns the direction
    /// round.
    #[must_use]
    pub fn is_backward(&self) -> bool {
        self.playback_rate.is_sign_negative() != self.reverse
    }
}

impl Default for State {
    /// The blank state: stopped, not playing, every number 0. It is not well formed.
    fn default() -> Self {
        Self {
            sample_rate: 0,
            num_frames: 0,
            slice: None,
            reverse: false,
            playback_rate: 0.0,
            started: false,
            playback_state: PlaybackState::Stopped,
            fractional_position: 0.0,
            position: 0,
            loop_region: None,
            playing: false,
            window: [RecentFrame::default(); 4],
            time_until_empty: 0,
            wraps: Wraps::default(),
        }
    }
}

/// A region in C: whether it is given, its start, its end.
fn flagged(region: Option<(usize, usize)>) -> (u32, u64, u64) {
    region.map_or((0, 0, 0), |(start, end)| (1, start as u64, end as u64))
}

fn optional(given: u32, start: u64, end: u64) -> Option<(usize, usize)> {
    (given != 0).then_some((start as usize, end as usize))
}

impl From<State> for ffi::State {
    fn from(state: State) -> Self {
        let (has_slice, slice_start, slice_end) = flagged(state.slice);
        let (has_loop, loop_start, loop_end) = flagged(state.loop_region);
        Self {
            sample_rate: state.sample_rate,
            state: state.playback_state.number(),
            reverse: state.reverse.into(),
            started: state.started.into(),
            playing: state.playing.into(),
            has_slice,
            has_loop,
            count: state.time_until_empty,
            num_frames: state.num_frames as u64,
            slice_start,
            slice_end,
            position: state.position as u64,
            loop_start,
            loop_end,
            playback_rate: state.playback_rate,
            fraction: state.fractional_position,
            window: state.window.map(Into::into),
            forward_wraps: state.wraps.forward,
            backward_wraps: state.wraps.backward,
        }
    }
}

impl From<ffi::State> for State {
    fn from(state: ffi::State) -> Self {
        Self {
            sample_rate: state.sample_rate,
            num_frames: state.num_frames as usize,
            slice: optional(state.has_slice, state.slice_start, state.slice_end),
            reverse: state.reverse != 0,
            playback_rate: state.playback_rate,
            started: state.started != 0,
            playback_state: PlaybackState::of_voice(state.state),
            fractional_position: state.fraction,
            position: state.position as usize,
            loop_region: optional(state.has_loop, state.loop_start, state.loop_end),
            playing: state.playing != 0,
            window: state.window.map(Into::into),
            time_until_empty: state.count,
            wraps: Wraps {
                forward: state.forward_wraps,
                backward: state.backward_wraps,
            },
        }
    }
}

impl From<RecentFrame> for ffi::Entry {
    fn from(recent: RecentFrame) -> Self {
        Self {
            left: recent.frame.left,
            right: recent.frame.right,
            number: recent.frame_index as u64,
        }
    }
}

impl From<ffi::Entry> for RecentFrame {
    fn from(entry: ffi::Entry) -> Self {
        Self {
            frame: Frame {
                left: entry.left,
                right: entry.right,
            },
            frame_index: entry.number as usize,
        }
    }
}
