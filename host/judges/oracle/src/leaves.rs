//! kira's small parts, as plain functions over plain records.

use crate::{
    Entry, Frame, PlaybackPosition, PlaybackState, Region, Signals, StartTime, TooManyTurns, Tween,
    Wraps, frame, playback_state_manager::PlaybackStateManager, sound::transport, turns,
};

pub use crate::sound::static_sound::{current_frame_index, empty, get, new_window, push_frame};

/// kira's `Transport`, as plain numbers.
#[derive(Debug, Clone, Copy, PartialEq, Eq)]
pub struct Transport {
    /// The position.
    pub position: usize,
    /// The loop, its end exclusive.
    pub loop_region: Option<(usize, usize)>,
    /// Whether it is playing.
    pub playing: bool,
}

impl Transport {
    fn run(self, act: impl FnOnce(&mut transport::Transport)) -> Self {
        let Self {
            position,
            loop_region,
            playing,
        } = self;
        let mut original =
            transport::Transport::found(position, loop_region, playing, Wraps::default());
        act(&mut original);
        Self::of(original)
    }

    fn of(original: transport::Transport) -> Self {
        Self {
            position: original.position,
            loop_region: original.loop_region,
            playing: original.playing,
        }
    }
}

/// kira's `Transport::new`. The start must be below the frames: with `reverse` kira subtracts it.
#[must_use]
pub fn new_transport(
    start_position: usize,
    loop_region: Option<Region>,
    reverse: bool,
    sample_rate: u32,
    num_frames: usize,
) -> Transport {
    Transport::of(transport::Transport::new(
        start_position,
        loop_region,
        reverse,
        sample_rate,
        num_frames,
    ))
}

/// kira's `Transport::set_loop_region`.
#[must_use]
pub fn set_loop_region(
    given: Transport,
    loop_region: Option<Region>,
    sample_rate: u32,
    num_frames: usize,
) -> Transport {
    given.run(|original| original.set_loop_region(loop_region, sample_rate, num_frames))
}

/// kira's `Transport::increment_position`.
///
/// # Errors
/// If its `while` would make more than [`crate::MAX_TURNS`] iterations.
pub fn increment_position(given: Transport, num_frames: usize) -> Result<Transport, TooManyTurns> {
    if given.playing {
        turns::allow(turns::increment_turns(given.position, given.loop_region))?;
    }
    Ok(given.run(|original| original.increment_position(num_frames)))
}

/// kira's `Transport::decrement_position`.
///
/// # Errors
/// If its `while` would make more than [`crate::MAX_TURNS`] iterations.
pub fn decrement_position(given: Transport) -> Result<Transport, TooManyTurns> {
    if given.playing {
        turns::allow(turns::decrement_turns(given.position, given.loop_region))?;
    }
    Ok(given.run(transport::Transport::decrement_position))
}

/// kira's `Transport::seek_to`.
///
/// # Errors
/// If its `while` would make more than [`crate::MAX_TURNS`] iterations.
pub fn seek_to(
    given: Transport,
    target: usize,
    num_frames: usize,
) -> Result<Transport, TooManyTurns> {
    turns::allow(turns::seek_turns(given.position, given.loop_region, target))?;
    Ok(given.run(|original| original.seek_to(target, num_frames)))
}

/// kira's `Resampler`: the window of four and its count.
#[derive(Debug, Clone, Copy, Default)]
pub struct Window {
    /// The four entries, the oldest first.
    pub entries: [Entry; 4],
    /// How many more pushes without a frame until it is empty.
    pub count: usize,
}

impl Window {
    /// Equal bit by bit; any NaN equals any NaN.
    #[must_use]
    pub fn same_bits(&self, other: &Self) -> bool {
        let mut pairs = self.entries.iter().zip(&other.entries);
        pairs.all(|(a, b)| a.same_bits(b)) && self.count == other.count
    }
}

/// kira's `interpolate_frame`.
#[must_use]
pub fn interpolate_frame(frames: [Frame; 4], fraction: f32) -> Frame {
    let [previous, current, next_1, next_2] = frames;
    frame::interpolate_frame(previous, current, next_1, next_2, fraction)
}

/// kira's `PlaybackPosition::into_samples`: rounded half away from zero, and not capped.
#[must_use]
pub fn into_samples(position: PlaybackPosition, sample_rate: u32) -> usize {
    position.into_samples(sample_rate)
}

/// kira's `PlaybackStateManager::pause`.
#[must_use]
pub fn pause(given: PlaybackState) -> PlaybackState {
    manage(given, |original| original.pause(Tween)).0
}

/// kira's `PlaybackStateManager::resume`.
#[must_use]
pub fn resume(given: PlaybackState, waits: bool) -> PlaybackState {
    let start_time = StartTime::of_resume(waits);
    manage(given, |original| original.resume(start_time, Tween)).0
}

/// kira's `PlaybackStateManager::stop`.
#[must_use]
pub fn stop(given: PlaybackState) -> PlaybackState {
    manage(given, |original| original.stop(Tween)).0
}

/// kira's `PlaybackStateManager::mark_as_stopped`.
#[must_use]
pub fn mark_as_stopped(given: PlaybackState) -> PlaybackState {
    manage(given, PlaybackStateManager::mark_as_stopped).0
}

/// kira's `PlaybackStateManager::update`: the state after it, and whether kira says that it changed.
#[must_use]
pub fn update(given: PlaybackState, signals: Signals) -> (PlaybackState, bool) {
    manage(given, |original| original.update(0.0, &signals))
}

fn manage<T>(
    given: PlaybackState,
    act: impl FnOnce(&mut PlaybackStateManager) -> T,
) -> (PlaybackState, T) {
    let mut original = PlaybackStateManager::in_state(given);
    let answer = act(&mut original);
    (original.playback_state(), answer)
}
