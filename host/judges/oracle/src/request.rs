// The input of a voice: settings, and a command set.

use crate::{PlaybackPosition, Region};

/// How a voice is created.
#[derive(Debug, Clone, Copy)]
pub struct Settings {
    /// Frames a second in the sound.
    pub sample_rate: u32,
    /// The part of the sound to play, if not all.
    pub slice: Option<Region>,
    /// Where to start, within the slice.
    pub start: PlaybackPosition,
    /// The part to loop, within the slice.
    pub loop_region: Option<Region>,
    /// Whether to play in reverse.
    pub reverse: bool,
    /// The held rate.
    pub rate: f64,
    /// Whether the start waits for an answer.
    pub waits: bool,
}

impl Settings {
    /// All of the sound from its first frame, forward at rate 1, at once.
    #[must_use]
    pub fn new(sample_rate: u32) -> Self {
        Self {
            sample_rate,
            slice: None,
            start: PlaybackPosition::Samples(0),
            loop_region: None,
            reverse: false,
            rate: 1.0,
            waits: false,
        }
    }
}

/// A command set: at most one of each, applied in the order written; the default is empty.
#[derive(Debug, Clone, Copy, Default)]
pub struct Commands {
    /// Sets the held rate at once.
    pub rate: Option<f64>,
    /// Sets the loop, or clears it.
    pub loop_region: Option<Option<Region>>,
    /// Pauses.
    pub pause: bool,
    /// Resumes; true if the resume waits for an answer.
    pub resume: Option<bool>,
    /// Stops.
    pub stop: bool,
    /// Seeks by seconds.
    pub seek_by: Option<f64>,
    /// Seeks to seconds.
    pub seek_to: Option<f64>,
}
