// A voice's whole state, as plain numbers that can be compared bit by bit.

use crate::{PlaybackState, Wraps, leaves::Window};

/// The largest position and frame index: 2^32.
pub const LIMIT: usize = 4_294_967_296;

/// A window entry: a frame and its frame index.
#[derive(Debug, Clone, Copy, Default)]
pub struct Entry {
    /// The left sample.
    pub left: f32,
    /// The right sample.
    pub right: f32,
    /// The frame index.
    pub number: usize,
}

impl Entry {
    /// Equal bit by bit; any NaN equals any NaN.
    #[must_use]
    pub fn same_bits(&self, other: &Self) -> bool {
        same_f32(self.left, other.left)
            && same_f32(self.right, other.right)
            && self.number == other.number
    }

    fn is_positive_zero(&self) -> bool {
        self.left.to_bits() == 0 && self.right.to_bits() == 0
    }
}

/// The state of a voice between two calls.
#[derive(Debug, Clone, Copy)]
pub struct State {
    /// The sound's frames per second.
    pub sample_rate: u32,
    /// All frames of the sound, with or without a slice.
    pub total_frames: usize,
    /// The slice; the end is exclusive.
    pub slice: Option<(usize, usize)>,
    /// Whether the sound plays in reverse.
    pub reverse: bool,
    /// The held rate.
    pub rate: f64,
    /// Whether the sound's own start has come.
    pub started: bool,
    /// Which of the seven states.
    pub playback: PlaybackState,
    /// The fraction between two frames.
    pub fraction: f64,
    /// The transport's position.
    pub position: usize,
    /// The transport's loop; the end is exclusive.
    pub loop_region: Option<(usize, usize)>,
    /// Whether the transport is playing.
    pub playing: bool,
    /// The window of four.
    pub window: [Entry; 4],
    /// The window's count.
    pub count: usize,
    /// The steps that wrapped.
    pub wraps: Wraps,
}

impl State {
    /// The blank voice, which a refused creation returns.
    pub const BLANK: Self = Self {
        sample_rate: 0,
        total_frames: 0,
        slice: None,
        reverse: false,
        rate: 0.0,
        started: false,
        playback: PlaybackState::Stopped,
        fraction: 0.0,
        position: 0,
        loop_region: None,
        playing: false,
        window: [Entry {
            left: 0.0,
            right: 0.0,
            number: 0,
        }; 4],
        count: 0,
        wraps: Wraps {
            forward: 0,
            backward: 0,
        },
    };

    /// Equal bit by bit; any NaN equals any NaN.
    #[must_use]
    pub fn same_bits(&self, other: &Self) -> bool {
        self.sample_rate == other.sample_rate
            && self.total_frames == other.total_frames
            && self.slice == other.slice
            && self.reverse == other.reverse
            && same_f64(self.rate, other.rate)
            && self.started == other.started
            && self.playback == other.playback
            && same_f64(self.fraction, other.fraction)
            && self.position == other.position
            && self.loop_region == other.loop_region
            && self.playing == other.playing
            && self.window().same_bits(&other.window())
            && self.wraps == other.wraps
    }

    /// The frames that can be played: the slice's, or all.
    #[must_use]
    pub fn num_frames(&self) -> usize {
        self.slice
            .map_or(self.total_frames, |(start, end)| end.saturating_sub(start))
    }

    /// The window with its count.
    #[must_use]
    pub fn window(&self) -> Window {
        Window {
            entries: self.window,
            count: self.count,
        }
    }

    /// Whether the state is well formed by the rules.
    #[must_use]
    pub fn is_well_formed(&self) -> bool {
        let region_fits = |region: Option<(usize, usize)>, frames| {
            region.is_none_or(|(start, end)| start < end && end <= frames)
        };
        (1..=768_000).contains(&self.sample_rate)
            && (1..=16_777_216).contains(&self.total_frames)
            && region_fits(self.slice, self.total_frames)
            && region_fits(self.loop_region, self.num_frames())
            && self.rate.is_finite()
            && (!self.playing || self.position < self.num_frames())
            && self.position <= LIMIT
            && self.window.iter().all(|entry| entry.number <= LIMIT)
            && self.fraction.is_sign_positive()
            && self.fraction < 1.0
            && self.count <= 4
            && self.window[self.count..]
                .iter()
                .all(Entry::is_positive_zero)
    }
}

/// Equal bits; any NaN equals any NaN.
#[must_use]
pub fn same_f32(a: f32, b: f32) -> bool {
    a.to_bits() == b.to_bits() || a.is_nan() && b.is_nan()
}

/// Equal bits; any NaN equals any NaN.
#[must_use]
pub fn same_f64(a: f64, b: f64) -> bool {
    a.to_bits() == b.to_bits() || a.is_nan() && b.is_nan()
}
