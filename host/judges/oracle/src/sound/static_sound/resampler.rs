// kira's resampler.rs, unchanged, with access to its private window; a wrapper that remembers the lowest count at which
// it was read; and the leaves over it.
use std::cell::Cell;

use crate::{Frame, leaves::Window};

mod text {
    include!("../../../kira/src/sound/static_sound/sound/resampler.rs");

    use crate::{Entry, leaves::Window};

    impl Resampler {
        /// A resampler with the given window.
        pub(super) fn from_window(window: &Window) -> Self {
            Self {
                frames: window.entries.map(|entry| RecentFrame {
                    frame: Frame::new(entry.left, entry.right),
                    frame_index: entry.number,
                }),
                time_until_empty: window.count,
            }
        }

        /// Its window.
        pub(super) fn window(&self) -> Window {
            Window {
                entries: self.frames.map(|recent| Entry {
                    left: recent.frame.left,
                    right: recent.frame.right,
                    number: recent.frame_index,
                }),
                count: self.time_until_empty,
            }
        }

        /// Its count.
        #[inline]
        pub(super) fn count(&self) -> usize {
            self.time_until_empty
        }
    }
}

/// What kira's text finds under this name: its own resampler, and the lowest count of its reads.
pub(super) struct Resampler {
    text: text::Resampler,
    lowest: Cell<usize>,
}

impl Resampler {
    pub fn new(starting_frame_index: usize) -> Self {
        Self::around(text::Resampler::new(starting_frame_index))
    }

    /// A resampler with the given window.
    pub(super) fn from_window(window: &Window) -> Self {
        Self::around(text::Resampler::from_window(window))
    }

    /// Its window.
    pub(super) fn window(&self) -> Window {
        self.text.window()
    }

    #[inline]
    pub fn push_frame(&mut self, frame: Option<Frame>, frame_index: usize) {
        self.text.push_frame(frame, frame_index);
    }

    #[inline]
    pub fn current_frame_index(&self) -> usize {
        self.text.current_frame_index()
    }

    #[inline]
    pub fn empty(&self) -> bool {
        self.text.empty()
    }

    /// kira's `get`. The count before each read is remembered.
    #[inline]
    pub fn get(&self, fractional_position: f32) -> Frame {
        if cfg!(not(timed)) {
            self.lowest.set(self.lowest.get().min(self.text.count()));
        }
        self.text.get(fractional_position)
    }

    /// The lowest count of the reads since the last call; 4 if there was none.
    pub(super) fn take_lowest(&self) -> usize {
        self.lowest.replace(4)
    }

    fn around(text: text::Resampler) -> Self {
        Self {
            text,
            lowest: Cell::new(4),
        }
    }
}

/// kira's `Resampler::new`.
#[must_use]
pub fn new_window(starting_frame_index: usize) -> Window {
    Resampler::new(starting_frame_index).window()
}

/// kira's `Resampler::push_frame`.
#[must_use]
pub fn push_frame(given: &Window, frame: Option<Frame>, number: usize) -> Window {
    let mut original = Resampler::from_window(given);
    original.push_frame(frame, number);
    original.window()
}

/// kira's `Resampler::get`, and the window's count.
#[must_use]
pub fn get(given: &Window, fraction: f32) -> (Frame, usize) {
    let original = Resampler::from_window(given);
    (original.get(fraction), original.window().count)
}

/// kira's `Resampler::current_frame_index`.
#[must_use]
pub fn current_frame_index(given: &Window) -> usize {
    Resampler::from_window(given).current_frame_index()
}

/// kira's `Resampler::empty`.
#[must_use]
pub fn empty(given: &Window) -> bool {
    Resampler::from_window(given).empty()
}
