// kira's transport.rs, unchanged, and a wrapper that counts its wraps, which kira does not, by watching its position.
// That identifies each step: a forward step without a wrap raises the position by one, and one with a wrap does not
// raise it; a backward step without a wrap lowers it by one or ends playing, and one with a wrap does neither.

use std::ops::{Deref, DerefMut};

use super::{EndPosition, Region};

mod text {
    #![allow(clippy::all, dead_code, missing_docs)]
    include!("../../kira/src/sound/transport.rs");
}

/// Steps that wrapped, forward and backward. Each count stays at its type's limit.
#[derive(Debug, Clone, Copy, Default, PartialEq, Eq)]
pub struct Wraps {
    /// Forward steps.
    pub forward: u32,
    /// Backward steps.
    pub backward: u32,
}

/// What kira's text finds under this name: its own transport, and the wraps of its steps.
pub struct Transport {
    text: text::Transport,
    pub wraps: Wraps,
}

impl Transport {
    #[must_use]
    pub fn new(
        start_position: usize,
        loop_region: Option<Region>,
        reverse: bool,
        sample_rate: u32,
        num_frames: usize,
    ) -> Self {
        Self {
            text: text::Transport::new(
                start_position,
                loop_region,
                reverse,
                sample_rate,
                num_frames,
            ),
            wraps: Wraps::default(),
        }
    }

    /// A transport at a position.
    #[must_use]
    pub fn found(
        position: usize,
        loop_region: Option<(usize, usize)>,
        playing: bool,
        wraps: Wraps,
    ) -> Self {
        Self {
            text: text::Transport {
                position,
                loop_region,
                playing,
            },
            wraps,
        }
    }

    /// kira's `increment_position`, with a count of its wraps.
    #[inline]
    pub fn increment_position(&mut self, num_frames: usize) {
        let (before, went) = (self.position, self.playing);
        self.text.increment_position(num_frames);
        if cfg!(not(timed)) && went && self.position <= before {
            self.wraps.forward = self.wraps.forward.saturating_add(1);
        }
    }

    /// kira's `decrement_position`, with a count of its wraps.
    #[inline]
    pub fn decrement_position(&mut self) {
        let before = self.position;
        self.text.decrement_position();
        if cfg!(not(timed)) && self.playing && self.position >= before {
            self.wraps.backward = self.wraps.backward.saturating_add(1);
        }
    }
}

impl Deref for Transport {
    type Target = text::Transport;

    #[inline]
    fn deref(&self) -> &text::Transport {
        &self.text
    }
}

impl DerefMut for Transport {
    #[inline]
    fn deref_mut(&mut self) -> &mut text::Transport {
        &mut self.text
    }
}
