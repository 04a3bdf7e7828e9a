//! The line of a block: what a replay prints, and what a host logs.

use std::fmt;

use super::{OtherSound, Refused};
use crate::{PlaybackState, Processed, Refusal, StaticSound};

/// The line of a block or of a refused record. `Display` writes it without the line feed that ends it in a log.
///
/// ```
/// use cableowl::{Lanes, Refusal, Settings, Signals, StaticSound, trace::Line};
///
/// let sound = [1.0, 1.0, 2.0, 2.0, 3.0, 3.0];
/// let mut voice = StaticSound::new(Settings::new(1), &sound)?;
/// let (mut lanes, mut out) = (Lanes::new(), [0.0; 12]);
/// let answer = voice.process(&sound, lanes.frames(6), 1.0, Signals::new(), &mut out);
/// let line = Line::of_block(1, 6, &voice, answer);
/// assert_eq!(line.to_string(), "block=1 frames=6 steps=6 state=6 position=3");
///
/// let answer = voice.process(&sound, lanes.frames(6), 0.0, Signals::new(), &mut out);
/// assert_eq!(Line::of_block(2, 6, &voice, answer).to_string(), "block=2 refused=10");
/// # Ok::<(), Refusal>(())
/// ```
#[derive(Debug, Clone, Copy, PartialEq, Eq, Hash)]
pub enum Line {
    /// An accepted block.
    Block {
        /// Its number, from 1.
        block: u64,
        /// Its frames.
        frames: u64,
        /// Its steps.
        steps: u64,
        /// The state after it.
        state: PlaybackState,
        /// The position after it.
        position: u64,
    },
    /// A block that the voice refuses.
    RefusedBlock {
        /// Its number, from 1; refused blocks are counted too.
        block: u64,
        /// Why.
        refusal: Refusal,
    },
    /// A creation that is refused with 26: none of the given sounds is the recorded one.
    OtherSound(OtherSound),
    /// A record that the reader refuses.
    Refused(Refused),
}

impl Line {
    /// The line of a block with this number, from the voice after it and its result.
    #[must_use]
    pub fn of_block(
        block: u64,
        frames: usize,
        voice: &StaticSound,
        answer: Result<Processed, Refusal>,
    ) -> Self {
        match answer {
            Ok(processed) => Self::Block {
                block,
                frames: frames as u64,
                steps: processed.steps,
                state: voice.playback_state(),
                position: voice.raw().position,
            },
            Err(refusal) => Self::RefusedBlock { block, refusal },
        }
    }
}

impl fmt::Display for Line {
    fn fmt(&self, f: &mut fmt::Formatter<'_>) -> fmt::Result {
        match self {
            Self::Block {
                block,
                frames,
                steps,
                state,
                position,
            } => {
                let state = state.number();
                write!(
                    f,
                    "block={block} frames={frames} steps={steps} state={state} position={position}"
                )
            }
            Self::RefusedBlock { block, refusal } => {
                write!(f, "block={block} refused={}", refusal.number())
            }
            Self::OtherSound(OtherSound { at, .. }) => {
                write!(f, "creation={} at={at}", Refusal::OtherSound.number())
            }
            Self::Refused(Refused { refusal, at }) => {
                write!(f, "refused={} at={at}", refusal.number())
            }
        }
    }
}
