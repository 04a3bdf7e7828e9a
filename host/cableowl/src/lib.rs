//! kira's static sound, carried over to Rattle and proved, behind a safe Rust interface.
//!
//! A voice plays a sound in blocks; each call borrows the sound. The output does not depend on the
//! block sizes: **block size may change when a command is heard, and nothing else.** Every call
//! accepts any input and refuses bad input with a number ([`Refusal`]); a refused call changes nothing.
//! No call of a voice or a player panics, allocates (except to create or save a player), waits or keeps
//! what it borrowed. No call depends on the thread's float mode, so a host may flush subnormals to zero
//! on its audio thread.
//!
//! A [`Player`] has volume, rate, panning and fades with tweens, under kira's names, and plays outputs
//! of any length (docs/guide/PLAYER.md):
//!
//! ```
//! use std::time::Duration;
//!
//! use cableowl::{Player, Settings};
//!
//! // Interleaved samples, left then right: a second at 48 kHz, its middle half looped.
//! let sound: Vec<f32> = (0..96_000).map(|i| (i / 2 % 100) as f32 / 100.0).collect();
//! let mut player = Player::play(Settings::new(48_000).loop_region(0.25..0.75), 48_000, &sound)?;
//! player.set_playback_rate(0.5, Duration::from_millis(100))?;
//! let mut out = vec![0.0; 2 * 10_000];
//! player.process(&sound, &mut out)?;
//! assert_eq!(player.playback_rate(), 0.5);
//! # Ok::<(), cableowl::Refusal>(())
//! ```
//!
//! Below it is the voice, for a host with its own parameters. The host passes each block the numbers of
//! every output frame in [`Lanes`].
//!
//! ```
//! use cableowl::{Commands, Lanes, Settings, Signals, StaticSound};
//!
//! let sound: Vec<f32> = (0..96_000).map(|i| (i / 2 % 100) as f32 / 100.0).collect();
//! let mut voice = StaticSound::new(Settings::new(48_000).loop_region(0.25..0.75), &sound)?;
//!
//! let mut lanes = Lanes::new();
//! let mut out = [0.0; 2 * 512];
//! for _ in 0..10 {
//!     let seconds = voice.on_start_processing(&sound, Commands::new())?;
//!     assert!(seconds < 1.0);
//!     let at_half_speed = lanes.frames(512).volume(0.8).rate(0.5);
//!     let block =
//!         voice.process(&sound, at_half_speed, 1.0 / 48_000.0, Signals::default(), &mut out)?;
//!     assert_eq!(block.steps, 256);
//! }
//! # Ok::<(), cableowl::Refusal>(())
//! ```
//!
//! # Coming from kira
//!
//! | kira's name | here |
//! |---|---|
//! | `AudioManager::play`, `StaticSoundData` | [`Player::play`], with interleaved samples; the host decodes files (`from_file`, `from_cursor`) |
//! | `StaticSoundHandle` | [`Player`] itself; from another thread a [`Command`] through the host's channel |
//! | `StaticSoundSettings` | [`Settings`]; `volume` and `panning` are commands before the first frame, `fade_in_tween` is [`Player::fade_in_tween`] |
//! | `set_loop_region(None)` | [`Player::clear_loop_region`] |
//! | `Decibels(-6.0)` | [`Level::decibels(-6.0)`](Level::decibels) |
//! | `PlaybackRate(0.5)`, `Panning(-1.0)` | the numbers `0.5` and `-1.0` |
//! | `Semitones` | [`SavedSettings::pitch`] |
//! | `Tween`, `Easing`, `PlaybackState`, `PlaybackPosition`, `Region` | the same names; a range of frames is `Frames(6)..Frames(11)` |
//! | `Tween::start_time` with `StartTime::Delayed` | [`Tween::delay`] |
//! | `start_time` of a sound, `StartTime::Delayed` | [`Settings::start_waits`](Settings::start_waits()) and [`Player::start_after`] |
//! | `StartTime::ClockTime` | [`Player::start_at_tick`] |
//! | the trait `Sound` | [`StaticSound`], with its `on_start_processing`, `process` and `finished` |
//! | `resume_at` | [`Commands::resume_waiting`] of the voice; a player has none |
//! | modulators, effects, tracks, streams | not here |
//!
//! A host can record the calls of a voice as bytes and play them again: [`trace`].
//!
//! docs/assurance/RULES.md states the exact rules. The definitions in `crates/` state them formally,
//! and the sources of the linked archive are proved to meet them.
#![deny(missing_docs)]
#![deny(unsafe_code)]

mod commands;
mod fades;
mod float_mode;
#[cfg(test)]
mod header;
mod lanes;
mod loop_copy;
mod loop_half;
mod loop_table;
mod playback_position;
mod playback_state;
mod player;
mod refusal;
mod saved;
mod saved_settings;
mod settings;
mod shared_loops;
mod state;
mod static_sound;
mod stopping;
pub mod trace;

use cableowl_sys as ffi;

pub use commands::{Commands, LoopCommand, ResumeCommand};
pub use fades::{Level, MAX_RAMP_FRAMES, fade_ramp};
pub use lanes::{BlockLanes, Lane, Lanes};
pub use loop_copy::LoopCopy;
pub use loop_half::LoopHalf;
pub use loop_table::{Hall, LoopTable};
pub use playback_position::{EndPosition, Frames, PlaybackPosition, Region};
pub use playback_state::{PlaybackState, Signals, StartAnswer, StartSignal};
pub use player::{Command, Easing, Player, RecordedPlayer, SharedPlayer, Ticks, Tween};
pub use refusal::{LaneName, Refusal};
pub use saved::Unreadable;
pub use saved_settings::{SavedSettings, SettingsVersion};
pub use settings::Settings;
pub use shared_loops::{LoopsFault, SharedLoops, Start, Theirs};
pub use state::{Frame, RecentFrame, State, Wraps};
pub use static_sound::{Processed, StaticSound, Usage};

/// Tests the examples of README.md together with the others.
#[cfg(doctest)]
#[doc = include_str!("../../../README.md")]
pub struct Readme;

/// Tests the examples of docs/guide/PLAYER.md together with the others.
#[cfg(doctest)]
#[doc = include_str!("../../../docs/guide/PLAYER.md")]
pub struct PlayerGuide;

/// The largest number of frames in a block.
pub const MAX_BLOCK_FRAMES: usize = 4_096;

/// The version of the archive's C ABI.
#[must_use]
pub fn version() -> u32 {
    ffi::version()
}
