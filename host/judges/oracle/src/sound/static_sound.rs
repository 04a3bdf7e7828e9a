// Stand-ins for what kira's static_sound module contains besides data.rs and sound.rs.

mod data {
    // kira's sound/static_sound/data.rs, unchanged.
    #![allow(clippy::all, dead_code, missing_docs)]
    include!("../../kira/src/sound/static_sound/data.rs");
}

mod handle;

mod sound {
    // kira's sound/static_sound/sound.rs with its one edit, and access to its private fields.
    #![allow(clippy::all, dead_code, missing_docs)]
    include!(concat!(env!("OUT_DIR"), "/sound.rs"));
    include!("static_sound/access.rs");
}

mod voice;

use crate::{
    Decibels, Panning, PlaybackRate, StartTime, Tween, Value,
    command::CommandReader,
    sound::{PlaybackPosition, Region},
};

pub use data::StaticSoundData;
use data::{frame_at_index, num_frames};
pub use sound::{current_frame_index, empty, get, new_window, push_frame};
pub use voice::{Oracle, Reported};

/// kira's settings of a static sound.
#[derive(Debug, Clone, Copy, PartialEq)]
pub struct StaticSoundSettings {
    pub start_time: StartTime,
    pub start_position: PlaybackPosition,
    pub loop_region: Option<Region>,
    pub reverse: bool,
    pub volume: Value<Decibels>,
    pub playback_rate: Value<PlaybackRate>,
    pub panning: Value<Panning>,
    pub fade_in_tween: Option<Tween>,
}

/// The commands that a static sound reads before a block.
#[derive(Debug, Default)]
pub struct CommandReaders {
    pub set_playback_rate: CommandReader<(Value<PlaybackRate>, Tween)>,
    pub set_loop_region: CommandReader<Option<Region>>,
    pub pause: CommandReader<Tween>,
    pub resume: CommandReader<(StartTime, Tween)>,
    pub stop: CommandReader<Tween>,
    pub seek_by: CommandReader<f64>,
    pub seek_to: CommandReader<f64>,
}

/// The other end of kira's readers. Here the readers are written directly.
#[derive(Debug)]
pub struct CommandWriters;

fn command_writers_and_readers() -> (CommandWriters, CommandReaders) {
    (CommandWriters, CommandReaders::default())
}
