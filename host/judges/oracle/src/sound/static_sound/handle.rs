// Stand-in for kira's handle.rs: what `split` returns besides the sound.

use std::sync::Arc;

use super::{CommandWriters, sound::Shared};

/// The user's end of a playing sound.
#[allow(dead_code)]
pub struct StaticSoundHandle {
    pub(super) command_writers: CommandWriters,
    pub(super) shared: Arc<Shared>,
}
