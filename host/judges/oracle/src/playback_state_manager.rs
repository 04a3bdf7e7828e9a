// kira's playback_state_manager.rs, unchanged, and access to its private state.
#![allow(clippy::all, dead_code)]
include!("../kira/src/playback_state_manager.rs");

impl PlaybackStateManager {
    /// A manager in the given state. A waiting resume waits for the resume's own answer.
    pub(crate) fn in_state(state: PlaybackState) -> Self {
        let mut manager = Self::new(None);
        manager.state = match state {
            PlaybackState::Playing => State::Playing,
            PlaybackState::Pausing => State::Pausing,
            PlaybackState::Paused => State::Paused,
            PlaybackState::WaitingToResume => State::WaitingToResume {
                start_time: StartTime::WithResume,
                fade_in_tween: Tween,
            },
            PlaybackState::Resuming => State::Resuming,
            PlaybackState::Stopping => State::Stopping,
            PlaybackState::Stopped => State::Stopped,
        };
        manager
    }

    /// The parameter that the fade lane replaces.
    pub(crate) fn fade(&mut self) -> &mut Parameter<Decibels> {
        &mut self.volume_fade
    }
}
