// Access to kira's private fields, included beside the text of sound.rs.

pub use self::resampler::{current_frame_index, empty, get, new_window, push_frame};

impl StaticSound {
    /// What kira's manager makes from the data.
    pub(super) fn from_data(data: StaticSoundData) -> Self {
        data.split().0
    }

    /// A sound in the given state.
    pub(super) fn from_state(
        state: &crate::State,
        frames: Arc<[Frame]>,
    ) -> Self {
        let resampler = Resampler::from_window(&state.window());
        let position = resampler.current_frame_index() as f64 / state.sample_rate as f64;
        Self {
            command_readers: CommandReaders::default(),
            sample_rate: state.sample_rate,
            frames,
            slice: state.slice,
            reverse: state.reverse,
            playback_state_manager: PlaybackStateManager::in_state(state.playback),
            start_time: StartTime::of_sound(!state.started),
            resampler,
            transport: Transport::found(
                state.position,
                state.loop_region,
                state.playing,
                state.wraps,
            ),
            fractional_position: state.fraction,
            volume: Parameter::new(crate::Value::Fixed(Decibels::IDENTITY), Decibels::IDENTITY),
            playback_rate: Parameter::new(
                crate::Value::Fixed(PlaybackRate(state.rate)),
                PlaybackRate(1.0),
            ),
            panning: Parameter::new(crate::Value::Fixed(Panning::CENTER), Panning::CENTER),
            shared: Arc::new(Shared {
                state: AtomicU8::new(state.playback as u8),
                position: AtomicU64::new(position.to_bits()),
            }),
        }
    }

    /// Its state.
    pub(super) fn state(&self) -> crate::State {
        let window = self.resampler.window();
        crate::State {
            sample_rate: self.sample_rate,
            total_frames: self.frames.len(),
            slice: self.slice,
            reverse: self.reverse,
            rate: self.playback_rate.held().0,
            started: self.start_time == StartTime::Immediate,
            playback: self.playback_state_manager.playback_state(),
            fraction: self.fractional_position,
            position: self.transport.position,
            loop_region: self.transport.loop_region,
            playing: self.transport.playing,
            window: window.entries,
            count: window.count,
            wraps: self.transport.wraps,
        }
    }

    /// The frames that it plays: the slice's, or all.
    pub(super) fn num_frames(&self) -> usize {
        num_frames(&self.frames, self.slice)
    }

    /// The slots from which it reads its commands.
    pub(super) fn command_readers(&mut self) -> &mut CommandReaders {
        &mut self.command_readers
    }

    /// The position that it reported last.
    pub(super) fn reported_position(&self) -> f64 {
        self.shared.position()
    }

    /// The updates since the last call: each reads the held rate exactly once.
    pub(super) fn take_steps(&self) -> u64 {
        self.playback_rate.take_asked()
    }

    /// The lowest count of the window's reads since the last call; 4 if there was none.
    pub(super) fn take_lowest_count(&self) -> u32 {
        self.resampler.take_lowest() as u32
    }

    /// Puts the lanes in the place of the parameters, or takes them out again.
    pub(super) fn swap_lanes(&mut self, lanes: &mut crate::LaneBuffers) {
        use std::mem::swap;
        swap(self.playback_state_manager.fade().lane(), &mut lanes.fade);
        swap(self.volume.lane(), &mut lanes.volume);
        let (left, right) = self.panning.lane();
        swap(left, &mut lanes.left);
        swap(right, &mut lanes.right);
        swap(self.playback_rate.lane(), &mut lanes.rate);
    }
}
