//! The voice: docs/assurance/RULES.md, "Creation, commands, block".

use crate::{
    BlockLanes, Commands, LoopTable, PlaybackState, Refusal, Settings, Signals, State, Wraps, ffi,
    float_mode,
};

/// What an accepted block reports.
#[derive(Debug, Clone, Copy, PartialEq, Eq, Hash)]
#[non_exhaustive]
pub struct Processed {
    /// How many frames the transport stepped.
    pub steps: u64,
    /// The lowest window count that was read, 0 to 4; 4 for a block of 0 frames and for a silent block
    /// (not started, or paused).
    ///
    /// With it a monitor can tell the end of a sound from a gap. 4 means that at every read of this
    /// block the newest entry was a frame of the sound. A count t below 4 means that at one of its reads
    /// 4 - t pushes had been made without a frame (0: at least four), because the sound had ended: the
    /// silence is the sound's end.
    ///
    /// For a block cut in two it is the smaller of the two counts, unless the voice had stopped by the
    /// cut: over a sound of one frame, three frames report 0, but two and then one report 1 and 4.
    pub lowest_count: u32,
    /// Of the steps, those backward.
    pub steps_back: u64,
    /// How many of its frames were played, paused or silent.
    pub usage: Usage,
}

/// How many frames of a block were played, paused or silent.
///
/// A [`Player`](crate::Player) counts frame by frame, so the sums do not depend on block sizes. A voice
/// itself goes on to its block's end when the sound ends (docs/assurance/RULES.md, "Creation, commands,
/// block"), and all frames of that block count as played.
#[derive(Debug, Clone, Copy, PartialEq, Eq, Hash, Default)]
pub struct Usage {
    /// Frames in which the sound played, fades included.
    pub played: u64,
    /// Frames in which it was paused, or waited to resume.
    pub paused: u64,
    /// Frames before the sound started, and after the voice has stopped.
    pub silent: u64,
    /// Of the played frames, those at a rate of 0.
    pub still: u64,
}

impl Usage {
    /// A block's frames, `still` of them at a rate of 0, by the state after it.
    fn of_block(frames: u64, still: u64, state: &ffi::State, steps: u64) -> Self {
        let mut usage = Self::default();
        match PlaybackState::of_voice(state.state) {
            _ if state.started == 0 => usage.silent = frames,
            PlaybackState::Paused | PlaybackState::WaitingToResume => usage.paused = frames,
            // With a step, it stopped in this block because its sound ended.
            PlaybackState::Stopped if steps == 0 => usage.silent = frames,
            _ => (usage.played, usage.still) = (frames, still),
        }
        usage
    }

    /// The sum of two parts, one after the other.
    fn and(self, next: Self) -> Self {
        Self {
            played: self.played.saturating_add(next.played),
            paused: self.paused.saturating_add(next.paused),
            silent: self.silent.saturating_add(next.silent),
            still: self.still.saturating_add(next.still),
        }
    }
}

impl Processed {
    /// What a block of no frames reports.
    pub(crate) const NONE: Self = Self {
        steps: 0,
        lowest_count: 4,
        steps_back: 0,
        usage: Usage {
            played: 0,
            paused: 0,
            silent: 0,
            still: 0,
        },
    };

    /// What an accepted block of this many frames reports, `still` of them at a rate of 0, by the state
    /// after it.
    pub(crate) fn of_block(
        state: &ffi::State,
        frames: u64,
        still: u64,
        steps: u64,
        lowest_count: u32,
    ) -> Self {
        let is_backward = State::from(*state).is_backward();
        Self {
            steps,
            lowest_count,
            steps_back: if is_backward { steps } else { 0 },
            usage: Usage::of_block(frames, still, state, steps),
        }
    }

    /// The sum of two parts, one after the other.
    pub(crate) fn and(self, next: Self) -> Self {
        Self {
            steps: self.steps.saturating_add(next.steps),
            lowest_count: self.lowest_count.min(next.lowest_count),
            steps_back: self.steps_back.saturating_add(next.steps_back),
            usage: self.usage.and(next.usage),
        }
    }
}

/// A voice: one sound being played.
///
/// It owns only its state. Each call borrows the sound, interleaved samples, left then right, which must
/// be the same each time. A refused call changes no state and writes nothing. The calls have the names of
/// kira's trait `Sound`.
#[doc(alias = "Sound")]
#[derive(Clone)]
pub struct StaticSound {
    state: ffi::State,
}

impl StaticSound {
    /// Creates a voice.
    ///
    /// ```
    /// use cableowl::{PlaybackState, Settings, StaticSound};
    ///
    /// let sound = [1.0, 1.0, 2.0, 2.0, 3.0, 3.0];
    /// let voice = StaticSound::new(Settings::new(44_100), &sound)?;
    /// assert_eq!(voice.playback_state(), PlaybackState::Playing);
    /// # Ok::<(), cableowl::Refusal>(())
    /// ```
    ///
    /// # Errors
    ///
    /// Refusals 2 to 7.
    pub fn new(settings: Settings, sound: &[f32]) -> Result<Self, Refusal> {
        let settings = settings.into();
        let created = float_mode::plain(|| ffi::new(settings, sound));
        Refusal::check(created.refusal)?;
        Ok(Self {
            state: created.state,
        })
    }

    /// Applies a command set, which may be empty, and returns the position in seconds before it.
    ///
    /// ```
    /// use cableowl::{Commands, PlaybackState, Settings, StaticSound};
    ///
    /// let sound = [0.5; 200];
    /// let mut voice = StaticSound::new(Settings::new(10).start_position(2.0), &sound)?;
    /// let heard = voice.on_start_processing(&sound, Commands::new().pause())?;
    /// assert_eq!(heard, 2.0);
    /// assert_eq!(voice.playback_state(), PlaybackState::Pausing);
    /// # Ok::<(), cableowl::Refusal>(())
    /// ```
    ///
    /// # Errors
    ///
    /// Refusals 1 and 6 to 8.
    pub fn on_start_processing(
        &mut self,
        sound: &[f32],
        commands: Commands,
    ) -> Result<f64, Refusal> {
        let commands = commands.into();
        let commanded = float_mode::plain(|| ffi::on_start_processing(self.state, sound, commands));
        Refusal::check(commanded.refusal)?;
        self.state = commanded.state;
        Ok(commanded.position)
    }

    /// Reads a slot of a loop table and sets that loop by a command set. Returns the position, as every
    /// command set does. Later changes of the table do not affect the voice.
    ///
    /// ```
    /// use cableowl::{Hall, LoopTable, Settings, StaticSound};
    ///
    /// let sound = [0.5; 20];
    /// let mut table = LoopTable::new(10);
    /// table.write(Hall::B, 8, 3..6)?;
    /// let mut voice = StaticSound::new(Settings::new(1), &sound)?;
    /// voice.take_loop(&sound, &table, 8)?;
    /// table.clear(Hall::B, 8)?;
    /// assert_eq!(voice.state().loop_region, Some((3, 6)));
    /// # Ok::<(), cableowl::Refusal>(())
    /// ```
    ///
    /// # Errors
    ///
    /// Refusals 1, 20 and 22 of the table; then 1 and 6 of the command set, since a voice's loop must lie
    /// inside its slice, a table's only inside the sound.
    pub fn take_loop(
        &mut self,
        sound: &[f32],
        table: &LoopTable,
        slot: usize,
    ) -> Result<f64, Refusal> {
        let commanded =
            float_mode::plain(|| ffi::take_loop(table.table, slot as u64, self.state, sound));
        Refusal::check(commanded.refusal)?;
        self.state = commanded.state;
        Ok(commanded.position)
    }

    /// Plays a block into `out`, two samples per frame. `dt` is the seconds of one output frame.
    ///
    /// Subnormal samples are played as they are, in every float mode of the thread. They are slow on some
    /// processors (docs/performance/BENCHMARK.md), so clear them when you load a sound.
    ///
    /// ```
    /// use cableowl::{Lanes, PlaybackState, Settings, Signals, StaticSound};
    ///
    /// let sound = [1.0, 1.0, 2.0, 2.0, 3.0, 3.0];
    /// let mut voice = StaticSound::new(Settings::new(1), &sound)?;
    /// let mut lanes = Lanes::new();
    /// let mut out = [0.0; 12];
    /// let block = voice.process(&sound, lanes.frames(6), 1.0, Signals::default(), &mut out)?;
    /// assert_eq!(out, [1.0, 1.0, 2.0, 2.0, 3.0, 3.0, 0.0, 0.0, 0.0, 0.0, 0.0, 0.0]);
    /// assert_eq!(block.steps, 6);
    /// assert_eq!(voice.playback_state(), PlaybackState::Stopped);
    /// # Ok::<(), cableowl::Refusal>(())
    /// ```
    ///
    /// # Errors
    ///
    /// Refusals 1 and 9 to 12.
    pub fn process(
        &mut self,
        sound: &[f32],
        lanes: BlockLanes<'_>,
        dt: f64,
        signals: Signals,
        out: &mut [f32],
    ) -> Result<Processed, Refusal> {
        let (still, frames) = (lanes.still(), lanes.count());
        let signals = signals.into();
        // Constants need no lanes. If the block is refused, it is tried with lanes, to find which lane and frame is
        // wrong.
        if let Some(held) = lanes.held()
            && out.len().is_multiple_of(2)
            && out.len() / 2 == frames
        {
            let answer =
                float_mode::plain(|| ffi::process_held(self.state, sound, held, dt, signals, out));
            if answer.refusal == 0 {
                return Ok(self.keep(answer, frames, still));
            }
        }
        let lanes = lanes.into_ffi();
        let answer = float_mode::plain(|| ffi::process(self.state, sound, lanes, dt, signals, out));
        self.take(answer, dt, lanes, still)
    }

    /// Plays a block in which every frame has these numbers, as many frames as the output has.
    #[inline]
    pub(crate) fn process_held(
        &mut self,
        sound: &[f32],
        held: ffi::Held,
        dt: f64,
        signals: Signals,
        out: &mut [f32],
    ) -> Result<Processed, Refusal> {
        let (frames, signals) = (out.len() / 2, signals.into());
        let still = if held.rate == 0.0 { frames } else { 0 };
        let answer =
            float_mode::plain(|| ffi::process_held(self.state, sound, held, dt, signals, out));
        Refusal::check(answer.refusal)?;
        Ok(self.keep(answer, frames, still as u64))
    }

    /// Plays a block into a longer buffer from frame `from` on and changes no other sample.
    ///
    /// It replaces the samples there and does not add to them. To mix voices, play each into a buffer of
    /// its own and add.
    ///
    /// ```
    /// use cableowl::{Lanes, Settings, Signals, StaticSound};
    ///
    /// let sound = [1.0, -1.0, 2.0, -2.0];
    /// let mut voice = StaticSound::new(Settings::new(1), &sound)?;
    /// let mut lanes = Lanes::new();
    /// let mut mix = [9.0; 8];
    /// voice.process_into(&sound, lanes.frames(2), 1.0, Signals::default(), &mut mix, 1)?;
    /// assert_eq!(mix, [9.0, 9.0, 1.0, -1.0, 2.0, -2.0, 9.0, 9.0]);
    /// # Ok::<(), cableowl::Refusal>(())
    /// ```
    ///
    /// # Errors
    ///
    /// Refusals 1 and 9 to 12.
    pub fn process_into(
        &mut self,
        sound: &[f32],
        lanes: BlockLanes<'_>,
        dt: f64,
        signals: Signals,
        mix: &mut [f32],
        from: usize,
    ) -> Result<Processed, Refusal> {
        let (still, frames) = (lanes.still(), lanes.count());
        let (signals, from) = (signals.into(), from as u64);
        if let Some(held) = lanes.held() {
            let count = frames as u64;
            let answer = float_mode::plain(|| {
                ffi::process_held_into(self.state, sound, held, dt, signals, mix, from, count)
            });
            if answer.refusal == 0 {
                return Ok(self.keep(answer, frames, still));
            }
        }
        let lanes = lanes.into_ffi();
        let answer = float_mode::plain(|| {
            ffi::process_into(self.state, sound, lanes, dt, signals, mix, from)
        });
        self.take(answer, dt, lanes, still)
    }

    /// The part of the sound's samples that the voice plays: its slice, or all. It is empty only if the
    /// sound has another length than the voice records (refusal 1).
    ///
    /// ```
    /// use cableowl::{Frames, Settings, StaticSound};
    ///
    /// let sound = [0.0, 0.5, 1.0, 1.5, 2.0, 2.5];
    /// let voice = StaticSound::new(Settings::new(1).slice(Frames(1)..Frames(3)), &sound)?;
    /// let part = voice.stretch(&sound);
    /// assert_eq!(part, [1.0, 1.5, 2.0, 2.5]);
    /// assert_eq!(part.as_ptr(), sound[2..].as_ptr(), "the same memory");
    /// let none = voice.stretch(&sound[2..]);
    /// assert!(none.is_empty());
    /// assert_eq!(none.as_ptr(), sound[2..].as_ptr(), "the empty part at their start");
    /// # Ok::<(), cableowl::Refusal>(())
    /// ```
    #[must_use]
    pub fn stretch<'a>(&self, sound: &'a [f32]) -> &'a [f32] {
        let part = float_mode::plain(|| ffi::stretch(self.state, sound));
        let (start, length) = (part.offset as usize, part.length as usize);
        sound
            .get(start..start.saturating_add(length))
            .unwrap_or(&sound[..0])
    }

    /// The playback state.
    #[must_use]
    pub fn playback_state(&self) -> PlaybackState {
        PlaybackState::of_voice(self.state.state)
    }

    /// Whether the sound has the recorded length. A voice's state is well formed, so refusal 1 depends
    /// only on this.
    pub(crate) fn is_of(&self, sound: &[f32]) -> bool {
        sound.len().is_multiple_of(2) && self.state.num_frames == sound.len() as u64 / 2
    }

    pub(crate) fn sample_rate(&self) -> u32 {
        self.state.sample_rate
    }

    /// The held rate.
    pub(crate) fn playback_rate(&self) -> f64 {
        self.state.playback_rate
    }

    /// Whether the voice is stopped, and so silent for ever.
    #[must_use]
    pub fn finished(&self) -> bool {
        self.playback_state() == PlaybackState::Stopped
    }

    /// How often the voice has wrapped round its loop, forward and backward. [`Wraps`] says what counts.
    ///
    /// ```
    /// use cableowl::{Frames, Lanes, Settings, Signals, StaticSound};
    ///
    /// let sound = [0.5; 20];
    /// let mut voice = StaticSound::new(Settings::new(1).loop_region(Frames(2)..Frames(5)), &sound)?;
    /// let before = voice.wraps();
    /// let mut lanes = Lanes::new();
    /// voice.process(&sound, lanes.frames(30), 1.0, Signals::default(), &mut [0.0; 60])?;
    /// assert_eq!(voice.wraps().forward - before.forward, 10);
    /// assert_eq!(voice.wraps().backward, 0);
    /// # Ok::<(), cableowl::Refusal>(())
    /// ```
    #[must_use]
    pub fn wraps(&self) -> Wraps {
        self.state().wraps
    }

    /// The whole state of the voice, to save or to read it.
    ///
    /// ```
    /// use cableowl::{Settings, StaticSound};
    ///
    /// let sound = [0.5; 20];
    /// let voice = StaticSound::new(Settings::new(48_000), &sound)?;
    /// let saved = voice.state();
    /// assert_eq!(saved.position, 3);
    /// assert_eq!(StaticSound::from_state(saved, &sound)?.state(), saved);
    /// # Ok::<(), cableowl::Refusal>(())
    /// ```
    #[must_use]
    pub fn state(&self) -> State {
        self.state.into()
    }

    /// A voice in this state, over the sound it was created with.
    ///
    /// ```
    /// use cableowl::{Refusal, Settings, StaticSound};
    ///
    /// let sound = [0.5; 20];
    /// let mut state = StaticSound::new(Settings::new(48_000), &sound)?.state();
    /// assert!(StaticSound::from_state(state, &sound).is_ok());
    /// assert_eq!(StaticSound::from_state(state, &sound[2..]).unwrap_err(), Refusal::State);
    /// state.fractional_position = 1.0;
    /// assert_eq!(StaticSound::from_state(state, &sound).unwrap_err(), Refusal::State);
    /// # Ok::<(), cableowl::Refusal>(())
    /// ```
    ///
    /// # Errors
    ///
    /// Refusal 1: the state is not well formed, or the sound's length is not the one it records.
    pub fn from_state(state: State, sound: &[f32]) -> Result<Self, Refusal> {
        let voice = Self {
            state: state.into(),
        };
        // A stretch is empty only if it is refused, since every sound has a frame.
        match voice.stretch(sound).is_empty() {
            true => Err(Refusal::State),
            false => Ok(voice),
        }
    }

    /// The voice of a state that the library has returned.
    pub(crate) fn from_raw(state: ffi::State) -> Self {
        Self { state }
    }

    pub(crate) fn raw(&self) -> ffi::State {
        self.state
    }

    fn take(
        &mut self,
        answer: ffi::Processed,
        dt: f64,
        lanes: ffi::Lanes,
        still: u64,
    ) -> Result<Processed, Refusal> {
        Refusal::check_block(answer.refusal, self.state.sample_rate, dt, lanes)?;
        Ok(self.keep(answer, lanes.rate.len(), still))
    }

    /// Keeps the state of an accepted block.
    fn keep(&mut self, answer: ffi::Processed, frames: usize, still: u64) -> Processed {
        self.state = answer.state;
        let (steps, lowest) = (answer.steps, answer.lowest_count);
        Processed::of_block(&self.state, frames as u64, still, steps, lowest)
    }
}

impl std::fmt::Debug for StaticSound {
    fn fmt(&self, f: &mut std::fmt::Formatter<'_>) -> std::fmt::Result {
        f.debug_tuple("StaticSound").field(&self.state()).finish()
    }
}
