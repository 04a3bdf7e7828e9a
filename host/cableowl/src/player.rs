//! A player: a voice with parameters, fades and tweens, under kira's names.

mod block;
mod command;
mod easing;
mod parameters;
mod playing;
mod queue;
mod recorded;
mod room;
mod saved;
mod shared;
mod tween;

use std::{hint::black_box, time::Duration};

pub use command::{Command, Ticks};
pub use easing::Easing;
pub use recorded::RecordedPlayer;
pub use shared::SharedPlayer;
pub use tween::Tween;

use self::{
    block::Place,
    command::Seek,
    parameters::Parameters,
    queue::{Press, Queue},
    room::Room,
    tween::{Parameter, Ramp, frames},
};
use crate::{
    Level, LoopTable, PlaybackState, Processed, Refusal, Region, Settings, State, StaticSound,
    Wraps, float_mode, refusal,
};

/// A voice with volume, playback rate, panning and fades, under kira's names. Block sizes do not change
/// its output. docs/guide/PLAYER.md is a guide to it.
///
/// Volume, playback rate, panning and the fade of a pause, resume or stop are parameters that [`Tween`]s
/// move. **A parameter's value depends only on the number of frames since its command, and a state
/// changes at the frame in which its fade ends.** So the same commands at the same frames give the same
/// samples, states and counts, bit for bit, for outputs of any length, also 0.
///
/// **Every command takes effect with the next frame, in the order in which they were given.**
/// `seek_by(-1.0)` twice goes back two seconds; `resume` and then `pause` pauses. A parameter's tween
/// starts from its value before that frame, and its last target counts. (kira keeps the last command of
/// each kind and applies the kinds in an order of its own: docs/DIFFERENCES.md.) At most 64 seeks can
/// wait for one frame; one more is refused ([`Refusal::Queue`]). A bad command is refused at once and
/// changes nothing; an accepted command is not refused later.
///
/// No call panics, waits or depends on the thread's float mode. Only [`Player::play`], `clone`,
/// [`Player::to_bytes`] and [`Player::from_bytes`] allocate.
///
/// ```
/// use std::time::Duration;
///
/// use cableowl::{Level, PlaybackState, Player, Settings, Tween};
///
/// let sound = vec![0.5; 2 * 44_100];
/// let mut player = Player::play(Settings::new(44_100).loop_region(0.2..0.7), 48_000, &sound)?;
/// player.set_volume(Level::new(60)?, Tween::default());
/// player.set_playback_rate(0.8, Duration::from_secs(2))?;
///
/// let mut out = [0.0; 2 * 10_000];
/// player.process(&sound, &mut out)?;
/// player.pause(Duration::from_millis(250));
/// player.mix(&sound, &mut out)?; // adds to the samples in out
/// assert_eq!(player.state(), PlaybackState::Pausing);
/// player.process(&sound, &mut out)?;
/// assert_eq!(player.state(), PlaybackState::Paused);
/// # Ok::<(), cableowl::Refusal>(())
/// ```
#[doc(alias = "StaticSoundHandle")]
#[doc(alias = "StaticSoundData")]
#[derive(Debug, Clone)]
pub struct Player {
    voice: StaticSound,
    output_rate: u32,
    /// The seconds of one output frame.
    time_step: f64,
    /// The frames played, silent ones included.
    clock: u64,
    parameters: Parameters,
    /// The commands that take effect with the next frame.
    queue: Queue,
    /// The frame at which the sound starts.
    starts_at: Option<u64>,
    counts: Processed,
    room: Room,
}

impl Player {
    /// Plays a sound: kira's `play`. `output_rate` is the output's frames per second. The settings'
    /// playback rate is both speed and direction, as in kira.
    ///
    /// ```
    /// use cableowl::{Player, Settings};
    ///
    /// let sound = [1.0, -1.0, 2.0, -2.0, 3.0, -3.0];
    /// let mut player = Player::play(Settings::new(1).playback_rate(0.5), 1, &sound)?;
    /// let mut out = [0.0; 10];
    /// player.process(&sound, &mut out)?;
    /// assert_eq!(out, [1.0, -1.0, 1.5, -1.5, 2.0, -2.0, 2.75, -2.75, 3.0, -3.0]);
    /// # Ok::<(), cableowl::Refusal>(())
    /// ```
    ///
    /// # Errors
    ///
    /// Refusals 2 to 7, as for [`StaticSound::new`]; then [`Refusal::OutputRate`] for an output rate of 0,
    /// and [`Refusal::TooFast`] for a playback rate that is too fast.
    #[doc(alias = "AudioManager")]
    #[doc(alias = "from_file")]
    #[doc(alias = "from_cursor")]
    pub fn play(settings: Settings, output_rate: u32, sound: &[f32]) -> Result<Self, Refusal> {
        let voice = StaticSound::new(settings, sound)?;
        Self::of(voice, settings.playback_rate, output_rate)
    }

    /// A player of this voice whose parameters do not move.
    fn of(voice: StaticSound, rate: f64, output_rate: u32) -> Result<Self, Refusal> {
        if output_rate == 0 {
            return Err(Refusal::OutputRate);
        }
        let frames = f64::from(output_rate);
        let player = Self {
            voice,
            output_rate,
            time_step: float_mode::plain(|| black_box(1.0 / black_box(frames))),
            clock: 0,
            parameters: Parameters::new(rate),
            queue: Queue::new(),
            starts_at: None,
            counts: Processed::NONE,
            room: Room::new(),
        };
        player.judge_rate(rate)?;
        Ok(player)
    }

    /// Fades the sound in from silence, from its first frame on: kira's setting of this name. The state
    /// is `Playing` meanwhile. The fade also runs while the start waits.
    #[must_use]
    pub fn fade_in_tween(mut self, tween: impl Into<Tween>) -> Self {
        self.fade_in(tween.into());
        self
    }

    fn fade_in(&mut self, tween: Tween) {
        self.parameters.fade = Parameter::new(tenths(Level::SILENCE));
        let ramp = self.ramp(tween);
        self.parameters
            .fade
            .set(tenths(Level::FULL), self.clock, ramp);
    }

    /// Fades out, then pauses: `Pausing`, and `Paused` from the frame in which the fade ends.
    pub fn pause(&mut self, tween: impl Into<Tween>) {
        let ramp = self.ramp(tween);
        self.queue.press(Press::Pause, ramp);
    }

    /// Resumes and fades in: `Resuming`, and `Playing` from the frame in which the fade ends.
    pub fn resume(&mut self, tween: impl Into<Tween>) {
        let ramp = self.ramp(tween);
        self.queue.press(Press::Resume, ramp);
    }

    /// Fades out, then stops for ever: `Stopping`, and `Stopped` from the frame in which the fade ends. A
    /// resume before that frame cancels it.
    pub fn stop(&mut self, tween: impl Into<Tween>) {
        let ramp = self.ramp(tween);
        self.queue.press(Press::Stop, ramp);
    }

    fn ramp(&self, tween: impl Into<Tween>) -> Ramp {
        tween.into().ramp(self.output_rate)
    }

    /// Moves the playback rate to another value: the speed, and the direction (backward below 0 and for
    /// minus zero). The direction turns at the frame in which the tween passes 0.
    ///
    /// # Errors
    ///
    /// [`Refusal::PlaybackRate`] if it is not finite, [`Refusal::TooFast`] if it is more than 256 frames of
    /// the sound per output frame.
    #[doc(alias = "PlaybackRate")]
    pub fn set_playback_rate(
        &mut self,
        playback_rate: f64,
        tween: impl Into<Tween>,
    ) -> Result<(), Refusal> {
        self.judge_rate(playback_rate)?;
        let ramp = self.ramp(tween);
        float_mode::plain(|| {
            black_box(&mut self.parameters.rate).set(playback_rate, self.clock, ramp)
        });
        Ok(())
    }

    /// Refusal 7, then 12.
    fn judge_rate(&self, rate: f64) -> Result<(), Refusal> {
        let sample_rate = self.voice.sample_rate();
        let too_far = || {
            black_box(refusal::too_far(
                black_box(sample_rate),
                self.time_step,
                rate,
            ))
        };
        match rate.is_finite() {
            false => Err(Refusal::PlaybackRate),
            true if float_mode::plain(too_far) => Err(Refusal::TooFast),
            true => Ok(()),
        }
    }

    /// Moves the volume to another level, in a straight line in decibels, rounded down to tenths.
    #[doc(alias = "Decibels")]
    pub fn set_volume(&mut self, volume: Level, tween: impl Into<Tween>) {
        let (volume, ramp) = (tenths(volume), self.ramp(tween));
        float_mode::plain(|| black_box(&mut self.parameters.volume).set(volume, self.clock, ramp));
    }

    /// Moves the panning to another value: -1 is hard left, 0 the centre, 1 hard right; values beyond are
    /// clamped. The gains are kira's: the square roots of the two parts times the square root of 2, and
    /// both 1 at the centre.
    ///
    /// # Errors
    ///
    /// [`Refusal::Panning`] if it is not finite.
    #[doc(alias = "Panning")]
    pub fn set_panning(&mut self, panning: f32, tween: impl Into<Tween>) -> Result<(), Refusal> {
        if !panning.is_finite() {
            return Err(Refusal::Panning);
        }
        let (panning, ramp) = (f64::from(panning), self.ramp(tween));
        float_mode::plain(|| {
            black_box(&mut self.parameters.panning).set(panning, self.clock, ramp)
        });
        Ok(())
    }

    /// Loops this part, counted from the slice's start: seconds, or
    /// [`Frames`](crate::Frames).
    ///
    /// # Errors
    ///
    /// [`Refusal::LoopRegion`].
    pub fn set_loop_region(&mut self, loop_region: impl Into<Region>) -> Result<(), Refusal> {
        self.queue.set_loop(&self.voice.state(), loop_region.into())
    }

    /// Loops the region in a slot of a table, as [`Player::set_loop_region`]. Later changes of the table
    /// do not affect the player.
    ///
    /// ```
    /// use cableowl::{Hall, LoopTable, Player, Settings};
    ///
    /// let sound = [0.5; 20];
    /// let mut table = LoopTable::new(10);
    /// table.write(Hall::B, 8, 3..6)?;
    /// let mut player = Player::play(Settings::new(1), 1, &sound)?;
    /// player.take_loop(&table, 8)?;
    /// player.process(&sound, &mut [0.0; 2])?;
    /// assert_eq!(player.voice().state().loop_region, Some((3, 6)));
    /// # Ok::<(), cableowl::Refusal>(())
    /// ```
    ///
    /// # Errors
    ///
    /// [`Refusal::LoopSlot`], [`Refusal::EmptySlot`]; then [`Refusal::LoopRegion`], since a player's loop
    /// must lie inside its slice, a table's only inside the sound.
    pub fn take_loop(&mut self, table: &LoopTable, slot: usize) -> Result<(), Refusal> {
        self.set_loop_region(table.region(slot)?)
    }

    /// Removes the loop: kira's `set_loop_region(None)`.
    pub fn clear_loop_region(&mut self) {
        self.queue.clear_loop();
    }

    /// Moves by this many seconds.
    ///
    /// # Errors
    ///
    /// [`Refusal::Seek`], checked from where the waiting commands lead; [`Refusal::Queue`] if 64 seeks
    /// already wait for the next frame.
    pub fn seek_by(&mut self, seconds: f64) -> Result<(), Refusal> {
        self.queue.seek(&self.voice.state(), Seek::By(seconds))
    }

    /// Moves to this many seconds.
    ///
    /// # Errors
    ///
    /// As [`Player::seek_by`].
    pub fn seek_to(&mut self, seconds: f64) -> Result<(), Refusal> {
        self.queue.seek(&self.voice.state(), Seek::To(seconds))
    }

    /// Starts a sound that waits ([`Settings::start_waits`](Settings::start_waits())) after this delay,
    /// rounded to whole frames, a half up: kira's `StartTime::Delayed`. A later call replaces it.
    ///
    /// ```
    /// use std::time::Duration;
    ///
    /// use cableowl::{Player, Settings};
    ///
    /// let sound = [0.5; 200];
    /// let mut player = Player::play(Settings::new(1_000).start_waits(true), 1_000, &sound)?;
    /// player.start_after(Duration::from_millis(3));
    /// let mut out = [0.0; 20];
    /// player.process(&sound, &mut out)?;
    /// assert_eq!(out.iter().position(|sample| *sample != 0.0), Some(2 * 3));
    /// # Ok::<(), cableowl::Refusal>(())
    /// ```
    #[doc(alias = "start_time")]
    #[doc(alias = "StartTime")]
    #[doc(alias = "Delayed")]
    pub fn start_after(&mut self, delay: Duration) {
        let frames = frames(delay, self.output_rate);
        self.starts_at = Some(self.clock.saturating_add(frames));
    }

    /// Starts a sound that waits ([`Settings::start_waits`](Settings::start_waits())) at the first frame
    /// whose tick has reached this one; [`StartSignal`](crate::StartSignal) says when that is: kira's
    /// `StartTime::ClockTime`. A later call replaces it.
    ///
    /// ```
    /// use cableowl::{Player, Settings, Ticks};
    ///
    /// let sound = [0.5; 200];
    /// let mut player = Player::play(Settings::new(1_000).start_waits(true), 1_000, &sound)?;
    /// player.start_at_tick(2, Ticks { now: u32::MAX, per_second: 500 });
    /// let mut out = [0.0; 20];
    /// player.process(&sound, &mut out)?;
    /// assert_eq!(out.iter().position(|sample| *sample != 0.0), Some(2 * 6));
    /// # Ok::<(), cableowl::Refusal>(())
    /// ```
    #[doc(alias = "ClockTime")]
    pub fn start_at_tick(&mut self, tick: u32, ticks: Ticks) {
        let reached = ticks.now.wrapping_sub(tick) < 1 << 31;
        let to_go = u64::from(tick.wrapping_sub(ticks.now)) * u64::from(self.output_rate);
        let frames = match u64::from(ticks.per_second) {
            _ if reached => Some(0),
            0 => None,
            per_second => Some(to_go.div_ceil(per_second)),
        };
        self.starts_at = frames.map(|frames| self.clock.saturating_add(frames));
    }

    /// Calls the method of the command's name.
    ///
    /// # Errors
    ///
    /// As for that method.
    pub fn command(&mut self, command: Command) -> Result<(), Refusal> {
        match command {
            Command::Pause(tween) => self.pause(tween),
            Command::Resume(tween) => self.resume(tween),
            Command::Stop(tween) => self.stop(tween),
            Command::SetPlaybackRate(rate, tween) => self.set_playback_rate(rate, tween)?,
            Command::SetVolume(volume, tween) => self.set_volume(volume, tween),
            Command::SetPanning(panning, tween) => self.set_panning(panning, tween)?,
            Command::SetLoopRegion(region) => self.set_loop_region(region)?,
            Command::ClearLoopRegion => self.clear_loop_region(),
            Command::SeekBy(seconds) => self.seek_by(seconds)?,
            Command::SeekTo(seconds) => self.seek_to(seconds)?,
            Command::StartAfter(delay) => self.start_after(delay),
            Command::StartAtTick(tick, ticks) => self.start_at_tick(tick, ticks),
        }
        Ok(())
    }

    /// Plays as many frames as fit into `out`, interleaved, left then right, and overwrites it. Returns
    /// the counts of this call.
    ///
    /// # Errors
    ///
    /// Refusal 1 if the sound has another length than at creation; then [`Refusal::OddOutput`]. A refused
    /// call changes and writes nothing.
    pub fn process(&mut self, sound: &[f32], out: &mut [f32]) -> Result<Processed, Refusal> {
        self.run(sound, out, Place::Out, &mut ())
    }

    /// The same, but adds to the samples in `out`.
    ///
    /// # Errors
    ///
    /// As [`Player::process`].
    pub fn mix(&mut self, sound: &[f32], out: &mut [f32]) -> Result<Processed, Refusal> {
        self.run(sound, out, Place::Mix, &mut ())
    }

    /// The playback state.
    #[must_use]
    pub fn state(&self) -> PlaybackState {
        self.voice.playback_state()
    }

    /// The position, in seconds of the sound.
    #[must_use]
    pub fn position(&self) -> f64 {
        let state = self.voice.state();
        let (frame, rate) = (state.window[1].frame_index, f64::from(state.sample_rate));
        // Rounding down, x86-64 converts a frame of 0 to minus zero.
        float_mode::plain(|| black_box(black_box(frame) as f64 / rate))
    }

    /// The counts of all its frames so far.
    #[must_use]
    pub fn counts(&self) -> Processed {
        self.counts
    }

    /// How often its voice has wrapped round its loop, forward and backward.
    #[must_use]
    pub fn wraps(&self) -> Wraps {
        self.voice.wraps()
    }

    /// The output frames so far, silent ones included.
    #[must_use]
    pub fn frames(&self) -> u64 {
        self.clock
    }

    /// The playback rate of the last frame.
    #[must_use]
    pub fn playback_rate(&self) -> f64 {
        float_mode::plain(|| black_box(black_box(&self.parameters.rate).before(self.clock)))
    }

    /// The volume of the last frame.
    #[must_use]
    pub fn volume(&self) -> Level {
        let tenths =
            float_mode::plain(|| black_box(black_box(&self.parameters.volume).before(self.clock)));
        // Never refused: both ends of a tween are levels.
        Level::new(tenths.into()).unwrap_or(Level::SILENCE)
    }

    /// The panning of the last frame.
    #[must_use]
    pub fn panning(&self) -> f32 {
        float_mode::plain(|| {
            black_box(black_box(&self.parameters.panning).before(self.clock) as f32)
        })
    }

    /// The voice below, to read.
    #[must_use]
    pub fn voice(&self) -> &StaticSound {
        &self.voice
    }

    /// Sets the voice to a saved state and drops waiting commands. Volume, rate and panning stay, and the
    /// rate gives the direction.
    ///
    /// A voice's state does not contain the level of its fade, so the fade begins again with the default
    /// tween's 10 milliseconds: `Pausing` and `Stopping` from full level to silence, `Resuming` from
    /// silence to full level, and each ends in the state that it would have reached. `Playing` is at full
    /// level, any other state at silence. To keep the exact level, save the whole player
    /// ([`Player::to_bytes`]).
    ///
    /// # Errors
    ///
    /// Refusal 1: as for [`StaticSound::from_state`], and for a state of another sample rate.
    pub fn restore(&mut self, state: State, sound: &[f32]) -> Result<(), Refusal> {
        if state.sample_rate != self.voice.sample_rate() {
            return Err(Refusal::State);
        }
        self.voice = StaticSound::from_state(state, sound)?;
        self.queue.clear();
        let (from, to) = match state.playback_state {
            PlaybackState::Playing => (Level::FULL, Level::FULL),
            PlaybackState::Pausing | PlaybackState::Stopping => (Level::FULL, Level::SILENCE),
            PlaybackState::Resuming => (Level::SILENCE, Level::FULL),
            PlaybackState::Paused | PlaybackState::WaitingToResume | PlaybackState::Stopped => {
                (Level::SILENCE, Level::SILENCE)
            }
        };
        self.parameters.fade = Parameter::new(tenths(from));
        if from != to {
            let ramp = self.ramp(Tween::default());
            self.parameters.fade.set(tenths(to), self.clock, ramp);
        }
        Ok(())
    }
}

/// A level as a parameter's number.
fn tenths(level: Level) -> u16 {
    level.tenths() as u16
}
