//! A command set: docs/assurance/RULES.md, "Creation, commands, block".

use crate::{Region, ffi};

/// What a command set does with the loop.
#[derive(Debug, Clone, Copy, PartialEq, Default)]
pub enum LoopCommand {
    /// Nothing.
    #[default]
    Keep,
    /// Removes the loop.
    Clear,
    /// Loops this part.
    Set(Region),
}

/// Whether a command set resumes.
#[derive(Debug, Clone, Copy, PartialEq, Eq, Hash, Default)]
pub enum ResumeCommand {
    /// Nothing.
    #[default]
    No,
    /// Resumes with the next block.
    AtOnce,
    /// Resumes when a block passes the answer (see [`Signals::resume`](crate::Signals::resume)).
    Waiting,
}

/// A command set: at most one of each command, applied in the order of the fields. The default is
/// empty.
///
/// ```
/// use cableowl::{Commands, Frames, Settings, StaticSound};
///
/// let sound = [0.0; 20];
/// let mut voice = StaticSound::new(Settings::new(1), &sound)?;
/// let step_back = Commands::new().set_loop_region(Frames(2)..Frames(6)).seek_to(3.0);
/// voice.on_start_processing(&sound, step_back)?;
/// assert_eq!(voice.state().loop_region, Some((2, 6)));
/// # Ok::<(), cableowl::Refusal>(())
/// ```
#[derive(Debug, Clone, Copy, PartialEq, Default)]
#[non_exhaustive]
pub struct Commands {
    /// A new held rate: its sign gives the direction. It does not change the speed.
    pub playback_rate: Option<f64>,
    /// A new loop, or none.
    pub loop_region: LoopCommand,
    /// Pauses when a block says that the fade has finished.
    pub pause: bool,
    /// Resumes.
    pub resume: ResumeCommand,
    /// Stops when a block says that the fade has finished.
    pub stop: bool,
    /// Moves by this many seconds.
    pub seek_by: Option<f64>,
    /// Moves to this many seconds.
    pub seek_to: Option<f64>,
}

impl Commands {
    /// The empty command set, which only reports the position.
    #[must_use]
    pub fn new() -> Self {
        Self::default()
    }

    /// Sets the held rate. The voice uses only its sign: below 0 it plays backward. **It does not change
    /// the speed**, which comes from the rate lane ([`BlockLanes::rate`](crate::BlockLanes::rate)).
    #[must_use]
    pub fn set_playback_rate(mut self, playback_rate: f64) -> Self {
        self.playback_rate = Some(playback_rate);
        self
    }

    /// Loops this part, counted from the slice's start.
    #[must_use]
    pub fn set_loop_region(mut self, loop_region: impl Into<Region>) -> Self {
        self.loop_region = LoopCommand::Set(loop_region.into());
        self
    }

    /// Removes the loop.
    #[must_use]
    pub fn clear_loop_region(mut self) -> Self {
        self.loop_region = LoopCommand::Clear;
        self
    }

    /// Begins a pause. The voice is `Pausing` and **keeps playing, as loud as the host's fade lane
    /// says**, until a block passes [`Signals::finished`](crate::Signals::finished); then it is `Paused`.
    ///
    /// The host makes the fade: it passes a falling fade lane, block by block, and says when the fade
    /// has finished. Without a falling lane there is no fade; without `finished` there is no pause.
    ///
    /// ```
    /// use cableowl::{Commands, Lanes, PlaybackState, Settings, Signals, StaticSound};
    ///
    /// let sound = [1.0; 200];
    /// let mut voice = StaticSound::new(Settings::new(1), &sound)?;
    /// voice.on_start_processing(&sound, Commands::new().pause())?;
    /// let (mut lanes, mut out) = (Lanes::new(), [0.0; 8]);
    /// let falling = lanes.frames(4).fade(&[0.75, 0.5, 0.25, 0.0]);
    /// voice.process(&sound, falling, 1.0, Signals::new(), &mut out)?;
    /// assert_eq!(out, [0.75, 0.75, 0.5, 0.5, 0.25, 0.25, 0.0, 0.0]);
    /// assert_eq!(voice.playback_state(), PlaybackState::Pausing);
    /// let finished = Signals::new().finished(true);
    /// voice.process(&sound, lanes.frames(4), 1.0, finished, &mut out)?;
    /// assert_eq!((out, voice.playback_state()), ([0.0; 8], PlaybackState::Paused));
    /// # Ok::<(), cableowl::Refusal>(())
    /// ```
    #[must_use]
    pub fn pause(mut self) -> Self {
        self.pause = true;
        self
    }

    /// Resumes: the voice is `Resuming` and plays at once, as loud as the host's fade lane says (pass a
    /// rising one to fade in). It is `Playing` when a block says `finished`.
    #[must_use]
    pub fn resume(mut self) -> Self {
        self.resume = ResumeCommand::AtOnce;
        self
    }

    /// The same, when a block passes the answer ([`Signals::resume`](crate::Signals::resume)): kira's
    /// `resume_at`.
    #[doc(alias = "resume_at")]
    #[must_use]
    pub fn resume_waiting(mut self) -> Self {
        self.resume = ResumeCommand::Waiting;
        self
    }

    /// Begins to stop: as with [`Commands::pause`](Commands::pause()), the voice keeps playing under the
    /// host's falling fade until a block says `finished`. Then it is `Stopped` for ever.
    #[must_use]
    pub fn stop(mut self) -> Self {
        self.stop = true;
        self
    }

    /// Moves by this many seconds.
    #[must_use]
    pub fn seek_by(mut self, seconds: f64) -> Self {
        self.seek_by = Some(seconds);
        self
    }

    /// Moves to this many seconds.
    #[must_use]
    pub fn seek_to(mut self, seconds: f64) -> Self {
        self.seek_to = Some(seconds);
        self
    }
}

impl From<Commands> for ffi::Commands {
    fn from(commands: Commands) -> Self {
        let (loop_command, loop_region) = match commands.loop_region {
            LoopCommand::Keep => (0, ffi::Region::default()),
            LoopCommand::Clear => (1, ffi::Region::default()),
            LoopCommand::Set(region) => (2, region.into()),
        };
        Self {
            has_rate: commands.playback_rate.is_some().into(),
            loop_command,
            pause: commands.pause.into(),
            resume: commands.resume as u32,
            stop: commands.stop.into(),
            has_seek_by: commands.seek_by.is_some().into(),
            has_seek_to: commands.seek_to.is_some().into(),
            rate: commands.playback_rate.unwrap_or_default(),
            seek_by: commands.seek_by.unwrap_or_default(),
            seek_to: commands.seek_to.unwrap_or_default(),
            loop_region,
        }
    }
}
