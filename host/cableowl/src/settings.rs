//! How a voice is created: docs/assurance/RULES.md, "Creation, commands, block".

use crate::{PlaybackPosition, Region, ffi};

/// How to create a voice. The defaults: the whole sound from its first frame, forward, no loop, at
/// once.
///
/// ```
/// use cableowl::{Frames, Settings, StaticSound};
///
/// let sound = [0.0; 20];
/// let settings = Settings::new(48_000).start_position(Frames(3));
/// let settings = settings.loop_region(Frames(2)..Frames(6)).reverse(true);
/// let voice = StaticSound::new(settings, &sound)?;
/// assert_eq!(voice.state().loop_region, Some((2, 6)));
/// # Ok::<(), cableowl::Refusal>(())
/// ```
#[doc(alias = "StaticSoundSettings")]
#[derive(Debug, Clone, Copy, PartialEq)]
#[non_exhaustive]
pub struct Settings {
    /// The sample rate of the sound, in frames per second.
    pub sample_rate: u32,
    /// The part of the sound to play, if not all.
    pub slice: Option<Region>,
    /// Where to start, within the slice.
    pub start_position: PlaybackPosition,
    /// The part to loop, within the slice.
    pub loop_region: Option<Region>,
    /// Whether to play in reverse.
    pub reverse: bool,
    /// The held rate: its sign gives the direction. **It does not change the speed** (see
    /// [`Settings::playback_rate`](Settings::playback_rate())).
    pub playback_rate: f64,
    /// Whether the start waits for an answer or a tick (see [`Signals::start`](crate::Signals::start)).
    pub start_waits: bool,
}

impl Settings {
    /// The whole sound of this sample rate, from its first frame, forward, at once.
    #[must_use]
    pub fn new(sample_rate: u32) -> Self {
        Self {
            sample_rate,
            slice: None,
            start_position: PlaybackPosition::default(),
            loop_region: None,
            reverse: false,
            playback_rate: 1.0,
            start_waits: false,
        }
    }

    /// Plays only this part of the sound.
    #[must_use]
    pub fn slice(mut self, slice: impl Into<Region>) -> Self {
        self.slice = Some(slice.into());
        self
    }

    /// Starts here, counted from the slice's start.
    #[must_use]
    pub fn start_position(mut self, start_position: impl Into<PlaybackPosition>) -> Self {
        self.start_position = start_position.into();
        self
    }

    /// Loops this part, counted from the slice's start.
    #[must_use]
    pub fn loop_region(mut self, loop_region: impl Into<Region>) -> Self {
        self.loop_region = Some(loop_region.into());
        self
    }

    /// Sets whether to play in reverse.
    #[must_use]
    pub fn reverse(mut self, reverse: bool) -> Self {
        self.reverse = reverse;
        self
    }

    /// Sets the held rate. The voice uses only its sign: below 0 it plays backward.
    ///
    /// **The speed comes from the rate lane**, not from this number
    /// ([`BlockLanes::rate`](crate::BlockLanes::rate)). In kira one parameter is both. Here the host has
    /// the tween: it passes the magnitude in the lane and the sign to the voice.
    ///
    /// ```
    /// use cableowl::{Lanes, Settings, Signals, StaticSound};
    ///
    /// let sound = [0.0; 200];
    /// let mut voice = StaticSound::new(Settings::new(1).playback_rate(0.5), &sound)?;
    /// let (mut lanes, mut out) = (Lanes::new(), [0.0; 16]);
    /// let at_speed_1 = lanes.frames(8);
    /// let block = voice.process(&sound, at_speed_1, 1.0, Signals::new(), &mut out)?;
    /// assert_eq!(block.steps, 8);
    /// let at_half_speed = lanes.frames(8).rate(0.5);
    /// let block = voice.process(&sound, at_half_speed, 1.0, Signals::new(), &mut out)?;
    /// assert_eq!(block.steps, 4);
    /// # Ok::<(), cableowl::Refusal>(())
    /// ```
    #[must_use]
    pub fn playback_rate(mut self, playback_rate: f64) -> Self {
        self.playback_rate = playback_rate;
        self
    }

    /// Sets whether the start waits for an answer: kira's `start_time` other than `Immediate`. A
    /// player starts it by [`Player::start_after`](crate::Player::start_after) or
    /// [`Player::start_at_tick`](crate::Player::start_at_tick).
    #[doc(alias = "start_time")]
    #[doc(alias = "Immediate")]
    #[must_use]
    pub fn start_waits(mut self, start_waits: bool) -> Self {
        self.start_waits = start_waits;
        self
    }
}

impl From<Settings> for ffi::Settings {
    fn from(settings: Settings) -> Self {
        Self {
            sample_rate: settings.sample_rate,
            has_slice: settings.slice.is_some().into(),
            has_loop: settings.loop_region.is_some().into(),
            reverse: settings.reverse.into(),
            start_waits: settings.start_waits.into(),
            playback_rate: settings.playback_rate,
            start: settings.start_position.into(),
            slice: settings.slice.map(Into::into).unwrap_or_default(),
            loop_region: settings.loop_region.map(Into::into).unwrap_or_default(),
        }
    }
}
