//! The seven playback states and a block's signals: docs/assurance/RULES.md, "States".

use crate::ffi;

/// The playback state of a voice.
#[derive(Debug, Clone, Copy, PartialEq, Eq, Hash)]
pub enum PlaybackState {
    /// 0: it plays.
    Playing,
    /// 1: it plays while the host fades it out, until a block says `finished`; then it is paused.
    Pausing,
    /// 2: it is silent and does not move.
    Paused,
    /// 3: it is silent until a block passes the answer to its resume.
    WaitingToResume,
    /// 4: it plays while the host fades it in.
    Resuming,
    /// 5: it plays while the host fades it out, until a block says `finished`; then it is stopped.
    Stopping,
    /// 6: it is silent for ever.
    Stopped,
}

impl PlaybackState {
    /// All seven, each at its number.
    pub const ALL: [Self; 7] = [
        Self::Playing,
        Self::Pausing,
        Self::Paused,
        Self::WaitingToResume,
        Self::Resuming,
        Self::Stopping,
        Self::Stopped,
    ];

    /// Its number, 0 to 6.
    #[must_use]
    pub fn number(self) -> u32 {
        self as u32
    }

    /// The state with this number, if there is one.
    #[must_use]
    pub fn from_number(number: u32) -> Option<Self> {
        Self::ALL.get(usize::try_from(number).ok()?).copied()
    }

    /// The state in a voice's record; the archive returns only the numbers 0 to 6.
    pub(crate) fn of_voice(number: u32) -> Self {
        Self::from_number(number).unwrap_or(Self::Stopped)
    }

    /// Whether a voice in this state advances.
    #[must_use]
    pub fn is_advancing(self) -> bool {
        matches!(
            self,
            Self::Playing | Self::Pausing | Self::Resuming | Self::Stopping
        )
    }
}

/// A block's answer to a start that waits.
#[derive(Debug, Clone, Copy, PartialEq, Eq, Hash, Default)]
pub enum StartAnswer {
    /// Still waiting.
    #[default]
    Waiting,
    /// It starts with this block.
    Now,
    /// It will never start, and the voice is stopped.
    Never,
}

/// A block's signal for the start of the sound: an answer, or the tick at which it is due with the
/// current tick, on a 32-bit counter that may wrap. The default is still waiting.
///
/// If `now.wrapping_sub(due)` is below 2,147,483,648, half the range, the tick is reached and means
/// [`Now`](StartAnswer::Now); otherwise it means [`Waiting`](StartAnswer::Waiting). So a tick that is due
/// at most half the range ahead is waited for, and **one that is due further ahead counts as reached**.
/// At 1,000 ticks per second half the range is 24 days, 20 hours, 31 minutes and 23.648 seconds. A start
/// that has come stays, even if the tick goes back. If a block is cut in two, pass both parts the same
/// tick.
///
/// ```
/// use cableowl::{Lanes, Settings, Signals, StartSignal, StaticSound};
///
/// let sound = [0.5; 8];
/// let mut voice = StaticSound::new(Settings::new(1).start_waits(true), &sound)?;
/// let mut lanes = Lanes::new();
/// let due = 3; // just past the wrap
/// for (now, steps) in [(u32::MAX, 0), (2, 0), (3, 1), (u32::MAX, 1)] {
///     let signals = Signals::new().start(StartSignal::Tick { due, now });
///     let block = voice.process(&sound, lanes.frames(1), 1.0, signals, &mut [0.0; 2])?;
///     assert_eq!(block.steps, steps);
/// }
/// # Ok::<(), cableowl::Refusal>(())
/// ```
#[derive(Debug, Clone, Copy, PartialEq, Eq, Hash)]
pub enum StartSignal {
    /// An answer.
    Answer(StartAnswer),
    /// Due at a tick.
    Tick {
        /// The tick at which the sound starts.
        due: u32,
        /// The current tick.
        now: u32,
    },
}

impl StartSignal {
    /// The answer that it means.
    ///
    /// ```
    /// use cableowl::{StartAnswer, StartSignal};
    ///
    /// let answer = |due, now| StartSignal::Tick { due, now }.answer();
    /// assert_eq!(answer(3, u32::MAX), StartAnswer::Waiting);
    /// assert_eq!(answer(u32::MAX, 3), StartAnswer::Now);
    /// ```
    #[must_use]
    pub fn answer(self) -> StartAnswer {
        match self {
            Self::Answer(answer) => answer,
            Self::Tick { due, now } if now.wrapping_sub(due) < 1 << 31 => StartAnswer::Now,
            Self::Tick { .. } => StartAnswer::Waiting,
        }
    }
}

impl Default for StartSignal {
    fn default() -> Self {
        Self::Answer(StartAnswer::default())
    }
}

impl From<StartAnswer> for StartSignal {
    fn from(answer: StartAnswer) -> Self {
        Self::Answer(answer)
    }
}

/// The signals of a block; the default is no signals.
///
/// ```
/// use cableowl::{Signals, StartAnswer};
///
/// let fade_has_ended = Signals::new().finished(true);
/// assert_eq!(fade_has_ended.start, StartAnswer::Waiting.into());
/// ```
#[derive(Debug, Clone, Copy, PartialEq, Eq, Hash, Default)]
#[non_exhaustive]
pub struct Signals {
    /// The fade of a pause, resume or stop has ended.
    pub finished: bool,
    /// An answer or a tick for the sound's own start; ignored once that has come.
    pub start: StartSignal,
    /// The answer for a waiting resume; ignored if none waits.
    pub resume: StartAnswer,
}

impl Signals {
    /// No signals: not finished, and both starts still waiting.
    #[must_use]
    pub fn new() -> Self {
        Self::default()
    }

    /// Sets whether the fade of a pause, resume or stop has ended.
    #[must_use]
    pub fn finished(mut self, finished: bool) -> Self {
        self.finished = finished;
        self
    }

    /// Sets the answer to the sound's start, or the due tick and the current tick.
    #[must_use]
    pub fn start(mut self, start: impl Into<StartSignal>) -> Self {
        self.start = start.into();
        self
    }

    /// Sets the answer to a waiting resume.
    #[must_use]
    pub fn resume(mut self, resume: StartAnswer) -> Self {
        self.resume = resume;
        self
    }
}

impl From<Signals> for ffi::Signals {
    fn from(signals: Signals) -> Self {
        let (start, due, now) = match signals.start {
            StartSignal::Answer(answer) => (answer as u32, 0, 0),
            StartSignal::Tick { due, now } => (3, due, now),
        };
        Self {
            finished: signals.finished.into(),
            start,
            resume: signals.resume as u32,
            due,
            now,
        }
    }
}
