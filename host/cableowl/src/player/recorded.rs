//! A player that is recorded while it plays.

use super::{
    Command, Player, Tween,
    block::{Place, Watch},
};
use crate::{
    BlockLanes, Commands, Processed, Refusal, Settings, Signals, StartAnswer, StaticSound,
    trace::{Lesson, Line, Record, Recorded, Tape, TraceVersion},
};

/// A [`Player`] that records what it plays, into a borrowed buffer (docs/formats/TRACE.md).
///
/// It plays as an unrecorded player does, bit for bit. It passes its voice one block after the other,
/// and each has its [`Line`]. The trace contains the same blocks; long ones are cut into records, and
/// short ones with the same constant lanes are joined, up to 1,024 frames each. So the trace, played
/// again, prints the same lines cut in other places ([`trace::lines`](crate::trace::lines())): where a
/// block and a record end together, the sums of frames and steps, the state and the position are equal.
///
/// As with a [`Recorder`](crate::trace::Recorder), **the buffer contains the evening up to the first
/// block that did not fit**. After that the player keeps playing and writes no more, and every call says
/// why ([`Recorded::recorded`]). To record for long, save [`RecordedPlayer::bytes`] and call
/// [`RecordedPlayer::clear`] when [`RecordedPlayer::room`] is too small for the next call. A call of n
/// frames needs at most 24 bytes per frame, 22 for each 1,024 frames begun, 22 for each end of a fade or
/// of the sound in it, 74 for each change of direction, 52 for each seek before it and 52 for its other
/// commands together.
///
/// [`RecordedPlayer::play`] allocates; no other call does.
///
/// ```
/// use cableowl::{
///     Command, RecordedPlayer, Settings, Tween,
///     trace::{Lesson, Replay, lines},
/// };
///
/// let lesson = Lesson::new(vec![0.5; 2 * 44_100])?; // before the playing begins
/// let mut buffer = vec![0; 100_000];
/// let settings = Settings::new(44_100).loop_region(0.2..0.7);
/// let mut player = RecordedPlayer::play(settings, 48_000, &lesson, &mut buffer)?;
/// let (mut out, mut log) = ([0.0; 1_024], Vec::new());
/// player.process(&mut out, |line| log.push(line)).recorded?;
/// player.command(Command::Pause(Tween::from_millis(4)))?;
/// player.process(&mut out, |line| log.push(line)).recorded?;
///
/// // 512 frames, then those that fade, then those that are paused.
/// assert_eq!(log.len(), 3);
/// assert!(lines(player.bytes()).eq(log)); // without the lesson
/// # Ok::<(), cableowl::Refusal>(())
/// ```
#[derive(Debug)]
pub struct RecordedPlayer<'a> {
    player: Player,
    lesson: Lesson,
    tape: Tape<'a>,
    /// Whether the sound has started.
    started: bool,
}

impl<'a> RecordedPlayer<'a> {
    /// Plays a sound, as [`Player::play`].
    ///
    /// # Errors
    ///
    /// As [`Player::play`]; then [`Refusal::Room`] if the buffer is too short for the creation.
    pub fn play(
        settings: Settings,
        output_rate: u32,
        lesson: &Lesson,
        buffer: &'a mut [u8],
    ) -> Result<Self, Refusal> {
        Self::with_version(settings, output_rate, lesson, buffer, TraceVersion::Second)
    }

    /// The same in this version. In the first, the player cuts its blocks where a lane changes, and each
    /// block is one record of 42 bytes: a fade is one per level, a moving rate one per frame.
    ///
    /// ```
    /// use cableowl::{Command, RecordedPlayer, Settings, Tween, trace::{Lesson, TraceVersion, lines}};
    ///
    /// let lesson = Lesson::new(vec![0.5; 16])?;
    /// let (settings, mut buffer) = (Settings::new(1_000).loop_region(..), [0; 4_096]);
    /// let first = TraceVersion::First;
    /// let mut player =
    ///     RecordedPlayer::with_version(settings, 1_000, &lesson, &mut buffer, first)?;
    /// player.command(Command::Pause(Tween::from_millis(4)))?;
    /// let (mut out, mut log) = ([0.0; 40], Vec::new());
    /// player.process(&mut out, |line| log.push(line)).recorded?;
    /// assert_eq!(log.len(), 4, "three levels on the way, and 17 frames paused");
    /// assert!(lines(player.bytes()).eq(log));
    /// # Ok::<(), cableowl::Refusal>(())
    /// ```
    ///
    /// # Errors
    ///
    /// As [`RecordedPlayer::play`]; in the first version [`Refusal::Record`] for a sound of more than 64
    /// frames.
    pub fn with_version(
        settings: Settings,
        output_rate: u32,
        lesson: &Lesson,
        buffer: &'a mut [u8],
        version: TraceVersion,
    ) -> Result<Self, Refusal> {
        let player = Player::play(settings, output_rate, lesson.samples())?;
        let mut tape = Tape::new(buffer, version);
        tape.created(settings, lesson);
        tape.recorded()?;
        Ok(Self {
            player,
            lesson: lesson.clone(),
            tape,
            started: !settings.start_waits,
        })
    }

    /// As [`Player::fade_in_tween`].
    #[must_use]
    pub fn fade_in_tween(mut self, tween: impl Into<Tween>) -> Self {
        self.player = self.player.fade_in_tween(tween);
        self
    }

    /// As [`Player::command`]; recorded with the next frame, when the voice gets it.
    ///
    /// # Errors
    ///
    /// As [`Player::command`].
    pub fn command(&mut self, command: Command) -> Result<(), Refusal> {
        self.player.command(command)
    }

    /// As [`Player::process`]. The line of each block is logged.
    pub fn process(&mut self, out: &mut [f32], log: impl FnMut(Line)) -> Recorded<Processed> {
        self.run(out, Place::Out, log)
    }

    /// As [`Player::mix`]. The line of each block is logged.
    pub fn mix(&mut self, out: &mut [f32], log: impl FnMut(Line)) -> Recorded<Processed> {
        self.run(out, Place::Mix, log)
    }

    fn run(&mut self, out: &mut [f32], place: Place, log: impl FnMut(Line)) -> Recorded<Processed> {
        let (player, sound) = (&mut self.player, self.lesson.samples());
        let (tape, started) = (&mut self.tape, &mut self.started);
        let answer = match tape.version() {
            TraceVersion::First => {
                let watch = &mut Logged::<_, true> { tape, started, log };
                player.run(sound, out, place, watch)
            }
            TraceVersion::Second => {
                let watch = &mut Logged::<_, false> { tape, started, log };
                player.run(sound, out, place, watch)
            }
        };
        Recorded {
            answer,
            recorded: self.tape.recorded(),
        }
    }

    /// The player, to read.
    #[must_use]
    pub fn player(&self) -> &Player {
        &self.player
    }

    /// The sound.
    #[must_use]
    pub fn lesson(&self) -> &Lesson {
        &self.lesson
    }

    /// Ends the recording and returns the player. The buffer then contains all records. Call [`RecordedPlayer::bytes`]
    /// first to get their number of bytes.
    #[must_use]
    pub fn into_player(mut self) -> Player {
        self.tape.bytes();
        self.player
    }

    /// The records in the buffer. No later block is joined to the last of them.
    #[must_use]
    pub fn bytes(&mut self) -> &[u8] {
        self.tape.bytes()
    }

    /// The free bytes in the buffer.
    #[must_use]
    pub fn room(&self) -> usize {
        self.tape.room()
    }

    /// Empties the buffer after the host has saved its records; the same trace continues.
    pub fn clear(&mut self) {
        self.tape.clear();
    }
}

/// Records what the voice gets, and logs its lines. In version 1 the player cuts its blocks so that each is
/// a record.
struct Logged<'t, 'a, F, const CUTS: bool> {
    tape: &'t mut Tape<'a>,
    started: &'t mut bool,
    log: F,
}

impl<F: FnMut(Line), const CUTS: bool> Watch for Logged<'_, '_, F, CUTS> {
    const RECORDS: bool = true;
    const CUTS: bool = CUTS;

    fn commanded(&mut self, commands: Commands) {
        self.tape.keep(Ok(Record::Commands(commands)));
    }

    fn played(
        &mut self,
        lanes: BlockLanes<'_>,
        time_step: f64,
        mut signals: Signals,
        voice: &StaticSound,
        counts: Processed,
    ) {
        // A player repeats the answer for the start in every block; a sound that has started ignores it.
        if !CUTS && signals.start.answer() != StartAnswer::Waiting {
            if *self.started {
                signals = signals.start(StartAnswer::Waiting);
            }
            *self.started = voice.state().started;
        }
        let block = self.tape.next_block();
        let line = Line::of_block(block, lanes.count(), voice, Ok(counts));
        let tape = &mut self.tape;
        tape.played(lanes, time_step, signals, Some(voice), Ok(counts));
        (self.log)(line);
    }
}
