//! A voice that is recorded while it plays.

use std::ops::Range;

use super::{
    Lesson, Line, MAX_TRACED_FRAMES, Record, Tape, TraceVersion,
    tape::{parts, ran_off},
};
use crate::{BlockLanes, Commands, LoopTable, Processed, Refusal, Settings, Signals, StaticSound};

/// The result of a recorded call.
#[derive(Debug, Clone, Copy, PartialEq)]
#[must_use]
pub struct Recorded<T> {
    /// The voice's own result.
    pub answer: Result<T, Refusal>,
    /// Whether the trace contains the call: [`Refusal::Record`] if no record can, [`Refusal::Room`] if the
    /// buffer was full, and the same for every call after that.
    pub recorded: Result<(), Refusal>,
}

/// A voice that is recorded while it plays, into a borrowed buffer.
///
/// It plays as an unrecorded voice does, bit for bit. **The buffer contains the evening up to the first
/// call that did not fit.** That call is played too, but it and every later call say why they are not
/// recorded ([`Recorded::recorded`]), and nothing more is written. So a trace has no gaps.
///
/// A block of up to 1,024 frames is one record: 42 bytes if its lanes are constant, otherwise 22 and 24
/// per frame. A longer block is several records. A block with the same constant lanes as the one before
/// it, with no signals and no command between them, is joined to that record, up to 1,024 frames. So the
/// trace, played again, prints the lines of the evening ([`Recorder::line`]) cut in other places: sums
/// and states agree where a call and a record end together.
///
/// What is not recorded:
///
/// - 19, [`Refusal::Room`]: the buffer is full. A host that records for long empties it in time: when
///   [`Recorder::room`] is below what the next calls need, it appends [`Recorder::bytes`] to its file and
///   calls [`Recorder::clear`].
/// - 17, [`Refusal::Record`]: a call refused with 9 (no record contains one), or a call with another
///   sound than the creation's. A sound of more than 64 frames is recognised by its place in memory: pass
///   [`Lesson::samples`].
///
/// The steps that a voice counts after the end of its sound depend on where its block ends. So a block
/// of more than 1,024 frames in which the voice runs off its sound is played in the parts in which it is
/// recorded.
///
/// [`Recorder::new`] allocates; no other call allocates or panics.
///
/// ```
/// use cableowl::{
///     Commands, Lanes, Settings, Signals,
///     trace::{Lesson, Recorder, lines},
/// };
///
/// let lesson = Lesson::new(vec![0.5; 2 * 44_100])?;
/// let sound = lesson.samples();
/// let mut buffer = vec![0; 100_000];
/// let mut recorder = Recorder::new(&mut buffer);
/// recorder.create(Settings::new(44_100), &lesson).answer?;
///
/// // A block of 700 frames, and one that fades out.
/// let (mut lanes, mut out, time_step) = (Lanes::new(), [0.0; 1_400], 1.0 / 48_000.0);
/// let constant = lanes.frames(700);
/// recorder.process(sound, constant, time_step, Signals::new(), &mut out).recorded?;
/// recorder.on_start_processing(sound, Commands::new().pause()).recorded?;
/// let fade: Vec<f32> = (0..300).map(|frame| 1.0 - frame as f32 / 300.0).collect();
/// let fades = lanes.frames(300).fade(&fade);
/// recorder.process(sound, fades, time_step, Signals::new(), &mut out[..600]).recorded?;
///
/// let last = recorder.line();
/// assert_eq!(recorder.bytes().len(), 70 + 42 + 12 + (22 + 24 * 300));
/// assert_eq!(lines(recorder.bytes()).last(), last);
/// # Ok::<(), cableowl::Refusal>(())
/// ```
#[derive(Debug)]
pub struct Recorder<'a> {
    voice: Option<StaticSound>,
    lesson: Option<Lesson>,
    tape: Tape<'a>,
    line: Option<Line>,
}

impl<'a> Recorder<'a> {
    /// An empty trace in a borrowed buffer. There is no voice yet, so a command set or a block is refused
    /// with 1.
    #[must_use]
    pub fn new(buffer: &'a mut [u8]) -> Self {
        Self::with_version(buffer, TraceVersion::Second)
    }

    /// The same in this version. In the first, each call is one record, and [`Refusal::Record`] comes
    /// also for a sound of more than 64 frames, a block of more than 1,024, and lanes that change in a
    /// block: a host cuts its blocks there ([`BlockLanes::constant_frames`]).
    ///
    /// ```
    /// use cableowl::{Settings, trace::{Lesson, Recorder, TraceVersion}};
    ///
    /// let mut buffer = [0; 1_000];
    /// let mut recorder = Recorder::with_version(&mut buffer, TraceVersion::First);
    /// let lesson = Lesson::new(vec![0.5; 16])?;
    /// recorder.create(Settings::new(1), &lesson).recorded?;
    /// assert_eq!(recorder.bytes().len(), 5 + 26 + 8 * 8);
    /// # Ok::<(), cableowl::Refusal>(())
    /// ```
    #[must_use]
    pub fn with_version(buffer: &'a mut [u8], version: TraceVersion) -> Self {
        Self {
            voice: None,
            lesson: None,
            tape: Tape::new(buffer, version),
            line: None,
        }
    }

    /// Creates the voice, as [`StaticSound::new`]. It replaces an earlier voice; after a refused creation
    /// there is none.
    pub fn create(&mut self, settings: Settings, lesson: &Lesson) -> Recorded<()> {
        let created = StaticSound::new(settings, lesson.samples());
        let answer = created.as_ref().map(|_| ()).map_err(|refusal| *refusal);
        self.voice = created.ok();
        self.lesson = Some(lesson.clone());
        self.tape.created(settings, lesson);
        self.recorded(answer)
    }

    /// Applies a command set, as [`StaticSound::on_start_processing`].
    pub fn on_start_processing(&mut self, sound: &[f32], commands: Commands) -> Recorded<f64> {
        let answer = match &mut self.voice {
            Some(voice) => voice.on_start_processing(sound, commands),
            None => Err(Refusal::State),
        };
        self.commanded(sound, commands);
        self.recorded(answer)
    }

    /// Takes a loop from a table, as [`StaticSound::take_loop`], and records it as a command set. If the
    /// table refuses, nothing is recorded.
    pub fn take_loop(&mut self, sound: &[f32], table: &LoopTable, slot: usize) -> Recorded<f64> {
        let region = match table.region(slot) {
            Ok(region) => region,
            Err(refusal) => return self.recorded(Err(refusal)),
        };
        let answer = match &mut self.voice {
            Some(voice) => voice.take_loop(sound, table, slot),
            None => Err(Refusal::State),
        };
        self.commanded(sound, Commands::new().set_loop_region(region));
        self.recorded(answer)
    }

    /// Plays a block, as [`StaticSound::process`].
    pub fn process(
        &mut self,
        sound: &[f32],
        lanes: BlockLanes<'_>,
        dt: f64,
        signals: Signals,
        out: &mut [f32],
    ) -> Recorded<Processed> {
        self.play(sound, lanes, dt, signals, |voice, lanes, signals, part| {
            let out = match part {
                None => &mut *out,
                Some(part) => {
                    let samples = 2 * part.start..2 * part.end;
                    out.get_mut(samples).unwrap_or_default()
                }
            };
            voice.process(sound, lanes, dt, signals, out)
        })
    }

    /// Plays a block into a longer buffer, as [`StaticSound::process_into`].
    pub fn process_into(
        &mut self,
        sound: &[f32],
        lanes: BlockLanes<'_>,
        dt: f64,
        signals: Signals,
        mix: &mut [f32],
        from: usize,
    ) -> Recorded<Processed> {
        self.play(sound, lanes, dt, signals, |voice, lanes, signals, part| {
            let from = from + part.map_or(0, |part| part.start);
            voice.process_into(sound, lanes, dt, signals, mix, from)
        })
    }

    /// The line of the last block.
    #[must_use]
    pub fn line(&self) -> Option<Line> {
        self.line
    }

    /// The voice as it is now, if there is one.
    #[must_use]
    pub fn voice(&self) -> Option<&StaticSound> {
        self.voice.as_ref()
    }

    /// Ends the recording and returns the voice. The buffer then contains all records. Call [`Recorder::bytes`] first
    /// to get their number of bytes.
    #[must_use]
    pub fn into_voice(mut self) -> Option<StaticSound> {
        self.tape.bytes();
        self.voice
    }

    /// The records in the buffer. No later block is joined to the last of them.
    #[must_use]
    pub fn bytes(&mut self) -> &[u8] {
        self.tape.bytes()
    }

    /// The free bytes in the buffer.
    #[must_use]
    pub fn room(&self) -> usize {
        self.tape.room()
    }

    /// Empties the buffer after the host has saved its records; the same trace continues.
    pub fn clear(&mut self) {
        self.tape.clear();
    }

    /// Plays a block by `play`, which plays the whole block or a part of it, and records it.
    fn play(
        &mut self,
        sound: &[f32],
        mut lanes: BlockLanes<'_>,
        dt: f64,
        signals: Signals,
        mut play: impl FnMut(
            &mut StaticSound,
            BlockLanes<'_>,
            Signals,
            Option<Range<usize>>,
        ) -> Result<Processed, Refusal>,
    ) -> Recorded<Processed> {
        let frames = lanes.count();
        let is_long = frames > MAX_TRACED_FRAMES && self.tape.version() == TraceVersion::Second;
        let answer = match &mut self.voice {
            Some(voice) => {
                let before = is_long.then(|| voice.clone());
                let answer = play(voice, lanes.again(), signals, None);
                match (before, answer) {
                    (Some(before), Ok(counts)) if ran_off(voice, counts) => {
                        *voice = before;
                        let mut parts = parts(frames, signals);
                        parts.try_fold(Processed::NONE, |counts, (part, signals)| {
                            let lanes = lanes.part(part.clone());
                            Ok(counts.and(play(voice, lanes, signals, Some(part))?))
                        })
                    }
                    _ => answer,
                }
            }
            None => Err(Refusal::State),
        };
        let block = self.tape.next_block();
        self.line = Some(match &self.voice {
            Some(voice) => Line::of_block(block, frames, voice, answer),
            None => Line::RefusedBlock {
                block,
                refusal: Refusal::State,
            },
        });
        match self.is_this(sound) {
            true => self
                .tape
                .played(lanes, dt, signals, self.voice.as_ref(), answer),
            false => self.tape.keep(Err(Refusal::Record)),
        }
        self.recorded(answer)
    }

    fn commanded(&mut self, sound: &[f32], commands: Commands) {
        let record = match self.is_this(sound) {
            true => Ok(Record::Commands(commands)),
            false => Err(Refusal::Record),
        };
        self.tape.keep(record);
    }

    /// Whether a call can be recorded: a replay uses the creation's sound.
    fn is_this(&self, sound: &[f32]) -> bool {
        let lesson = self.lesson.as_ref();
        self.voice.is_none() || lesson.is_some_and(|lesson| lesson.is(sound))
    }

    fn recorded<T>(&self, answer: Result<T, Refusal>) -> Recorded<T> {
        Recorded {
            answer,
            recorded: self.tape.recorded(),
        }
    }
}
