//! Replays a trace. The proved archive reads and plays each record; this module owns the buffers for it and turns its
//! numbers into Rust types.

use std::{
    io::{self, Read, Write},
    ops::Range,
    sync::Arc,
};

use super::{
    Block, LanedBlock, Lesson, Line, MAX_RECORD_BYTES, MAX_SOUND_FRAMES, MAX_TRACED_FRAMES,
    OtherSound, Record, Refused, SoundId, Sounds, TraceError, TraceReader, TraceVersion,
};
use crate::{
    PlaybackState, Processed, Refusal, Signals, StaticSound, ffi, float_mode,
    stopping::until_it_stops,
};

/// What a step of a replay did.
#[derive(Debug, Clone, Copy, PartialEq, Eq)]
pub enum Step {
    /// A creation was accepted, or refused with 2 to 7.
    Creation(Result<(), Refusal>),
    /// A creation was refused with 26: none of the given sounds is the recorded one. There is no voice
    /// then.
    OtherSound(OtherSound),
    /// A command set was obeyed, or refused with 1 or 6 to 8.
    Commands(Result<(), Refusal>),
    /// A block was played or refused: its line.
    Block(Line),
    /// The reader refuses the record. The replay stays before it.
    Refused(Refused),
    /// The bytes end inside a record, and more may come.
    More,
    /// The trace has ended.
    End,
}

impl Step {
    /// The line that is printed.
    #[must_use]
    pub fn line(self) -> Option<Line> {
        match self {
            Self::Block(line) => Some(line),
            Self::OtherSound(other) => Some(Line::OtherSound(other)),
            Self::Refused(refused) => Some(Line::Refused(refused)),
            Self::Creation(_) | Self::Commands(_) | Self::More | Self::End => None,
        }
    }
}

/// Plays the records of a trace one after the other and returns the line of each block. The proved
/// archive does the work (`cableowl_replay_step_v2` in C).
///
/// Before any creation, and after a refused one, there is no voice, and a block is refused with 1. A
/// refused creation or command set has no line, unless the creation is refused with 26. The counter
/// counts refused blocks, and no creation resets it.
///
/// **A replay needs no sound.** A creation of kind 4 names its sound and does not contain it. Without it the replay
/// plays silence of the same length, and every line, state, count and position is the same. The silence is only read,
/// so it uses no memory if the system hands out zero pages at first use. To hear the samples, give the sounds
/// ([`Replay::sounds`]).
///
/// Only [`Replay::new`] allocates, and a creation over silence if it is longer than those before it.
///
/// ```
/// use cableowl::{Settings, trace::{Block, Lesson, Record, Replay}};
///
/// let lesson = Lesson::new(vec![0.5; 40])?;
/// let settings = Settings::new(1);
/// let creation = Record::GivenCreation { settings, sound: lesson.id() };
/// let block = Record::Block(Block::new(2, 1.0));
/// let mut silent = Replay::new();
/// let mut heard = Replay::new().sounds(lesson);
/// for record in [creation, block] {
///     assert_eq!(silent.play(&record), heard.play(&record));
/// }
/// assert_eq!((silent.heard(), heard.heard()), (&[0.0; 4][..], &[0.5; 4][..]));
/// # Ok::<(), cableowl::Refusal>(())
/// ```
#[derive(Debug, Clone)]
pub struct Replay {
    version: TraceVersion,
    replay: ffi::Replay,
    voice: Option<StaticSound>,
    /// The sound of the last creation of kind 1.
    sound: [f32; 2 * MAX_SOUND_FRAMES],
    given: Given,
    out: Vec<f32>,
    heard: usize,
    last: LastBlock,
}

impl Replay {
    /// A replay before its first record, without sounds.
    #[must_use]
    pub fn new() -> Self {
        Self::with_version(TraceVersion::Second)
    }

    /// The same, by the reader of this version.
    #[must_use]
    pub fn with_version(version: TraceVersion) -> Self {
        let replay = match version {
            TraceVersion::First => ffi::replay(),
            TraceVersion::Second => ffi::replay_v2(),
        };
        Self {
            version,
            replay,
            voice: None,
            sound: [0.0; 2 * MAX_SOUND_FRAMES],
            given: Given::default(),
            out: vec![0.0; 2 * MAX_TRACED_FRAMES],
            heard: 0,
            last: LastBlock::new(version, replay),
        }
    }

    /// The same replay with these sounds, for the creations of kind 4 that follow: each takes the sound
    /// that it names. If none fits, the creation is refused with 26, and the replay goes on.
    ///
    /// ```
    /// use cableowl::{Settings, trace::{Lesson, Record, Replay, Sounds}};
    ///
    /// let [lesson, another] = [0.5, 0.25].map(|sample| Lesson::new(vec![sample; 40]));
    /// let settings = Settings::new(1);
    /// let creation = Record::GivenCreation { settings, sound: lesson?.id() };
    /// let line = Replay::new().sounds(another?).play(&creation);
    /// assert_eq!(line.map(|line| line.to_string()).as_deref(), Some("creation=26 at=0"));
    /// # Ok::<(), cableowl::Refusal>(())
    /// ```
    #[must_use]
    pub fn sounds(mut self, sounds: impl Into<Sounds>) -> Self {
        self.set_sounds(sounds);
        self
    }

    /// Gives the replay these sounds, in place of those before, for the creations of kind 4 that follow.
    /// The voice that is playing keeps its sound.
    pub fn set_sounds(&mut self, sounds: impl Into<Sounds>) {
        self.given.sounds = Some(sounds.into());
    }

    /// Reads the record that the bytes begin with, plays it, and returns what it did and its size in
    /// bytes. Pass `ended` if the trace has no bytes after these.
    ///
    /// ```
    /// use cableowl::{Commands, Refusal, trace::{Record, Replay, Step, write}};
    ///
    /// let mut bytes = [0; 12];
    /// write(&Record::Commands(Commands::new()), &mut bytes, 0)?;
    /// let mut replay = Replay::new();
    /// assert_eq!(replay.step(&bytes[..7], false), (Step::More, 0));
    /// let without_a_voice = Step::Commands(Err(Refusal::State));
    /// assert_eq!(replay.step(&bytes, false), (without_a_voice, 12));
    /// assert_eq!(replay.step(&[], true), (Step::End, 0));
    /// # Ok::<(), Refusal>(())
    /// ```
    pub fn step(&mut self, bytes: &[u8], ended: bool) -> (Step, usize) {
        let before = self.replay;
        let wanted = self.names(bytes);
        let sounds = wanted.map_or(0, |wanted| self.given.choose(&wanted));
        let (sound, out) = (&mut self.sound, &mut self.out);
        let given = self.given.samples();
        let did = step(
            self.version,
            before,
            bytes,
            ended,
            sound,
            given,
            sounds,
            out,
        );
        self.replay = did.replay;
        let size = did.size as usize;
        let answer = Refusal::check_word(did.refusal);
        let step = match (did.what, did.kind) {
            (0, 1 | 4) => {
                let voice = StaticSound::from_raw(did.replay.voice);
                self.voice = answer.is_ok().then_some(voice);
                match (answer, wanted) {
                    (Err(Refusal::OtherSound), Some(wanted)) => Step::OtherSound(OtherSound {
                        at: before.offset,
                        wanted,
                    }),
                    _ => Step::Creation(answer),
                }
            }
            (0, 2) => {
                self.set_voice();
                Step::Commands(answer)
            }
            (0, _) => {
                self.set_voice();
                self.last.set(before, did, &bytes[..size]);
                self.heard = if answer.is_ok() {
                    2 * did.frames as usize
                } else {
                    0
                };
                Step::Block(self.last.line(&did))
            }
            (1, _) => Step::More,
            (2, _) => Step::End,
            // Only a refused record remains: these buffers and this replay are never refused.
            _ => Step::Refused(Refused {
                refusal: answer.err().unwrap_or(Refusal::State),
                at: did.replay.offset,
            }),
        };
        (step, size)
    }

    /// The sound that the record at the beginning of the bytes names, if it is a creation of kind 4.
    fn names(&self, bytes: &[u8]) -> Option<SoundId> {
        // Only a record of kind 4 is read twice.
        if bytes.get(2) != Some(&4) {
            return None;
        }
        match self.version.read(bytes, 0) {
            Ok((Record::GivenCreation { sound, .. }, _)) => Some(sound),
            _ => None,
        }
    }

    fn set_voice(&mut self) {
        if let Some(voice) = &mut self.voice {
            *voice = StaticSound::from_raw(self.replay.voice);
        }
    }

    /// Writes a record as bytes, plays them, and returns the line, if it has one. A record that cannot be
    /// written is refused, and the replay does not change.
    pub fn play(&mut self, record: &Record<'_>) -> Option<Line> {
        let mut bytes = [0; MAX_RECORD_BYTES];
        match self.version.write(record, &mut bytes, 0) {
            Ok(size) => self.step(&bytes[..size], true).0.line(),
            Err(refusal) => Some(Line::Refused(Refused {
                refusal,
                at: self.replay.offset,
            })),
        }
    }

    /// The samples of the last block, left and right in turn; none if it was refused. Without the sound
    /// of a creation of kind 4 they are those of silence.
    #[must_use]
    pub fn heard(&self) -> &[f32] {
        &self.out[..self.heard]
    }

    /// The counts of the last block. If its voice ran past the end of its sound, they end with the
    /// frame in which it stopped, so that sums over blocks do not depend on how they are cut. If the
    /// block was refused, they are those of a block without frames.
    #[must_use]
    pub fn counts(&self) -> Processed {
        self.last.counts(&self.sound, self.given.samples())
    }

    /// The voice as it is now, if there is one.
    #[must_use]
    pub fn voice(&self) -> Option<&StaticSound> {
        self.voice.as_ref()
    }
}

impl Default for Replay {
    fn default() -> Self {
        Self::new()
    }
}

/// One step by the reader of a version. The first plays no given sound.
#[expect(clippy::too_many_arguments, reason = "they are the entry's")]
fn step(
    version: TraceVersion,
    replay: ffi::Replay,
    bytes: &[u8],
    ended: bool,
    sound: &mut [f32],
    given: &[f32],
    sounds: u32,
    out: &mut [f32],
) -> ffi::Replayed {
    float_mode::plain(|| match version {
        TraceVersion::First => ffi::replay_step(replay, bytes, ended, sound, out),
        TraceVersion::Second => {
            ffi::replay_step_v2(replay, bytes, ended, sound, given, sounds, out)
        }
    })
}

/// The sounds for creations that only name them.
#[derive(Debug, Clone, Default)]
struct Given {
    /// `None` if no sound is given at all.
    sounds: Option<Sounds>,
    /// The sound of the last creation, if it was given.
    lesson: Option<Lesson>,
    /// Zeros that nobody writes to. They are kept for later creations.
    silence: Arc<Vec<f32>>,
    /// How many of them the last creation plays.
    samples: usize,
}

impl Given {
    /// The most frames of a sound that creation accepts. It reads none of a longer one.
    const MOST_FRAMES: u32 = 16_777_216;

    /// Takes the sound that a creation names. Returns what the step needs to know: 0 if no sound is
    /// given at all, 1 if this one is, 2 if only others are.
    fn choose(&mut self, wanted: &SoundId) -> u32 {
        (self.lesson, self.samples) = (None, 0);
        let Some(sounds) = &self.sounds else {
            let frames = Some(wanted.frames).filter(|frames| *frames <= Self::MOST_FRAMES);
            self.samples = 2 * frames.unwrap_or_default() as usize;
            if self.silence.len() < self.samples {
                self.silence = Arc::new(vec![0.0; self.samples]);
            }
            return 0;
        };
        self.lesson = sounds.find(wanted).cloned();
        if self.lesson.is_some() { 1 } else { 2 }
    }

    /// The samples of the last creation's sound.
    fn samples(&self) -> &[f32] {
        match &self.lesson {
            Some(lesson) => lesson.samples(),
            None => &self.silence[..self.samples],
        }
    }
}

/// The block that was played last: its bytes, the replay before it, and what the step returned.
#[derive(Debug, Clone)]
struct LastBlock {
    version: TraceVersion,
    before: ffi::Replay,
    did: Option<ffi::Replayed>,
    bytes: Vec<u8>,
    size: usize,
}

/// A recorded block, with constant lanes or with a value for each frame.
#[derive(Debug, Clone, Copy)]
enum AnyBlock<'a> {
    Constant(Block),
    Laned(LanedBlock<'a>),
}

impl<'a> AnyBlock<'a> {
    fn frames(&self) -> usize {
        match self {
            Self::Constant(block) => block.frames,
            Self::Laned(block) => block.frames(),
        }
    }

    /// How many frames have a rate of 0.
    fn still(&self) -> usize {
        match self {
            Self::Constant(block) if block.rate == 0.0 => block.frames,
            Self::Constant(_) => 0,
            Self::Laned(block) => {
                let still = block.numbers().filter(|numbers| numbers.rate == 0.0);
                still.count()
            }
        }
    }

    /// A part of the block; the part at its beginning gets the signals.
    fn part(self, part: Range<usize>) -> Self {
        let signals = |signals: Signals| match part.start {
            0 => signals,
            _ => Signals::new(),
        };
        match self {
            Self::Constant(block) => {
                let signals = signals(block.signals());
                let frames = part.len();
                Self::Constant(Block { frames, ..block }.with_signals(signals))
            }
            Self::Laned(block) => {
                let signals = signals(block.signals());
                Self::Laned(block.part(part).with_signals(signals))
            }
        }
    }

    fn record(self) -> Record<'a> {
        match self {
            Self::Constant(block) => Record::Block(block),
            Self::Laned(block) => Record::LanedBlock(block),
        }
    }

    /// Why the block was refused: for 11 and 12 also the lane and the frame.
    fn refusal(&self, number: u32, sample_rate: u32) -> Refusal {
        let mut gains = [[0.0; MAX_TRACED_FRAMES]; 4];
        let mut rates = [0.0; MAX_TRACED_FRAMES];
        let mut put = |frame: usize, numbers: super::FrameNumbers| {
            let [fade, volume, left, right] = &mut gains;
            fade[frame] = numbers.fade;
            volume[frame] = numbers.volume;
            left[frame] = numbers.left;
            right[frame] = numbers.right;
            rates[frame] = numbers.rate;
        };
        let (frames, time_step) = match self {
            // Its first frame is as wrong as the others.
            Self::Constant(block) => {
                put(0, block.numbers());
                (1, block.time_step)
            }
            Self::Laned(block) => {
                let numbers = block.numbers().take(MAX_TRACED_FRAMES).enumerate();
                numbers.for_each(|(frame, numbers)| put(frame, numbers));
                (block.frames().min(MAX_TRACED_FRAMES), block.time_step)
            }
        };
        let [fade, volume, left, right] = &gains;
        let lanes = ffi::Lanes {
            fade: &fade[..frames],
            volume: &volume[..frames],
            left: &left[..frames],
            right: &right[..frames],
            rate: &rates[..frames],
        };
        let judged = Refusal::check_block(number, sample_rate, time_step, lanes);
        judged.err().unwrap_or(Refusal::State)
    }
}

impl LastBlock {
    /// No block was played yet.
    fn new(version: TraceVersion, before: ffi::Replay) -> Self {
        let bytes = match version {
            TraceVersion::First => Block::BYTES,
            TraceVersion::Second => MAX_RECORD_BYTES,
        };
        Self {
            version,
            before,
            did: None,
            bytes: vec![0; bytes],
            size: 0,
        }
    }

    fn set(&mut self, before: ffi::Replay, did: ffi::Replayed, bytes: &[u8]) {
        (self.before, self.did) = (before, Some(did));
        self.size = bytes.len();
        // No block has more bytes.
        if let Some(room) = self.bytes.get_mut(..bytes.len()) {
            room.copy_from_slice(bytes);
        }
    }

    /// The block, if its record is read.
    fn block(&self) -> Option<AnyBlock<'_>> {
        let bytes = self.bytes.get(..self.size)?;
        match self.version.read(bytes, 0) {
            Ok((Record::Block(block), _)) => Some(AnyBlock::Constant(block)),
            Ok((Record::LanedBlock(block), _)) => Some(AnyBlock::Laned(block)),
            _ => None,
        }
    }

    fn line(&self, did: &ffi::Replayed) -> Line {
        let replay = did.replay;
        let block = replay.blocks;
        match did.refusal {
            0 => Line::Block {
                block,
                frames: did.frames,
                steps: did.steps,
                // The library returns only 0 to 6.
                state: PlaybackState::from_number(replay.voice.state)
                    .unwrap_or(PlaybackState::Stopped),
                position: replay.voice.position,
            },
            number => Line::RefusedBlock {
                block,
                refusal: self.refusal(number),
            },
        }
    }

    /// Why the block was refused. For refusal 11 the lane is found from its numbers.
    fn refusal(&self, number: u64) -> Refusal {
        let number = u32::try_from(number).unwrap_or(u32::MAX);
        match self.block() {
            Some(block) => block.refusal(number, self.before.voice.sample_rate),
            None => Refusal::check(number).err().unwrap_or(Refusal::State),
        }
    }

    /// What the block reports, over the sounds that the step had.
    fn counts(&self, sound: &[f32; 2 * MAX_SOUND_FRAMES], given: &[f32]) -> Processed {
        let (Some(did), Some(block)) = (self.did, self.block()) else {
            return Processed::NONE;
        };
        if did.refusal != 0 {
            return Processed::NONE;
        }
        let mut voice = StaticSound::from_raw(did.replay.voice);
        let counts = counts_of(&did, &block);
        if !voice.finished() || counts.steps == 0 {
            return counts;
        }
        voice = StaticSound::from_raw(self.before.voice);
        let mut room = Room {
            sound: *sound,
            bytes: [0; MAX_RECORD_BYTES],
            out: [0.0; 2 * MAX_TRACED_FRAMES],
        };
        let stops = until_it_stops(&mut voice, block.frames(), |part, voice| {
            self.part(block.part(part), voice, given, &mut room)
        });
        // It is not refused, because the whole block was not.
        stops.map_or(counts, |(frames, mut counts)| {
            counts.usage.silent = (block.frames() - frames) as u64;
            counts
        })
    }

    /// Plays a part of the block as a record of its own.
    fn part(
        &self,
        part: AnyBlock<'_>,
        voice: &mut StaticSound,
        given: &[f32],
        room: &mut Room,
    ) -> Result<Processed, Refusal> {
        let size = self.version.write(&part.record(), &mut room.bytes, 0)?;
        let before = ffi::Replay {
            voice: voice.raw(),
            ..self.before
        };
        let (sound, bytes) = (&mut room.sound, &room.bytes[..size]);
        let did = step(
            self.version,
            before,
            bytes,
            true,
            sound,
            given,
            0,
            &mut room.out,
        );
        Refusal::check_word(did.refusal)?;
        *voice = StaticSound::from_raw(did.replay.voice);
        Ok(counts_of(&did, &part))
    }
}

/// The buffers that a step borrows.
struct Room {
    sound: [f32; 2 * MAX_SOUND_FRAMES],
    bytes: [u8; MAX_RECORD_BYTES],
    out: [f32; 2 * MAX_TRACED_FRAMES],
}

/// What an accepted block reports.
fn counts_of(did: &ffi::Replayed, block: &AnyBlock<'_>) -> Processed {
    let lowest = did.lowest_count as u32;
    let still = block.still() as u64;
    Processed::of_block(&did.replay.voice, did.frames, still, did.steps, lowest)
}

/// The lines of a replayed trace: see [`lines`].
#[derive(Debug, Clone)]
pub struct Lines<'a> {
    bytes: &'a [u8],
    replay: Replay,
}

/// The lines of a trace, without its sounds: one for each block, and one for a refused record, which is the last.
///
/// ```
/// use cableowl::trace::lines;
///
/// let lines: Vec<String> = lines(b"not a trace").map(|line| line.to_string()).collect();
/// assert_eq!(lines, ["refused=15 at=0"]);
/// ```
#[must_use]
pub fn lines(bytes: &[u8]) -> Lines<'_> {
    Replay::new().lines(bytes)
}

impl Replay {
    /// The lines of the records of these bytes, played by this replay: as [`lines`], but in its version
    /// and with its sounds.
    #[must_use]
    pub fn lines(self, bytes: &[u8]) -> Lines<'_> {
        Lines {
            bytes,
            replay: self,
        }
    }
}

impl Iterator for Lines<'_> {
    type Item = Line;

    fn next(&mut self) -> Option<Line> {
        loop {
            let (step, size) = self.replay.step(self.bytes, true);
            self.bytes = &self.bytes[size..];
            match step {
                Step::Creation(_) | Step::Commands(_) => {}
                Step::Block(line) => return Some(line),
                Step::OtherSound(other) => return Some(Line::OtherSound(other)),
                Step::Refused(refused) => {
                    self.bytes = &[];
                    return Some(Line::Refused(refused));
                }
                Step::More | Step::End => return None,
            }
        }
    }
}

/// Plays a trace of any length in bounded memory, without its sounds, and writes its lines, each with a
/// line feed. Returns the record that was refused and ended the replay, if one was.
///
/// ```
/// use cableowl::{Refusal, trace::replay};
///
/// let mut printed = Vec::new();
/// let refused = replay(&b"\xa5\x1d"[..], &mut printed)?;
/// assert_eq!(printed, b"refused=18 at=0\n");
/// assert_eq!(refused.map(|refused| refused.refusal), Some(Refusal::Truncated));
/// # Ok::<(), std::io::Error>(())
/// ```
///
/// # Errors
///
/// Errors of reading or writing.
pub fn replay(trace: impl Read, to: impl Write) -> io::Result<Option<Refused>> {
    Replay::new().print(trace, to)
}

impl Replay {
    /// Plays a trace and writes its lines: as [`replay`], but in this replay's version and with its
    /// sounds.
    ///
    /// # Errors
    ///
    /// As [`replay`].
    pub fn print(mut self, trace: impl Read, mut to: impl Write) -> io::Result<Option<Refused>> {
        let mut reader = TraceReader::with_version(trace, self.version);
        while let Some(step) = reader.step(&mut self) {
            match step {
                Ok(step) => {
                    if let Some(line) = step.line() {
                        writeln!(to, "{line}")?;
                    }
                }
                Err(TraceError::Refused(refused)) => {
                    writeln!(to, "{}", Line::Refused(refused))?;
                    return Ok(Some(refused));
                }
                Err(TraceError::Io(error)) => return Err(error),
            }
        }
        Ok(None)
    }
}
