//! `cableowl replay`: replays a trace, one line per block.

use std::{mem, path::Path};

use cableowl::{
    Refusal, StaticSound,
    trace::{
        LOG_HEAD, Line, Log, LogLine, OtherSound, Record, Replay, SoundId, Step, TraceError,
        TraceReader,
    },
};

use crate::{
    fault::{Fault, Result},
    input::{FileKind, Input},
    log::Form,
    out::{Fresh, Out, free, shown},
    sounds::{Places, Sounds, named},
};

/// The replay of a trace: what each record did, and for each block the line of form 3.
pub struct Run<'a> {
    replay: Replay,
    log: Log,
    sounds: Option<&'a Sounds>,
}

impl<'a> Run<'a> {
    /// Before any record, without sounds.
    pub fn new() -> Self {
        Self::over(None)
    }

    /// Before any record. If sounds are given, each creation takes the one that it names.
    pub fn over(sounds: Option<&'a Sounds>) -> Self {
        Self {
            replay: Replay::new(),
            log: Log::new(),
            sounds,
        }
    }

    /// The voice, if there is one.
    pub fn voice(&self) -> Option<&StaticSound> {
        self.replay.voice()
    }

    /// The samples of the last block.
    pub fn heard(&self) -> &[f32] {
        self.replay.heard()
    }

    /// Plays a record that was read from these bytes, and returns what it did.
    pub fn play(&mut self, record: &Record<'_>, bytes: &[u8]) -> Step {
        if let (Record::GivenCreation { sound, .. }, Some(sounds)) = (record, self.sounds) {
            let lesson: cableowl::trace::Sounds = sounds.lesson(sound).into_iter().collect();
            self.replay = mem::take(&mut self.replay).sounds(lesson);
        }
        let before = self.replay.voice().map(StaticSound::state);
        let (step, _) = self.replay.step(bytes, true);
        let after = self.replay.voice().map(StaticSound::state);
        match (step, record, before, after) {
            (Step::Creation(Ok(())), ..) => self.log.created(),
            (Step::Commands(Ok(())), Record::Commands(commands), Some(before), Some(after)) => {
                self.log.commanded(commands, &before, &after);
            }
            _ => {}
        }
        step
    }

    /// The line of form 3 of the block that was played last, whose line of form 1 is given.
    pub fn line(&mut self, line: &Line) -> LogLine {
        let (frames, answer) = match *line {
            Line::Block { frames, .. } => (frames as usize, Ok(self.replay.counts())),
            Line::RefusedBlock { refusal, .. } => (0, Err(refusal)),
            // These are no lines of blocks.
            Line::Refused(refused) => (0, Err(refused.refusal)),
            Line::OtherSound(_) => (0, Err(Refusal::OtherSound)),
        };
        self.log.block(frames, self.replay.voice(), answer)
    }
}

/// Creations over sounds that were not given, each sound once.
#[derive(Debug, Clone, Default)]
pub struct Missing {
    wanted: Vec<(u64, SoundId)>,
}

impl Missing {
    /// The creation at a byte is over a sound that was not given.
    pub fn add(&mut self, at: u64, wanted: SoundId) {
        if self.wanted.iter().all(|(_, known)| *known != wanted) {
            self.wanted.push((at, wanted));
        }
    }

    /// Which sounds are wanted, and what was given: a sentence for each.
    pub fn sentences(&self, sounds: &Sounds) -> Vec<String> {
        let sentence = |(at, wanted): &(u64, SoundId)| sounds.missing(*at, wanted);
        self.wanted.iter().map(sentence).collect()
    }
}

/// The fault for a record that cannot be read.
pub fn fault(input: &Input, error: &TraceError) -> Fault {
    match error {
        TraceError::Io(error) => input.unread(error),
        TraceError::Refused(refused) => {
            let another = input.must_be(&[FileKind::Trace], "a trace").err();
            let another = another.filter(|_| refused.at == 0);
            another.unwrap_or_else(|| input.wrong(refused))
        }
        _ => input.wrong(error),
    }
}

/// Replays a trace over the given sounds, and returns whether none was missing. If a file is named, the output is
/// written to it.
pub fn replay(
    trace: &Path,
    form: Form,
    places: &Places,
    heard: Option<&Path>,
    out: &mut Out<'_>,
    complain: &mut dyn FnMut(&Fault),
) -> Result<bool> {
    if let Some(path) = heard {
        free(path)?;
    }
    let sounds = Sounds::given(places)?;
    let mut input = Input::open(trace)?;
    input.kind()?;
    let (mut file, mut missing) = (None, Missing::default());
    let broken = match (form, &sounds, heard) {
        (Form::First, None, None) => first(&mut input, out)?,
        _ => {
            file = heard.map(Fresh::begin).transpose()?;
            each(
                &mut input,
                form,
                sounds.as_ref(),
                &mut file,
                &mut missing,
                out,
            )?
        }
    };
    if let Some(TraceError::Refused(refused)) = &broken {
        out.put(format!("{}\n", Line::Refused(*refused)))?;
    }
    let missing = match &sounds {
        Some(sounds) => missing.sentences(sounds),
        None => Vec::new(),
    };
    for sentence in &missing {
        complain(&input.wrong(sentence));
    }
    match (file, heard) {
        (Some(file), _) if missing.is_empty() => file.keep()?,
        (Some(_), Some(path)) => complain(&Fault::refused(format!(
            "{}: is not written, since not all of it was heard",
            shown(path)
        ))),
        _ => {}
    }
    match broken {
        Some(error) => Err(fault(&input, &error)),
        None => Ok(missing.is_empty()),
    }
}

/// The lines of form 1 without sounds. Returns what ended the trace too early.
fn first(input: &mut Input, out: &mut Out<'_>) -> Result<Option<TraceError>> {
    let (mut reader, mut replay) = (TraceReader::new(input), Replay::new());
    while let Some(step) = reader.step(&mut replay) {
        match step {
            Ok(Step::Block(line)) => out.put(format!("{line}\n"))?,
            Ok(_) => {}
            Err(error) => return Ok(Some(error)),
        }
        if out.closed() {
            return Err(Fault::Closed);
        }
    }
    Ok(None)
}

/// The lines of a form, record by record, and the output. Returns what ended the trace too early.
fn each(
    input: &mut Input,
    form: Form,
    sounds: Option<&Sounds>,
    file: &mut Option<Fresh>,
    missing: &mut Missing,
    out: &mut Out<'_>,
) -> Result<Option<TraceError>> {
    let name = input.name().to_owned();
    let (mut reader, mut run) = (TraceReader::new(input), Run::over(sounds));
    if form == Form::Third {
        out.put(format!("{LOG_HEAD}\n"))?;
    }
    while let Some(at) = reader.read_next() {
        let at = match at {
            Ok(at) => at,
            Err(error) => return Ok(Some(error)),
        };
        let Some(record) = reader.record() else {
            continue;
        };
        if let (Record::GivenCreation { sound, .. }, None, Some(_)) = (&record, sounds, &file) {
            return Err(Fault::refused(format!(
                "{name}: the creation at byte {at} is over a sound that is not in the trace, {}: give it with --sound or --sounds",
                named(sound)
            )));
        }
        match run.play(&record, reader.bytes()) {
            Step::Block(line) if form == Form::Third => {
                out.put(format!("{}\n", run.line(&line)))?;
            }
            Step::Block(line) => out.put(format!("{line}\n"))?,
            Step::OtherSound(OtherSound { wanted, .. }) => {
                let other = Line::OtherSound(OtherSound { at, wanted });
                out.put(format!("{other}\n"))?;
                missing.add(at, wanted);
            }
            _ => {}
        }
        if let (Some(file), Record::Block(_) | Record::LanedBlock(_)) = (file.as_mut(), &record) {
            let bytes = run.heard().iter().flat_map(|sample| sample.to_le_bytes());
            file.put(&bytes.collect::<Vec<u8>>())?;
        }
        // The file is written completely, even if nobody reads the lines any more.
        if out.closed() && file.is_none() {
            return Err(Fault::Closed);
        }
    }
    Ok(None)
}

/// A refusal's number, as in a log.
pub fn number(refusal: Refusal) -> u8 {
    u8::try_from(refusal.number()).unwrap_or(u8::MAX)
}
