//! One evening read from its log or its trace.

use cableowl::{
    Refusal,
    trace::{Step, TraceError, TraceReader},
};

use crate::{
    course::Course,
    fault::{Fault, Result},
    figures::{Count, Figures},
    input::{FileKind, Input},
    log::{Form, Line, Log, parse},
    replay::{Run, fault, number},
};

/// Frames per second.
#[derive(Debug, Clone, Copy, PartialEq, Eq)]
pub struct Rates {
    /// Of the box.
    pub device: u32,
    /// Of the sound, if they are given.
    pub sound: Option<u32>,
}

/// A log or a trace, and its figures.
pub struct Evening {
    /// The file's name.
    pub name: String,
    /// Its form; a trace counts as form 3.
    pub form: Form,
    /// Whether it is a trace.
    pub trace: bool,
    /// The sound's frames per second, if they are known.
    pub sound_rate: Option<u32>,
    /// Whether the same file was given before it.
    pub again: bool,
    /// Its figures.
    pub figures: Figures,
    /// Where the log ends inside a line, in words.
    pub cut: Option<String>,
}

/// The result of reading a file to its end or to its damage.
pub struct Read {
    /// Its figures.
    pub evening: Evening,
    /// Its course, for the plots.
    pub course: Course,
    /// Where reading a trace stopped.
    pub damage: Option<Damage>,
}

/// Where reading a trace stopped.
pub struct Damage {
    fault: Fault,
    /// Whether the file only ends too early, as after a power loss.
    cut_short: bool,
}

/// Reads a log or a trace to its end. The course has at most `stretches` intervals. A damaged trace is read up to the
/// damage, which is returned too.
pub fn read(mut input: Input, rates: Rates, stretches: usize) -> Result<Read> {
    let kind = input.kind()?;
    input.must_be(&[FileKind::Log, FileKind::Trace], "a log or a trace")?;
    let course = Course::new(rates.device, stretches);
    match kind {
        FileKind::Trace => read_trace(input, rates, course),
        _ => read_log(input, rates, course),
    }
}

fn read_log(input: Input, rates: Rates, mut course: Course) -> Result<Read> {
    let mut log = Log::new(input)?;
    let mut count = Count::new(log.form());
    while let Some(line) = log.next_line()? {
        if let Some(added) = count.add(&line) {
            course.add(&added);
        }
    }
    let evening = Evening {
        name: log.name().to_owned(),
        form: log.form(),
        trace: false,
        sound_rate: rates.sound,
        again: false,
        figures: count.figures(),
        cut: log.cut(),
    };
    Ok(Read {
        evening,
        course,
        damage: None,
    })
}

fn read_trace(mut input: Input, rates: Rates, mut course: Course) -> Result<Read> {
    let mut count = Count::new(Form::Third);
    let mut add = |line: &Line| {
        if let Some(added) = count.add(line) {
            course.add(&added);
        }
    };
    let mut run = Run::new();
    let (mut sound_rate, mut damage) = (rates.sound, None);
    let mut reader = TraceReader::new(&mut input);
    while let Some(at) = reader.read_next() {
        match (at, reader.record()) {
            (Ok(_), Some(record)) => {
                // As its log would contain it.
                if let Step::Block(line) = run.play(&record, reader.bytes())
                    && let Ok(line) = parse(run.line(&line).to_string().as_bytes(), Form::Third)
                {
                    add(&line);
                }
                let played = run.voice().map(|voice| voice.state().sample_rate);
                sound_rate = rates.sound.or(played).or(sound_rate);
            }
            (Ok(_), None) => {}
            (Err(error), _) => damage = Some(error),
        }
    }
    if let Some(TraceError::Refused(refused)) = &damage {
        add(&Line::Broken {
            refusal: number(refused.refusal),
            at: refused.at,
        });
    }
    let evening = Evening {
        name: input.name().to_owned(),
        form: Form::Third,
        trace: true,
        sound_rate,
        again: false,
        figures: count.figures(),
        cut: None,
    };
    Ok(Read {
        evening,
        course,
        damage: damage.map(|error| Damage::new(&input, &error)),
    })
}

impl Damage {
    fn new(input: &Input, error: &TraceError) -> Self {
        Self {
            fault: Fault::refused(format!("{}; its figures end there", fault(input, error))),
            cut_short: matches!(
                error,
                TraceError::Refused(refused) if refused.refusal == Refusal::Truncated
            ),
        }
    }
}

/// Whether a file was read to its end. One that only ends too early, as after a power loss, passes
/// with a warning.
pub fn is_whole(
    evening: &Evening,
    damage: Option<&Damage>,
    complain: &mut dyn FnMut(&Fault),
) -> bool {
    if let Some(cut) = &evening.cut {
        let name = &evening.name;
        complain(&Fault::refused(format!(
            "{name}: {cut}, as after a power loss: the lines before it are reported"
        )));
    }
    damage.is_none_or(|damage| {
        complain(&damage.fault);
        damage.cut_short
    })
}
