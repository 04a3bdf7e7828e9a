//! Replays a trace beside a log, and joins blocks and lines up to each frame where both end. A log may have other block
//! sizes than its trace. Block sizes change nothing that is played, so the sums must agree at every frame where a block
//! of the trace and a line of the log end together.

use std::{fmt, ops::Range};

use cableowl::{
    Refusal, Usage,
    trace::{Line as Proved, LogLine, Record, Step, TraceError, TraceReader},
};

use crate::{
    fault::reason,
    input::Input,
    log::{Before, Block, Form, Line, Log, More, Third},
    replay::{Missing, Run, number},
    sounds::Sounds,
};

/// Some successive blocks of the trace or lines of the log.
#[derive(Debug, Clone, Copy, PartialEq, Default)]
pub struct Part {
    /// How many there are.
    pub lines: u64,
    /// The number of the first, and of the last.
    pub first: u64,
    pub number: u64,
    /// Their frames.
    pub frames: u128,
    /// Their steps.
    pub steps: u64,
    /// The lowest window count; form 1 does not contain it.
    pub lowest: Option<u8>,
    /// How the frames were spent, and the steps backward; only in form 3.
    pub spent: Option<(Usage, u64)>,
    /// The last accepted one.
    pub last: Option<Block>,
    /// The last refusal.
    pub refusal: Option<u8>,
    /// All refusals in their order, in one number.
    refusals: u64,
    /// Whether the voice passed the end of its sound. Then the steps depend on where the block ends.
    pub ran_off: bool,
}

impl Part {
    fn add(&mut self, line: &Line) {
        let (Line::Block(Block { number, .. }) | Line::Refused { number, .. }) = *line else {
            return;
        };
        self.lines += 1;
        self.first = if self.lines == 1 { number } else { self.first };
        self.number = number;
        match *line {
            Line::Block(block) => self.accepted(block),
            Line::Refused { refusal, .. } => {
                self.refusal = Some(refusal);
                // No record contains a call that is refused with 9, so the trace does not have it.
                if refusal != 9 {
                    let digest = self.refusals.wrapping_mul(257);
                    self.refusals = digest.wrapping_add(u64::from(refusal) + 1);
                }
            }
            Line::Broken { .. } => {}
        }
    }

    /// Whether it has only refused blocks.
    fn only_refused(&self) -> bool {
        self.refusals != 0 && self.last.is_none()
    }

    fn accepted(&mut self, block: Block) {
        self.frames += u128::from(block.frames);
        self.steps = self.steps.saturating_add(block.steps);
        self.ran_off |= block.state == 6 && block.steps > 0;
        self.last = Some(block);
        let Some(more) = block.more else {
            return;
        };
        self.lowest = Some(self.lowest.map_or(more.lowest, |low| low.min(more.lowest)));
        if let Some(third) = more.third {
            let (sum, back) = self.spent.unwrap_or_default();
            let add = |one: u64, other: u64| one.saturating_add(other);
            let usage = Usage {
                played: add(sum.played, third.usage.played),
                paused: add(sum.paused, third.usage.paused),
                silent: add(sum.silent, third.usage.silent),
                still: add(sum.still, third.usage.still),
            };
            self.spent = Some((usage, add(back, third.steps_back)));
        }
    }
}

/// What the rules say and what the box logged, between two successive frames at which both end a block.
#[derive(Debug, Clone, Copy, PartialEq, Default)]
pub struct Segment {
    /// What the rules say.
    pub rule: Part,
    /// What the box logged.
    pub said: Part,
    /// The seconds of its frames.
    pub seconds: f64,
    /// How far the voice advances in the sound by the rules, in frames with a fraction.
    pub advance: f64,
    /// The sound's frames per second.
    pub sample_rate: u32,
    /// Whether the voice has a loop.
    pub looped: bool,
}

/// The first difference of a segment.
#[derive(Debug, Clone, Copy, PartialEq, Eq)]
pub enum What {
    /// The refusals.
    Refusals,
    /// The state.
    State,
    /// The position in the sound.
    Position,
    /// The steps.
    Steps,
    /// The wraps.
    Turns,
    /// The lowest window count.
    Lowest,
    /// The start, the loop, the direction or the end of the sound.
    Voice,
    /// How the frames were spent.
    Usage,
}

impl What {
    /// Its name for people.
    pub fn name(self) -> &'static str {
        match self {
            Self::Refusals => "what was refused",
            Self::State => "the state",
            Self::Position => "the position in the sound",
            Self::Steps => "the number of steps",
            Self::Turns => "the number of wraps",
            Self::Lowest => "the lowest window count",
            Self::Voice => "the start, the loop, the direction or the end of the sound",
            Self::Usage => "what the frames were spent on",
        }
    }
}

impl Segment {
    /// The first difference, if there is one. The host counts what it did before a block, so that is not compared. In a
    /// block in which the voice passes the end of its sound, the sums depend on the block's length.
    pub fn differs(&self) -> Option<What> {
        let (rule, said) = (&self.rule, &self.said);
        if rule.refusals != said.refusals {
            return Some(What::Refusals);
        }
        let last = |of: fn(&Block) -> u64| rule.last.as_ref().map(of) != said.last.as_ref().map(of);
        if last(|block| block.state.into()) {
            return Some(What::State);
        }
        if last(|block| block.position) {
            return Some(What::Position);
        }
        if !rule.ran_off && rule.steps != said.steps {
            return Some(What::Steps);
        }
        let more = |part: &Part| part.last.and_then(|block| block.more);
        let (Some(given), Some(logged)) = (more(rule), more(said)) else {
            return None;
        };
        if (given.forward, given.backward) != (logged.forward, logged.backward) {
            return Some(What::Turns);
        }
        if !rule.ran_off && rule.lowest != said.lowest {
            return Some(What::Lowest);
        }
        let voice = |third: Third| (third.loop_region, third.is_backward, third.ended);
        let voices = (given.third.map(voice), logged.third.map(voice));
        if given.started != logged.started || matches!(voices, (Some(a), Some(b)) if a != b) {
            return Some(What::Voice);
        }
        let spent = matches!((rule.spent, said.spent), (Some(a), Some(b)) if a != b);
        (spent && !rule.ran_off).then_some(What::Usage)
    }
}

/// Why nothing can be said of the box from some point on.
#[derive(Debug, Clone, PartialEq, Eq)]
pub enum Why {
    /// Both have ended together.
    Done,
    /// A record of the trace is damaged: the offset of its first byte.
    TraceDamaged(u64),
    /// A file could not be read, or a line is not a line of a log.
    Unread(String),
    /// The log ends inside a line.
    LogCut(String),
    /// The log has ended, and the trace continues.
    LogEnds,
    /// The trace has ended, and the log continues.
    TraceEnds,
    /// No later frame is the end of both a block and a line.
    NoEdge,
}

impl fmt::Display for Why {
    fn fmt(&self, f: &mut fmt::Formatter<'_>) -> fmt::Result {
        match self {
            Self::Done => f.write_str("both end here"),
            Self::TraceDamaged(at) => write!(f, "the trace is damaged at byte {at}"),
            Self::Unread(words) => f.write_str(words),
            Self::LogCut(words) => write!(f, "the log was cut short: {words}"),
            Self::LogEnds => f.write_str("the log ends before the trace does"),
            Self::TraceEnds => f.write_str("the trace ends before the log does"),
            Self::NoEdge => f.write_str(
                "the log cannot be aligned with the trace: no frame ends a line of the one and a block of the other",
            ),
        }
    }
}

type Next<T> = std::result::Result<T, Why>;

/// A trace and a log that are read side by side.
pub struct Pair<'a> {
    rule: Rule<'a>,
    said: Said,
}

impl<'a> Pair<'a> {
    /// A pair before its first block and line. If sounds are given, those that the trace names are looked up among
    /// them.
    pub fn new(trace: Input, log: Log, sounds: Option<&'a Sounds>) -> Self {
        let form = log.form();
        Self {
            rule: Rule {
                name: trace.name().to_owned(),
                reader: TraceReader::new(trace),
                run: Run::new(),
                form,
                sample_rate: 0,
                created: 0,
                sounds,
                missing: Missing::default(),
            },
            said: Said {
                log,
                next: None,
                created: 0,
            },
        }
    }

    /// Reads both up to the next frame at which both end a block.
    pub fn next(&mut self) -> Next<Segment> {
        let mut segment = Segment::default();
        self.first(&mut segment)?;
        while segment.rule.frames != segment.said.frames {
            if segment.rule.frames < segment.said.frames {
                match self.rule.next()? {
                    Some(played) => segment.play(&played),
                    None if segment.rule.only_refused() => break,
                    None if segment.said.lines == 1 => return Err(Why::TraceEnds),
                    None => return Err(Why::NoEdge),
                }
            } else {
                match self.said.next()? {
                    Some(line) => segment.said.add(&line),
                    None if segment.said.only_refused() => break,
                    None if segment.rule.lines == 1 => return Err(Why::LogEnds),
                    None => return Err(Why::NoEdge),
                }
            }
        }
        Ok(segment)
    }

    /// The first block and the first line. Blocks of no frames at the end that only one of them has are skipped.
    fn first(&mut self, segment: &mut Segment) -> Next<()> {
        let empty = |line: &Line| matches!(line, Line::Block(block) if block.frames == 0);
        let Some(played) = self.rule.next()? else {
            loop {
                match self.said.next()? {
                    None => return Err(Why::Done),
                    Some(line) if empty(&line) => {}
                    Some(_) => return Err(Why::TraceEnds),
                }
            }
        };
        let Some(line) = self.said.next()? else {
            let mut played = Some(played);
            while let Some(block) = played {
                if !empty(&block.line) {
                    return Err(Why::LogEnds);
                }
                played = self.rule.next()?;
            }
            return Err(Why::Done);
        };
        segment.play(&played);
        segment.said.add(&line);
        Ok(())
    }

    /// Skips the damaged bytes of the trace.
    pub fn skip(&mut self) -> Next<Range<u64>> {
        let skipped = self.rule.reader.skip_damage();
        let skipped = skipped.map_err(|error| self.rule.unread(&error))?;
        Ok(skipped.unwrap_or_default())
    }

    /// Continues after a hole, where both sides create a voice. Returns the number of the log's line, or the reason why
    /// it cannot.
    pub fn resume(&mut self) -> std::result::Result<u64, &'static str> {
        if self.said.log.form() == Form::First {
            return Err("a log of form 1 does not say where a voice was created");
        }
        if !self.rule.creation() {
            return Err("the trace creates no voice behind it");
        }
        let line = self.said.creation();
        line.ok_or("the log says of no voice created behind it")
    }

    /// Reads both to their ends, and returns whether the log reports as many creations after the hole as the trace has.
    /// If it does not, some of them were in the hole, and the two cannot be aligned.
    pub fn as_many_created(&mut self) -> bool {
        let whole = loop {
            match self.rule.next() {
                Ok(Some(_)) => {}
                Ok(None) => break true,
                Err(_) => break false,
            }
        };
        while let Ok(Some(_)) = self.said.next() {}
        whole && self.rule.created == self.said.created
    }
}

impl Pair<'_> {
    /// Reads the trace to its end. Returns a sentence for each sound that it names and that was not given.
    pub fn missing(&mut self) -> Vec<String> {
        let Some(sounds) = self.rule.sounds else {
            return Vec::new();
        };
        loop {
            match self.rule.read() {
                Ok(true) => {}
                Ok(false) => break,
                Err(_) => {
                    if !matches!(self.rule.reader.skip_damage(), Ok(Some(_))) {
                        break;
                    }
                }
            }
        }
        self.rule.missing.sentences(sounds)
    }
}

impl Segment {
    fn play(&mut self, played: &Played) {
        self.rule.add(&played.line);
        self.seconds += played.seconds;
        self.advance += played.advance;
        (self.sample_rate, self.looped) = (played.sample_rate, played.looped);
    }
}

/// The replayed trace.
struct Rule<'a> {
    name: String,
    reader: TraceReader<Input>,
    /// Without sounds, because lines do not depend on the samples.
    run: Run<'static>,
    /// The log's form.
    form: Form,
    sample_rate: u32,
    created: u64,
    sounds: Option<&'a Sounds>,
    missing: Missing,
}

/// A replayed block.
struct Played {
    line: Line,
    seconds: f64,
    advance: f64,
    sample_rate: u32,
    looped: bool,
}

impl Rule<'_> {
    fn unread(&self, error: &std::io::Error) -> Why {
        Why::Unread(format!("{}: cannot be read: {}", self.name, reason(error)))
    }

    /// Reads the next record, and returns whether there is one.
    fn read(&mut self) -> Next<bool> {
        match self.reader.read_next() {
            None => Ok(false),
            Some(Ok(at)) => {
                match self.reader.record() {
                    Some(Record::Creation { settings, .. }) => {
                        self.sample_rate = settings.sample_rate;
                    }
                    Some(Record::GivenCreation { settings, sound }) => {
                        self.sample_rate = settings.sample_rate;
                        if self.sounds.is_some_and(|sounds| !sounds.has(&sound)) {
                            self.missing.add(at, sound);
                        }
                    }
                    _ => {}
                }
                Ok(true)
            }
            Some(Err(TraceError::Refused(refused))) => Err(Why::TraceDamaged(refused.at)),
            Some(Err(TraceError::Io(error))) => Err(self.unread(&error)),
            Some(Err(error)) => Err(Why::Unread(format!("{}: {error}", self.name))),
        }
    }

    /// The next block.
    fn next(&mut self) -> Next<Option<Played>> {
        while self.read()? {
            let Some(record) = self.reader.record() else {
                continue;
            };
            let step = self.run.play(&record, self.reader.bytes());
            let (frames, time_step, rate) = match &record {
                Record::Block(block) => (block.frames as f64, block.time_step, block.rate.abs()),
                Record::LanedBlock(block) => {
                    let frames = block.frames() as f64;
                    let rates = block.numbers().map(|numbers| numbers.rate.abs());
                    (frames, block.time_step, rates.sum::<f64>() / frames)
                }
                _ => continue,
            };
            if let Step::Block(bare) = step {
                let full = self.run.line(&bare);
                self.created = self.created.saturating_add(full.since.created);
                let seconds = frames * time_step;
                return Ok(Some(self.played(&bare, &full, seconds, rate * time_step)));
            }
        }
        Ok(None)
    }

    /// Adds a block of this many seconds, and the average advance of its frames in seconds of the sound.
    fn played(&self, bare: &Proved, full: &LogLine, seconds: f64, advance: f64) -> Played {
        let accepted = matches!(bare, Proved::Block { .. });
        let advance = f64::from(self.sample_rate) * advance;
        Played {
            line: as_said(bare, full, self.form),
            seconds: if accepted { seconds } else { 0.0 },
            advance: full.usage.played as f64 * advance,
            sample_rate: self.sample_rate,
            looped: full.loop_region != (0, 0),
        }
    }

    /// Skips records up to an accepted creation, and forgets what was before it.
    fn creation(&mut self) -> bool {
        (self.run, self.created) = (Run::new(), 0);
        loop {
            match self.read() {
                Ok(true) => {
                    let record = self.reader.record();
                    if let Some(record @ (Record::Creation { .. } | Record::GivenCreation { .. })) =
                        record
                        && self.run.play(&record, self.reader.bytes()) == Step::Creation(Ok(()))
                    {
                        return true;
                    }
                }
                Ok(false) => return false,
                Err(_) => {
                    if !matches!(self.reader.skip_damage(), Ok(Some(_))) {
                        return false;
                    }
                }
            }
        }
    }
}

/// The log.
struct Said {
    log: Log,
    /// A line that was read ahead.
    next: Option<Line>,
    created: u64,
}

impl Said {
    /// The next line of a block.
    fn next(&mut self) -> Next<Option<Line>> {
        if let Some(line) = self.next.take() {
            return Ok(Some(line));
        }
        match self.log.next_line() {
            Ok(Some(Line::Broken { .. })) => Ok(None),
            Ok(Some(line)) => {
                self.created = self.created.saturating_add(created(&line));
                Ok(Some(line))
            }
            Ok(None) => match self.log.cut() {
                Some(words) => Err(Why::LogCut(words)),
                None => Ok(None),
            },
            Err(fault) => Err(Why::Unread(fault.to_string())),
        }
    }

    /// Skips lines up to the first one of a new voice, and returns its number.
    fn creation(&mut self) -> Option<u64> {
        loop {
            self.created = 0;
            let line = self.next().ok()??;
            if created(&line) > 0 {
                self.next = Some(line);
                return match line {
                    Line::Block(Block { number, .. }) | Line::Refused { number, .. } => {
                        Some(number)
                    }
                    Line::Broken { .. } => None,
                };
            }
        }
    }
}

/// How many voices were created before a line, as the log says.
fn created(line: &Line) -> u64 {
    let before = match line {
        Line::Block(Block { more: Some(m), .. }) => Some(m.before),
        Line::Refused { before, .. } => *before,
        _ => None,
    };
    before.map_or(0, |before| before.created)
}

/// A replayed block as a log of this form contains it. For a block in which the voice passes the end of its sound, form
/// 3 counts up to the frame in which it stopped.
fn as_said(bare: &Proved, full: &LogLine, form: Form) -> Line {
    let before = Some(Before {
        created: full.since.created,
        seeks: full.since.seeks,
        restarts: full.since.restarts,
        pauses: Some(full.since.pauses),
    });
    let line = match form {
        Form::Third => &full.line,
        Form::First | Form::Second => bare,
    };
    let (start, end) = full.loop_region;
    match *line {
        Proved::Block {
            block,
            frames,
            steps,
            state,
            position,
        } => Line::Block(Block {
            number: block,
            frames,
            steps,
            state: state.number() as u8,
            position,
            more: before.map(|before| More {
                lowest: full.lowest as u8,
                forward: full.forward,
                backward: full.backward,
                started: full.started,
                third: Some(Third {
                    usage: full.usage,
                    loop_region: (start as u64, end as u64),
                    is_backward: full.is_backward,
                    steps_back: full.steps_back,
                    ended: full.ended,
                }),
                before,
            }),
        }),
        Proved::RefusedBlock { block, refusal } => Line::Refused {
            number: block,
            refusal: number(refusal),
            before,
        },
        // No sound is given, so no creation is refused for its sound.
        Proved::OtherSound(other) => Line::Broken {
            refusal: number(Refusal::OtherSound),
            at: other.at,
        },
        Proved::Refused(refused) => Line::Broken {
            refusal: number(refused.refusal),
            at: refused.at,
        },
    }
}
