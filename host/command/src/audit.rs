//! `cableowl audit`: did this box play as proved? The trace is replayed by the rules, and the box's log is compared
//! with it wherever both end a block.

mod align;
mod evenings;
pub mod folder;
mod page;
mod words;

use std::{
    ops::Range,
    path::{Path, PathBuf},
};

use crate::{
    course::{Join, STRETCHES, Series},
    fault::{Fault, Result},
    input::{FileKind, Input},
    log::{Form, Log},
    out::{self, Fresh, Out, free_for_a_page},
    plot::grouped,
    report::files::not_an_input,
    sounds::{Places, Sounds},
};
use align::{Pair, Part, Segment, What, Why};
use words::{put_text, sentence};

/// How many differences are listed.
const LISTED: usize = 5;

/// A point where the box differs from the rules.
#[derive(Debug, Clone, Copy, PartialEq)]
struct Differs {
    segment: Segment,
    what: What,
    creep: i128,
    /// The seconds up to its end.
    at: f64,
}

/// How far the box was from the rules.
#[derive(Debug, Clone, Copy, PartialEq, Eq, Default)]
struct Gap {
    /// The frames of the sound that the box is behind, by its steps; below 0 it is ahead.
    creep: Option<i128>,
    /// The difference of the positions.
    place: Option<i128>,
}

impl Join for Gap {
    fn join(&mut self, later: Self) {
        self.creep = later.creep.or(self.creep);
        self.place = later.place.or(self.place);
    }
}

/// A point from which the audit cannot say anything about the box.
#[derive(Debug, Clone, PartialEq, Eq)]
struct Stop {
    why: Why,
    /// The last line of the log that was compared before it.
    after: u64,
    /// The bytes of a hole in the trace.
    hole: Option<Range<u64>>,
    /// The line of the log at which the audit continues, or why it does not.
    resumed: Option<std::result::Result<u64, &'static str>>,
}

impl Stop {
    fn words(&self) -> String {
        let hole = match &self.hole {
            Some(hole) => format!(", a hole of {} bytes", grouped(hole.end - hole.start)),
            None => String::new(),
        };
        let after = match self.after {
            0 => String::new(),
            block => format!(" after block {}", grouped(block)),
        };
        let resumed = match self.resumed {
            Some(Ok(line)) => format!(
                " and before block {}, where a voice is created behind the hole",
                grouped(line)
            ),
            Some(Err(why)) => format!(", not even behind the hole: {why}"),
            None => String::new(),
        };
        let why = &self.why;
        format!("{why}{hole}: nothing is said of the box{after}{resumed}")
    }
}

/// What an audit found.
#[derive(Clone)]
struct Found {
    trace: String,
    log: String,
    form: Form,
    /// The points that were compared, and the blocks and lines up to them.
    places: u64,
    blocks: u64,
    lines: u64,
    frames: u64,
    seconds: f64,
    sample_rate: u32,
    looped: bool,
    differing: u64,
    first: Vec<Differs>,
    creep: i128,
    /// Whether only steps, positions and wraps differ.
    only_moves: bool,
    /// Whether the steps are those of a player that clears its fraction after each line.
    clears: bool,
    apart: bool,
    gaps: Series<Gap>,
    stops: Vec<Stop>,
    /// A sentence for each sound that the trace names and that was not given.
    missing: Vec<String>,
}

/// The verdict of an audit.
#[derive(Debug, Clone, Copy, PartialEq, Eq)]
enum Verdict {
    Agrees,
    Differs,
    Unknown,
}

impl Found {
    fn new(trace: &Input, log: &Log) -> Self {
        Self {
            trace: trace.name().to_owned(),
            log: log.name().to_owned(),
            form: log.form(),
            places: 0,
            blocks: 0,
            lines: 0,
            frames: 0,
            seconds: 0.0,
            sample_rate: 0,
            looped: false,
            differing: 0,
            first: Vec::new(),
            creep: 0,
            only_moves: true,
            clears: true,
            apart: false,
            gaps: Series::new(1, STRETCHES),
            stops: Vec::new(),
            missing: Vec::new(),
        }
    }

    fn verdict(&self) -> Verdict {
        match (self.differing, self.places) {
            (1.., _) => Verdict::Differs,
            (0, 1..) if self.stops.is_empty() => Verdict::Agrees,
            _ => Verdict::Unknown,
        }
    }

    /// Adds a point: compares the box with the rules there.
    fn compare(&mut self, segment: &Segment) -> bool {
        let (rule, said) = (&segment.rule, &segment.said);
        let begin = self.frames;
        self.places += 1;
        self.blocks = self.blocks.saturating_add(rule.lines);
        self.lines = said.number;
        let frames = u64::try_from(rule.frames).unwrap_or(u64::MAX);
        self.frames = self.frames.saturating_add(frames);
        self.seconds += segment.seconds;
        self.sample_rate = segment.sample_rate;
        self.looped |= segment.looped;
        // A stopped voice does not creep. The steps of the block in which it stops depend on the block's length.
        let stopped = rule.last.is_some_and(|block| block.state == 6);
        if !(stopped || rule.ran_off || said.ran_off) {
            let lost = i128::from(rule.steps) - i128::from(said.steps);
            self.creep = self.creep.saturating_add(lost);
            self.clears &= is_cleared(segment);
        }
        let what = segment.differs();
        if let Some(what) = what {
            self.differing += 1;
            self.only_moves &= matches!(what, What::Position | What::Steps | What::Turns);
            if self.first.len() < LISTED {
                self.first.push(Differs {
                    segment: *segment,
                    what,
                    creep: self.creep,
                    at: self.seconds,
                });
            }
        }
        if let (Some(p), Some(s)) = (rule.last, said.last) {
            let place = i128::from(p.position) - i128::from(s.position);
            self.apart |= place != 0;
            let gap = Gap {
                creep: Some(self.creep),
                place: Some(place),
            };
            if let Some(held) = self.gaps.at(begin) {
                held.join(gap);
            }
        }
        what.is_none()
    }

    fn stop(&mut self, why: Why) {
        self.stops.push(Stop {
            why,
            after: self.lines,
            hole: None,
            resumed: None,
        });
    }
}

/// Whether the box made the steps of a player that starts each line at fraction 0: the whole frames of the advance. A
/// millionth of a frame is allowed for rounding of the sums.
fn is_cleared(segment: &Segment) -> bool {
    let whole = |frames: f64| (frames.max(0.0)).floor() as u64;
    let advance = segment.advance;
    let steps = segment.said.steps;
    let fits = steps == whole(advance + 1e-6) || steps == whole(advance - 1e-6);
    fits && (segment.said.lines == 1 || advance == 0.0)
}

/// Audits a log against its trace and returns whether they agree. If nothing can be said, that is a fault. `complain`
/// gets a sentence for each sound that the trace names and that was not found; this does not change the verdict.
pub fn audit(
    trace: &Path,
    log: &Path,
    places: &Places,
    csv: bool,
    to: Option<&Path>,
    out: &mut Out<'_>,
    complain: &mut dyn FnMut(&Fault),
) -> Result<bool> {
    if let Some(path) = to {
        let inputs = [trace, log].map(PathBuf::from);
        not_an_input(path, &inputs)?;
        free_for_a_page(path)?;
    }
    let unknown = |fault| match fault {
        Fault::Refused(words) => Fault::Unknown(format!("{words}: nothing is said of the box")),
        other => other,
    };
    let sounds = Sounds::given(places).map_err(unknown)?;
    let (input, log) = opened(trace, log, false).map_err(unknown)?;
    if csv {
        out.put("block,line,frames,seconds,steps_rule,steps_box,position_rule,position_box,creep,same\n")?;
    }
    let mut row = |found: &Found, segment: &Segment, same: bool| match csv {
        true => out.put(csv_row(found, segment, same)),
        false => Ok(()),
    };
    let found = found(input, log, sounds.as_ref(), csv, &mut row)?;
    if !csv {
        put_text(&found, out)?;
    }
    for sentence in &found.missing {
        complain(&Fault::refused(format!("{}: {sentence}", found.trace)));
    }
    if let Some(path) = to {
        let mut file = Fresh::begin(path)?;
        page::page(&found, &mut |text| file.put(text.as_bytes()))?;
        file.replace()?;
    }
    match found.verdict() {
        Verdict::Agrees => Ok(true),
        Verdict::Differs => Ok(false),
        // With --csv there is no other place for the sentence.
        Verdict::Unknown if csv => Err(Fault::Unknown(sentence(&found))),
        Verdict::Unknown => Err(Fault::Unsaid),
    }
}

/// The trace and the log, told apart by their first bytes.
fn opened(trace: &Path, log: &Path, of_many: bool) -> Result<(Input, Log)> {
    let open = |path| Ok(Input::open(path)?.without_progress(of_many));
    let mut files = (open(trace)?, open(log)?);
    let kinds = (files.0.kind()?, files.1.kind()?);
    if kinds == (FileKind::Log, FileKind::Trace) {
        let (first, second) = (out::shown(trace), out::shown(log));
        return Err(Fault::usage(format!(
            "the two files are swapped: {first} is a log and {second} is a trace; say 'cableowl audit {second} {first}'"
        )));
    }
    let (input, log) = files;
    input.must_be(&[FileKind::Trace], "a trace, which audit reads first")?;
    log.must_be(&[FileKind::Log], "a log, which audit reads second")?;
    Ok((input, Log::new(log)?))
}

type Rows<'a> = dyn FnMut(&Found, &Segment, bool) -> Result<()> + 'a;

fn found(
    input: Input,
    log: Log,
    sounds: Option<&Sounds>,
    csv: bool,
    row: &mut Rows<'_>,
) -> Result<Found> {
    let mut found = Found::new(&input, &log);
    let mut pair = Pair::new(input, log, sounds);
    // What was found before a hole, if the audit continues after it.
    let mut before_hole: Option<Found> = None;
    loop {
        match pair.next() {
            Ok(segment) => {
                let same = found.compare(&segment);
                row(&found, &segment, same)?;
            }
            Err(Why::Done) => break,
            Err(why @ Why::TraceDamaged(_)) if before_hole.is_none() => {
                found.stop(why);
                let hole = pair.skip().unwrap_or_default();
                // Rows that were written cannot be taken back, so a table ends at the hole.
                let resumed = match csv {
                    true => None,
                    false => Some(pair.resume()),
                };
                if let Some(stop) = found.stops.last_mut() {
                    stop.hole = Some(hole);
                    stop.resumed = resumed;
                }
                match resumed {
                    Some(Ok(_)) => before_hole = Some(found.clone()),
                    _ => break,
                }
            }
            Err(why) => {
                found.stop(why);
                break;
            }
        }
    }
    if let Some(mut before) = before_hole
        && !pair.as_many_created()
    {
        if let Some(stop) = before.stops.last_mut() {
            stop.resumed = Some(Err(
                "the log says of another number of voices created behind it than the trace has",
            ));
        }
        found = before;
    }
    found.missing = pair.missing();
    Ok(found)
}

fn csv_row(found: &Found, segment: &Segment, same: bool) -> String {
    let (rule, said) = (&segment.rule, &segment.said);
    let place = |part: &Part| part.last.map_or(String::new(), |b| b.position.to_string());
    let steps = |part: &Part| part.last.map_or(String::new(), |_| part.steps.to_string());
    let cells = [
        rule.number.to_string(),
        said.number.to_string(),
        rule.frames.to_string(),
        format!("{:.6}", found.seconds),
        steps(rule),
        steps(said),
        place(rule),
        place(said),
        found.creep.to_string(),
        u8::from(same).to_string(),
    ];
    cells.join(",") + "\n"
}
