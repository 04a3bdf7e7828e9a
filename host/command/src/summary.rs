//! `cableowl replay --summary`: what happened in a trace and when, in words.

use std::path::Path;

use cableowl::{
    Commands, LoopCommand, PlaybackState, Refusal, ResumeCommand, State, StaticSound,
    trace::{Block, Line, Record, Step, TraceReader},
};

use crate::{
    explain::state_name,
    fault::{Fault, Result},
    input::Input,
    out::Out,
    plot::{clock, counted, grouped},
    replay::{Missing, Run, fault},
    sounds::{Places, Sounds},
};

/// Prints what happened in a trace, over the given sounds, and returns whether none was missing.
pub fn summary(
    trace: &Path,
    places: &Places,
    out: &mut Out<'_>,
    complain: &mut dyn FnMut(&Fault),
) -> Result<bool> {
    let sounds = Sounds::given(places)?;
    let mut input = Input::open(trace)?;
    input.kind()?;
    let mut teller = Teller::new(sounds.as_ref());
    let (mut broken, mut missing) = (None, Missing::default());
    let mut reader = TraceReader::new(&mut input);
    while let Some(at) = reader.read_next() {
        match (at, reader.record()) {
            (Ok(at), Some(record)) => {
                if let Step::OtherSound(other) = teller.take(&record, reader.bytes(), out)? {
                    missing.add(at, other.wanted);
                }
            }
            (Ok(_), None) => {}
            (Err(error), _) => broken = Some(error),
        }
        if out.closed() {
            return Err(Fault::Closed);
        }
    }
    teller.put_refused(out)?;
    let refused = match teller.all_refused {
        0 => String::new(),
        refused => format!(", {} refused", grouped(refused)),
    };
    out.put(format!(
        "{}: {}{refused}, {} in all\n",
        input.name(),
        counted(teller.blocks, "block"),
        clock(teller.seconds)
    ))?;
    let missing = sounds.map_or_else(Vec::new, |sounds| missing.sentences(&sounds));
    for sentence in &missing {
        complain(&input.wrong(sentence));
    }
    match broken {
        Some(error) => Err(fault(&input, &error)),
        None => Ok(missing.is_empty()),
    }
}

/// Neighbouring blocks with the same refusal.
struct Refused {
    refusal: Refusal,
    first: u64,
    last: u64,
    at: f64,
}

/// What was printed so far.
struct Teller<'a> {
    run: Run<'a>,
    blocks: u64,
    all_refused: u64,
    seconds: f64,
    state: Option<PlaybackState>,
    /// The speed that was printed, and the last one with the time of its first block.
    speeds: (f64, f64, f64),
    refused: Option<Refused>,
}

impl<'a> Teller<'a> {
    fn new(sounds: Option<&'a Sounds>) -> Self {
        Self {
            run: Run::over(sounds),
            blocks: 0,
            all_refused: 0,
            seconds: 0.0,
            state: None,
            speeds: (1.0, 1.0, 0.0),
            refused: None,
        }
    }

    fn put(&self, says: &str, out: &mut Out<'_>) -> Result<()> {
        put_at(self.seconds, says, out)
    }

    fn state(&self) -> Option<State> {
        self.run.voice().map(StaticSound::state)
    }

    fn take(&mut self, record: &Record<'_>, bytes: &[u8], out: &mut Out<'_>) -> Result<Step> {
        let before = self.state();
        let step = self.run.play(record, bytes);
        match (step, record) {
            (Step::Block(line), Record::Block(block)) => self.block(block, line, out)?,
            (Step::Block(line), Record::LanedBlock(laned)) => {
                // The speed of its last frame. A changing speed is printed when it stays the same.
                let rate = laned.numbers().last().map_or(1.0, |numbers| numbers.rate);
                let block = Block::new(laned.frames(), laned.time_step);
                self.block(&Block { rate, ..block }, line, out)?;
            }
            (Step::Creation(answer), _) => self.creation(answer, out)?,
            (Step::OtherSound(_), _) => self.creation(Err(Refusal::OtherSound), out)?,
            (Step::Commands(answer), Record::Commands(commands)) => {
                self.commands(commands, answer, before, out)?;
            }
            _ => {}
        }
        Ok(step)
    }

    fn creation(
        &mut self,
        answer: std::result::Result<(), Refusal>,
        out: &mut Out<'_>,
    ) -> Result<()> {
        self.put_refused(out)?;
        let says = match answer.map(|()| self.state().unwrap_or_default()) {
            Err(refusal) => format!("no voice is created: {refusal}"),
            Ok(state) => {
                let looped = state.loop_region.map_or(String::new(), |region| {
                    format!(", {}", looped(region, &state))
                });
                let way = if is_backward(&state) {
                    ", backward"
                } else {
                    ""
                };
                let starts = match state.started {
                    true => "",
                    false => ", its start still to come",
                };
                format!(
                    "a voice is created over {} ({}){looped}{way}{starts}",
                    counted(state.num_frames as u64, "frame"),
                    seconds(state.num_frames, &state),
                )
            }
        };
        self.put(&says, out)?;
        self.state = None;
        self.speeds = (1.0, 1.0, self.seconds);
        Ok(())
    }

    fn commands(
        &mut self,
        commands: &Commands,
        answer: std::result::Result<(), Refusal>,
        before: Option<State>,
        out: &mut Out<'_>,
    ) -> Result<()> {
        self.put_refused(out)?;
        let (Some(before), Some(after)) = (before, self.state()) else {
            return self.put("a command without a voice: it does nothing", out);
        };
        let says = match answer {
            Ok(()) => obeyed(commands, &before, &after),
            Err(refusal) => format!("a command is refused: {refusal}"),
        };
        match says.is_empty() {
            true => Ok(()),
            false => self.put(&says, out),
        }
    }

    fn block(&mut self, block: &Block, line: Line, out: &mut Out<'_>) -> Result<()> {
        self.blocks += 1;
        match line {
            Line::RefusedBlock { block, refusal } => {
                self.all_refused += 1;
                if let Some(refused) = &mut self.refused
                    && refused.refusal == refusal
                {
                    refused.last = block;
                    return Ok(());
                }
                self.put_refused(out)?;
                self.refused = Some(Refused {
                    refusal,
                    first: block,
                    last: block,
                    at: self.seconds,
                });
                Ok(())
            }
            Line::Block {
                state, position, ..
            } => {
                self.put_refused(out)?;
                self.speed(block, out)?;
                self.turned(state, position, out)?;
                self.seconds += block.frames as f64 * block.time_step;
                Ok(())
            }
            Line::OtherSound(_) | Line::Refused(_) => Ok(()),
        }
    }

    /// A speed is printed once two blocks have it, so not for each step of a slow change.
    fn speed(&mut self, block: &Block, out: &mut Out<'_>) -> Result<()> {
        let (printed, last, since) = self.speeds;
        if block.rate != last {
            self.speeds = (printed, block.rate, self.seconds);
            return Ok(());
        }
        if block.rate == printed {
            return Ok(());
        }
        self.speeds.0 = block.rate;
        put_at(since, &format!("at speed {:?}", block.rate), out)
    }

    fn turned(&mut self, state: PlaybackState, position: u64, out: &mut Out<'_>) -> Result<()> {
        if self.state == Some(state) {
            return Ok(());
        }
        self.state = Some(state);
        let place = self.state().map_or(String::new(), |all| {
            format!(
                ", at frame {} ({})",
                grouped(position),
                seconds(position as usize, &all)
            )
        });
        self.put(&format!("{}{place}", state_name(state)), out)
    }

    /// The refused blocks so far.
    fn put_refused(&mut self, out: &mut Out<'_>) -> Result<()> {
        let Some(Refused {
            refusal,
            first,
            last,
            at,
        }) = self.refused.take()
        else {
            return Ok(());
        };
        let blocks = match first == last {
            true => format!("block {} is refused", grouped(first)),
            false => format!("blocks {} to {} are refused", grouped(first), grouped(last)),
        };
        put_at(at, &format!("{blocks}: {refusal}"), out)
    }
}

fn put_at(seconds: f64, says: &str, out: &mut Out<'_>) -> Result<()> {
    out.put(format!("{:>12}  {says}\n", clock(seconds)))
}

fn is_backward(state: &State) -> bool {
    state.reverse != state.playback_rate.is_sign_negative()
}

/// Frames of the sound as seconds.
fn seconds(frames: usize, state: &State) -> String {
    format!("{:.3} s", frames as f64 / f64::from(state.sample_rate))
}

fn looped((start, end): (usize, usize), state: &State) -> String {
    format!(
        "a loop from {} to {}",
        seconds(start, state),
        seconds(end, state)
    )
}

/// What a command set did, in the order in which it is applied.
fn obeyed(commands: &Commands, before: &State, after: &State) -> String {
    let mut parts = Vec::new();
    if is_backward(before) != is_backward(after) {
        parts.push(match is_backward(after) {
            true => "turned backward".to_owned(),
            false => "turned forward".to_owned(),
        });
    }
    match (commands.loop_region, after.loop_region) {
        (LoopCommand::Set(_), Some(region)) => parts.push(looped(region, after)),
        (LoopCommand::Clear, _) => parts.push("the loop is removed".into()),
        _ => {}
    }
    if commands.pause {
        parts.push("pause".into());
    }
    match commands.resume {
        ResumeCommand::No => {}
        ResumeCommand::AtOnce => parts.push("resume".into()),
        ResumeCommand::Waiting => parts.push("resume when the host says so".into()),
    }
    if commands.stop {
        parts.push("stop".into());
    }
    if let Some(amount) = commands.seek_by {
        let way = if amount < 0.0 { "back" } else { "forward" };
        parts.push(format!("a step {way} by {:.3} s", amount.abs()));
    }
    if let Some(place) = commands.seek_to {
        parts.push(format!("a seek to {place:.3} s"));
    }
    if commands.seek_by.is_some() || commands.seek_to.is_some() {
        parts.push(format!(
            "now at frame {} ({})",
            grouped(after.position as u64),
            seconds(after.position, after)
        ));
    }
    parts.join(", ")
}
