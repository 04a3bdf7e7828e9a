//! A log of form 3: one line per block or callback of a voice (docs/guide/TOOLS.md).

use std::fmt;

use super::Line;
use crate::{Commands, Processed, Refusal, State, StaticSound, Usage};

/// The first line of a log of form 3.
pub const LOG_HEAD: &str = "log=3";

/// What happened to a voice since the previous line.
#[derive(Debug, Clone, Copy, PartialEq, Eq, Hash, Default)]
pub struct Since {
    /// Voices created.
    pub created: u64,
    /// Seeks: each `seek_by` and each `seek_to`.
    pub seeks: u64,
    /// Restarts by hand: a voice created after an earlier one, or a `seek_to` that goes back against the
    /// playing direction.
    pub restarts: u64,
    /// Pauses.
    pub pauses: u64,
}

/// Makes the lines of a log of form 3. The host reports what happens between two blocks; each line
/// counts the played, paused and silent frames of its block.
///
/// Every figure that `cableowl report` takes from the lines of a [`Player`](crate::Player) is the same
/// for callbacks of any length.
///
/// ```
/// use cableowl::{Frames, Player, Settings, trace::{LOG_HEAD, Log}};
///
/// let sound = [0.5; 20];
/// let mut log = Log::new();
/// let mut text = format!("{LOG_HEAD}\n");
/// let settings = Settings::new(1).loop_region(Frames(2)..Frames(5));
/// let mut player = Player::play(settings, 1, &sound)?;
/// log.created();
/// let mut out = [0.0; 12];
/// for _ in 0..2 {
///     let answer = player.process(&sound, &mut out);
///     text += &format!("{}\n", log.block(6, Some(player.voice()), answer));
///     player.seek_to(2.0)?;
///     log.seeked(true);
/// }
/// assert_eq!(
///     text,
///     "log=3\n\
///      block=1 frames=6 steps=6 state=0 position=3 lowest=4 forward=2 backward=0 started=1 \
///      played=6 paused=0 silent=0 still=0 loop_start=2 loop_end=5 direction=0 steps_back=0 ended=0 \
///      created=1 seeks=0 restarts=0 pauses=0\n\
///      block=2 frames=6 steps=6 state=0 position=2 lowest=4 forward=4 backward=0 started=1 \
///      played=6 paused=0 silent=0 still=0 loop_start=2 loop_end=5 direction=0 steps_back=0 ended=0 \
///      created=0 seeks=1 restarts=1 pauses=0\n"
/// );
/// # Ok::<(), cableowl::Refusal>(())
/// ```
#[derive(Debug, Clone, Default)]
pub struct Log {
    blocks: u64,
    since: Since,
    begun: bool,
}

impl Log {
    /// Nothing has happened yet.
    #[must_use]
    pub fn new() -> Self {
        Self::default()
    }

    /// A voice was created.
    pub fn created(&mut self) {
        raise(&mut self.since.created, 1);
        raise(&mut self.since.restarts, self.begun.into());
        self.begun = true;
    }

    /// A seek was applied, and whether the student restarted the sound with it.
    pub fn seeked(&mut self, restart: bool) {
        raise(&mut self.since.seeks, 1);
        raise(&mut self.since.restarts, restart.into());
    }

    /// A pause was applied.
    pub fn paused(&mut self) {
        raise(&mut self.since.pauses, 1);
    }

    /// A command set was applied: the voice's states before and after it.
    pub fn commanded(&mut self, commands: &Commands, before: &State, after: &State) {
        if commands.pause {
            self.paused();
        }
        if commands.seek_by.is_some() {
            self.seeked(false);
        }
        let went_back = match after.is_backward() {
            true => after.position > before.position,
            false => after.position < before.position,
        };
        if commands.seek_to.is_some() {
            self.seeked(went_back);
        }
    }

    /// The line of the next block or callback, from its frames, the voice after it, and its result.
    /// Without a voice every number is 0.
    pub fn block(
        &mut self,
        frames: usize,
        voice: Option<&StaticSound>,
        answer: Result<Processed, Refusal>,
    ) -> LogLine {
        raise(&mut self.blocks, 1);
        let block = self.blocks;
        let answer = match voice {
            Some(voice) => answer.map(|counts| (voice.state(), counts)),
            None => Err(answer.err().unwrap_or(Refusal::State)),
        };
        let (state, counts) = answer.unwrap_or((State::default(), Processed::NONE));
        let line = match answer {
            Ok(_) => Line::Block {
                block,
                frames: frames as u64,
                steps: counts.steps,
                state: state.playback_state,
                position: state.position as u64,
            },
            Err(refusal) => Line::RefusedBlock { block, refusal },
        };
        LogLine {
            line,
            lowest: counts.lowest_count,
            forward: state.wraps.forward,
            backward: state.wraps.backward,
            started: state.started,
            usage: counts.usage,
            loop_region: state.loop_region.unwrap_or_default(),
            is_backward: state.is_backward(),
            steps_back: counts.steps_back,
            ended: !state.playing,
            since: std::mem::take(&mut self.since),
        }
    }
}

fn raise(count: &mut u64, by: u64) {
    *count = count.saturating_add(by);
}

/// A line of a log of form 3. `Display` writes it without the line feed that ends it.
#[derive(Debug, Clone, Copy, PartialEq, Eq, Hash)]
#[non_exhaustive]
pub struct LogLine {
    /// What it has in common with a line of form 1.
    pub line: Line,
    /// The lowest window count that the block read.
    pub lowest: u32,
    /// The voice's loop wraps so far, forward.
    pub forward: u32,
    /// The same, backward.
    pub backward: u32,
    /// Whether the sound has started.
    pub started: bool,
    /// How many of the block's frames were played, paused or silent.
    pub usage: Usage,
    /// The loop after the block, end exclusive; 0 and 0 if there is none.
    pub loop_region: (usize, usize),
    /// Whether the voice moves backward after the block.
    pub is_backward: bool,
    /// Of the block's steps, those backward.
    pub steps_back: u64,
    /// Whether the position has passed the end of the sound.
    pub ended: bool,
    /// What happened since the previous line.
    pub since: Since,
}

impl fmt::Display for LogLine {
    fn fmt(&self, f: &mut fmt::Formatter<'_>) -> fmt::Result {
        self.line.fmt(f)?;
        match self.line {
            Line::OtherSound(_) | Line::Refused(_) => return Ok(()),
            Line::RefusedBlock { .. } => {}
            Line::Block { .. } => self.voice(f)?,
        }
        let Since {
            created,
            seeks,
            restarts,
            pauses,
        } = self.since;
        write!(
            f,
            " created={created} seeks={seeks} restarts={restarts} pauses={pauses}"
        )
    }
}

impl LogLine {
    /// What the line of an accepted block contains after the words of form 1.
    fn voice(&self, f: &mut fmt::Formatter<'_>) -> fmt::Result {
        let (lowest, forward, backward) = (self.lowest, self.forward, self.backward);
        let [started, direction, ended] =
            [self.started, self.is_backward, self.ended].map(u32::from);
        let Usage {
            played,
            paused,
            silent,
            still,
        } = self.usage;
        let ((start, end), back) = (self.loop_region, self.steps_back);
        write!(
            f,
            " lowest={lowest} forward={forward} backward={backward} started={started}"
        )?;
        write!(
            f,
            " played={played} paused={paused} silent={silent} still={still}"
        )?;
        write!(
            f,
            " loop_start={start} loop_end={end} direction={direction} steps_back={back} ended={ended}"
        )
    }
}
