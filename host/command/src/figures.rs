//! The figures of an evening, computed from its log line by line. docs/guide/TOOLS.md says how each is computed.

use cableowl::Usage;

use crate::log::{Before, Block, Form, Line};

/// The refusals that a block may have, each with a column of its own.
pub const REFUSALS: [u8; 5] = [1, 9, 10, 11, 12];

/// The figures of one log, or of several together. `None` means that the lines do not contain a figure.
#[derive(Debug, Clone, Copy, PartialEq, Eq, Default)]
pub struct Figures {
    /// Blocks, including refused ones.
    pub blocks: u64,
    /// Frames of the accepted blocks.
    pub frames: u64,
    /// Of these, frames that were played.
    pub played: u64,
    /// Frames that were paused, or waited to resume.
    pub paused: u64,
    /// Frames that were silent: not started, or stopped.
    pub silent: u64,
    /// Of the played frames, those at rate 0; only in form 3.
    pub still: Option<u64>,
    /// Frames of the sound that were stepped over.
    pub steps: u64,
    /// Blocks in which the position moved further than their steps; only in form 1, since the number depends on the
    /// block size.
    pub jumps: Option<u64>,
    /// Wraps, forward and backward.
    pub rounds: Option<u64>,
    /// Seeks.
    pub seeks: Option<u64>,
    /// Restarts by hand.
    pub restarts: Option<u64>,
    /// Pauses; only in form 3.
    pub pauses: Option<u64>,
    /// 1 if a voice has reached an end of its sound, otherwise 0; only in form 3.
    pub ended: Option<u64>,
    /// Lines whose steps, wraps and positions do not fit together; only in form 3.
    pub misfits: Option<u64>,
    /// The first of them, by its block's number.
    pub first_misfit: Option<u64>,
    /// The lowest window count.
    pub lowest: Option<u64>,
    /// Refused blocks, counted for each of `REFUSALS`.
    pub refused: [u64; REFUSALS.len()],
    /// Blocks that were refused with another number.
    pub refused_otherwise: u64,
    /// The refusal of the record where the run ended, and its first byte.
    pub broken: Option<(u8, u64)>,
}

impl Figures {
    /// All refused blocks.
    pub fn all_refused(&self) -> u64 {
        let named = self.refused.iter().copied();
        named
            .chain([self.refused_otherwise])
            .fold(0, u64::saturating_add)
    }
}

/// What one line adds, for the plots.
#[derive(Debug, Clone, Copy, PartialEq, Eq)]
pub struct Added {
    /// The frames before this line.
    pub clock: u64,
    /// The frames of this line.
    pub frames: u64,
    /// The position after it, if it moved.
    pub position: Option<u64>,
    /// How its frames were spent.
    pub usage: Usage,
    /// Its wraps.
    pub rounds: u64,
    /// The loop's length, if a wrap shows it.
    pub length: Option<u64>,
    /// Whether the position moved further than the steps.
    pub jumped: bool,
    /// Seeks before it.
    pub seeks: u64,
    /// The lowest window count.
    pub lowest: Option<u8>,
    /// The refusal, if it has one.
    pub refusal: Option<u8>,
}

/// The figures so far.
#[derive(Debug, Clone)]
pub struct Count {
    figures: Figures,
    position: Option<u64>,
    turns: Option<(u32, u32)>,
    /// The last block of the voice, if the voice has only played since then.
    before: Option<Block>,
}

impl Count {
    /// No line yet.
    pub fn new(form: Form) -> Self {
        let from_second = (form != Form::First).then_some(0);
        Self {
            figures: Figures {
                still: (form == Form::Third).then_some(0),
                pauses: (form == Form::Third).then_some(0),
                ended: (form == Form::Third).then_some(0),
                misfits: (form == Form::Third).then_some(0),
                jumps: (form == Form::First).then_some(0),
                rounds: from_second,
                seeks: from_second,
                restarts: from_second,
                lowest: from_second.map(|_| 4),
                ..Figures::default()
            },
            position: None,
            turns: None,
            before: None,
        }
    }

    /// The figures of all lines so far.
    pub fn figures(&self) -> Figures {
        self.figures
    }

    /// Adds a line.
    pub fn add(&mut self, line: &Line) -> Option<Added> {
        match *line {
            Line::Broken { refusal, at } => {
                self.figures.broken = Some((refusal, at));
                None
            }
            Line::Refused {
                refusal, before, ..
            } => Some(self.refused(refusal, before)),
            Line::Block(block) => Some(self.accepted(&block)),
        }
    }

    fn refused(&mut self, refusal: u8, before: Option<Before>) -> Added {
        let figures = &mut self.figures;
        raise(&mut figures.blocks, 1);
        match REFUSALS.iter().position(|number| *number == refusal) {
            Some(column) => raise(&mut figures.refused[column], 1),
            None => raise(&mut figures.refused_otherwise, 1),
        }
        Added {
            clock: figures.frames,
            frames: 0,
            position: None,
            usage: Usage::default(),
            rounds: 0,
            length: None,
            jumped: false,
            seeks: self.before(before),
            lowest: None,
            refusal: Some(refusal),
        }
    }

    fn accepted(&mut self, block: &Block) -> Added {
        let usage = usage(block);
        let before = block.more.map(|more| more.before);
        let seeks = self.before(before);
        let rounds = self.rounds(block);
        let moved = self.position.map(|from| block.position.abs_diff(from));
        let jumped = moved.is_some_and(|moved| moved > block.steps);
        let undisturbed = before.is_some_and(|b| (b.created, b.seeks) == (0, 0));
        let third = block.more.and_then(|more| more.third);
        let length = match third.map(|third| third.loop_region) {
            Some((start, end)) => end.checked_sub(start).filter(|length| *length > 0),
            None if undisturbed => self.length(block, rounds),
            None => None,
        };
        if self.before.is_some_and(|before| !fits(&before, block)) {
            add(&mut self.figures.misfits, 1);
            let first = &mut self.figures.first_misfit;
            *first = first.or(Some(block.number));
        }
        self.before = Some(*block);
        self.position = Some(block.position);
        let figures = &mut self.figures;
        let clock = figures.frames;
        raise(&mut figures.blocks, 1);
        raise(&mut figures.frames, block.frames);
        raise(&mut figures.steps, block.steps);
        add(&mut figures.jumps, jumped.into());
        raise(&mut figures.played, usage.played);
        raise(&mut figures.paused, usage.paused);
        raise(&mut figures.silent, usage.silent);
        add(&mut figures.still, usage.still);
        let ended = third.is_some_and(|third| third.ended);
        figures.ended = figures.ended.map(|before| before.max(ended.into()));
        let lowest = block.more.map(|more| more.lowest);
        figures.lowest = figures.lowest.min(lowest.map(u64::from));
        Added {
            clock,
            frames: block.frames,
            position: Some(block.position),
            usage,
            rounds: rounds.map_or(0, |(forward, backward)| forward + backward),
            length,
            jumped,
            seeks,
            lowest,
            refusal: None,
        }
    }

    /// Counts what was done before a line, and returns its seeks.
    fn before(&mut self, before: Option<Before>) -> u64 {
        let Some(before) = before else {
            return 0;
        };
        add(&mut self.figures.seeks, before.seeks);
        add(&mut self.figures.restarts, before.restarts);
        add(&mut self.figures.pauses, before.pauses.unwrap_or(0));
        if before.created > 0 || before.seeks > 0 {
            self.before = None;
        }
        if before.created > 0 {
            self.turns = Some((0, 0));
            self.position = None;
        }
        before.seeks
    }

    /// The wraps of a block, forward and backward. If a voice is older than the log, the wraps of its first line
    /// include earlier ones. A count at its limit says nothing.
    fn rounds(&mut self, block: &Block) -> Option<(u64, u64)> {
        let more = block.more?;
        let (forward, backward) = self.turns.unwrap_or((more.forward, more.backward));
        self.turns = Some((more.forward, more.backward));
        let forward = more.forward.saturating_sub(forward).into();
        let backward = more.backward.saturating_sub(backward).into();
        let full = [more.forward, more.backward].contains(&u32::MAX);
        let sum = self.figures.rounds.filter(|_| !full);
        self.figures.rounds = sum.map(|sum: u64| sum.saturating_add(forward + backward));
        Some((forward, backward))
    }

    /// The loop's length. A voice that plays in its loop of L frames moves from p to p + steps - L * wraps, and
    /// backward to p - steps + L * wraps.
    fn length(&self, block: &Block, rounds: Option<(u64, u64)>) -> Option<u64> {
        let from = self.position?;
        let (way, turns) = match rounds? {
            (0, 0) => return None,
            (turns, 0) => (
                from.checked_add(block.steps)?.checked_sub(block.position)?,
                turns,
            ),
            (0, turns) => (
                block.position.checked_add(block.steps)?.checked_sub(from)?,
                turns,
            ),
            _ => return None,
        };
        way.is_multiple_of(turns).then(|| way / turns)
    }
}

/// How the frames of an accepted block were spent: docs/guide/TOOLS.md, "How each figure is computed". Forms 1 and 2
/// count a whole block by the state at its end.
fn usage(block: &Block) -> Usage {
    if let Some(third) = block.more.and_then(|more| more.third) {
        return third.usage;
    }
    let started = block.more.is_none_or(|more| more.started);
    let mut usage = Usage::default();
    match block.state {
        _ if !started => usage.silent = block.frames,
        2 | 3 => usage.paused = block.frames,
        6 if block.steps == 0 => usage.silent = block.frames,
        _ => usage.played = block.frames,
    }
    usage
}

/// Whether a block fits the one before it: a voice that plays inside a loop of L frames moves from p to p + steps - L *
/// wraps, and backward the other way. If the lines do not say enough, it fits.
fn fits(before: &Block, block: &Block) -> bool {
    let third = |block: &Block| Some((block.more?, block.more?.third?));
    let (Some((was, from)), Some((is, to))) = (third(before), third(block)) else {
        return true;
    };
    let (start, end) = to.loop_region;
    let inside = (start..end).contains(&before.position);
    let full = [is.forward, is.backward].contains(&u32::MAX);
    if from.loop_region != to.loop_region || !inside || full {
        return true;
    }
    let number = |number: u64| i128::from(number);
    let turns = |now: u32, then: u32| i128::from(now) - i128::from(then);
    let turns = turns(is.forward, was.forward) - turns(is.backward, was.backward);
    let way = number(block.steps) - 2 * number(to.steps_back);
    number(block.position) == number(before.position) + way - number(end - start) * turns
}

fn add(sum: &mut Option<u64>, more: u64) {
    *sum = sum.map(|sum| sum.saturating_add(more));
}

fn raise(sum: &mut u64, more: u64) {
    *sum = sum.saturating_add(more);
}

/// The five quantiles that are reported, with their names, in hundredths.
pub const QUANTILES: [(&str, usize); 5] = [
    ("lowest", 0),
    ("quarter", 25),
    ("median", 50),
    ("three quarters", 75),
    ("highest", 100),
];

/// A quantile by the nearest rank: the smallest of the numbers such that at least this many hundredths of them do not
/// exceed it. It is always one of the numbers. Without numbers there is none.
pub fn quantile(numbers: &[u64], hundredths: usize) -> Option<u64> {
    let mut sorted = numbers.to_vec();
    sorted.sort_unstable();
    sorted.get(rank(sorted.len(), hundredths)).copied()
}

/// The index of the quantile among `count` sorted numbers.
pub fn rank(count: usize, hundredths: usize) -> usize {
    (count * hundredths).div_ceil(100).max(1) - 1
}

#[cfg(test)]
mod tests {
    use super::*;

    #[test]
    fn a_quantile_is_one_of_the_numbers() {
        assert_eq!(quantile(&[], 50), None);
        for (_, hundredths) in QUANTILES {
            assert_eq!(quantile(&[7], hundredths), Some(7));
        }
        let four = [40, 10, 30, 20];
        let quantiles = QUANTILES.map(|(_, hundredths)| quantile(&four, hundredths));
        assert_eq!(quantiles, [10, 10, 20, 30, 40].map(Some));
        let five = [5, 4, 3, 2, 1];
        let quantiles = QUANTILES.map(|(_, hundredths)| quantile(&five, hundredths));
        assert_eq!(quantiles, [1, 2, 3, 4, 5].map(Some));
    }
}
