//! The course of an evening, for the plots, in at most a fixed number of intervals of time, whatever its length.

use crate::figures::{Added, REFUSALS};

/// How many intervals are enough for one evening on a page.
pub const STRETCHES: usize = 480;

/// The rows of refusals: one for each of `REFUSALS`, and one for all others.
pub const ROWS: usize = REFUSALS.len() + 1;

/// Values over intervals of equal length. The length doubles when there are too many.
#[derive(Debug, Clone)]
pub struct Series<T> {
    /// The frames of an interval.
    pub width: u64,
    /// The intervals.
    pub held: Vec<T>,
    /// The largest number of intervals. If there are more, neighbours are joined.
    most: usize,
}

impl<T: Default + Join> Series<T> {
    /// Starts with intervals of `width` frames, and keeps at most `most` of them.
    pub fn new(width: u64, most: usize) -> Self {
        Self {
            width: width.max(1),
            held: Vec::new(),
            most: most.max(1),
        }
    }

    /// The interval of this frame.
    pub fn at(&mut self, clock: u64) -> Option<&mut T> {
        while clock / self.width >= self.most as u64 {
            self.halve();
        }
        let index = (clock / self.width) as usize;
        if self.held.len() <= index {
            self.held.resize_with(index + 1, T::default);
        }
        self.held.get_mut(index)
    }

    fn halve(&mut self) {
        self.width = self.width.saturating_mul(2);
        let mut joined = Vec::with_capacity(self.most);
        let mut held = std::mem::take(&mut self.held).into_iter();
        while let Some(mut first) = held.next() {
            if let Some(second) = held.next() {
                first.join(second);
            }
            joined.push(first);
        }
        self.held = joined;
    }
}

/// Joins two neighbours.
pub trait Join {
    /// Adds the interval that follows it.
    fn join(&mut self, later: Self);
}

/// What is drawn of an interval.
#[derive(Debug, Clone, Copy, PartialEq, Eq, Default)]
pub struct Stretch {
    /// The lowest, the highest and the last position, if there was one.
    pub places: Option<(u64, u64, u64)>,
    /// Whether the position jumped: by a wrap, a seek or a new voice.
    pub leapt: bool,
    /// Frames that were paused.
    pub paused: u64,
    /// Frames that were silent.
    pub silent: u64,
    /// All frames.
    pub frames: u64,
    /// Seeks.
    pub seeks: u64,
    /// The lowest window count.
    pub lowest: Option<u8>,
    /// Refused blocks, by row.
    pub refused: [u64; ROWS],
}

impl Join for Stretch {
    fn join(&mut self, later: Self) {
        self.places = match (self.places, later.places) {
            (Some((low, high, _)), Some((l, h, last))) => Some((low.min(l), high.max(h), last)),
            (one, other) => other.or(one),
        };
        self.leapt |= later.leapt;
        self.paused = self.paused.saturating_add(later.paused);
        self.silent = self.silent.saturating_add(later.silent);
        self.frames = self.frames.saturating_add(later.frames);
        self.seeks = self.seeks.saturating_add(later.seeks);
        self.lowest = lower(self.lowest, later.lowest);
        for (sum, more) in self.refused.iter_mut().zip(later.refused) {
            *sum = sum.saturating_add(more);
        }
    }
}

impl Join for u64 {
    fn join(&mut self, later: Self) {
        *self = self.saturating_add(later);
    }
}

fn lower(one: Option<u8>, other: Option<u8>) -> Option<u8> {
    match (one, other) {
        (Some(one), Some(other)) => Some(one.min(other)),
        (one, other) => one.or(other),
    }
}

/// A loop that was wrapped.
#[derive(Debug, Clone, Copy, PartialEq, Eq)]
pub struct Loop {
    /// The frame at which the block of its first wrap begins.
    pub from: u64,
    /// The frame after the block of its last wrap.
    pub until: u64,
    /// The highest position logged at its wraps.
    pub high: u64,
    /// Its length in frames of the sound.
    pub length: u64,
    /// Its wraps.
    pub rounds: u64,
}

/// The course so far.
#[derive(Debug, Clone)]
pub struct Course {
    /// The intervals.
    pub stretches: Series<Stretch>,
    /// The wraps of each minute.
    pub rounds: Series<u64>,
    /// The loops in their order; only the first ones if there are very many.
    pub loops: Vec<Loop>,
    /// The frames so far.
    pub frames: u64,
    /// The highest position.
    pub highest: u64,
    last: Option<u64>,
    most_loops: usize,
}

impl Course {
    /// An empty course for a box with `rate` frames per second, with at most `stretches` intervals.
    pub fn new(rate: u32, stretches: usize) -> Self {
        Self {
            stretches: Series::new(1, stretches),
            rounds: Series::new(60 * u64::from(rate), stretches / 4),
            loops: Vec::new(),
            most_loops: stretches / 2,
            frames: 0,
            highest: 0,
            last: None,
        }
    }

    /// Adds a line.
    pub fn add(&mut self, added: &Added) {
        let leapt = added.jumped || added.rounds > 0 || added.seeks > 0;
        if let Some(stretch) = self.stretches.at(added.clock) {
            stretch.join(Stretch {
                places: added.position.map(|place| (place, place, place)),
                leapt,
                paused: added.usage.paused,
                silent: added.usage.silent,
                frames: added.frames,
                seeks: added.seeks,
                lowest: added.lowest,
                refused: refusals(added.refusal),
            });
        }
        if let Some(rounds) = self.rounds.at(added.clock) {
            rounds.join(added.rounds);
        }
        self.frames = added.clock.saturating_add(added.frames);
        let Some(place) = added.position else {
            return;
        };
        self.highest = self.highest.max(place);
        if added.rounds > 0 {
            self.turn(added, place);
        }
        self.last = Some(place);
    }

    /// A wrap belongs to the loop before it if the length is the same.
    fn turn(&mut self, added: &Added, place: u64) {
        let high = self.last.unwrap_or_default().max(place);
        if let Some(last) = self.loops.last_mut()
            && added.length.is_none_or(|length| length == last.length)
        {
            // The first wrap may come from outside the loop.
            last.high = if last.rounds == 1 {
                high
            } else {
                last.high.max(high)
            };
            last.until = self.frames;
            last.rounds = last.rounds.saturating_add(added.rounds);
            return;
        }
        if let Some(length) = added.length
            && self.loops.len() < self.most_loops
        {
            self.loops.push(Loop {
                from: added.clock,
                until: self.frames,
                high,
                length,
                rounds: added.rounds,
            });
        }
    }
}

fn refusals(refusal: Option<u8>) -> [u64; ROWS] {
    let mut rows = [0; ROWS];
    if let Some(refusal) = refusal {
        let row = REFUSALS.iter().position(|number| *number == refusal);
        rows[row.unwrap_or(ROWS - 1)] = 1;
    }
    rows
}
