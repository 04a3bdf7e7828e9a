//! The lanes of a block: docs/assurance/RULES.md, "What the host supplies".

use std::ops::Range;

use crate::{MAX_BLOCK_FRAMES, Refusal, Signals, ffi, trace::Block};

/// One lane of a block: the same number for every output frame, or one for each.
#[derive(Debug, Clone, Copy, PartialEq)]
pub enum Lane<'a, T> {
    /// The same number for every frame.
    Constant(T),
    /// A number for each frame.
    PerFrame(&'a [T]),
}

impl<T: Copy> Lane<'_, T> {
    /// The lane of a part of a block.
    pub(crate) fn part(self, part: &Range<usize>) -> Self {
        match self {
            Self::Constant(number) => Self::Constant(number),
            Self::PerFrame(numbers) => {
                Self::PerFrame(numbers.get(part.clone()).unwrap_or_default())
            }
        }
    }
}

impl From<f32> for Lane<'_, f32> {
    fn from(number: f32) -> Self {
        Self::Constant(number)
    }
}

impl From<f64> for Lane<'_, f64> {
    fn from(number: f64) -> Self {
        Self::Constant(number)
    }
}

impl<'a, T> From<&'a [T]> for Lane<'a, T> {
    fn from(numbers: &'a [T]) -> Self {
        Self::PerFrame(numbers)
    }
}

impl<'a, T, const N: usize> From<&'a [T; N]> for Lane<'a, T> {
    fn from(numbers: &'a [T; N]) -> Self {
        Self::PerFrame(numbers)
    }
}

impl<'a, T> From<&'a Vec<T>> for Lane<'a, T> {
    fn from(numbers: &'a Vec<T>) -> Self {
        Self::PerFrame(numbers)
    }
}

/// Makes the lanes of each block, and owns the buffers in which constants are repeated.
///
/// Keep one for a voice, or one for all voices of a thread. [`Lanes::new`] allocates the buffers once,
/// and no block allocates after that.
///
/// ```
/// use cableowl::Lanes;
///
/// let rates = [1.0, 0.9, 0.8, 0.7];
/// let mut lanes = Lanes::new();
/// let of_this_block = lanes.frames(4).volume(0.5).rate(&rates);
/// ```
#[derive(Debug, Clone)]
pub struct Lanes {
    fade: Spread<f32>,
    volume: Spread<f32>,
    left: Spread<f32>,
    right: Spread<f32>,
    rate: Spread<f64>,
}

impl Lanes {
    /// Allocates buffers for the largest block.
    #[must_use]
    pub fn new() -> Self {
        Self {
            fade: Spread::new(),
            volume: Spread::new(),
            left: Spread::new(),
            right: Spread::new(),
            rate: Spread::new(),
        }
    }

    /// The lanes of a block of this many frames. Every amplitude, gain and rate is 1 unless set
    /// otherwise.
    pub fn frames(&mut self, frames: usize) -> BlockLanes<'_> {
        BlockLanes {
            room: self,
            frames,
            fade: Lane::Constant(1.0),
            volume: Lane::Constant(1.0),
            left: Lane::Constant(1.0),
            right: Lane::Constant(1.0),
            rate: Lane::Constant(1.0),
        }
    }
}

impl Default for Lanes {
    fn default() -> Self {
        Self::new()
    }
}

/// The lanes of one block, made by [`Lanes::frames`].
///
/// If a lane has another length than the block, the call that gets it refuses it
/// ([`Refusal::Block`](crate::Refusal::Block)).
#[derive(Debug)]
#[must_use]
pub struct BlockLanes<'a> {
    room: &'a mut Lanes,
    frames: usize,
    fade: Lane<'a, f32>,
    volume: Lane<'a, f32>,
    left: Lane<'a, f32>,
    right: Lane<'a, f32>,
    rate: Lane<'a, f64>,
}

impl<'a> BlockLanes<'a> {
    /// The fade's amplitudes.
    pub fn fade(mut self, fade: impl Into<Lane<'a, f32>>) -> Self {
        self.fade = fade.into();
        self
    }

    /// The volume's amplitudes.
    pub fn volume(mut self, volume: impl Into<Lane<'a, f32>>) -> Self {
        self.volume = volume.into();
        self
    }

    /// The left channel's gains.
    pub fn left(mut self, left: impl Into<Lane<'a, f32>>) -> Self {
        self.left = left.into();
        self
    }

    /// The right channel's gains.
    pub fn right(mut self, right: impl Into<Lane<'a, f32>>) -> Self {
        self.right = right.into();
        self
    }

    /// The rates: the speed. Their sign is ignored; the held rate gives the direction.
    pub fn rate(mut self, rate: impl Into<Lane<'a, f64>>) -> Self {
        self.rate = rate.into();
        self
    }

    /// How many frames, from the first on, have the same numbers in every lane, compared by their bits.
    /// A host cuts a block there to record it ([`trace`](crate::trace)).
    ///
    /// ```
    /// use cableowl::Lanes;
    ///
    /// let (fade, rate) = ([1.0, 1.0, 1.0, 0.5], [1.0, 1.0, 0.9, 0.9]);
    /// let mut lanes = Lanes::new();
    /// assert_eq!(lanes.frames(4).constant_frames(), 4);
    /// assert_eq!(lanes.frames(4).fade(&fade).constant_frames(), 3);
    /// assert_eq!(lanes.frames(4).fade(&fade).rate(&rate).constant_frames(), 2);
    /// ```
    #[must_use]
    pub fn constant_frames(&self) -> usize {
        let amplitudes = [self.fade, self.volume, self.left, self.right];
        let amplitudes = amplitudes.map(|lane| constant_in(lane, self.frames));
        let rate = constant_in(self.rate, self.frames);
        amplitudes.into_iter().fold(rate, usize::min)
    }

    /// The same lanes, to pass on and keep.
    pub(crate) fn again(&mut self) -> BlockLanes<'_> {
        BlockLanes {
            room: &mut *self.room,
            ..*self
        }
    }

    /// The lanes of a part of the block.
    pub(crate) fn part(&mut self, part: Range<usize>) -> BlockLanes<'_> {
        BlockLanes {
            frames: part.len(),
            fade: self.fade.part(&part),
            volume: self.volume.part(&part),
            left: self.left.part(&part),
            right: self.right.part(&part),
            rate: self.rate.part(&part),
            room: &mut *self.room,
        }
    }

    /// How many frames the block has.
    pub(crate) fn count(&self) -> usize {
        self.frames
    }

    /// How many frames have a rate of 0.
    pub(crate) fn still(&self) -> u64 {
        let still = match self.rate {
            Lane::Constant(0.0) => self.frames,
            Lane::Constant(_) => 0,
            Lane::PerFrame(rates) => rates.iter().filter(|rate| **rate == 0.0).count(),
        };
        still as u64
    }

    /// The record of the block, if its lanes are constant and of its length. The number of frames is not
    /// checked.
    pub(crate) fn block(&self, time_step: f64, signals: Signals) -> Result<Block, Refusal> {
        let frames = self.frames;
        let block = Block {
            fade: constant(self.fade, frames)?,
            volume: constant(self.volume, frames)?,
            left: constant(self.left, frames)?,
            right: constant(self.right, frames)?,
            rate: constant(self.rate, frames)?,
            ..Block::new(frames, time_step)
        };
        Ok(block.with_signals(signals))
    }

    /// The five numbers, where each lane is a constant.
    pub(crate) fn held(&self) -> Option<ffi::Held> {
        use Lane::Constant;
        let (Constant(fade), Constant(volume)) = (self.fade, self.volume) else {
            return None;
        };
        let (Constant(left), Constant(right)) = (self.left, self.right) else {
            return None;
        };
        let Constant(rate) = self.rate else {
            return None;
        };
        Some(ffi::Held {
            fade,
            volume,
            left,
            right,
            rate,
        })
    }

    pub(crate) fn into_ffi(self) -> ffi::Lanes<'a> {
        let (room, frames) = (self.room, self.frames);
        ffi::Lanes {
            fade: room.fade.slice(self.fade, frames),
            volume: room.volume.slice(self.volume, frames),
            left: room.left.slice(self.left, frames),
            right: room.right.slice(self.right, frames),
            rate: room.rate.slice(self.rate, frames),
        }
    }
}

/// How many frames of a lane have the first one's number.
fn constant_in<T: Number>(lane: Lane<T>, frames: usize) -> usize {
    match lane {
        Lane::Constant(_) => frames,
        Lane::PerFrame(numbers) => {
            let first = numbers.first();
            let same = |number: &&T| first.is_some_and(|first| first.same_bits(**number));
            numbers.iter().take(frames).take_while(same).count()
        }
    }
}

/// A lane's one number, or [`Refusal::Record`] if it has several or another length than the block.
/// For a lane without frames it is any number.
fn constant<T: Number + From<f32>>(lane: Lane<T>, frames: usize) -> Result<T, Refusal> {
    match lane {
        Lane::Constant(number) => Ok(number),
        Lane::PerFrame(numbers) => {
            let is_one = numbers.len() == frames && constant_in(lane, frames) == frames;
            let number = numbers.first().copied().unwrap_or(T::from(1.0));
            is_one.then_some(number).ok_or(Refusal::Record)
        }
    }
}

/// A buffer for a constant, repeated for each frame of a block.
#[derive(Debug)]
struct Spread<T> {
    /// All the same number, from an earlier block.
    held: Vec<T>,
}

impl<T: Number> Spread<T> {
    /// One frame more than a block can have: that is refused, so more is never needed.
    const ROOM: usize = MAX_BLOCK_FRAMES + 1;

    fn new() -> Self {
        Self {
            held: Vec::with_capacity(Self::ROOM),
        }
    }

    fn slice<'a>(&'a mut self, lane: Lane<'a, T>, frames: usize) -> &'a [T] {
        match lane {
            Lane::PerFrame(numbers) => numbers,
            Lane::Constant(number) => self.spread(number, frames.min(Self::ROOM)),
        }
    }

    fn spread(&mut self, number: T, frames: usize) -> &[T] {
        // Most lanes are ones. All voices share them, so they stay in the cache.
        if number.same_bits(T::ONES[0]) {
            return &T::ONES[..frames];
        }
        if self
            .held
            .first()
            .is_some_and(|held| !held.same_bits(number))
        {
            self.held.clear();
        }
        if self.held.len() < frames {
            self.held.resize(frames, number);
        }
        &self.held[..frames]
    }
}

/// A clone has the same capacity; a cloned `Vec` would only have capacity for its contents.
impl<T: Number> Clone for Spread<T> {
    fn clone(&self) -> Self {
        let mut room = Self::new();
        room.held.extend_from_slice(&self.held);
        room
    }
}

/// A number that is compared by its bits: minus zero is refused, zero is not.
trait Number: Copy + 'static {
    /// As many ones as a lane ever needs.
    const ONES: &'static [Self];

    fn same_bits(self, other: Self) -> bool;
}

impl Number for f32 {
    const ONES: &'static [Self] = &[1.0; MAX_BLOCK_FRAMES + 1];

    fn same_bits(self, other: Self) -> bool {
        self.to_bits() == other.to_bits()
    }
}

impl Number for f64 {
    const ONES: &'static [Self] = &[1.0; MAX_BLOCK_FRAMES + 1];

    fn same_bits(self, other: Self) -> bool {
        self.to_bits() == other.to_bits()
    }
}

#[cfg(test)]
mod test {
    use super::*;

    #[test]
    fn a_constant_is_spread_anew_when_it_changes() {
        let mut lanes = Lanes::new();
        for (number, frames) in [
            (1.0, 3),
            (0.5, 3),
            (1.0, 4),
            (0.5, 2),
            (0.5, 5),
            (0.25, 4),
            (0.0, 4),
            (-0.0, 4),
        ] {
            let lanes_of = lanes.frames(frames).fade(number).into_ffi();
            assert_eq!(lanes_of.fade.len(), frames);
            for held in lanes_of.fade {
                assert_eq!(held.to_bits(), f32::to_bits(number));
            }
        }
    }

    #[test]
    fn room_is_made_once() {
        room_of(Lanes::new());
        let mut used = Lanes::new();
        let _ = used.frames(5).fade(0.5).into_ffi();
        room_of(used.clone());
    }

    fn room_of(mut lanes: Lanes) {
        let room = lanes.rate.held.as_ptr();
        for frames in [0, 1, 4_096, usize::MAX] {
            let lanes_of = lanes.frames(frames).rate(0.5 + frames as f64).into_ffi();
            assert_eq!(lanes_of.rate.len(), frames.min(4_097));
            assert_eq!(lanes_of.rate.as_ptr(), room);
        }
    }
}
