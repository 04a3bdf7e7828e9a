// Stand-in for kira's Parameter: a lane in place of a tween, and a held value. For the benchmark (host/judges/timed,
// cfg `timed`) it counts nothing and reads its lane without a bounds check.

use std::cell::Cell;

use crate::{Decibels, Panning, PlaybackRate, Tween, Value, info::Info};

/// A type whose parameter a lane can replace.
pub trait Laned: Copy {
    /// The lane's numbers.
    type Store: Default;

    /// The lane's value at an output frame.
    fn at(store: &Self::Store, frame: usize) -> Self;
}

/// A lane's number.
#[cfg(not(timed))]
#[inline]
fn entry<T: Copy>(lane: &[T], frame: usize) -> T {
    lane[frame]
}

/// The same, for the benchmark.
#[cfg(timed)]
#[inline]
fn entry<T: Copy>(lane: &[T], frame: usize) -> T {
    debug_assert!(frame < lane.len());
    // SAFETY: kira reads once per output frame, and `Oracle::block_frames` has checked that every lane has at least as
    // many numbers.
    unsafe { *lane.get_unchecked(frame) }
}

impl Laned for Decibels {
    type Store = Vec<f32>;

    #[inline]
    fn at(store: &Vec<f32>, frame: usize) -> Self {
        Self(entry(store, frame))
    }
}

impl Laned for Panning {
    type Store = (Vec<f32>, Vec<f32>);

    #[inline]
    fn at((left, right): &(Vec<f32>, Vec<f32>), frame: usize) -> Self {
        Self(entry(left, frame), entry(right, frame))
    }
}

impl Laned for PlaybackRate {
    type Store = Vec<f64>;

    #[inline]
    fn at(store: &Vec<f64>, frame: usize) -> Self {
        Self(entry(store, frame))
    }
}

/// A held value, and the lane that a block reads instead.
pub struct Parameter<T: Laned> {
    held: T,
    asked: Cell<u64>,
    lane: T::Store,
    next_frame: Cell<usize>,
}

impl<T: Laned> Parameter<T> {
    pub fn new(Value::Fixed(held): Value<T>, _default: T) -> Self {
        Self {
            held,
            asked: Cell::new(0),
            lane: T::Store::default(),
            next_frame: Cell::new(0),
        }
    }

    /// Sets the held value at once.
    pub fn set(&mut self, Value::Fixed(held): Value<T>, _tween: Tween) {
        self.held = held;
    }

    /// Begins a block: the lane is read from its first frame. Returns whether the fade has finished.
    pub fn update(&mut self, _dt: f64, info: &Info) -> bool {
        self.next_frame.set(0);
        info.finished
    }

    /// The held value. Each call is counted.
    #[inline]
    pub fn value(&self) -> T {
        if cfg!(not(timed)) {
            self.asked.set(self.asked.get() + 1);
        }
        self.held
    }

    /// The lane's value at the next output frame: kira reads once per frame, in order.
    #[inline]
    pub fn interpolated_value(&self, _amount: f64) -> T {
        let frame = self.next_frame.get();
        self.next_frame.set(frame + 1);
        T::at(&self.lane, frame)
    }

    /// The held value, without counting.
    pub fn held(&self) -> T {
        self.held
    }

    /// How often [`Parameter::value`] was called since the last call of this function.
    pub fn take_asked(&self) -> u64 {
        self.asked.take()
    }

    /// The lane's numbers.
    pub fn lane(&mut self) -> &mut T::Store {
        &mut self.lane
    }
}
