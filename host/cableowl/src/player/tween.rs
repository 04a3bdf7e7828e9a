//! Tweens and the parameters that they move. The value of a frame depends only on the number of frames
//! since the command.

use std::time::Duration;

use super::easing::Easing;
use crate::Lane;

/// How a parameter moves to its new value: kira's `Tween`. The default is a straight line over 10
/// milliseconds, without a delay.
///
/// In a tween of n frames, frame i (counted from 1) is at i / n of the time, and the [`Easing`] says how
/// much of the way that is. Frame n has the new value. A tween of 0 frames is like one of 1: the next
/// frame has the new value. Block sizes do not matter.
///
/// ```
/// use std::time::Duration;
///
/// use cableowl::{Easing, Tween};
///
/// let tween = Tween { duration: Duration::from_millis(250), ..Tween::default() };
/// assert_eq!(tween, Tween::from_millis(250));
/// assert_eq!(tween, Duration::from_millis(250).into());
/// assert_eq!(Tween::default(), Tween::from_millis(10));
///
/// let later = tween.easing(Easing::OutPowi(3)).delayed(Duration::from_secs(2));
/// assert_eq!((later.easing, later.delay), (Easing::OutPowi(3), Duration::from_secs(2)));
/// ```
#[derive(Debug, Clone, Copy, PartialEq)]
pub struct Tween {
    /// Rounded to whole frames of the output, a half up.
    pub duration: Duration,
    /// The curve.
    pub easing: Easing,
    /// How long the parameter keeps its old value first: kira's `start_time` with `StartTime::Delayed`.
    /// It is rounded like the duration.
    #[doc(alias = "start_time")]
    #[doc(alias = "Delayed")]
    pub delay: Duration,
}

impl Tween {
    /// No duration: the next frame has the new value.
    pub const AT_ONCE: Self = Self::from_millis(0);

    /// A tween of this many milliseconds.
    #[must_use]
    pub const fn from_millis(millis: u64) -> Self {
        Self {
            duration: Duration::from_millis(millis),
            easing: Easing::Linear,
            delay: Duration::ZERO,
        }
    }

    /// Sets the curve.
    #[must_use]
    pub const fn easing(mut self, easing: Easing) -> Self {
        self.easing = easing;
        self
    }

    /// Sets the delay.
    #[must_use]
    pub const fn delayed(mut self, delay: Duration) -> Self {
        self.delay = delay;
        self
    }

    /// The tween in frames of output.
    pub(super) fn ramp(self, output_rate: u32) -> Ramp {
        Ramp {
            delay: frames(self.delay, output_rate),
            frames: frames(self.duration, output_rate),
            easing: self.easing,
        }
    }
}

/// The largest duration in frames: 186 years at 48 kHz.
pub const MOST_FRAMES: u64 = 1 << 48;

/// A duration in frames of output, a half up.
pub fn frames(duration: Duration, output_rate: u32) -> u64 {
    let second = 1_000_000_000;
    let product = duration.as_nanos().saturating_mul(output_rate.into());
    let frames = product.saturating_add(second / 2) / second;
    u64::try_from(frames).unwrap_or(u64::MAX).min(MOST_FRAMES)
}

impl Default for Tween {
    fn default() -> Self {
        Self::from_millis(10)
    }
}

impl From<Duration> for Tween {
    fn from(duration: Duration) -> Self {
        Self {
            duration,
            ..Self::AT_ONCE
        }
    }
}

/// A tween in frames.
#[derive(Debug, Clone, Copy, PartialEq)]
pub struct Ramp {
    pub delay: u64,
    pub frames: u64,
    pub easing: Easing,
}

/// A value that a tween can move.
pub trait Tweenable: Copy {
    /// The value after `passed` of `frames` frames on the straight line from `from` to `to`,
    /// 0 < passed < frames.
    fn between(from: Self, to: Self, passed: u64, frames: u64) -> Self;

    /// The value when this part of the way is done, 0 to 1.
    fn part(from: Self, to: Self, way: f64) -> Self;
}

/// Tenths of a decibel, rounded down like a ramp's (`crates/decibels`): the tween is the ramp of one
/// frame more, without the first frame, which has the old level.
impl Tweenable for u16 {
    fn between(from: Self, to: Self, passed: u64, frames: u64) -> Self {
        (weighted(from, to, passed, frames) / frames) as Self
    }

    fn part(from: Self, to: Self, way: f64) -> Self {
        let (from, to) = (f64::from(from), f64::from(to));
        // Not below 0, so the cast rounds down.
        (from + (to - from) * way) as Self
    }
}

/// The dividend of a level on the way: both ends, weighted by the frames.
fn weighted(from: u16, to: u16, passed: u64, frames: u64) -> u64 {
    u64::from(from) * (frames - passed) + u64::from(to) * passed
}

/// Rates and pannings, never past either end: what is accepted at both ends is accepted in between.
impl Tweenable for f64 {
    fn between(from: Self, to: Self, passed: u64, frames: u64) -> Self {
        part_way(from, to, passed as Self / frames as Self)
    }

    fn part(from: Self, to: Self, way: f64) -> Self {
        part_way(from, to, way)
    }
}

/// The number when this part of the way is done.
fn part_way(from: f64, to: f64, way: f64) -> f64 {
    let value = from + (to - from) * way;
    let (low, high) = if from <= to { (from, to) } else { (to, from) };
    // By comparisons, which leave a zero its sign on every machine.
    let value = if value < low { low } else { value };
    if value > high { high } else { value }
}

/// A number that tweens move. Frames are counted from the player's first.
#[derive(Debug, Clone, Copy, PartialEq)]
pub struct Parameter<T> {
    pub from: T,
    pub to: T,
    /// The first frame of the tween, after its delay.
    pub starts: u64,
    pub frames: u64,
    pub easing: Easing,
}

impl<T: Tweenable> Parameter<T> {
    /// A parameter at rest.
    pub fn new(value: T) -> Self {
        Self {
            from: value,
            to: value,
            starts: 0,
            frames: 0,
            easing: Easing::Linear,
        }
    }

    /// Moves it from its value before this frame to another value.
    pub fn set(&mut self, to: T, frame: u64, ramp: Ramp) {
        *self = Self {
            from: self.before(frame),
            to,
            starts: frame.saturating_add(ramp.delay),
            frames: ramp.frames,
            easing: ramp.easing,
        };
    }

    /// The value of a frame, not before the last command.
    pub fn at(&self, frame: u64) -> T {
        self.after(frame.saturating_add(1).saturating_sub(self.starts))
    }

    /// The value before a frame, from which a new tween starts.
    pub fn before(&self, frame: u64) -> T {
        self.after(frame.saturating_sub(self.starts))
    }

    /// The value after this many frames of the tween.
    fn after(&self, passed: u64) -> T {
        match (passed, self.easing) {
            (0, _) => self.from,
            _ if passed >= self.frames => self.to,
            (_, Easing::Linear) => T::between(self.from, self.to, passed, self.frames),
            (_, easing) => {
                let time = passed as f64 / self.frames as f64;
                T::part(self.from, self.to, easing.way(time))
            }
        }
    }

    /// The first frame that has the new value.
    pub fn ends(&self) -> u64 {
        self.starts.saturating_add(self.frames.saturating_sub(1))
    }

    /// Splits the lane of the frames from `frame` on: those before the tween, those on the way and
    /// those at the end; beside them the number in the tween, from 1, of the first on the way.
    fn split<'a, N>(&self, frame: u64, lane: &'a mut [N]) -> Split<'a, N> {
        let frames = lane.len() as u64;
        let waits = self.starts.saturating_sub(frame).min(frames);
        let passed = frame.saturating_sub(self.starts).saturating_add(1);
        let ahead = self.frames.saturating_sub(passed).min(frames - waits);
        let (before, rest) = first_of(lane, waits);
        let (on_the_way, at_the_end) = first_of(rest, ahead);
        Split {
            before,
            passed,
            on_the_way,
            at_the_end,
        }
    }

    /// The value of all these frames, if it does not move.
    fn at_rest(&self, frame: u64, frames: usize) -> Option<T> {
        match frame {
            _ if frame >= self.ends() => Some(self.to),
            _ if frame.saturating_add(frames as u64) <= self.starts => Some(self.from),
            _ => None,
        }
    }
}

/// A lane's frames before a tween, on the way and at its end.
struct Split<'a, N> {
    before: &'a mut [N],
    passed: u64,
    on_the_way: &'a mut [N],
    at_the_end: &'a mut [N],
}

/// A slice's first numbers, and the others.
fn first_of<N>(lane: &mut [N], count: u64) -> (&mut [N], &mut [N]) {
    lane.split_at_mut_checked(count as usize)
        .unwrap_or_default()
}

impl Parameter<u16> {
    /// The lane of the frames from `frame` on, as many as `lane` has: one number if it does not move,
    /// otherwise one for each.
    #[inline]
    pub fn lane<'a>(
        &self,
        frame: u64,
        lane: &'a mut [f32],
        number: impl Fn(u16) -> f32,
    ) -> Lane<'a, f32> {
        match self.at_rest(frame, lane.len()) {
            Some(level) => Lane::Constant(number(level)),
            None => self.moving(frame, lane, number),
        }
    }

    /// A number for each frame. It computes a run of equal levels at once, with one division; where runs are
    /// short, it steps from frame to frame without one.
    #[inline(never)]
    fn moving<'a>(
        &self,
        frame: u64,
        lane: &'a mut [f32],
        number: impl Fn(u16) -> f32,
    ) -> Lane<'a, f32> {
        let Split {
            before,
            passed,
            on_the_way,
            at_the_end,
        } = self.split(frame, lane);
        before.fill(number(self.from));
        at_the_end.fill(number(self.to));
        match self.easing {
            _ if on_the_way.is_empty() => {}
            Easing::Linear if self.frames / 8 >= self.change().unsigned_abs() => {
                self.by_runs(passed, on_the_way, number);
            }
            Easing::Linear => self.by_steps(passed, on_the_way, number),
            _ => {
                for (slot, passed) in on_the_way.iter_mut().zip(passed..) {
                    *slot = number(self.after(passed));
                }
            }
        }
        Lane::PerFrame(lane)
    }

    /// What the tween adds to the level in all.
    fn change(&self) -> i64 {
        i64::from(self.to) - i64::from(self.from)
    }

    /// The level of a frame on the way, and the remainder of its division. The next frame's dividend is
    /// larger by `change`.
    fn divided(&self, passed: u64) -> (u64, u64) {
        let sum = weighted(self.from, self.to, passed, self.frames);
        (sum / self.frames, sum % self.frames)
    }

    /// Fills run after run of frames that have the same level.
    fn by_runs(&self, mut passed: u64, mut lane: &mut [f32], number: impl Fn(u16) -> f32) {
        let change = self.change();
        while !lane.is_empty() {
            let (level, rest) = self.divided(passed);
            let run = match change {
                0 => u64::MAX,
                1.. => (self.frames - rest).div_ceil(change.unsigned_abs()),
                _ => rest / change.unsigned_abs() + 1,
            };
            let run = run.min(lane.len() as u64);
            let (now, later) = lane.split_at_mut_checked(run as usize).unwrap_or_default();
            now.fill(number(level as u16));
            (lane, passed) = (later, passed + run);
        }
    }

    /// Fills frame after frame: quotient and remainder of the last one, plus `change`.
    fn by_steps(&self, passed: u64, lane: &mut [f32], number: impl Fn(u16) -> f32) {
        let (mut level, mut rest) = self.divided(passed);
        let (change, frames) = (self.change(), self.frames as i64);
        let (whole, part) = (change.div_euclid(frames), change.rem_euclid(frames) as u64);
        for slot in lane {
            *slot = number(level as u16);
            rest += part;
            let carry = rest >= self.frames;
            rest -= if carry { self.frames } else { 0 };
            level = level.wrapping_add_signed(whole + i64::from(carry));
        }
    }
}

impl Parameter<f64> {
    /// The lane of the frames from `frame` on, as many as `lane` has: one number if it does not move,
    /// otherwise one for each.
    #[inline]
    pub fn lane<'a>(&self, frame: u64, lane: &'a mut [f64]) -> Lane<'a, f64> {
        match self.at_rest(frame, lane.len()) {
            Some(number) => Lane::Constant(number),
            None => self.moving(frame, lane),
        }
    }

    /// A number for each frame. The loop is written so that it vectorises.
    #[inline(never)]
    fn moving<'a>(&self, frame: u64, lane: &'a mut [f64]) -> Lane<'a, f64> {
        let Split {
            before,
            passed,
            on_the_way,
            at_the_end,
        } = self.split(frame, lane);
        before.fill(self.from);
        at_the_end.fill(self.to);
        match self.easing {
            Easing::Linear => {
                // Frames are counted exactly: a tween has at most 2^48.
                let (first, frames) = (passed as f64, self.frames as f64);
                for (i, slot) in on_the_way.iter_mut().enumerate() {
                    let passed = first + f64::from(i as u32);
                    *slot = part_way(self.from, self.to, passed / frames);
                }
            }
            _ => {
                for (slot, passed) in on_the_way.iter_mut().zip(passed..) {
                    *slot = self.after(passed);
                }
            }
        }
        Lane::PerFrame(lane)
    }

    /// Whether a lane of its values can have both signs. The values lie between both ends.
    pub fn may_turn(&self) -> bool {
        !(self.from > 0.0 && self.to > 0.0 || self.from < 0.0 && self.to < 0.0)
    }
}

#[cfg(test)]
mod test {
    use random::Random;

    use super::{
        super::room::{gain_lanes, gains},
        *,
    };
    use crate::{Level, fade_ramp};

    fn straight(frames: u64) -> Ramp {
        Ramp {
            delay: 0,
            frames,
            easing: Easing::Linear,
        }
    }

    #[test]
    fn a_delayed_tween_keeps_the_old_value_first() {
        let mut parameter = Parameter::new(1.0);
        let delayed = Ramp {
            delay: 3,
            ..straight(2)
        };
        parameter.set(2.0, 7, delayed);
        let values: Vec<f64> = (7..13).map(|frame| parameter.at(frame)).collect();
        assert_eq!(values, [1.0, 1.0, 1.0, 1.5, 2.0, 2.0]);
        assert_eq!((parameter.before(10), parameter.ends()), (1.0, 11));
        let mut room = [0.0; 3];
        let lane = parameter.lane(7, &mut room);
        assert!(matches!(lane, Lane::Constant(1.0)));
        let lane = parameter.lane(9, &mut room);
        assert!(matches!(lane, Lane::PerFrame([1.0, 1.5, 2.0])));
    }

    #[test]
    fn a_tween_of_levels_is_the_ramp_of_one_frame_more_without_its_first() {
        for (from, to) in [(0, 601), (601, 0), (0, 1), (1, 0), (37, 412), (600, 600)] {
            for frames in [1, 2, 3, 7, 600, 601, 602, 4_800] {
                let mut ramp = vec![0.0; frames + 1];
                let level = |tenths: u16| Level::new(tenths.into()).unwrap();
                fade_ramp(level(from), level(to), &mut ramp).unwrap();
                let mut parameter = Parameter::new(from);
                parameter.set(to, 100, straight(frames as u64));
                for (i, amplitude) in ramp.iter().enumerate() {
                    let before = level(parameter.before(100 + i as u64)).amplitude();
                    assert_eq!(before.to_bits(), amplitude.to_bits());
                }
                assert_eq!(parameter.at(parameter.ends()), to);
            }
        }
    }

    /// Whether a lane has these numbers, by their bits.
    fn has<N: Copy>(lane: Lane<N>, mut each: impl Iterator<Item = N>, bits: fn(N) -> u64) -> bool {
        match lane {
            Lane::Constant(number) => each.all(|value| bits(value) == bits(number)),
            Lane::PerFrame(numbers) => numbers.iter().copied().map(bits).eq(each.map(bits)),
        }
    }

    /// Levels, rates, pannings and gains of random tweens; PLAYER_ROUNDS says of how many.
    #[test]
    fn a_lane_has_the_value_of_each_frame() {
        let rounds = std::env::var("PLAYER_ROUNDS").map_or(20_000, |word| word.parse().unwrap());
        let bits = |number: f32| number.to_bits().into();
        let mut random = Random::new(34);
        let mut numbers = [0.0; 4_096];
        let (mut left, mut right) = ([0.0; 4_096], [0.0; 4_096]);
        let mut compared = 0;
        for _ in 0..rounds {
            let frames = match random.below(4) {
                0 => random.below(20) as u64,
                1 => random.below(2_000) as u64,
                2 => random.below(100_000) as u64,
                _ => random.word() >> (16 + random.below(48)),
            };
            let set_at = random.word() >> (2 + random.below(60));
            let ramp = Ramp {
                delay: match random.below(3) {
                    0 => random.below(60) as u64,
                    _ => 0,
                },
                frames,
                easing: match random.below(6) {
                    0 => Easing::InOutPowi(3),
                    1 => Easing::OutPowf(1.5),
                    _ => Easing::Linear,
                },
            };
            let first = match random.coin() {
                true => set_at + random.below(40) as u64,
                false => set_at + frames.saturating_sub(random.below(5_000) as u64),
            };
            let most = [8, 100, 4_096][random.below(3)];
            let count = random.below(1 + most);
            compared += count;
            let (left, right) = (&mut left[..count], &mut right[..count]);

            let mut level = Parameter::new(random.below(602) as u16);
            level.set(random.below(602) as u16, set_at, ramp);
            let each = (first..).take(count).map(|frame| level.at(frame).into());
            let lane = level.lane(first, left, f32::from);
            assert!(has(lane, each, bits), "{level:?} {first} {count}");

            let mut end = || match random.below(5) {
                0 => [0.0, -0.0, 1.0, -1.0, 256.0][random.below(5)],
                1 => random.with_exponent(-1_022..8),
                2 => -random.with_exponent(-60..8),
                _ => 2.0 * random.unit() - 1.0,
            };
            let mut number = Parameter::new(end());
            number.set(end(), set_at, ramp);
            let each = || (first..).take(count).map(|frame| number.at(frame));
            let lane = number.lane(first, &mut numbers[..count]);
            assert!(
                has(lane, each(), f64::to_bits),
                "{number:?} {first} {count}"
            );
            let negative = each().filter(|value| value.is_sign_negative()).count();
            let turns = negative != 0 && negative != count;
            assert!(!turns || number.may_turn(), "{number:?} {first} {count}");
            let (left, right) = gain_lanes(lane, left, right);
            let is_left = has(left, each().map(|panning| gains(panning).0), bits);
            let is_right = has(right, each().map(|panning| gains(panning).1), bits);
            assert!(is_left && is_right, "{number:?} {first} {count}");
        }
        println!("{rounds} tweens of each kind, {compared} frames");
    }

    #[test]
    fn a_tween_of_no_frames_is_one_of_one() {
        for frames in [0, 1] {
            let mut parameter = Parameter::new(1.0);
            parameter.set(2.0, 7, straight(frames));
            assert_eq!(
                (parameter.before(7), parameter.at(7), parameter.ends()),
                (1.0, 2.0, 7)
            );
        }
    }

    #[test]
    fn no_value_lies_past_an_end() {
        let ends = [0.1, 0.3, -0.7, 1.0 / 3.0, 256.0, -1.0e-300, 0.0, -0.0];
        for (from, to) in ends.into_iter().flat_map(|a| ends.map(|b| (a, b))) {
            for frames in [2, 3, 7, 49, 1_000, 99_991] {
                let mut parameter = Parameter::new(from);
                parameter.set(to, 0, straight(frames));
                let mut last: f64 = from;
                for frame in (0..frames).step_by(1 + frames as usize / 1_000) {
                    let value = parameter.at(frame);
                    assert!(value >= from.min(to) && value <= from.max(to));
                    assert!(if from <= to {
                        value >= last
                    } else {
                        value <= last
                    });
                    last = value;
                }
            }
        }
    }

    #[test]
    fn frames_of_a_tween() {
        assert_eq!(frames(Duration::from_millis(250), 48_000), 12_000);
        assert_eq!(frames(Duration::from_micros(10), 50_000), 1, "a half up");
        assert_eq!(frames(Duration::from_nanos(9_999), 50_000), 0);
        assert_eq!(frames(Duration::MAX, u32::MAX), 1 << 48);
    }
}
