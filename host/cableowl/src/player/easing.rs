//! The curves of tweens. They use only sums, products and quotients, each rounded once, so they give the
//! same bits on every processor; a library's `pow` does not promise that.

use std::hint::black_box;

use crate::float_mode;

/// The curve of a [`Tween`](crate::Tween): kira's `Easing`, with kira's names.
///
/// A curve maps the part of the time that has passed to the part of the way that is done, both from 0 to
/// 1. With a power of 0 or below, or NaN, it is at the end at once.
///
/// ```
/// use std::time::Duration;
///
/// use cableowl::{Easing, Level, Player, Settings, Tween};
///
/// let sound = [0.5; 200];
/// let mut player = Player::play(Settings::new(1_000), 1_000, &sound)?;
/// // Over 4 frames: 1/16, 1/4, 9/16 and all of the 60 decibels.
/// player.set_volume(Level::new(600)?, Tween::from_millis(4).easing(Easing::InPowi(2)));
/// let mut out = [0.0; 2];
/// for tenths in [37, 150, 337, 600] {
///     player.process(&sound, &mut out)?;
///     assert_eq!(player.volume(), Level::new(tenths)?);
/// }
/// # Ok::<(), cableowl::Refusal>(())
/// ```
#[derive(Debug, Clone, Copy, PartialEq, Default)]
pub enum Easing {
    /// A straight line.
    #[default]
    Linear,
    /// x^n: begins slowly.
    InPowi(i32),
    /// 1 - (1 - x)^n: ends slowly.
    OutPowi(i32),
    /// Begins and ends slowly: half of the way as `InPowi`, half as `OutPowi`.
    InOutPowi(i32),
    /// As `InPowi`, for any power.
    InPowf(f64),
    /// As `OutPowi`, for any power.
    OutPowf(f64),
    /// As `InOutPowi`, for any power.
    InOutPowf(f64),
}

impl Easing {
    /// The part of the way that is done when this part of the time has passed, 0 to 1.
    ///
    /// ```
    /// use cableowl::Easing;
    ///
    /// assert_eq!(Easing::InPowi(2).at(0.5), 0.25);
    /// assert_eq!(Easing::OutPowi(2).at(0.5), 0.75);
    /// ```
    #[must_use]
    pub fn at(self, time: f64) -> f64 {
        match time {
            _ if time >= 1.0 => 1.0,
            _ if time > 0.0 => float_mode::plain(|| black_box(black_box(self).way(time))),
            _ => 0.0,
        }
    }

    /// The same for 0 < x < 1, in the float mode of the thread.
    #[inline(never)]
    pub(super) fn way(self, x: f64) -> f64 {
        let way = match self {
            Self::Linear => x,
            Self::InPowi(power) => powi(x, power),
            Self::OutPowi(power) => 1.0 - powi(1.0 - x, power),
            Self::InOutPowi(power) => in_out(x, |x| powi(x, power)),
            Self::InPowf(power) => powf(x, power),
            Self::OutPowf(power) => 1.0 - powf(1.0 - x, power),
            Self::InOutPowf(power) => in_out(x, |x| powf(x, power)),
        };
        // A power of 0 or below gives a value past an end, or NaN.
        match way {
            _ if self.is_at_once() => 1.0,
            _ if way < 0.0 => 0.0,
            _ if way > 1.0 => 1.0,
            _ => way,
        }
    }

    /// Whether its power is not above 0.
    fn is_at_once(self) -> bool {
        match self {
            Self::Linear => false,
            Self::InPowi(power) | Self::OutPowi(power) | Self::InOutPowi(power) => power <= 0,
            Self::InPowf(power) | Self::OutPowf(power) | Self::InOutPowf(power) => {
                power.is_nan() || power <= 0.0
            }
        }
    }
}

fn in_out(x: f64, power: impl Fn(f64) -> f64) -> f64 {
    let x = x * 2.0;
    match x < 1.0 {
        true => 0.5 * power(x),
        false => 0.5 * (1.0 - power(2.0 - x)) + 0.5,
    }
}

/// x^power for a power above 0, by repeated squaring.
fn powi(x: f64, power: i32) -> f64 {
    let (mut result, mut square, mut rest) = (1.0, x, power.max(0));
    while rest > 0 {
        if rest % 2 == 1 {
            result *= square;
        }
        square *= square;
        rest /= 2;
    }
    result
}

/// x^power for 0 <= x <= 1 and a power above 0: 2^(power * log2(x)), within 1e-15 of the library's
/// (the test below).
fn powf(x: f64, power: f64) -> f64 {
    match x {
        _ if x < f64::MIN_POSITIVE => 0.0,
        _ if x >= 1.0 => 1.0,
        _ => exp2(power * log2(x)),
    }
}

/// The logarithm of a positive normal number, by the series of the area tangent.
fn log2(x: f64) -> f64 {
    let bits = x.to_bits();
    let exponent = (bits >> 52) as i32 - 1_023;
    let mantissa = f64::from_bits(bits & ((1 << 52) - 1) | 1_023 << 52);
    // From the square root of a half to that of 2.
    let (mantissa, exponent) = match mantissa > std::f64::consts::SQRT_2 {
        true => (mantissa * 0.5, exponent + 1),
        false => (mantissa, exponent),
    };
    let s = (mantissa - 1.0) / (mantissa + 1.0);
    let square = s * s;
    // 2 * (s + s^3 / 3 + s^5 / 5 + ...): 0.172^25 is below 2^-62.
    let odd = (0..12).rev().map(|i| f64::from(2 * i + 1));
    let sum = odd.fold(0.0, |sum, odd| sum * square + 1.0 / odd);
    f64::from(exponent) + 2.0 * s * sum * std::f64::consts::LOG2_E
}

/// 2^y for y at most 0, by the series of the exponential.
fn exp2(y: f64) -> f64 {
    if y < -1_000.0 {
        return 0.0;
    }
    let whole = (y - 0.5) as i64;
    let rest = (y - whole as f64) * std::f64::consts::LN_2;
    // 0.35^16 / 16! is below 2^-68.
    let factors = (1..16).rev().map(f64::from);
    let sum = factors.fold(1.0, |sum, factor| 1.0 + sum * rest / factor);
    sum * f64::from_bits(((whole + 1_023) as u64) << 52)
}

#[cfg(test)]
mod test {
    use super::*;

    const POWERS: [f64; 11] = [
        1.0e-9, 0.1, 0.5, 1.0, 1.5, 2.0, 3.7, 10.0, 37.5, 700.0, 1.0e300,
    ];

    fn parts() -> impl Iterator<Item = f64> {
        (1..10_000).map(|i| f64::from(i) / 10_000.0)
    }

    #[test]
    fn a_power_is_the_librarys_within_1e_15() {
        let mut most: f64 = 0.0;
        for power in POWERS {
            for x in parts() {
                most = most.max((powf(x, power) - x.powf(power)).abs());
            }
        }
        for power in [1, 2, 3, 7, 30, i32::MAX] {
            for x in parts() {
                most = most.max((powi(x, power) - x.powi(power)).abs());
            }
        }
        println!("off by at most {most:e}");
        assert!(most < 1.0e-15, "{most:e}");
    }

    #[test]
    fn no_curve_leaves_its_ends_or_turns_back() {
        let powers = [i32::MIN, -1, 0, 1, 2, 5, i32::MAX];
        let whole = powers.map(|p| [Easing::InPowi(p), Easing::OutPowi(p), Easing::InOutPowi(p)]);
        let odd = [f64::NAN, f64::NEG_INFINITY, -2.0, 0.0, f64::INFINITY];
        let any = POWERS.into_iter().chain(odd);
        let any = any.map(|p| [Easing::InPowf(p), Easing::OutPowf(p), Easing::InOutPowf(p)]);
        for easing in whole.into_iter().chain(any).flatten() {
            let mut last = 0.0;
            for x in parts() {
                let way = easing.at(x);
                assert!((0.0..=1.0).contains(&way), "{easing:?} at {x}: {way}");
                // The series may differ in the last place where it changes its halves.
                assert!(way >= last - 1.0e-14, "{easing:?} at {x}: {last}, {way}");
                last = way;
            }
            if easing.is_at_once() {
                assert_eq!(easing.at(1.0e-9), 1.0);
            }
        }
    }

    /// Worked out by hand from the formulas: exact in f64.
    #[test]
    fn curves_of_whole_powers() {
        let at = |easing: Easing| [0.25, 0.5, 0.75].map(|x| easing.at(x));
        assert_eq!(at(Easing::Linear), [0.25, 0.5, 0.75]);
        assert_eq!(at(Easing::InPowi(2)), [0.0625, 0.25, 0.5625]);
        assert_eq!(at(Easing::OutPowi(2)), [0.4375, 0.75, 0.9375]);
        assert_eq!(at(Easing::InOutPowi(2)), [0.125, 0.5, 0.875]);
        assert_eq!(at(Easing::InPowi(1)), at(Easing::Linear));
    }

    /// The bits that every processor must give.
    #[test]
    fn curves_of_any_power_by_their_bits() {
        let bits = |easing: Easing| easing.at(0.3).to_bits();
        assert_eq!(bits(Easing::InPowf(1.5)), 0x3fc5_0854_f2c3_d222);
        assert_eq!(bits(Easing::OutPowf(2.7)), 0x3fe3_c8ce_a76a_892c);
        assert_eq!(bits(Easing::InOutPowf(0.4)), 0x3fda_160f_dc35_d2cb);
    }
}
