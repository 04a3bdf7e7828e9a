//! The numbers: fractions of a frame, seconds to frames, and the predicates on floats.

use oracle::{LIMIT, same_f64};
use random::Random;

use crate::{Tally, calls, doubles};

pub use calls::{
    cableowl_test_cut as cut, cableowl_test_magnitude as magnitude, cableowl_test_narrow as narrow,
    cableowl_test_round_half_away as round_half_away,
};

/// The steps and the remaining fraction after an advance.
#[must_use]
pub fn advance_by(fraction: f64, advance: f64) -> (u64, f64) {
    let calls::Moved { steps, rest } = calls::cableowl_test_advance_by(fraction, advance);
    (steps, rest)
}

/// Whether it is neither a NaN nor an infinity.
#[must_use]
pub fn is_finite(x: f64) -> bool {
    calls::cableowl_test_is_finite(x) != 0
}

/// Whether its sign bit is set; a NaN is not negative.
#[must_use]
pub fn is_negative(x: f64) -> bool {
    calls::cableowl_test_is_negative(x) != 0
}

/// Whether it is at least 0 and below 1 with its sign bit clear.
#[must_use]
pub fn is_proper(x: f64) -> bool {
    calls::cableowl_test_is_proper(x) != 0
}

/// Whether it is finite with its sign bit clear.
#[must_use]
pub fn is_finite_clear(x: f32) -> bool {
    calls::cableowl_test_is_finite_clear(x) != 0
}

/// Whether it is exactly positive zero.
#[must_use]
pub fn is_positive_zero(x: f32) -> bool {
    calls::cableowl_test_is_positive_zero(x) != 0
}

/// Compares every function with Rust's own on this many random doubles. Returns a tally for each.
#[must_use]
pub fn compare(count: u64, seed: u64) -> [Tally; 6] {
    let mut random = Random::new(seed);
    let mut narrows = Tally::new("narrow and `as f32`");
    let mut rounds = Tally::new("round_half_away and `round`");
    let mut cuts = Tally::new("cut and `as u64`");
    let mut magnitudes = Tally::new("magnitude and `abs`");
    let mut advances = Tally::new("advance_by and kira's `while`");
    let mut tests = Tally::new("the tests on floats and Rust's");
    for _ in 0..count {
        let x = doubles::any(&mut random);
        let fraction = doubles::fraction(&mut random);
        let sample = doubles::any_f32(&mut random);
        let advance = random.unit() * [1.0, 4.0, 256.0][random.below(3)];
        narrows.count(narrows_alike(fraction) && narrows_alike(x), || {
            format!("{fraction:?} or {x:?}")
        });
        rounds.count(round_half_away(x) == capped(x.round()), || format!("{x:?}"));
        cuts.count(cut(x) == capped(x), || format!("{x:?}"));
        magnitudes.count(same_f64(magnitude(x), x.abs()), || format!("{x:?}"));
        advances.count(advances_alike(fraction, advance), || {
            format!("{fraction:?} + {advance:?}")
        });
        tests.count(tests_alike(x, sample), || format!("{x:?}, {sample:?}"));
    }
    [narrows, rounds, cuts, magnitudes, advances, tests]
}

/// Rust's saturating cast, limited to 2^32.
fn capped(x: f64) -> u64 {
    (x as u64).min(LIMIT as u64)
}

/// The bits of Rust's cast of a proper fraction; otherwise positive zero.
fn narrows_alike(x: f64) -> bool {
    let expected = if proper(x) { x as f32 } else { 0.0 };
    narrow(x).to_bits() == expected.to_bits()
}

fn proper(x: f64) -> bool {
    x.is_sign_positive() && x < 1.0
}

/// kira's own lines: add, then subtract 1 and count while the sum is at least 1.
fn advances_alike(fraction: f64, advance: f64) -> bool {
    let (mut steps, mut rest) = (0, fraction + advance);
    while rest >= 1.0 {
        rest -= 1.0;
        steps += 1;
    }
    let ours = advance_by(fraction, advance);
    ours.0 == steps && ours.1.to_bits() == rest.to_bits()
}

fn tests_alike(x: f64, sample: f32) -> bool {
    is_finite(x) == x.is_finite()
        && is_negative(x) == (!x.is_nan() && x.is_sign_negative())
        && is_proper(x) == proper(x)
        && is_finite_clear(sample) == (sample.is_finite() && sample.is_sign_positive())
        && is_positive_zero(sample) == (sample.to_bits() == 0)
}
