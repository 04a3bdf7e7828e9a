//! Compares all 602 levels with the rule, and with the power that kira computes.

use cableowl::Level;

fn scaled(tenths: u32) -> u32 {
    let amplitude = Level::new(tenths).unwrap().amplitude();
    let scaled = f64::from(amplitude) * 16_777_216.0;
    assert_eq!(scaled.fract(), 0.0);
    scaled as u32
}

#[test]
fn each_level_keeps_the_rule() {
    for t in 0..=600 {
        let e = scaled(t);
        assert!(fades::fits(e, t), "level {t}: {e} is too high");
        assert!(!fades::fits(e + 1, t), "level {t}: {e} is too low");
    }
    assert_eq!(Level::SILENCE.amplitude().to_bits(), 0);
}

#[test]
fn a_search_by_halves_finds_the_same() {
    for t in (0..=600).step_by(23) {
        assert_eq!(scaled(t), fades::largest(t), "level {t}");
    }
}

#[test]
fn values_worked_out_by_hand() {
    let known = [
        (0, 16_777_216),
        (1, 16_585_168),
        (2, 16_395_319),
        (3, 16_207_644),
        (60, 8_408_526),
        (600, 16_777),
    ];
    for (t, e) in known {
        assert_eq!(scaled(t), e);
    }
}

/// docs/DIFFERENCES.md has these figures. The power in f32 is the platform's, so the test checks a bound and not the
/// figure.
#[test]
fn how_far_from_a_computed_power() {
    let (mut furthest, mut at, mut differ) = (0.0, 0, 0);
    for t in 0..=600 {
        let ours = f64::from(Level::new(t).unwrap().amplitude());
        let power = f64::from(10.0_f32.powf(-(t as f32 / 10.0) / 20.0));
        let apart = (ours - power).abs();
        differ += u32::from(apart > 0.0);
        if apart > furthest {
            (furthest, at) = (apart, t);
        }
    }
    let units = furthest * 16_777_216.0;
    println!("{differ} of 601 differ, at most by {furthest:e} ({units} / 2^24), at level {at}");
    assert!(units <= 4.0);
}
