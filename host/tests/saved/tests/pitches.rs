//! The rate with a pitch: the table by its rule, the product rounded once, and the distance to kira's power.

use cableowl::{SavedSettings, StaticSound};
use random::Random;

fn raised(playback_rate: f64, pitch: i8) -> f64 {
    let saved = SavedSettings {
        playback_rate,
        pitch,
        ..SavedSettings::default()
    };
    saved.settings(48_000).playback_rate
}

#[test]
fn each_ratio_is_its_fraction() {
    for pitch in -24..=24 {
        assert_eq!(
            raised(1.0, pitch).to_bits(),
            saved::ratio(pitch.into()).to_bits()
        );
    }
    assert_eq!(saved::semitone(0), 281_474_976_710_656);
    assert_eq!(saved::semitone(1), 298_212_349_810_582);
    assert_eq!(saved::semitone(11), 531_354_000_359_732);
}

#[test]
fn a_rate_is_rounded_once() {
    let ratios: Vec<f64> = (-24..=24).map(saved::ratio).collect();
    let mut random = Random::new(115);
    for _ in 0..1_000_000 {
        let rate = match random.below(3) {
            0 => f64::from_bits(random.word()),
            1 => random.with_exponent(-1074..-1000),
            _ => random.unit() * 4.0 - 2.0,
        };
        if !rate.is_finite() {
            continue;
        }
        let pitch = random.below(49);
        let expected = rate * ratios[pitch];
        assert_eq!(raised(rate, pitch as i8 - 24).to_bits(), expected.to_bits());
    }
    // Both zeros keep their sign.
    assert_eq!(raised(-0.0, 7).to_bits(), (-0.0_f64).to_bits());
}

#[test]
fn an_infinite_product_is_creation_s_to_refuse() {
    let saved = SavedSettings {
        playback_rate: f64::MAX,
        pitch: 1,
        ..SavedSettings::default()
    };
    let mut record = [0; 26];
    saved
        .store(cableowl::SettingsVersion::Second, &mut record)
        .unwrap();
    let (loaded, _) = SavedSettings::load(cableowl::SettingsVersion::Second, &record).unwrap();
    assert_eq!(loaded, saved);
    let refusal = StaticSound::new(loaded.settings(48_000), &[0.0; 4]).unwrap_err();
    assert_eq!(refusal.number(), 7);
}

/// docs/DIFFERENCES.md has these figures. The power is the platform's, so the test checks a bound and not the figure.
#[test]
fn how_far_from_a_computed_power() {
    let mut differ = Vec::new();
    for pitch in -24..=24_i8 {
        let power = 2.0_f64.powf(f64::from(pitch) / 12.0);
        let apart = raised(1.0, pitch).to_bits().abs_diff(power.to_bits());
        // An entry has 49 bits, an f64 53.
        assert!(apart <= 16, "{pitch}: {apart}");
        if apart > 0 {
            differ.push((pitch, apart));
        }
    }
    println!(
        "{} of 49 differ, (pitch, units in the last place): {differ:?}",
        differ.len()
    );
}
