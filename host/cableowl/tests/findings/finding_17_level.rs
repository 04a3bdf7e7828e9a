//! A level could not be given in decibels.

use cableowl::{Level, Refusal};

#[test]
fn a_level_in_decibels_is_its_nearest_tenth() {
    for tenths in 0..=600 {
        let decibels = -(tenths as f32) / 10.0;
        assert_eq!(Level::decibels(decibels), Level::new(tenths));
    }
    let tenths = |decibels| Level::decibels(decibels).map(Level::tenths);
    assert_eq!(tenths(-6.04), Ok(60));
    assert_eq!(tenths(-6.06), Ok(61));
    assert_eq!(tenths(-0.0), Ok(0));
    assert_eq!(tenths(-60.04), Ok(600));
    assert_eq!(tenths(-60.06), Ok(601));
    assert_eq!(tenths(-1.0e30), Ok(601));
    for bad in [0.01, f32::INFINITY, f32::NAN] {
        assert_eq!(tenths(bad), Err(Refusal::Decibels));
    }
}
