//! A range of integers was frames and a range of floats was seconds. That `6..11` does not compile any more is an example
//! of `Frames` in the rustdoc.

use cableowl::{Frames, Region, Settings, StaticSound};

#[test]
fn a_range_of_frames_names_its_unit() {
    let looped = |region: Region| {
        let sound = vec![0.5; 40];
        let settings = Settings::new(1).loop_region(region);
        let state = StaticSound::new(settings, &sound).unwrap().state();
        state.loop_region
    };
    assert_eq!(looped((Frames(6)..Frames(11)).into()), Some((6, 11)));
    assert_eq!(looped((6.0..11.0).into()), Some((6, 11)));
    assert_eq!(looped((Frames(6)..).into()), Some((6, 20)));
    assert_eq!(looped((..Frames(11)).into()), Some((0, 11)));
}
