//! A start could not be delayed by a duration.

use std::time::Duration;

use cableowl::{Player, Settings};

#[test]
fn a_start_is_delayed_by_a_duration() {
    for delay in [0, 1, 7, 50] {
        let sound = [0.5; 200];
        let settings = Settings::new(1_000).start_waits(true);
        let mut player = Player::play(settings, 1_000, &sound).unwrap();
        player.process(&sound, &mut [0.0; 6]).unwrap();
        player.start_after(Duration::from_millis(delay));
        let mut out = [0.0; 160];
        player.process(&sound, &mut out).unwrap();
        let first = out.iter().position(|sample| *sample != 0.0).unwrap();
        assert_eq!(first as u64, 2 * delay);
    }
}
