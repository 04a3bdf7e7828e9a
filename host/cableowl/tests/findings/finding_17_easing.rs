//! A tween had neither kira's easings nor a delay.

use std::time::Duration;

use cableowl::{Easing, PlaybackState, Player, Settings, Tween};

#[test]
fn a_tween_follows_its_curve_after_its_delay() {
    let sound = [0.5; 200];
    let mut player = Player::play(Settings::new(1_000), 1_000, &sound).unwrap();
    let tween = Tween::from_millis(4)
        .easing(Easing::OutPowi(2))
        .delayed(Duration::from_millis(2));
    player.set_playback_rate(3.0, tween).unwrap();
    player.pause(tween);
    let mut rates = Vec::new();
    let mut states = Vec::new();
    for _ in 0..7 {
        player.process(&sound, &mut [0.0; 2]).unwrap();
        rates.push(player.playback_rate());
        states.push(player.state());
    }
    // 7/16, 12/16 and 15/16 of the way from 1 to 3.
    assert_eq!(rates, [1.0, 1.0, 1.875, 2.5, 2.875, 3.0, 3.0]);
    use PlaybackState::{Paused, Pausing};
    assert_eq!(states, [&[Pausing; 5][..], &[Paused; 2]].concat());
}
