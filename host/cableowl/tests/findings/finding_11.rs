//! A player's refusals named what the voice got, not what the caller gave.

use cableowl::{Player, Refusal, Settings, Tween};

#[track_caller]
fn names(refusal: Refusal, number: u32, word: &str) {
    let said = refusal.to_string();
    assert_eq!(refusal.number(), number);
    let begins = format!("refusal {number}: the {word}");
    assert!(said.starts_with(&begins), "{said}");
    let of_the_voice = ["lane", "time step"].iter().any(|word| said.contains(word));
    assert!(!of_the_voice, "{said}");
}

fn player() -> (Vec<f32>, Player) {
    let sound = vec![0.5; 20];
    let player = Player::play(Settings::new(1_000), 1_000, &sound).unwrap();
    (sound, player)
}

#[test]
fn a_panning_that_is_no_number() {
    let (_, mut player) = player();
    let refusal = player.set_panning(f32::NAN, Tween::AT_ONCE).unwrap_err();
    names(refusal, 11, "panning");
}

#[test]
fn an_odd_output() {
    let (sound, mut player) = player();
    names(
        player.process(&sound, &mut [0.0; 3]).unwrap_err(),
        9,
        "output",
    );
    names(player.mix(&sound, &mut [0.0; 3]).unwrap_err(), 9, "output");
}

#[test]
fn an_output_rate_of_0() {
    let play = Player::play(Settings::new(1_000), 0, &[0.5; 20]);
    names(play.unwrap_err(), 10, "output rate");
}

#[test]
fn a_rate_that_is_too_fast() {
    let too_fast = Settings::new(1_000).playback_rate(300.0);
    let play = Player::play(too_fast, 1_000, &[0.5; 20]);
    names(play.unwrap_err(), 12, "playback rate");
    let (_, mut player) = player();
    let refusal = player.set_playback_rate(-300.0, Tween::AT_ONCE);
    names(refusal.unwrap_err(), 12, "playback rate");
}
