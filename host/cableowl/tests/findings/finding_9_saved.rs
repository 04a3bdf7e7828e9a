//! A player could not be saved whole.

use cableowl::{Level, Player, Settings, Tween, Unreadable};

#[test]
fn a_player_saved_in_a_fade_with_a_waiting_seek_goes_on_bit_for_bit() {
    let sound: Vec<f32> = (0..400).map(|i| i as f32).collect();
    let mut player = Player::play(Settings::new(1_000), 1_000, &sound).unwrap();
    player.set_volume(Level::new(300).unwrap(), Tween::from_millis(40));
    player.pause(Tween::from_millis(30));
    let mut out = [0.0; 40];
    player.process(&sound, &mut out).unwrap();
    player.seek_by(0.05).unwrap();
    let bytes = player.to_bytes();
    let mut again = Player::from_bytes(&bytes, &sound).unwrap();
    let mut other = out;
    player.process(&sound, &mut out).unwrap();
    again.process(&sound, &mut other).unwrap();
    assert_eq!(out.map(f32::to_bits), other.map(f32::to_bits));
    assert_eq!(player.to_bytes(), again.to_bytes());
    // Version and check; tests/player/saved.rs has every other reason.
    for (place, reason) in [(4, Unreadable::Version(99)), (200, Unreadable::Check)] {
        let mut damaged = bytes.clone();
        damaged[place] = 99;
        assert_eq!(Player::from_bytes(&damaged, &sound).unwrap_err(), reason);
    }
}
