//! A shared player could not fade in.

use std::sync::Arc;

use cableowl::{Level, Refusal, Settings, SharedPlayer, Tween};

#[test]
fn a_shared_player_fades_in() -> Result<(), Refusal> {
    let sound: Arc<[f32]> = vec![1.0; 200].into();
    let play = |sound| SharedPlayer::play(Settings::new(1_000), 1_000, sound);
    let mut player = play(sound)?.fade_in_tween(Tween::from_millis(2));
    let mut out = [9.0; 4];
    player.process(&mut out)?;
    let half = Level::new(300)?.amplitude();
    assert_eq!(out, [half, half, 1.0, 1.0]);
    Ok(())
}
