//! A player was given a state in a fade, and the fade was lost.

use cableowl::{Commands, Level, PlaybackState, Player, Settings, State, StaticSound, Tween};

/// A looped player over 100 frames of full samples, at 1,000 frames a second.
fn player(sound: &[f32]) -> Player {
    Player::play(Settings::new(1_000).loop_region(..), 1_000, sound).unwrap()
}

/// The state of such a voice after these commands.
fn state_after(commands: Commands, sound: &[f32]) -> State {
    let settings = Settings::new(1_000).loop_region(..);
    let mut voice = StaticSound::new(settings, sound).unwrap();
    voice.on_start_processing(sound, commands).unwrap();
    voice.state()
}

/// The left samples of the ten frames after this state was given to a player, which was paused before or not; and the
/// state after them. 10 milliseconds are 10 frames, so the tenth frame ends the fade.
fn heard(commands: Commands, paused: bool) -> (Vec<f32>, PlaybackState) {
    let sound = [1.0; 200];
    let mut player = player(&sound);
    if paused {
        player.pause(Tween::AT_ONCE);
        player.process(&sound, &mut [0.0; 20]).unwrap();
    }
    player.resume(Tween::from_millis(100));
    player
        .restore(state_after(commands, &sound), &sound)
        .unwrap();
    let mut out = [9.0; 20];
    player.process(&sound, &mut out).unwrap();
    (out.iter().copied().step_by(2).collect(), player.state())
}

/// The fade goes on from its first level: 601 tenths of a decibel over ten frames.
#[track_caller]
fn fades(commands: Commands, first: [u32; 2], last: f32, end: PlaybackState) {
    let level = |tenths| Level::new(tenths).unwrap().amplitude();
    for paused in [false, true] {
        let (samples, state) = heard(commands, paused);
        assert_eq!(samples[..2], first.map(level), "{state:?}");
        assert!(samples[8] > 0.0 && samples[8] < 1.0);
        assert_eq!((samples[9], state), (last, end));
    }
}

#[test]
fn a_restored_pause_fades_to_its_end() {
    fades(
        Commands::new().pause(),
        [60, 120],
        0.0,
        PlaybackState::Paused,
    );
}

#[test]
fn a_restored_resume_fades_to_its_end() {
    fades(
        Commands::new().resume(),
        [540, 480],
        1.0,
        PlaybackState::Playing,
    );
}

#[test]
fn a_restored_stop_fades_to_its_end() {
    fades(
        Commands::new().stop(),
        [60, 120],
        0.0,
        PlaybackState::Stopped,
    );
}

#[test]
fn a_playing_state_in_a_paused_player_is_heard() {
    let sound = [1.0; 200];
    let mut player = player(&sound);
    player.pause(Tween::AT_ONCE);
    let mut out = [9.0; 20];
    player.process(&sound, &mut out).unwrap();
    let paused = player.voice().state();
    player
        .restore(state_after(Commands::new(), &sound), &sound)
        .unwrap();
    player.process(&sound, &mut out).unwrap();
    assert_eq!((out, player.state()), ([1.0; 20], PlaybackState::Playing));
    player.restore(paused, &sound).unwrap();
    player.process(&sound, &mut out).unwrap();
    assert_eq!((out, player.state()), ([0.0; 20], PlaybackState::Paused));
    player.resume(Tween::from_millis(2));
    player.process(&sound, &mut out).unwrap();
    assert_eq!(out[2..], [1.0; 18]);
}
