//! Block size decided whether a command was heard at all.

use cableowl::{PlaybackState, Player, Refusal, Settings, Tween};

/// A sound of 200 frames and a player at its frame 100, both at 1 frame a second, so that seconds are frames.
fn player() -> (Vec<f32>, Player) {
    let sound: Vec<f32> = (0..200).flat_map(|i| [i as f32, -i as f32]).collect();
    let settings = Settings::new(1).start_position(100.0);
    let player = Player::play(settings, 1, &sound).unwrap();
    (sound, player)
}

/// How many frames after frame 100 it reads.
const AHEAD: usize = 3;

fn position(player: &Player) -> usize {
    player.voice().state().position
}

fn fade() -> Tween {
    Tween::from_millis(2_000)
}

#[test]
fn resume_then_pause_pauses_in_one_block_as_in_two() {
    for between in [1, 0] {
        let (sound, mut player) = player();
        player.resume(fade());
        player.process(&sound, &mut vec![0.0; 2 * between]).unwrap();
        player.pause(fade());
        player.process(&sound, &mut [0.0; 8]).unwrap();
        assert_eq!(
            player.state(),
            PlaybackState::Paused,
            "{between} frames between resume and pause"
        );
    }
}

#[test]
fn two_steps_back_before_one_block_go_back_twice() {
    let (sound, mut player) = player();
    assert_eq!(position(&player), 100 + AHEAD);
    player.seek_by(-8.0).unwrap();
    player.seek_by(-8.0).unwrap();
    player.process(&sound, &mut [0.0; 2]).unwrap();
    assert_eq!(position(&player), 100 + AHEAD - 16 + 1);
}

#[test]
fn a_seek_to_and_then_a_seek_by_both_count() {
    let (sound, mut player) = player();
    player.seek_to(2.0).unwrap();
    player.seek_by(3.0).unwrap();
    player.process(&sound, &mut [0.0; 2]).unwrap();
    assert_eq!(position(&player), 5 + 1);
}

#[test]
fn a_seek_is_judged_over_what_is_queued_before_it() {
    let (sound, mut player) = player();
    let last = 4_294_967_295.0;
    player.seek_to(last).unwrap();
    assert_eq!(
        player.seek_by(1.0),
        Err(Refusal::Seek),
        "from the last frame"
    );
    player.process(&sound, &mut [0.0; 2]).unwrap();
    // It is at the last frame now: a seek by one is refused until another seek goes back.
    assert_eq!(player.seek_by(1.0), Err(Refusal::Seek));
    player.seek_to(3.0).unwrap();
    assert_eq!(player.seek_by(1.0), Ok(()), "from frame 3");
    player.process(&sound, &mut [0.0; 2]).unwrap();
    // A loop in the queue wraps the far position, so a step forward from it is accepted.
    player.set_loop_region(2.0..6.0).unwrap();
    player.seek_to(last).unwrap();
    assert_eq!(player.seek_by(1.0), Ok(()), "from inside the loop");
    player.process(&sound, &mut [0.0; 2]).unwrap();
}

#[test]
fn sixty_four_seeks_wait_and_one_more_is_refused_in_one_sentence() {
    let (sound, mut player) = player();
    let accepted = (0..100)
        .take_while(|_| player.seek_by(-1.0).is_ok())
        .count();
    assert!(accepted >= 64, "{accepted}");
    let refused = player.seek_by(-1.0).map_err(|refusal| refusal.to_string());
    player.pause(fade());
    player.process(&sound, &mut [0.0; 4]).unwrap();
    assert_eq!(
        position(&player),
        100 + AHEAD - accepted + 1,
        "nothing accepted is lost"
    );
    assert_eq!(player.state(), PlaybackState::Paused);
    let sentence = refused.unwrap_err();
    assert!(sentence.contains("64 seeks wait"), "{sentence}");
    assert_eq!(player.seek_by(-1.0), Ok(()), "a frame was played");
}
