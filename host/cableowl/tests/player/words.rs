// What each command does, frame by frame; and that the player refuses what the voice would refuse.

use std::time::Duration;

use cableowl::{
    Commands, EndPosition, Frames, Lanes, Level, PlaybackPosition, PlaybackState, Player, Refusal,
    Region, Settings, SharedPlayer, Signals, StartSignal, StaticSound, Ticks, Tween,
};
use random::Random;

use crate::evening::bits;

/// A player at 1,000 frames a second, of the sound and of the output. The samples of a frame are its number.
fn counting(frames: usize, settings: impl FnOnce(Settings) -> Settings) -> (Vec<f32>, Player) {
    let sound: Vec<f32> = (0..frames).flat_map(|i| [i as f32; 2]).collect();
    let player = Player::play(settings(Settings::new(1_000)), 1_000, &sound).unwrap();
    (sound, player)
}

fn frames(millis: u64) -> Tween {
    Tween::from_millis(millis)
}

/// The left samples of this many frames.
fn heard(player: &mut Player, sound: &[f32], frames: usize) -> Vec<f32> {
    let mut out = vec![9.0; 2 * frames];
    player.process(sound, &mut out).unwrap();
    out.iter().copied().step_by(2).collect()
}

#[test]
fn pause_and_resume_change_state_where_their_fade_ends() {
    let (sound, mut player) = counting(100, |settings| settings.start_position(Frames(10)));
    let amplitude = |tenths| Level::new(tenths).unwrap().amplitude();
    assert_eq!(heard(&mut player, &sound, 2), [10.0, 11.0]);
    player.pause(frames(3));
    assert_eq!(
        player.state(),
        PlaybackState::Playing,
        "heard with the next frame"
    );
    let falling = [12.0 * amplitude(200), 13.0 * amplitude(400)];
    assert_eq!(heard(&mut player, &sound, 2), falling);
    assert_eq!(player.state(), PlaybackState::Pausing);
    // The third frame has the new level, silence, and the new state with it.
    assert_eq!(heard(&mut player, &sound, 1), [0.0]);
    assert_eq!(player.state(), PlaybackState::Paused);
    assert_eq!(heard(&mut player, &sound, 5), [0.0; 5]);
    player.resume(frames(2));
    assert_eq!(
        heard(&mut player, &sound, 3),
        [14.0 * amplitude(300), 15.0, 16.0]
    );
    assert_eq!(player.state(), PlaybackState::Playing);
    // Turned round half way: the fade goes on from its level.
    player.pause(frames(601));
    heard(&mut player, &sound, 7);
    player.resume(Tween::AT_ONCE);
    assert_eq!(heard(&mut player, &sound, 1), [24.0]);
    player.stop(Tween::AT_ONCE);
    assert_eq!(heard(&mut player, &sound, 1), [0.0]);
    assert_eq!(player.state(), PlaybackState::Stopped);
    player.resume(Tween::AT_ONCE);
    assert_eq!(heard(&mut player, &sound, 1), [0.0]);
    assert_eq!(player.state(), PlaybackState::Stopped);
    assert_eq!((player.frames(), player.counts().steps), (23, 15));
}

#[test]
fn a_rate_turns_where_its_tween_passes_zero() {
    let (sound, mut player) = counting(100, |settings| settings.start_position(Frames(50)));
    player.set_playback_rate(-1.0, frames(4)).unwrap();
    // Rates 0.5, 0, -0.5, -1: half a frame on, none, half a frame back.
    for (rate, fraction) in [
        (0.5, 0.5),
        (0.0, 0.5),
        (-0.5, 0.0),
        (-1.0, 0.0),
        (-1.0, 0.0),
    ] {
        heard(&mut player, &sound, 1);
        assert_eq!(player.playback_rate(), rate);
        assert_eq!(player.voice().state().fractional_position, fraction);
    }
    assert_eq!(player.voice().state().position, 50);
    let sounds = heard(&mut player, &sound, 40);
    assert!(
        sounds
            .windows(2)
            .skip(4)
            .all(|pair| pair[1] == pair[0] - 1.0),
        "{sounds:?}"
    );
}

#[test]
fn volume_and_panning() {
    let (sound, mut player) = counting(100, |settings| settings.start_position(Frames(10)));
    player.set_volume(Level::new(3).unwrap(), frames(2));
    let amplitude = |tenths| Level::new(tenths).unwrap().amplitude();
    let levels = [
        10.0 * amplitude(1),
        11.0 * amplitude(3),
        12.0 * amplitude(3),
    ];
    assert_eq!(
        heard(&mut player, &sound, 3),
        levels,
        "1.5 tenths, rounded down"
    );
    player.set_volume(Level::FULL, Tween::AT_ONCE);
    player.set_panning(-2.0, frames(2)).unwrap();
    let mut out = [0.0; 6];
    player.process(&sound, &mut out).unwrap();
    let root_2 = std::f32::consts::SQRT_2;
    assert_eq!(
        out,
        [13.0 * root_2, 0.0, 14.0 * root_2, 0.0, 15.0 * root_2, 0.0]
    );
    assert_eq!((player.panning(), player.volume()), (-2.0, Level::FULL));
    player.set_panning(0.0, Tween::AT_ONCE).unwrap();
    player.process(&sound, &mut out).unwrap();
    assert_eq!(out, [16.0, 16.0, 17.0, 17.0, 18.0, 18.0]);
}

#[test]
fn a_fade_in_leaves_the_state_playing() {
    let (sound, player) = counting(100, |settings| settings.start_position(Frames(10)));
    let mut player = player.fade_in_tween(frames(2));
    let half = Level::new(300).unwrap().amplitude();
    assert_eq!(heard(&mut player, &sound, 1), [10.0 * half]);
    assert_eq!(player.state(), PlaybackState::Playing);
    assert_eq!(heard(&mut player, &sound, 1), [11.0]);
}

#[test]
fn position_and_counts() {
    let (sound, mut player) = counting(5, |settings| settings);
    assert_eq!(player.position(), 0.0);
    heard(&mut player, &sound, 3);
    let reported = |player: &Player| (player.position(), player.counts().lowest_count);
    assert_eq!(reported(&player), (0.003, 4));
    heard(&mut player, &sound, 1);
    assert_eq!(reported(&player), (0.004, 3));
    // It stops in its sixth frame. What comes after that is no step.
    let (sound, mut player) = counting(5, |settings| settings);
    heard(&mut player, &sound, 1_000_000);
    assert_eq!(player.counts().steps, 6);
    assert_eq!(player.voice().state().window[1].frame_index, 5);
}

#[test]
fn what_is_bad_is_refused_at_once() {
    let (sound, mut player) = counting(10, |settings| settings);
    let nan = f64::NAN;
    assert_eq!(
        player.set_playback_rate(nan, frames(1)),
        Err(Refusal::PlaybackRate)
    );
    let too_fast = Err(Refusal::TooFast);
    assert_eq!(player.set_playback_rate(256.0, frames(1)), Ok(()));
    assert_eq!(
        player.set_playback_rate(-256.0_f64.next_up(), frames(1)),
        too_fast
    );
    assert_eq!(
        player.set_panning(f32::INFINITY, frames(1)),
        Err(Refusal::Panning)
    );
    assert_eq!(
        player.set_loop_region(Frames(4)..Frames(4)),
        Err(Refusal::LoopRegion)
    );
    assert_eq!(player.seek_to(nan), Err(Refusal::Seek));
    let mut out = [7.0; 5];
    assert_eq!(player.process(&sound[2..], &mut out), Err(Refusal::State));
    assert_eq!(player.process(&sound, &mut out), Err(Refusal::OddOutput));
    assert_eq!(player.mix(&sound, &mut out), Err(Refusal::OddOutput));
    assert_eq!((out, player.frames()), ([7.0; 5], 0));
    let play = |settings, rate| Player::play(settings, rate, &sound).map(|_| ());
    assert_eq!(play(Settings::new(0), 0), Err(Refusal::SampleRate));
    assert_eq!(play(Settings::new(1), 0), Err(Refusal::OutputRate));
    assert_eq!(play(Settings::new(1).playback_rate(256.1), 1), too_fast);
    assert_eq!(play(Settings::new(768_000), 3_000), Ok(()));
    assert_eq!(play(Settings::new(768_000), 2_999), too_fast);
}

#[test]
fn a_saved_state_is_given_back() {
    let (sound, mut player) = counting(50, |settings| settings);
    heard(&mut player, &sound, 20);
    let state = player.voice().state();
    let next = heard(&mut player, &sound, 5);
    player.restore(state, &sound).unwrap();
    assert_eq!(heard(&mut player, &sound, 5), next);
    let of_another = StaticSound::new(Settings::new(999), &sound)
        .unwrap()
        .state();
    assert_eq!(player.restore(of_another, &sound), Err(Refusal::State));
    assert_eq!(player.restore(state, &sound[2..]), Err(Refusal::State));
}

fn any_place(random: &mut Random, frames: usize) -> PlaybackPosition {
    let seconds = (random.unit() * 1.4 - 0.2) * frames as f64;
    let odd = [
        f64::NAN,
        f64::INFINITY,
        -1.0,
        -0.0,
        4_294_967_295.5,
        4_294_967_296.0,
        1.0e300,
    ];
    match random.below(4) {
        0 => PlaybackPosition::Samples([frames, frames + 1, usize::MAX][random.below(3)]),
        1 => PlaybackPosition::Samples(random.below(frames + 2)),
        2 => PlaybackPosition::Seconds(odd[random.below(7)]),
        // Also half frames.
        _ => PlaybackPosition::Seconds((seconds * 4.0).round() / 4.0),
    }
}

#[test]
fn what_a_player_refuses_is_what_its_voice_would() {
    let random = &mut Random::new(27);
    let (mut refused, mut counts) = ([0_usize; 2], [0_usize; 2]);
    for _ in 0..20_000 {
        let frames = 1 + random.below(12);
        let rate = [1, 2, 3, 768_000][random.below(4)];
        let sound = vec![0.5; 2 * frames];
        let mut settings = Settings::new(rate);
        if random.coin() {
            let start = random.below(frames);
            settings =
                settings.slice(Frames(start)..Frames(start + 1 + random.below(frames - start)));
        }
        let mut player = Player::play(settings, rate, &sound).unwrap();
        player
            .process(&sound, &mut vec![0.0; 2 * random.below(9)])
            .unwrap();
        // Several commands before one frame; the voice gets each separately.
        let mut voice = player.voice().clone();
        let mut reported = |commands| voice.on_start_processing(&sound, commands).map(|_| ());
        for _ in 0..1 + random.below(4) {
            let region = Region {
                start: any_place(random, frames),
                end: match random.one_in(5) {
                    true => EndPosition::EndOfAudio,
                    false => EndPosition::Custom(any_place(random, frames)),
                },
            };
            let seconds = match any_place(random, frames) {
                PlaybackPosition::Seconds(seconds) => {
                    seconds / f64::from([1, rate][random.below(2)])
                }
                PlaybackPosition::Samples(samples) => samples as f64 / f64::from(rate),
            };
            let none = Commands::new();
            let (kind, answer, commands) = match random.below(4) {
                0 | 1 => (
                    0,
                    player.set_loop_region(region),
                    none.set_loop_region(region),
                ),
                2 => (1, player.seek_to(seconds), none.seek_to(seconds)),
                _ => (1, player.seek_by(seconds), none.seek_by(seconds)),
            };
            assert_eq!(answer, reported(commands), "{commands:?}");
            counts[kind] += 1;
            refused[kind] += usize::from(answer.is_err());
        }
        // An accepted command is not refused later.
        player.process(&sound, &mut [0.0; 2]).unwrap();
    }
    println!("{refused:?} of {counts:?} loops and seeks are refused");
    let some = |(refused, count): (&usize, &usize)| (count / 20..count / 20 * 19).contains(refused);
    assert!(refused.iter().zip(&counts).all(some));
}

#[test]
fn a_start_comes_at_the_frame_that_the_voice_would_start_at() {
    let random = &mut Random::new(112);
    let sound = [0.5; 200];
    let (mut came, mut waits) = (0, 0);
    for _ in 0..3_000 {
        let rate = [1, 3, 50, 48_000][random.below(4)];
        let per_second = [0, 1, rate, 2 * rate, 1 + rate / 7][random.below(5)];
        let now = [0, u32::MAX - 3, 1 << 31, random.below(1 << 32) as u32][random.below(4)];
        let off = [0, 1, 5, 17, 1 << 31, (1 << 31) + 1, u32::MAX][random.below(7)];
        let due = now.wrapping_add(off);
        let settings = Settings::new(rate).start_waits(true);
        let mut player = Player::play(settings, rate, &sound).unwrap();
        let before = random.below(3);
        let mut out = [0.0; 120];
        player.process(&sound, &mut out[..2 * before]).unwrap();
        player.start_at_tick(due, Ticks { now, per_second });
        player.process(&sound, &mut out[2 * before..]).unwrap();

        let mut voice = StaticSound::new(settings, &sound).unwrap();
        let (mut lanes, mut other) = (Lanes::new(), [0.0; 120]);
        for (frame, out) in other.chunks_mut(2).enumerate() {
            let signals = match frame.checked_sub(before) {
                None => Signals::new(),
                Some(frame) => {
                    let ticks = frame as u64 * u64::from(per_second) / u64::from(rate);
                    let now = now.wrapping_add(ticks as u32);
                    Signals::new().start(StartSignal::Tick { due, now })
                }
            };
            let step = 1.0 / f64::from(rate);
            voice
                .process(&sound, lanes.frames(1), step, signals, out)
                .unwrap();
        }
        assert_eq!(
            bits(&out),
            bits(&other),
            "due {due}, now {now}, {per_second} a second"
        );
        let started = player.voice().state().started;
        (came, waits) = (came + usize::from(started), waits + usize::from(!started));
    }
    assert!(came > 500 && waits > 500, "{came} came, {waits} wait");
}

/// Only types that can be sent to another thread.
fn sent<T: Send + 'static>() {}

#[test]
fn players_go_to_another_thread() {
    sent::<Player>();
    sent::<SharedPlayer>();
    sent::<cableowl::Command>();
}

#[test]
fn a_player_takes_any_command_and_any_length() {
    let random = &mut Random::new(9);
    let sound: Vec<f32> = (0..60).map(|i| i as f32).collect();
    let mut player = Player::play(Settings::new(3), u32::MAX, &sound).unwrap();
    let mut out = vec![0.0; 20_001];
    for _ in 0..20_000 {
        let number = f64::from_bits(random.word());
        let tween = Tween::from(Duration::new(
            random.word(),
            random.below(1 << 30) as u32 % 999,
        ));
        let _ = match random.below(9) {
            0 => player.set_playback_rate(number, tween),
            1 => player.set_panning(number as f32, tween),
            2 => player.seek_to(number),
            3 => player.seek_by(number),
            4 => player.set_loop_region(number..f64::from_bits(random.word())),
            5 => player.set_loop_region(Frames(random.below(40))..Frames(random.below(40))),
            6 => {
                player.resume(tween);
                Ok(())
            }
            7 => {
                player.pause(tween);
                Ok(())
            }
            _ => {
                player.set_volume(Level::new(random.below(602) as u32).unwrap(), tween);
                Ok(())
            }
        };
        let most = if random.one_in(50) { 20_001 } else { 40 };
        let samples = random.below(most + 1);
        let answer = player.process(&sound, &mut out[..samples]);
        assert_eq!(answer.is_ok(), samples.is_multiple_of(2), "{answer:?}");
    }
}

#[test]
fn a_player_takes_any_settings() {
    let random = &mut Random::new(10);
    let (mut accepted, mut out) = (0, [0.0; 64]);
    for _ in 0..50_000 {
        let sound = vec![0.5; random.below(40)];
        let few = |random: &mut Random| [1, 2, 8, 48_000, 768_000, 768_001, 0][random.below(7)];
        let mut settings = Settings::new(few(random))
            .reverse(random.coin())
            .start_waits(random.one_in(4))
            .start_position(any_place(random, 10));
        settings.playback_rate = match random.below(3) {
            0 => f64::from_bits(random.word()),
            _ => random.unit() * 8.0 - 4.0,
        };
        if random.one_in(3) {
            settings = settings.slice(any_place(random, 10)..any_place(random, 20));
        }
        if random.one_in(3) {
            settings = settings.loop_region(any_place(random, 10)..any_place(random, 20));
        }
        let output_rate = [few(random), random.below(1 << 32) as u32][random.below(2)];
        let Ok(mut player) = Player::play(settings, output_rate, &sound) else {
            continue;
        };
        accepted += 1;
        assert!(StaticSound::new(settings, &sound).is_ok());
        player.process(&sound, &mut out).unwrap();
        player.stop(Tween::default());
        player.mix(&sound, &mut out).unwrap();
    }
    assert!(accepted > 2_000, "{accepted}");
}
