// The readings of docs/DECISIONS.md that the oracle can show, each with its smallest example.

mod common;

use common::{frames, play, ramp};
use oracle::{
    Answer, Commands, LaneBuffers, Oracle, PlaybackPosition::Samples, PlaybackState, Settings,
    Signals, State,
};

/// A voice far away from every edge.
fn at(sample_rate: u32, position: usize) -> Oracle {
    let samples = ramp(0, 100);
    let state = State {
        position,
        ..Oracle::create(&Settings::new(sample_rate), &samples).state()
    };
    Oracle::inject(&state, &samples)
}

fn play_signalled(voice: &mut Oracle, n: usize, signals: Signals) -> Vec<f32> {
    let lanes = LaneBuffers::constant(n, 1.0, 1.0, (1.0, 1.0), 1.0);
    let mut out = vec![f32::NAN; 2 * n];
    voice.block(&lanes.as_lanes(), 1.0, signals, &mut out);
    out
}

#[test]
fn the_sum_is_rounded() {
    let mut voice = at(1, 50);
    let state = State {
        fraction: 1.0f64.next_down(),
        ..voice.state()
    };
    voice = Oracle::inject(&state, &ramp(0, 100));
    assert_eq!(play(&mut voice, 1, 1.0, 1.0).1, 2);
    assert_eq!(voice.state().fraction.to_bits(), 0);
    let mut voice = Oracle::inject(&state, &ramp(0, 100));
    assert_eq!(play(&mut voice, 1, 256.0, 1.0).1, 257);
}

#[test]
fn states_then_start() {
    let samples = ramp(0, 10);
    let waiting = Settings {
        waits: true,
        ..Settings::new(1)
    };
    let state = State {
        playback: PlaybackState::Resuming,
        ..Oracle::create(&waiting, &samples).state()
    };
    let signals = Signals {
        finished: true,
        start: Answer::Never,
        resume: Answer::Waiting,
    };
    let mut voice = Oracle::inject(&state, &samples);
    play_signalled(&mut voice, 1, signals);
    assert_eq!(voice.state().playback, PlaybackState::Stopped);
    assert!(!voice.state().started);
    let now = Signals {
        start: Answer::Now,
        ..Signals::default()
    };
    let out = play_signalled(&mut voice, 3, now);
    assert!(voice.state().started);
    assert_eq!(voice.state().playback, PlaybackState::Stopped);
    assert!(out.iter().all(|sample| sample.to_bits() == 0));
}

#[test]
fn a_start_that_has_come_stays_so() {
    let mut voice = at(1, 50);
    let never = Signals {
        start: Answer::Never,
        resume: Answer::Never,
        finished: true,
    };
    let before = voice.state();
    play_signalled(&mut voice, 0, never);
    assert!(voice.state().same_bits(&before));
}

#[test]
fn an_empty_block_takes_its_signals() {
    let mut voice = at(1, 50);
    voice
        .command(&Commands {
            resume: Some(true),
            ..Commands::default()
        })
        .unwrap();
    assert_eq!(voice.state().playback, PlaybackState::WaitingToResume);
    let now = Signals {
        finished: true,
        resume: Answer::Now,
        ..Signals::default()
    };
    play_signalled(&mut voice, 0, now);
    assert_eq!(voice.state().playback, PlaybackState::Resuming);
    play_signalled(&mut voice, 0, now);
    assert_eq!(voice.state().playback, PlaybackState::Playing);
}

#[test]
fn a_negative_reading_times_zero_is_minus_zero() {
    let mut voice = Oracle::create(&Settings::new(1), &[-1.0; 8]);
    let lanes = LaneBuffers::constant(1, 0.0, 1.0, (1.0, 1.0), 1.0);
    let mut out = [f32::NAN; 2];
    voice.block(&lanes.as_lanes(), 1.0, Signals::default(), &mut out);
    assert_eq!(out.map(f32::to_bits), [(-0.0f32).to_bits(); 2]);
}

#[test]
fn seek_by_zero_may_land_one_lower() {
    let nothing = Commands {
        seek_by: Some(0.0),
        ..Commands::default()
    };
    for (sample_rate, first) in [(44_100, 15), (48_000, 27), (7, 61)] {
        for position in 4..=first {
            let mut voice = at(sample_rate, position);
            voice.command(&nothing).unwrap();
            let lower = usize::from(position == first);
            assert_eq!(voice.state().position, position - lower, "{sample_rate} Hz");
        }
    }
}

#[test]
fn a_held_minus_zero_is_backward() {
    let samples = ramp(0, 4);
    let settings = Settings {
        loop_region: Some(frames(0, 3)),
        ..Settings::new(1)
    };
    for (rate, to) in [(0.0, 1), (-0.0, 2)] {
        let state = State {
            position: 0,
            rate,
            ..Oracle::create(&settings, &samples).state()
        };
        let mut voice = Oracle::inject(&state, &samples);
        play(&mut voice, 1, 1.0, 1.0);
        assert_eq!(voice.state().position, to, "{rate:?}");
        assert_eq!(voice.state().rate.to_bits(), rate.to_bits());
    }
}

#[test]
fn a_created_minus_zero_is_backward() {
    for (rate, reverse, to) in [
        (0.0, false, 3),
        (-0.0, false, 0),
        (0.0, true, 0),
        (-0.0, true, 3),
    ] {
        let settings = Settings {
            start: Samples(1),
            rate,
            reverse,
            ..Settings::new(1)
        };
        let voice = Oracle::create(&settings, &ramp(0, 3));
        assert_eq!(voice.state().position, to, "{rate:?}, reverse {reverse}");
    }
}

#[test]
fn a_rate_command_brings_the_sign_of_its_zero() {
    for (rate, to) in [(0.0, 51), (-0.0, 49)] {
        let commands = Commands {
            rate: Some(rate),
            ..Commands::default()
        };
        let mut voice = Oracle::inject(&at(1, 50).state(), &ramp(0, 100));
        voice.command(&commands).unwrap();
        play(&mut voice, 1, 1.0, 1.0);
        assert_eq!(voice.state().position, to, "{rate:?}");
    }
}
