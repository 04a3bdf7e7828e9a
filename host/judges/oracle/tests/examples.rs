// The marked examples of the rules, run on kira's own text.

mod common;

use common::{frames, numbers, play, ramp};
use oracle::{
    Commands, Frame, Oracle,
    PlaybackPosition::Samples,
    PlaybackPosition::Seconds,
    PlaybackState, Settings,
    leaves::{self, Transport},
};

fn transport(position: usize, loop_region: Option<(usize, usize)>) -> Transport {
    Transport {
        position,
        loop_region,
        playing: true,
    }
}

/// N = 10 with the loop (3, 6).
fn looped(position: usize) -> Transport {
    transport(position, Some((3, 6)))
}

#[test]
fn steps_in_a_loop() {
    for (from, to) in [(5, 3), (9, 4)] {
        assert_eq!(leaves::increment_position(looped(from), 10), Ok(looped(to)));
    }
    for (from, to) in [(3, 5), (1, 3), (8, 7)] {
        assert_eq!(leaves::decrement_position(looped(from)), Ok(looped(to)));
    }
}

#[test]
fn seeks_in_a_loop() {
    for (from, target, to) in [(4, 8, 5), (4, 1, 4), (0, 2, 2), (9, 8, 8)] {
        assert_eq!(leaves::seek_to(looped(from), target, 10), Ok(looped(to)));
    }
}

#[test]
fn no_loop() {
    let ended = |position| Transport {
        playing: false,
        ..transport(position, None)
    };
    let at = |position| transport(position, None);
    assert_eq!(leaves::increment_position(at(9), 10), Ok(ended(10)));
    assert_eq!(leaves::decrement_position(at(0)), Ok(ended(0)));
    let past = leaves::seek_to(at(5), 10, 10).unwrap();
    assert_eq!(leaves::seek_to(past, 2, 10), Ok(ended(2)));
}

#[test]
fn loop_of_one_frame() {
    let held = transport(4, Some((4, 5)));
    assert_eq!(leaves::increment_position(held, 10), Ok(held));
    assert_eq!(leaves::decrement_position(held), Ok(held));
}

#[test]
fn whole_loop_is_accepted() {
    let settings = Settings {
        loop_region: Some(frames(0, 10)),
        ..Settings::new(1)
    };
    let voice = Oracle::create(&settings, &ramp(0, 10));
    assert_eq!(voice.state().loop_region, Some((0, 10)));
}

#[test]
fn two_and_a_half_seconds() {
    assert_eq!(leaves::into_samples(Seconds(2.5), 1), 3);
    let mut voice = Oracle::create(&Settings::new(1), &ramp(0, 10));
    let seek = Commands {
        seek_to: Some(2.5),
        ..Commands::default()
    };
    voice.command(&seek).unwrap();
    assert_eq!(voice.state().position, 2);
}

#[test]
fn creation() {
    let voice = Oracle::create(&Settings::new(1), &ramp(0, 10));
    assert_eq!(numbers(&voice), [0, 0, 1, 2]);
    assert_eq!(voice.state().position, 3);
    assert_eq!(voice.state().count, 4);
}

#[test]
fn creation_in_reverse() {
    let settings = Settings {
        reverse: true,
        start: Samples(2),
        ..Settings::new(1)
    };
    let voice = Oracle::create(&settings, &ramp(0, 10));
    assert_eq!(numbers(&voice), [7, 7, 6, 5]);
    assert_eq!(voice.state().position, 4);
}

#[test]
fn reading_half_way() {
    let entries = [0.0, 1.0, 2.0, 3.0].map(Frame::from_mono);
    assert_eq!(
        leaves::interpolate_frame(entries, 0.5),
        Frame::from_mono(1.5)
    );
}

#[test]
fn three_frames() {
    let mut voice = Oracle::create(&Settings::new(1), &ramp(1, 3));
    let states = [0, 0, 0, 6, 6, 6].map(|number| PlaybackState::from_number(number).unwrap());
    for (frame, state) in [1.0, 2.0, 3.0, 0.0, 0.0, 0.0].into_iter().zip(states) {
        assert_eq!(play(&mut voice, 1, 1.0, 1.0).0, [frame]);
        assert_eq!(voice.state().playback, state, "after {frame}");
    }
    let mut voice = Oracle::create(&Settings::new(1), &ramp(1, 3));
    let expected = (vec![1.0, 2.0, 3.0, 0.0, 0.0, 0.0], 6);
    assert_eq!(play(&mut voice, 6, 1.0, 1.0), expected);
}

#[test]
fn advance_of_256() {
    let settings = Settings {
        loop_region: Some(frames(0, 10)),
        ..Settings::new(1)
    };
    let mut voice = Oracle::create(&settings, &ramp(0, 10));
    assert_eq!(play(&mut voice, 2, 256.0, 1.0).1, 512);
}
