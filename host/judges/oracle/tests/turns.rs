// The computed iterations of kira's `while` loops are right, and far seeks over short loops are refused.

mod common;

use common::{frames, ramp};
use oracle::{
    Commands, MAX_TURNS, Oracle, Settings, TooManyTurns,
    leaves::{self, Transport},
    seek_turns,
};

/// kira's two loops, counted.
fn counted(position: usize, (start, end): (usize, usize), mut target: usize) -> usize {
    let mut turns = 0;
    if target > position {
        while target >= end {
            target -= end - start;
            turns += 1;
        }
    } else {
        while target < start {
            target += end - start;
            turns += 1;
        }
    }
    turns
}

#[test]
fn turns_are_counted_right() {
    for (start, end) in (0..7).flat_map(|s| (s + 1..8).map(move |e| (s, e))) {
        for (position, target) in (0..20).flat_map(|p| (0..20).map(move |t| (p, t))) {
            let turns = seek_turns(position, Some((start, end)), target);
            assert_eq!(turns, counted(position, (start, end), target));
            assert_eq!(seek_turns(position, None, target), 0);
        }
    }
}

#[test]
fn loops_that_never_end_are_refused() {
    for loop_region in [Some((4, 4)), Some((6, 4))] {
        let given = Transport {
            position: 4,
            loop_region,
            playing: true,
        };
        let never = Err(TooManyTurns(usize::MAX));
        assert_eq!(leaves::increment_position(given, 10), never);
        assert_eq!(leaves::decrement_position(given), never);
        assert_eq!(leaves::seek_to(given, 9, 10), never);
        let ended = Transport {
            playing: false,
            ..given
        };
        assert_eq!(leaves::increment_position(ended, 10), Ok(ended));
        assert_eq!(leaves::decrement_position(ended), Ok(ended));
    }
}

#[test]
fn far_seeks_change_nothing() {
    let settings = Settings {
        loop_region: Some(frames(4, 5)),
        ..Settings::new(1)
    };
    let mut voice = Oracle::create(&settings, &ramp(0, 10));
    let before = voice.state();
    let far = (MAX_TURNS + 5) as f64;
    let seek = |seconds| Commands {
        stop: true,
        seek_by: Some(1.0),
        seek_to: Some(seconds),
        ..Commands::default()
    };
    let refused = voice.command(&seek(far));
    assert_eq!(refused, Err(TooManyTurns(MAX_TURNS + 1)));
    assert!(voice.state().same_bits(&before));
    assert_eq!(voice.command(&seek(far - 1.0)), Ok(0.0));
    assert_eq!(voice.state().position, 4);
    let cleared = Commands {
        loop_region: Some(None),
        ..seek(far)
    };
    assert!(voice.command(&cleared).is_ok());
    assert_eq!(voice.state().position, MAX_TURNS + 5);
}
