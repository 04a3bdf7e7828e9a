//! A traced block cut into two records, with the signals in the first: the last position and the samples stay the same,
//! and so does the sum of the printed steps, unless the voice has stopped by the cut. Also, no record makes a replay
//! panic.

use cableowl::{
    PlaybackState, Settings, StartAnswer,
    trace::{Block, Line, Record, Replay, ShortSound, Trace},
};
use random::Random;
use traced::make;

fn bits(samples: &[f32]) -> Vec<u32> {
    samples.iter().map(|sample| sample.to_bits()).collect()
}

/// The part of the block before a frame, and the rest.
fn cut(block: Block, at: usize) -> [Record<'static>; 2] {
    let first = Block {
        frames: at,
        ..block
    };
    let rest = Block {
        frames: block.frames - at,
        finished: false,
        start: StartAnswer::Waiting,
        resume: StartAnswer::Waiting,
        ..block
    };
    [first, rest].map(Record::Block)
}

#[test]
fn a_cut_block_prints_the_same_sum_and_position() {
    let mut random = Random::new(1_042);
    let (mut cuts, mut sums) = (0, 0);
    for _ in 0..1_500 {
        let trace = make::trace(&mut random, 24);
        let mut replay = Replay::new();
        for record in Trace::new(&trace) {
            let (_, record) = record.unwrap();
            let before = replay.clone();
            let line = replay.play(&record);
            let (
                Record::Block(block),
                Some(Line::Block {
                    steps, position, ..
                }),
            ) = (record, line)
            else {
                continue;
            };
            let at = random.below(block.frames + 1);
            let mut parts = before;
            let mut heard = Vec::new();
            let printed = cut(block, at).map(|part| match parts.play(&part) {
                Some(Line::Block {
                    steps,
                    state,
                    position,
                    ..
                }) => {
                    heard.extend(bits(parts.heard()));
                    (steps, state, position)
                }
                line => panic!("a part of an accepted block: {part:?}, {line:?}"),
            });
            let [(first, state, _), (rest, _, last)] = printed;
            assert_eq!(last, position, "{block:?} cut at {at}");
            if state != PlaybackState::Stopped {
                assert_eq!(first + rest, steps, "{block:?} cut at {at}");
                sums += 1;
            }
            assert_eq!(heard, bits(replay.heard()), "{block:?} cut at {at}");
            cuts += 1;
        }
    }
    println!("{cuts} cuts, {sums} of them not stopped by the cut");
    assert!(cuts > 3_000 && sums > 1_000, "{cuts}, {sums}");
}

/// The smallest case of a voice that has stopped by the cut: the three-frame example stops in its fourth frame.
#[test]
fn a_voice_that_has_stopped_by_the_cut_makes_fewer_steps() {
    let sound = ShortSound::new(&[1.0, 1.0, 2.0, 2.0, 3.0, 3.0]).unwrap();
    let settings = Settings::new(1);
    for (at, steps) in [
        (0, [0, 6]),
        (3, [3, 3]),
        (4, [4, 0]),
        (5, [5, 0]),
        (6, [6, 0]),
    ] {
        let mut replay = Replay::new();
        replay.play(&Record::Creation { settings, sound });
        let printed = cut(Block::new(6, 1.0), at).map(|part| match replay.play(&part) {
            Some(Line::Block { steps, .. }) => steps,
            line => panic!("{line:?}"),
        });
        assert_eq!(printed, steps, "cut after {at}");
    }
}

/// A record that was made by hand may contain what no trace can.
#[test]
fn no_record_makes_a_replay_panic() {
    let mut replay = Replay::new();
    let sound = ShortSound::new(&[0.5; 128]).unwrap();
    let settings = Settings::new(1);
    assert_eq!(replay.play(&Record::Creation { settings, sound }), None);
    for frames in [1_025, 4_096, 4_097, usize::MAX / 2, usize::MAX] {
        let line = replay.play(&Record::Block(Block::new(frames, 1.0)));
        let refused =
            matches!(line, Some(Line::Refused(refused)) if refused.refusal.number() == 17);
        assert!(refused && replay.heard().is_empty(), "{line:?}");
    }
    let line = replay.play(&Record::Block(Block::new(1_024, 1.0)));
    let stopped = Line::Block {
        block: 1,
        frames: 1_024,
        steps: 1_024,
        state: PlaybackState::Stopped,
        position: 64,
    };
    assert_eq!(line, Some(stopped));
}
