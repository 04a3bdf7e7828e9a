// The compiled transport and kira's agree: every move in small sounds, and far seeks.

use leaves::{Tally, moves};
use oracle::{
    EndPosition, LIMIT, MAX_TURNS,
    PlaybackPosition::Samples,
    Region,
    leaves::{self as original, Transport},
    seek_turns,
};
use random::Random;

type Loop = Option<(usize, usize)>;

/// No loop, and every loop within this many frames.
fn fitting_loops(num_frames: usize) -> Vec<Loop> {
    let pairs =
        (0..num_frames).flat_map(|start| (start + 1..=num_frames).map(move |end| (start, end)));
    std::iter::once(None).chain(pairs.map(Some)).collect()
}

fn region((start, end): (usize, usize)) -> Region {
    Region {
        start: Samples(start),
        end: EndPosition::Custom(Samples(end)),
    }
}

/// Playing at every position, and ended at every position up to twice the frames and at the last of all.
fn transports(num_frames: usize, loop_region: Loop) -> impl Iterator<Item = Transport> {
    let playing = (0..num_frames).map(|position| (position, true));
    let ended = (0..=2 * num_frames).chain([LIMIT]);
    let ended = ended.map(|position| (position, false));
    playing
        .chain(ended)
        .map(move |(position, playing)| Transport {
            position,
            loop_region,
            playing,
        })
}

#[test]
fn every_move_in_small_sounds_agrees_with_kira() {
    let mut steps = Tally::new("transport: steps both ways, 1 to 12 frames");
    let mut seeks = Tally::new("transport: seeks, 1 to 12 frames");
    let mut loops = Tally::new("transport: loops set and cleared, 1 to 12 frames");
    let mut starts = Tally::new("transport: new, 1 to 12 frames");
    for n in 1..=12 {
        let fitting = fitting_loops(n);
        for &held in &fitting {
            for given in transports(n, held) {
                let theirs = original::increment_position(given, n).unwrap();
                let ours = moves::increment_position(given, n);
                steps.count(ours == theirs, || format!("{given:?} of {n}: {ours:?}"));
                let theirs = original::decrement_position(given).unwrap();
                let ours = moves::decrement_position(given);
                steps.count(ours == theirs, || format!("{given:?} back: {ours:?}"));
                for target in 0..=3 * n {
                    let theirs = original::seek_to(given, target, n).unwrap();
                    let ours = moves::seek_to(given, target, n);
                    seeks.count(ours == theirs, || {
                        format!("{given:?} of {n} to {target}: {ours:?}")
                    });
                }
                for &next in &fitting {
                    let theirs = original::set_loop_region(given, next.map(region), 1, n);
                    let ours = moves::set_loop_region(given, next);
                    loops.count(ours == theirs, || format!("{given:?}, {next:?}: {ours:?}"));
                }
            }
            for (start, reverse) in (0..n).flat_map(|start| [(start, false), (start, true)]) {
                let theirs = original::new_transport(start, held.map(region), reverse, 1, n);
                let ours = moves::new_transport(start, held, reverse, n);
                starts.count(ours == theirs, || {
                    format!("{start} of {n}, {held:?}, {reverse}: {ours:?}")
                });
            }
        }
    }
    let alike = [steps, seeks, loops, starts].map(Tally::report);
    assert_eq!(alike, [true; 4]);
}

#[test]
fn far_moves_over_short_loops_agree_with_kira() {
    const FRAMES: usize = 1 << 24;
    let mut random = Random::new(41);
    let mut seeks = Tally::new("transport: far seeks over loops of 1, 2, 3 and 7");
    let mut steps = Tally::new("transport: far steps over loops of 1, 2, 3 and 7");
    for length in [1, 2, 3, 7] {
        let last = FRAMES - length;
        for start in [0, 1, 5, 1_000, last / 2, last] {
            let loop_region = Some((start, start + length));
            // kira's loop needs millions of iterations to reach a late loop
            let many = if start > 1_000 { 30 } else { 300 };
            let mut targets: Vec<usize> = (0..many).map(|_| random.below(200_000)).collect();
            targets.extend((0..4).map(|_| random.below(20_000_000 * length)));
            targets.extend([0, start, start + length, FRAMES, LIMIT - 1]);
            for target in targets {
                let position = random.below(FRAMES);
                if seek_turns(position, loop_region, target) > MAX_TURNS {
                    continue;
                }
                let given = Transport {
                    position,
                    loop_region,
                    playing: random.coin(),
                };
                let theirs = original::seek_to(given, target, FRAMES).unwrap();
                let ours = moves::seek_to(given, target, FRAMES);
                seeks.count(ours == theirs, || {
                    format!("{given:?} to {target}: {ours:?}")
                });
            }
            for position in [0, start, start + length - 1, last / 3, FRAMES - 1] {
                let given = Transport {
                    position,
                    loop_region,
                    playing: true,
                };
                let theirs = original::increment_position(given, FRAMES).unwrap();
                let ours = moves::increment_position(given, FRAMES);
                steps.count(ours == theirs, || format!("{given:?}: {ours:?}"));
                let theirs = original::decrement_position(given).unwrap();
                let ours = moves::decrement_position(given);
                steps.count(ours == theirs, || format!("{given:?} back: {ours:?}"));
            }
        }
    }
    let alike = [seeks.report(), steps.report()];
    assert_eq!(alike, [true; 2]);
}

#[test]
fn any_moves_in_long_sounds_agree_with_kira() {
    let mut random = Random::new(42);
    let mut tally = Tally::new("transport: random moves in long sounds, seeks up to 2^32");
    for _ in 0..200_000 {
        let n = 1 + random.below(1 << 24);
        let start = random.below(n);
        let end = start + 1 + random.below(n - start);
        let loop_region = (end - start > 10_000 || random.one_in(50)).then_some((start, end));
        let playing = random.coin();
        let limit = if playing { n } else { LIMIT + 1 };
        let given = Transport {
            position: random.below(limit),
            loop_region,
            playing,
        };
        let limit = [n, 2 * n, LIMIT][random.below(3)];
        let target = random.below(limit);
        if seek_turns(given.position, loop_region, target) <= 1_000_000 {
            let theirs = original::seek_to(given, target, n).unwrap();
            let ours = moves::seek_to(given, target, n);
            tally.count(ours == theirs, || {
                format!("{given:?} of {n} to {target}: {ours:?}")
            });
        }
        let theirs = original::increment_position(given, n).unwrap();
        let ours = moves::increment_position(given, n);
        tally.count(ours == theirs, || format!("{given:?} of {n}: {ours:?}"));
        let theirs = original::decrement_position(given).unwrap();
        let ours = moves::decrement_position(given);
        tally.count(ours == theirs, || format!("{given:?} back: {ours:?}"));
    }
    assert!(tally.report());
}

#[test]
fn what_is_not_asked_for_gets_all_zeros() {
    let zeros = Transport {
        position: 0,
        loop_region: None,
        playing: false,
    };
    for loop_region in [Some((4, 4)), Some((5, 4))] {
        let given = Transport {
            position: 3,
            loop_region,
            playing: true,
        };
        assert_eq!(moves::increment_position(given, 10), zeros);
        assert_eq!(moves::decrement_position(given), zeros);
        assert_eq!(moves::seek_to(given, 7, 10), zeros);
    }
    let past_the_end = Transport {
        position: 10,
        loop_region: None,
        playing: true,
    };
    assert_eq!(moves::increment_position(past_the_end, 10), zeros);
    let beyond_all = Transport {
        position: LIMIT + 1,
        playing: false,
        ..past_the_end
    };
    assert_eq!(moves::increment_position(beyond_all, 10), zeros);
    assert_eq!(moves::new_transport(10, None, false, 10), zeros);
}
