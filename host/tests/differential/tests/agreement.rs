// The compiled library and kira's text agree with the rules: tiny sounds exhaustively, then random calls, refusals,
// cuts. The program `differential` runs the same for longer.

use differential::{
    Harness, Kind, Kira, Ours, OursHeld,
    runs::{self, Big, Extent},
};
use random::Random;

/// Runs, and fails with every difference as a call to paste.
fn assert_agreement(run: impl FnOnce(&mut Harness)) -> Harness<'static> {
    let mut harness = Harness::new(vec![&Kira, &Ours]);
    run(&mut harness);
    println!("{}", harness.tally);
    assert_eq!(harness.tally.differences(), 0, "\n{}", harness.tally);
    harness
}

fn rounds(count: u64, mut run: impl FnMut(&mut Harness, &mut Random)) -> Harness<'static> {
    assert_agreement(|harness| {
        for seed in 0..count {
            run(harness, &mut Random::new(seed));
        }
    })
}

#[test]
fn tiny_creations_and_seeks() {
    assert_agreement(|harness| {
        runs::tiny_creations(harness, 8);
        runs::tiny_seeks(harness, 8, Extent::Short);
    });
}

#[test]
fn tiny_blocks() {
    assert_agreement(|harness| runs::tiny_blocks(harness, 8, Extent::Short));
}

#[test]
fn held_zeros() {
    let harness = assert_agreement(|harness| runs::zeros(harness, 6));
    assert!(harness.tally.calls[Kind::Zeros as usize] >= 100_000);
}

#[test]
fn random_voices() {
    rounds(5_000, runs::large);
}

#[test]
fn voices_that_play_on() {
    rounds(10_000, runs::scans);
}

/// The entries with held lanes, compared with the entries with lanes, kira's text and the rules.
#[test]
fn numbers_given_once() {
    let mut harness = Harness::new(vec![&Kira, &Ours, &OursHeld]);
    for seed in 0..4_000 {
        runs::held(&mut harness, &mut Random::new(seed));
    }
    println!("{}", harness.tally);
    assert_eq!(harness.tally.differences(), 0, "\n{}", harness.tally);
    let refusals = &harness.tally.refusals[9..];
    assert!(refusals.iter().all(|count| *count >= 200), "{refusals:?}");
}

#[test]
fn cut_blocks() {
    rounds(5_000, runs::cuts);
}

#[test]
fn refused_calls() {
    let harness = rounds(6_000, runs::refusals);
    let refusals = &harness.tally.refusals[1..];
    assert!(refusals.iter().all(|count| *count >= 5_000), "{refusals:?}");
    assert!(harness.tally.calls[Kind::Edge as usize] >= 5_000);
}

#[test]
fn the_longest_sounds() {
    assert_agreement(|harness| Big::new().run(harness));
}
