// The same harness finds every wrong player, each by its own slip.

use differential::{Harness, runs, wrong};
use random::Random;

/// Rounds after which a slip must have been found.
const ROUNDS: u64 = 2_000;

#[test]
fn every_wrong_player_is_found_out() {
    for player in wrong::all() {
        let mut harness = Harness::until_first(player.as_ref());
        let mut round = 0;
        while !harness.has_enough() {
            assert!(round < ROUNDS, "not found out: {}", player.name());
            let mut random = Random::new(round);
            runs::large(&mut harness, &mut random);
            runs::refusals(&mut harness, &mut random);
            runs::ticks(&mut harness, &mut random);
            round += 1;
        }
        for ((name, _), found) in &harness.tally.found {
            println!("{name} (round {round}): {}\n{}\n", found.reason, found.call);
        }
    }
}

#[test]
fn the_cuts_alone_find_a_cleared_fraction() {
    let all = wrong::all();
    let player = all
        .iter()
        .find(|player| player.name().contains("fraction is cleared"))
        .expect("that slip");
    let mut harness = Harness::until_first(player.as_ref());
    for seed in 0..ROUNDS {
        runs::cuts(&mut harness, &mut Random::new(seed));
        if harness.has_enough() {
            println!("{}", harness.tally);
            return;
        }
    }
    panic!("not found out");
}
