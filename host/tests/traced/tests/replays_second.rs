//! Compares replays of version 2 with the model, over sounds that are given or not: by the crate and by the C entry.

use random::Random;
use traced::replays::second::{compare, entry, library};

#[test]
fn the_crate_does_what_the_model_does() {
    let mut random = Random::new(1);
    let tally = compare(384, 60_000, |bytes, sounds| {
        library(&mut random, bytes, sounds)
    });
    let tally = tally.unwrap();
    println!("{tally}");
    for refusal in [0, 1, 3, 10, 11, 12, 26] {
        assert!(tally.refused[refusal] > 50, "{refusal}: {tally}");
    }
}

#[test]
fn the_entry_does_what_the_model_does() {
    let mut random = Random::new(2);
    let tally = compare(385, 60_000, |bytes, sounds| {
        // The crate has the entry's voice, and is compared above.
        let voice = library(&mut random, bytes, sounds).voice;
        let mut did = entry(&mut random, bytes, sounds);
        did.voice = voice;
        did
    });
    println!("{}", tally.unwrap());
}
