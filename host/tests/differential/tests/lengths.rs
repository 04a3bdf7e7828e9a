// Two sounds of equal length and the same calls, on the compiled library and on the model; and wrong players whose
// results depend on the samples.

use differential::{
    DOCUMENT, Model, Ours, OursHeld, Player,
    runs::{Alike, lengths},
};
use oracle::{Frame, leaves::Window};
use random::Random;
use rules::{Document, Rules};

fn rows(player: &dyn Player, count: u64) -> Result<Alike, String> {
    let mut seen = Alike::default();
    for seed in 0..count {
        lengths(player, &mut Random::new(seed), 200, &mut seen)?;
    }
    Ok(seen)
}

/// The compiled library. A block with constant lanes goes through the entries with held lanes.
struct OursBoth;

impl Player for OursBoth {
    fn name(&self) -> &str {
        "ours, held where it can be"
    }

    fn answer(&self, call: &differential::Call) -> Option<differential::Outcome> {
        OursHeld.answer(call).or_else(|| Ours.answer(call))
    }
}

#[test]
fn only_samples_differ() {
    let players: [&dyn Player; 3] = [&Ours, &OursBoth, &DOCUMENT];
    for player in players {
        let seen = rows(player, 500).unwrap();
        println!("{}: {seen:?}", player.name());
        assert_eq!(seen.accepted + seen.refused, 100_000);
        assert!(seen.refused > 1_000 && seen.created > 1_000);
        assert!(seen.tails > 1_000 && seen.other_samples > 10_000);
    }
}

struct SilenceIsNoFrame;
impl Rules for SilenceIsNoFrame {
    fn push(&self, given: &Window, frame: Option<Frame>, number: usize) -> Window {
        let heard = frame.filter(|frame| *frame != Frame::ZERO);
        Document.push(given, heard, number)
    }
}

struct NansAreDropped;
impl Rules for NansAreDropped {
    fn push(&self, given: &Window, frame: Option<Frame>, number: usize) -> Window {
        let number = match frame {
            Some(frame) if frame.left.is_nan() => given.entries[3].number,
            _ => number,
        };
        Document.push(given, frame, number)
    }
}

#[test]
fn players_that_follow_the_samples_are_found() {
    let wrong: [&dyn Player; 2] = [
        &Model::new("a silent frame counts as none", SilenceIsNoFrame),
        &Model::new("a NaN keeps the frame index", NansAreDropped),
    ];
    for player in wrong {
        assert!(rows(player, 500).is_err(), "{}", player.name());
    }
}
