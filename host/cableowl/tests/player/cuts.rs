// The same commands at the same frames have the same samples, states and counts, bit for bit, for all block sizes.

use cableowl::Player;
use random::Random;

use crate::evening::{Evening, Outcome, bits, seeds, shrunk};

/// As few blocks as possible.
fn whole(evening: &Evening) -> Outcome {
    evening.played(&mut evening.player(), &mut || usize::MAX)
}

/// Random block sizes: blocks of 0 frames, of one, and of more than a voice's block may have.
fn schedule(seed: u64) -> impl FnMut() -> usize {
    let mut random = Random::new(seed);
    let most = [1, 3, 17, 200, 5_000][random.below(5)];
    move || random.below(most + 1)
}

/// Where two ways to cut an evening differ, if they do.
fn difference(evening: &Evening, seed: u64) -> Option<&'static str> {
    let whole = whole(evening);
    let ones = evening.played(&mut evening.player(), &mut || 1);
    let any = evening.played(&mut evening.player(), &mut schedule(seed));
    for other in [ones, any] {
        let parts = [
            (other.samples == whole.samples, "the samples differ"),
            (other.answers == whole.answers, "the answers differ"),
            (
                other.reported == whole.reported,
                "state, position or parameters differ",
            ),
            (other.counts == whole.counts, "the counts differ"),
        ];
        if let Some((_, part)) = parts.into_iter().find(|(same, _)| !same) {
            return Some(part);
        }
    }
    None
}

#[test]
fn no_cutting_of_time_changes_anything() {
    let (mut rounds, mut frames, mut commands, mut stopped) = (0, 0, 0, 0);
    for seed in seeds(4_000) {
        let evening = Evening::any(&mut Random::new(seed));
        if difference(&evening, seed).is_some() {
            let least = shrunk(evening, |evening| difference(evening, seed).is_some());
            let what = difference(&least, seed);
            panic!("seed {seed}: {}\n{least:#?}", what.unwrap_or_default());
        }
        rounds += 1;
        frames += 3 * evening.frames;
        commands += evening.commands.len();
        let mut player = evening.player();
        evening.played(&mut player, &mut || usize::MAX);
        stopped += usize::from(player.voice().finished());
    }
    println!("{rounds} evenings, {commands} commands, {frames} frames; {stopped} stopped");
    assert!(stopped > rounds / 20 && stopped < rounds);
}

#[test]
fn a_mix_adds_what_a_block_plays() {
    for seed in 0..300 {
        let evening = Evening::any(&mut Random::new(seed));
        let mut random = Random::new(seed);
        let stands: Vec<f32> = (0..2 * evening.frames)
            .map(|_| random.unit() as f32)
            .collect();
        let (mut one, mut other): (Player, Player) = (evening.player(), evening.player());
        let (mut played, mut mixed) = (stands.clone(), stands.clone());
        let mut commands = evening.commands.iter().peekable();
        let (mut clock, mut cut) = (0, schedule(seed));
        while clock < evening.frames {
            while let Some((_, command)) = commands.next_if(|(frame, _)| *frame == clock) {
                assert_eq!(one.command(*command), other.command(*command));
            }
            let next = commands.peek().map_or(evening.frames, |(frame, _)| *frame);
            let part = 2 * clock..2 * (clock + cut().min(next - clock));
            let counts = one.process(&evening.sound, &mut played[part.clone()]);
            assert_eq!(counts, other.mix(&evening.sound, &mut mixed[part.clone()]));
            clock = part.end / 2;
        }
        let sums: Vec<f32> = stands.iter().zip(&played).map(|(a, b)| a + b).collect();
        assert_eq!(bits(&sums), bits(&mixed));
        assert_eq!(one.voice().state(), other.voice().state());
    }
}
