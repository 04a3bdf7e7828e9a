// Two sounds of equal length and the same calls: only samples may differ.

use std::sync::Arc;

use oracle::{PlaybackState, State};
use random::Random;

use crate::{
    any,
    call::{Ask, Call, Outcome, Sound, is_identical},
    player::Player,
};

/// What sequences of calls over two sounds contained.
#[derive(Debug, Default)]
pub struct Alike {
    /// Calls that both accepted.
    pub accepted: u64,
    /// Calls that both refused, with the same number.
    pub refused: u64,
    /// Voices that were created.
    pub created: u64,
    /// Blocks that read a count below 4.
    pub tails: u64,
    /// Calls after which the two windows had different samples.
    pub other_samples: u64,
}

/// Makes this many calls over two sounds of equal length. Fails at the first one after which more than samples differs.
///
/// # Errors
///
/// What differs, and by which call.
pub fn lengths(
    player: &dyn Player,
    random: &mut Random,
    calls: u64,
    seen: &mut Alike,
) -> Result<(), String> {
    let sounds = two_sounds(random);
    let mut states = None;
    for _ in 0..calls {
        let asks = asks(random, &sounds[0], states);
        let [one, other] = [0, 1].map(|i| Call {
            ask: asks[i].clone(),
            sound: sounds[i].clone(),
        });
        let (a, b) = (answered(player, &one)?, answered(player, &other)?);
        if let Some(what) = difference(&a, &b) {
            return Err(format!("{what}, by {one:?} and {other:?}"));
        }
        if a.refusal == 0 {
            seen.accepted += 1;
            seen.created += u64::from(matches!(one.ask, Ask::Create(_)));
            seen.tails += u64::from(a.lowest_count < 4);
        } else {
            seen.refused += 1;
        }
        // A state that is not well formed is used once; then a voice is created.
        states = a.state.zip(b.state).filter(|(state, _)| {
            a.refusal != 1
                && state.sample_rate > 0
                && !(random.one_in(50) || is_over(random, state))
        });
        seen.other_samples += u64::from(states.is_some_and(|(a, b)| !is_identical(&a, &b)));
    }
    Ok(())
}

/// Whether to leave the voice: mostly when it is Stopped.
fn is_over(random: &mut Random, state: &State) -> bool {
    state.playback == PlaybackState::Stopped && !random.one_in(4)
}

/// A sound, and another with as many samples: any bits, or the same sample throughout.
fn two_sounds(random: &mut Random) -> [Arc<Sound>; 2] {
    let sound = any::short_sound(random);
    let same = any::one_of(
        random,
        &[0.0, -0.0, f32::NAN, f32::INFINITY, f32::MAX, 1e-45],
    );
    let throughout = random.coin();
    let other = sound.samples().iter().map(|_| {
        let bits = f32::from_bits(random.word() as u32);
        if throughout { same } else { bits }
    });
    let other = Sound::new(other.collect());
    [sound, other]
}

/// The same call for each voice; a creation if there is none.
fn asks(random: &mut Random, sound: &Sound, states: Option<(State, State)>) -> [Ask; 2] {
    let Some((mut one, mut other)) = states else {
        let settings = any::settings(random, sound.num_frames());
        return [settings, settings].map(Ask::Create);
    };
    if random.one_in(40) {
        spoil(random, &mut one, &mut other);
    }
    match random.below(8) {
        0 => [Ask::Stretch(one), Ask::Stretch(other)],
        1 | 2 => {
            let mut commands = any::commands(random, &one);
            commands.stop &= random.one_in(4);
            [Ask::Command(one, commands), Ask::Command(other, commands)]
        }
        _ => {
            let n = any::length(random).min(64);
            let mut block = any::block(random, n, &one);
            if random.one_in(3) {
                block.place = any::mix(random, n);
            }
            if random.one_in(8) {
                block.dt = any::one_of(random, &[0.0, -1.0, f64::INFINITY, f64::NAN]);
            }
            [Ask::Block(one, block.clone()), Ask::Block(other, block)]
        }
    }
}

/// Puts a sample where a well formed voice has +0: in both, from the count on.
fn spoil(random: &mut Random, one: &mut State, other: &mut State) {
    let entry = random.below(4);
    let sample = any::one_of(random, &[-0.0, 1.0, f32::NAN]);
    for state in [one, other] {
        if entry >= state.count {
            state.window[entry].left = sample;
        }
    }
}

fn answered(player: &dyn Player, call: &Call) -> Result<Outcome, String> {
    player.answer(call).ok_or_else(|| "no answer".to_owned())
}

/// The state with +0 in the entries before its count.
fn muted(state: &State) -> State {
    let mut muted = *state;
    for entry in muted.window.iter_mut().take(state.count) {
        (entry.left, entry.right) = (0.0, 0.0);
    }
    muted
}

/// What differs besides samples, if anything.
fn difference(a: &Outcome, b: &Outcome) -> Option<String> {
    let reported = |outcome: &Outcome| {
        let position = outcome.position.to_bits();
        let (steps, count) = (outcome.steps, outcome.lowest_count);
        (outcome.refusal, steps, count, position, outcome.part)
    };
    if reported(a) != reported(b) {
        return Some(format!("{:?} against {:?}", reported(a), reported(b)));
    }
    match (a.state, b.state) {
        (Some(one), Some(other)) if is_identical(&muted(&one), &muted(&other)) => None,
        (one, other) => Some(format!("{one:?} against {other:?}")),
    }
}
