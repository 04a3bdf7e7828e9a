// A voice that plays inside its loop stays inside it: a long sequence of calls, and a check of the promise after each.

use oracle::{Answer, PlaybackState, State};
use random::Random;

use crate::{
    any,
    call::{Ask, Call, Sound},
    player::Player,
};

/// What sequences of calls contained.
#[derive(Debug, Default)]
pub struct Seen {
    /// Calls that were accepted.
    pub accepted: u64,
    /// Calls that were refused, whatever they contained.
    pub refused: u64,
    /// Accepted sets with a seek.
    pub seeks: u64,
    /// Frames played.
    pub frames: u64,
    /// Voices that a stop command or the answer "never" ended. A new voice follows each.
    pub ended: u64,
}

/// Makes this many calls. Fails at the first one after which the promise is broken.
///
/// # Errors
///
/// What is broken, and by which call.
pub fn in_the_loop(
    player: &dyn Player,
    random: &mut Random,
    calls: u64,
    seen: &mut Seen,
) -> Result<(), String> {
    let (mut sound, mut state) = looped(random);
    let mut may_stop = false;
    for _ in 0..calls {
        let ask = ask(random, &state);
        let (ends, sought, frames) = holds(&ask);
        let call = Call {
            ask,
            sound: sound.clone(),
        };
        let outcome = player.answer(&call).ok_or("no answer")?;
        let after = outcome.state.ok_or("no well formed state")?;
        if outcome.refusal == 0 {
            seen.accepted += 1;
            seen.seeks += u64::from(sought);
            seen.frames += frames;
            may_stop |= ends;
        } else {
            seen.refused += 1;
        }
        let inside = |(start, end)| (start..end).contains(&after.position);
        let stays = after.playing
            && after.loop_region == state.loop_region
            && after.loop_region.is_some_and(inside);
        let stopped = after.playback == PlaybackState::Stopped;
        if !stays || (stopped && !may_stop) {
            return Err(format!("{call:?} gave {after:?}"));
        }
        state = after;
        if stopped {
            seen.ended += 1;
            may_stop = false;
            (sound, state) = looped(random);
        }
    }
    Ok(())
}

/// A voice that plays inside its loop, neither Stopping nor Stopped.
fn looped(random: &mut Random) -> (std::sync::Arc<Sound>, State) {
    let sound = any::short_sound(random);
    let mut state = any::state(random, sound.num_frames());
    let n = state.num_frames();
    let start = random.below(n);
    let end = start + 1 + random.below(n - start);
    state.loop_region = Some((start, end));
    state.playing = true;
    state.position = start + random.below(end - start);
    if matches!(
        state.playback,
        PlaybackState::Stopping | PlaybackState::Stopped
    ) {
        state.playback = PlaybackState::Playing;
    }
    (sound, state)
}

/// A call. A command set has no loop command, and rarely a stop; a block rarely has the answer "never". One in eight
/// calls must be refused and may contain anything.
fn ask(random: &mut Random, state: &State) -> Ask {
    let refused = random.one_in(8);
    let seldom = random.one_in(200);
    if random.one_in(3) {
        let mut commands = any::commands(random, state);
        if refused {
            commands.rate = Some(f64::NAN);
        } else {
            commands.loop_region = None;
            commands.stop &= seldom;
        }
        return Ask::Command(*state, commands);
    }
    let n = any::length(random).min(64);
    let mut block = any::block(random, n, state);
    if random.one_in(3) {
        block.place = any::mix(random, n);
    }
    if refused {
        block.dt = any::one_of(random, &[0.0, -1.0, f64::INFINITY, f64::NAN]);
    } else if !seldom {
        for answer in [&mut block.signals.start, &mut block.signals.resume] {
            if *answer == Answer::Never {
                *answer = Answer::Waiting;
            }
        }
    }
    Ask::Block(*state, block)
}

/// Whether it contains a stop command or the answer "never", and a seek; and its frames.
fn holds(ask: &Ask) -> (bool, bool, u64) {
    match ask {
        Ask::Command(_, commands) => {
            let sought = commands.seek_by.is_some() || commands.seek_to.is_some();
            (commands.stop, sought, 0)
        }
        Ask::Block(_, block) => {
            let signals = block.signals;
            let never = signals.start == Answer::Never || signals.resume == Answer::Never;
            (never, false, block.lanes.rate.len() as u64)
        }
        Ask::Create(_) | Ask::Stretch(_) => (false, false, 0),
    }
}
