//! Finds the frame in which a voice reaches the end of its sound.

use std::ops::Range;

use crate::{Processed, Refusal, StaticSound};

/// Plays a block of this many frames by `play`, or fewer if the sound ends: **it ends with the frame in
/// which the voice stops**, because what a voice does after that depends on where its block ends
/// (docs/assurance/RULES.md, "Creation, commands, block"). Returns the frames played and their counts.
///
/// `play` plays a part of the block. If the voice stops, parts are played more than once, with the same
/// result each time.
#[inline]
pub fn until_it_stops(
    voice: &mut StaticSound,
    frames: usize,
    mut play: impl FnMut(Range<usize>, &mut StaticSound) -> Result<Processed, Refusal>,
) -> Result<(usize, Processed), Refusal> {
    let before = voice.clone();
    let all = play(0..frames, voice)?;
    // Without a step the sound did not end here: the block was silent, or its signals stopped the voice.
    if !voice.finished() || all.steps == 0 {
        return Ok((frames, all));
    }
    let (stopped, frames, counts) = stop(before, frames, &mut play)?;
    *voice = stopped;
    Ok((frames, counts))
}

/// Plays up to the frame in which this voice stops. Returns the stopped voice, the frames and their counts.
#[cold]
#[inline(never)]
fn stop(
    mut voice: StaticSound,
    frames: usize,
    play: &mut impl FnMut(Range<usize>, &mut StaticSound) -> Result<Processed, Refusal>,
) -> Result<(StaticSound, usize, Processed), Refusal> {
    // It stops after more than `low` frames and at most `high`.
    let (mut low, mut high, mut counts) = (0, frames, Processed::NONE);
    while high - low > 1 {
        let middle = low + (high - low) / 2;
        let mut tried = voice.clone();
        let part = play(low..middle, &mut tried)?;
        if tried.finished() {
            high = middle;
        } else {
            (low, voice, counts) = (middle, tried, counts.and(part));
        }
    }
    let last = play(low..high, &mut voice)?;
    Ok((voice, high, counts.and(last)))
}
