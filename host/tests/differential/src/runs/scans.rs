// Voices that play block after block, so that their window is contiguous and the fast path plays them: over few frames, in
// loops of one to five frames or without a loop, in both directions, with advances of up to many wraps a frame.

use oracle::{PlaybackPosition, Settings, State};
use random::Random;

use crate::{
    any,
    call::{Ask, Block, Call, Sound},
    harness::Harness,
    tally::Kind,
};

/// Ten blocks of any numbers.
pub fn scans(harness: &mut Harness, random: &mut Random) {
    let sample = |random: &mut Random| random.unit() as f32 - 0.5;
    ten_blocks(harness, random, sample, 5, |random, state| {
        let n = any::length(random).min(64);
        (Kind::Block, any::block(random, n, state))
    });
}

/// One voice over few frames, mostly with a loop of at most `longest` frames, and ten blocks. Now and then a command set
/// comes between two of them.
pub fn ten_blocks(
    harness: &mut Harness,
    random: &mut Random,
    sample: fn(&mut Random) -> f32,
    longest: usize,
    block: fn(&mut Random, &State) -> (Kind, Block),
) {
    let few = 1 + random.below(8);
    let more = 9 + random.below(200);
    let total = any::one_of(random, &[few, few, few, more]);
    let sound = Sound::new((0..2 * total).map(|_| sample(random)).collect());
    let call = |ask| Call {
        ask,
        sound: sound.clone(),
    };
    let create = Ask::Create(settings(random, total, longest));
    let created = harness.ask(Kind::Creation, &call(create));
    let Some(mut state) = created.state else {
        return;
    };
    for _ in 0..10 {
        if random.one_in(8) {
            let ask = Ask::Command(state, any::commands(random, &state));
            let outcome = harness.ask(Kind::Commands, &call(ask));
            state = outcome.state.unwrap_or(state);
        }
        let (kind, block) = block(random, &state);
        let outcome = harness.ask(kind, &call(Ask::Block(state, block)));
        state = outcome.state.unwrap_or(state);
        if harness.has_enough() {
            return;
        }
    }
}

/// Settings of a voice that is started, mostly with a loop of at most `longest` frames.
fn settings(random: &mut Random, total: usize, longest: usize) -> Settings {
    let short = 1 + random.below(total.min(longest));
    let from = random.below(total - short + 1);
    let loop_region = (!random.one_in(4)).then(|| any::samples(from, from + short));
    Settings {
        slice: None,
        loop_region,
        start: PlaybackPosition::Samples(random.below(total)),
        waits: false,
        ..any::accepted_settings(random, total)
    }
}
