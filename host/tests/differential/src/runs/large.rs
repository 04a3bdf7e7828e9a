// Random voices, created or set to any state; then commands, blocks, mixes and stretches.

use random::Random;

use crate::{
    any,
    call::{Ask, Call},
    harness::Harness,
    tally::Kind,
};

/// One voice and twelve rounds of calls.
pub fn large(harness: &mut Harness, random: &mut Random) {
    let sound = any::sound(random);
    let frames = sound.num_frames();
    let call = |ask| Call {
        ask,
        sound: sound.clone(),
    };
    let created = harness.ask(
        Kind::Creation,
        &call(Ask::Create(any::settings(random, frames))),
    );
    let mut state = match created.state {
        Some(state) if created.refusal == 0 && random.coin() => state,
        _ => any::state(random, frames),
    };
    for _ in 0..12 {
        if random.one_in(3) {
            let ask = Ask::Command(state, any::commands(random, &state));
            let outcome = harness.ask(Kind::Commands, &call(ask));
            state = outcome.state.unwrap_or(state);
        }
        if random.one_in(8) {
            harness.ask(Kind::Stretch, &call(Ask::Stretch(state)));
        }
        let n = any::length(random);
        let mut block = any::block(random, n, &state);
        let kind = if random.one_in(3) {
            block.place = any::mix(random, n);
            Kind::Mix
        } else {
            Kind::Block
        };
        let outcome = harness.ask(kind, &call(Ask::Block(state, block)));
        state = outcome.state.unwrap_or(state);
        if harness.has_enough() {
            return;
        }
    }
}
