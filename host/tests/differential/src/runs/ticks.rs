// Blocks whose start is due at a tick: into an output, into a mix, and cut in two, where each part gets the same tick.

use random::Random;

use crate::{any, call::Ask, harness::Harness, tally::Kind};

/// One block of few frames, in any state, mostly not started yet.
pub fn ticks(harness: &mut Harness, random: &mut Random) {
    let n = random.below(9);
    let mut call = any::block_call(random, n);
    if let Ask::Block(state, block) = &mut call.ask {
        state.started &= random.one_in(4);
        block.tick = Some(any::tick(random));
    }
    harness.ask(Kind::Block, &call);
    let k = random.below(n + 1);
    harness.cut(Kind::Cut, &call, &[k, n - k]);
    if let Ask::Block(_, block) = &mut call.ask {
        block.place = any::mix(random, n);
    }
    harness.ask(Kind::Mix, &call);
}
