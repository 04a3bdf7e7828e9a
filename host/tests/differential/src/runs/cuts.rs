// Blocks cut in two at every frame or near their ends, and cut into many parts at random.

use random::Random;

use crate::{any, harness::Harness, tally::Kind};

/// One short block cut everywhere, one longer block cut near its ends and at random.
pub fn cuts(harness: &mut Harness, random: &mut Random) {
    let n = random.below(25);
    let call = any::block_call(random, n);
    for k in 0..=n {
        harness.cut(Kind::Cut, &call, &[k, n - k]);
    }
    let most = any::one_of(random, &[40, 200, 1_000, 4_072]);
    let n = 25 + random.below(most);
    let call = any::block_call(random, n);
    for k in [0, 1, random.below(n), random.below(n), n - 1, n] {
        harness.cut(Kind::Cut, &call, &[k, n - k]);
    }
    harness.cut(Kind::Schedule, &call, &schedule(random, n));
}

/// Lengths that add up to `n`, some of them 0.
fn schedule(random: &mut Random, n: usize) -> Vec<usize> {
    let most = any::one_of(random, &[2, 8, 64, 512]);
    let mut left = n;
    let mut parts = Vec::new();
    while left > 0 {
        let part = random.below(most + 1).min(left);
        left -= part;
        parts.push(part);
    }
    parts
}
