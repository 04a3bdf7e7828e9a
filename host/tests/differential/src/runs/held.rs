// Blocks with held lanes: all frames have the same five numbers. The voices play block after block, mostly over few frames,
// in loops of one to eight frames or without a loop, over sounds with both zeros, NaN and infinities. Some blocks have a
// number, a time step, a frame count or a first frame of the mix that is refused.

use oracle::LaneBuffers;
use random::Random;

use super::scans::ten_blocks;
use crate::{
    any,
    call::{Block, Place},
    harness::Harness,
    tally::Kind,
};

/// Ten blocks with held lanes.
pub fn held(harness: &mut Harness, random: &mut Random) {
    ten_blocks(harness, random, sample, 8, |random, state| {
        let one = any::block(random, 1, state);
        let block = repeated(random, one);
        let kind = match block.place {
            Place::Whole(_) => Kind::Block,
            Place::Mix(..) => Kind::Mix,
        };
        (kind, block)
    });
}

/// The numbers of a block of one frame, repeated; rarely something is changed so that the block is refused.
fn repeated(random: &mut Random, one: Block) -> Block {
    let n = match random.below(40) {
        0 => 4_097,
        _ => any::length(random),
    };
    let lanes = one.lanes;
    let mut numbers = [
        lanes.fade[0],
        lanes.volume[0],
        lanes.left[0],
        lanes.right[0],
    ];
    let (mut rate, mut dt) = (lanes.rate[0], one.dt);
    match random.below(24) {
        0..3 => {
            numbers[random.below(4)] = any::one_of(random, &[-0.0, -1.0, f32::NAN, f32::INFINITY])
        }
        3 => rate = any::one_of(random, &[f64::NAN, f64::INFINITY, f64::NEG_INFINITY]),
        4 => rate = any::one_of(random, &[f64::MAX, -f64::MAX, 257.0 / dt, rate]),
        5 => dt = any::one_of(random, &[0.0, -0.0, -1.0, f64::NAN, f64::INFINITY]),
        _ => {}
    }
    let [fade, volume, left, right] = numbers;
    let place = match random.below(4) {
        0 => any::mix(random, n),
        _ if random.one_in(20) => Place::Whole(2 * n + 1),
        _ => Place::Whole(2 * n),
    };
    Block {
        lanes: LaneBuffers::constant(n, fade, volume, (left, right), rate),
        dt,
        place,
        ..one
    }
}

/// A sample: mostly an ordinary one.
fn sample(random: &mut Random) -> f32 {
    let any = random.unit() as f32 - 0.5;
    any::one_of(
        random,
        &[
            any,
            any,
            any,
            any,
            0.0,
            -0.0,
            f32::NAN,
            f32::INFINITY,
            1e-45,
        ],
    )
}
