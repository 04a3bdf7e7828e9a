// What the tests share: small sounds, unit lanes, and a play call.
#![allow(dead_code)]

use oracle::{EndPosition, LaneBuffers, Oracle, PlaybackPosition::Samples, Region, Signals};

/// A mono sound in both channels: `first`, `first + 1` and so on.
pub fn ramp(first: usize, frames: usize) -> Vec<f32> {
    (first..first + frames)
        .flat_map(|value| [value as f32; 2])
        .collect()
}

/// The region from `start` up to `end`, in frames.
pub fn frames(start: usize, end: usize) -> Region {
    Region {
        start: Samples(start),
        end: EndPosition::Custom(Samples(end)),
    }
}

/// Plays `n` frames with unit lanes at the given rate and no signals. Returns the left samples and the steps.
pub fn play(voice: &mut Oracle, n: usize, rate: f64, dt: f64) -> (Vec<f32>, u64) {
    let lanes = LaneBuffers::constant(n, 1.0, 1.0, (1.0, 1.0), rate);
    let mut out = vec![f32::NAN; 2 * n];
    let reported = voice.block(&lanes.as_lanes(), dt, Signals::default(), &mut out);
    let left = out.chunks(2).map(|frame| frame[0]).collect();
    (left, reported.steps)
}

/// The window's frame indices.
pub fn numbers(voice: &Oracle) -> [usize; 4] {
    voice.state().window.map(|entry| entry.number)
}
