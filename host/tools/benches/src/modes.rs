// What setting the float mode costs a call of 64 frames through the safe crate, for a host in the plain mode and for
// one that flushes subnormals.

use std::time::Instant;

use crate::workload::{LaneKind, Looped, Safe, Voice, Workload};

#[path = "../../../cableowl/tests/mode/mod.rs"]
mod mode;

use mode::Mode;

const BLOCK: usize = 64;
const CALLS: usize = 128;
const REPETITIONS: usize = 2_000;

/// Nanoseconds per call, the minimum of all repetitions: plain, and flushing.
#[must_use]
pub fn cost() -> [f64; 2] {
    let workload = Workload {
        rate: 0.93,
        block: BLOCK,
        looped: Looped::Long,
        lanes: LaneKind::PerFrame,
        start: None,
    };
    let sound = workload.looped.sound();
    let mut voice = Safe::new(&workload, &sound);
    let plain = Mode::now();
    let mut least = [u128::MAX; 2];
    for _ in 0..REPETITIONS {
        for (least, mode) in least.iter_mut().zip([plain, mode::FLUSHING]) {
            mode.set();
            let begun = Instant::now();
            (0..CALLS).for_each(|_| voice.block());
            let time = begun.elapsed().as_nanos();
            plain.set();
            *least = time.min(*least);
        }
    }
    least.map(|time| time as f64 / CALLS as f64)
}
