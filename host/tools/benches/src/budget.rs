// Figures for planning: voices per core by block size and by steps per frame, timed.

use std::fmt::Write;

use crate::{
    measure,
    workload::{HZ, LaneKind, Looped, Safe, Workload},
};

/// The blocks of the table, in frames.
const BLOCKS: [usize; 7] = [64, 128, 256, 512, 1_024, 2_048, 4_096];
/// The steps per frame: the rates, at the sound's own sample rate.
const STEPS: [u32; 5] = [0, 1, 2, 3, 4];

/// The table: one line per block size, with nanoseconds per frame and voices per core through the safe crate.
#[must_use]
pub fn table(looped: Looped) -> String {
    let mut text = String::from(
        "| block | calls per second | longest wait of a command | 0 steps | 1 | 2 | 3 | 4 |\n|---|---|---|---|---|---|---|---|\n",
    );
    let sound = looped.sound();
    for block in BLOCKS {
        let hz = f64::from(HZ);
        let calls = hz / block as f64;
        write!(text, "| {block} | {calls:.1} | {:.1} ms |", 1e3 / calls).expect("text takes it");
        for steps in STEPS {
            let workload = Workload {
                rate: f64::from(steps),
                block,
                looped,
                lanes: LaneKind::PerFrame,
                start: None,
            };
            let least = measure::least(&mut Safe::new(&workload, &sound), block);
            let voices = 1e9 / (least * hz);
            write!(text, " {voices:.0} ({least:.1} ns) |").expect("text takes it");
        }
        text.push('\n');
    }
    text
}
