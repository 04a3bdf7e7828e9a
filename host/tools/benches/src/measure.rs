// Times our code, the safe crate and kira's text in turn, so that a disturbance affects all of them.

use std::time::Instant;

use crate::workload::{Kira, LaneKind, Looped, Ours, Safe, Voice, Workload};

/// The rates played forward.
pub const FORWARD: [f64; 5] = [0.5, 0.93, 1.0, 2.0, 16.0];
/// The rates played backward.
const BACKWARD: [f64; 5] = [-0.5, -0.93, -1.0, -2.0, -16.0];
/// The blocks played, in frames.
pub const BLOCKS: [usize; 3] = [64, 512, 4_096];

const REPETITIONS: usize = 200;
/// Frames of one repetition: whole blocks of each size.
const FRAMES: usize = 8_192;

/// Nanoseconds per frame: the minimum and the median.
#[derive(Debug, Clone, Copy)]
pub struct Time {
    /// The minimum of all repetitions.
    pub least: f64,
    /// The median.
    pub median: f64,
}

/// One workload with its times.
#[derive(Debug, Clone, Copy)]
pub struct Row {
    /// What was played.
    pub workload: Workload,
    /// Our code, through the C entry.
    pub ours: Time,
    /// Our code, through the safe crate.
    pub safe: Time,
    /// kira's text.
    pub kira: Time,
}

/// Every workload: each kind of lane in the long loop, lanes per frame in the others.
#[must_use]
pub fn all() -> Vec<Row> {
    let long = LaneKind::ALL.map(|lanes| (Looped::Long, lanes));
    let others = [Looped::Three, Looped::Tail].map(|looped| (looped, LaneKind::PerFrame));
    let all = long.into_iter().chain(others);
    all.flat_map(|(looped, lanes)| rows(looped, lanes))
        .collect()
}

fn rows(looped: Looped, lanes: LaneKind) -> Vec<Row> {
    let sound = looped.sound();
    let with_rate = BLOCKS.into_iter().flat_map(|block| {
        let rates = FORWARD.into_iter().chain(BACKWARD);
        rates.map(move |rate| Workload {
            rate,
            block,
            looped,
            lanes,
            start: None,
        })
    });
    with_rate.map(|workload| row(workload, &sound)).collect()
}

fn row(workload: Workload, sound: &[f32]) -> Row {
    let mut ours = Ours::new(&workload, sound);
    let mut safe = Safe::new(&workload, sound);
    let mut kira = Kira::new(&workload, sound);
    let mut times = [Vec::new(), Vec::new(), Vec::new()];
    for _ in 0..REPETITIONS {
        times[0].push(timed(&mut ours, workload.block));
        times[1].push(timed(&mut safe, workload.block));
        times[2].push(timed(&mut kira, workload.block));
    }
    assert_eq!(ours.heard(), kira.heard(), "both play the same");
    assert_eq!(ours.heard(), safe.heard(), "both play the same");
    let [ours, safe, kira] = times.map(summed_up);
    Row {
        workload,
        ours,
        safe,
        kira,
    }
}

/// Nanoseconds per frame of one voice alone, the minimum of all repetitions.
#[must_use]
pub fn least(voice: &mut dyn Voice, block: usize) -> f64 {
    let times = (0..REPETITIONS).map(|_| timed(voice, block));
    times.fold(f64::INFINITY, f64::min)
}

fn timed(voice: &mut dyn Voice, block: usize) -> f64 {
    let begun = Instant::now();
    (0..FRAMES / block).for_each(|_| voice.block());
    begun.elapsed().as_nanos() as f64 / FRAMES as f64
}

fn summed_up(mut times: Vec<f64>) -> Time {
    times.sort_by(f64::total_cmp);
    Time {
        least: times[0],
        median: times[times.len() / 2],
    }
}
