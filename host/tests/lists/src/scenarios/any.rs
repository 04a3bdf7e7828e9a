// Random scenarios: a sound, a voice on it, and some rounds of commands and blocks.

use oracle::{
    Answer, Commands, EndPosition, LIMIT, LaneBuffers, PlaybackPosition, Region, Settings, Signals,
    State, leaves,
};
use random::Random;

use super::{
    scene::{Block, Scene},
    words::Words,
};

const RATES: [u32; 6] = [1, 3, 7, 44_100, 48_000, 768_000];

pub fn write(list: &mut Words, random: &mut Random) {
    let frames = 1 + random.below(16);
    let sound: Vec<f32> = (0..2 * frames).map(|_| any_sample(random)).collect();
    let mut scene = Scene::begin(list, &sound);
    scene.create(&any_settings(random, frames));
    for _ in 0..2 + random.below(3) {
        if random.coin() {
            let commands = any_commands(random, scene.state());
            scene.command(&commands);
        }
        let block = any_block(random, scene.state());
        if random.one_in(3) {
            let from = random.below(4);
            let rest = 2 * random.below(4);
            scene.mix(&block, 2 * (from + block.lanes.rate.len()) + rest, from);
        } else {
            scene.block(&block);
        }
    }
    if random.one_in(4) {
        scene.stretch();
    }
}

/// Mostly between -2 and 2, sometimes a special value.
fn any_sample(random: &mut Random) -> f32 {
    match random.below(60) {
        0 => f32::INFINITY,
        1 => f32::NAN,
        2 => f32::MAX,
        3 => f32::from_bits(1),
        4..8 => -0.0,
        8..30 => random.below(9) as f32 - 4.0,
        _ => (random.unit() * 4.0 - 2.0) as f32,
    }
}

fn any_rate(random: &mut Random) -> f64 {
    [0.0, -0.0, 1.0, -1.0, random.unit() * 6.0 - 3.0][random.below(5)]
}

/// A position in frames, or in seconds that round to it.
fn any_position(random: &mut Random, place: usize, sample_rate: u32) -> PlaybackPosition {
    let near = place as f64 + random.unit() * 0.9 - 0.45;
    if random.coin() {
        PlaybackPosition::Samples(place)
    } else {
        PlaybackPosition::Seconds(near / f64::from(sample_rate))
    }
}

/// A region that fits this many frames.
fn any_region(random: &mut Random, n: usize, sample_rate: u32) -> Region {
    let start = random.below(n);
    let end = start + 1 + random.below(n - start);
    let to_the_end = random.one_in(4);
    Region {
        start: any_position(random, start, sample_rate),
        end: if to_the_end {
            EndPosition::EndOfAudio
        } else {
            EndPosition::Custom(any_position(random, end, sample_rate))
        },
    }
}

fn any_settings(random: &mut Random, total: usize) -> Settings {
    let sample_rate = RATES[random.below(RATES.len())];
    let slice = random
        .one_in(3)
        .then(|| any_region(random, total, sample_rate));
    let n = slice.map_or(total, |region| length(region, sample_rate, total));
    let start = random.below(n);
    Settings {
        sample_rate,
        slice,
        start: any_position(random, start, sample_rate),
        loop_region: random.coin().then(|| any_region(random, n, sample_rate)),
        reverse: random.one_in(3),
        rate: any_rate(random),
        waits: random.one_in(6),
    }
}

/// The frames of a region.
fn length(region: Region, sample_rate: u32, total: usize) -> usize {
    let end = match region.end {
        EndPosition::EndOfAudio => total,
        EndPosition::Custom(position) => leaves::into_samples(position, sample_rate),
    };
    end - leaves::into_samples(region.start, sample_rate)
}

/// Any accepted command set.
fn any_commands(random: &mut Random, state: &State) -> Commands {
    let (n, hz) = (state.num_frames(), f64::from(state.sample_rate));
    let mut seek = || {
        let amount = (random.unit() * 3.0 - 1.0) * n as f64 / hz;
        random.one_in(3).then_some(amount)
    };
    let (seek_by, seek_to) = (seek(), seek());
    let accepted = |by: &f64| (state.position as f64 / hz + by) * hz < LIMIT as f64;
    let region = random
        .coin()
        .then(|| any_region(random, n, state.sample_rate));
    Commands {
        rate: random.coin().then(|| any_rate(random)),
        loop_region: random.one_in(3).then_some(region),
        pause: random.one_in(6),
        resume: random.one_in(4).then(|| random.coin()),
        stop: random.one_in(15),
        seek_by: seek_by.filter(accepted),
        seek_to,
    }
}

/// A block of up to 12 frames, most of them short.
fn any_block(random: &mut Random, state: &State) -> Block {
    let n = [random.below(4), random.below(7), random.below(13)][random.below(3)];
    let mut amplitudes = || (0..n).map(|_| any_amplitude(random)).collect();
    let lanes = LaneBuffers {
        fade: amplitudes(),
        volume: amplitudes(),
        left: amplitudes(),
        right: amplitudes(),
        rate: (0..n).map(|_| any_rate(random)).collect(),
    };
    let steps = [0.5, 1.0, 0.1 + random.unit(), 20.0][random.below(4)];
    Block {
        lanes,
        dt: steps / f64::from(state.sample_rate),
        signals: Signals {
            finished: random.one_in(3),
            start: any_answer(random),
            resume: any_answer(random),
        },
    }
}

/// Half of them are 1, which is short to write.
fn any_amplitude(random: &mut Random) -> f32 {
    [1.0, 1.0, 0.0, random.unit() as f32][random.below(4)]
}

fn any_answer(random: &mut Random) -> Answer {
    match random.below(12) {
        0..5 => Answer::Now,
        5 => Answer::Never,
        _ => Answer::Waiting,
    }
}
