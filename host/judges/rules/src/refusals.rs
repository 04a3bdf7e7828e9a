//! The rules' refusals: the lowest number that applies, 0 for none.

use oracle::{Commands, EndPosition, LIMIT, Lanes, PlaybackPosition, Region, Settings, State};

use crate::{Document, Rules};

/// The largest number of frames of a sound.
pub const MOST_FRAMES: usize = 16_777_216;
/// The highest sample rate.
pub const MOST_HZ: u32 = 768_000;
/// The largest number of frames of a block.
pub const MOST_BLOCK: usize = 4_096;
/// The largest advance.
pub const MOST_ADVANCE: f64 = 256.0;

/// The refusal of a creation over this many samples.
#[must_use]
pub fn of_creation(settings: &Settings, samples: usize) -> u32 {
    let rate = settings.sample_rate;
    let total = samples / 2;
    if rate == 0 || rate > MOST_HZ {
        return 2;
    }
    if samples % 2 == 1 || total == 0 || total > MOST_FRAMES {
        return 3;
    }
    if !settings
        .slice
        .is_none_or(|region| fits(region, rate, total))
    {
        return 4;
    }
    let n = settings.slice.map_or(total, |region| {
        let (start, end) = Document.to_region(region, rate, total);
        end - start
    });
    if !is_place(settings.start) || Document.to_frames(settings.start, rate) >= n {
        return 5;
    }
    if !settings
        .loop_region
        .is_none_or(|region| fits(region, rate, n))
    {
        return 6;
    }
    if settings.rate.is_finite() { 0 } else { 7 }
}

/// The refusal of a command set in a state over this many samples.
#[must_use]
pub fn of_commands(state: &State, samples: usize, commands: &Commands) -> u32 {
    if !is_ours(state, samples) {
        return 1;
    }
    let n = state.num_frames();
    let region = commands.loop_region.flatten();
    if !region.is_none_or(|region| fits(region, state.sample_rate, n)) {
        return 6;
    }
    if !commands.rate.is_none_or(f64::is_finite) {
        return 7;
    }
    let rate = f64::from(state.sample_rate);
    let by = |amount| Document.product_by(state.position, rate, amount);
    let reaches = |seek: Option<f64>, product: &dyn Fn(f64) -> f64| {
        seek.is_none_or(|seconds| seconds.is_finite() && product(seconds) < LIMIT as f64)
    };
    if reaches(commands.seek_by, &by) && reaches(commands.seek_to, &|seconds| seconds * rate) {
        0
    } else {
        8
    }
}

/// The refusal of a block in a state over this many samples. `placed` says whether it fits into its output.
#[must_use]
pub fn of_block(state: &State, samples: usize, lanes: &Lanes, dt: f64, placed: bool) -> u32 {
    if !is_ours(state, samples) {
        return 1;
    }
    let n = lanes.rate.len();
    let amplitudes = [lanes.fade, lanes.volume, lanes.left, lanes.right];
    if n > MOST_BLOCK || amplitudes.iter().any(|lane| lane.len() != n) || !placed {
        return 9;
    }
    if !dt.is_finite() || dt <= 0.0 {
        return 10;
    }
    let is_finite_clear = |x: &f32| x.is_finite() && x.is_sign_positive();
    if !amplitudes.into_iter().flatten().all(is_finite_clear)
        || !lanes.rate.iter().all(|rate| rate.is_finite())
    {
        return 11;
    }
    let hz = f64::from(state.sample_rate);
    let advance = |rate: &f64| hz * rate.abs() * dt;
    if lanes.rate.iter().any(|rate| advance(rate) > MOST_ADVANCE) {
        return 12;
    }
    0
}

/// Whether an output of this many samples is one of this many frames.
#[must_use]
pub fn holds(samples: usize, frames: usize) -> bool {
    samples.is_multiple_of(2) && samples / 2 == frames
}

/// Whether a mix of this many samples has space for this many frames from the given one on.
#[must_use]
pub fn has_room(samples: usize, from: usize, frames: usize) -> bool {
    let end = from.checked_add(frames);
    samples.is_multiple_of(2) && end.is_some_and(|end| end <= samples / 2)
}

/// Whether refusal 1 does not apply.
#[must_use]
pub fn is_ours(state: &State, samples: usize) -> bool {
    state.is_well_formed() && samples == 2 * state.total_frames
}

fn is_place(place: PlaybackPosition) -> bool {
    match place {
        PlaybackPosition::Seconds(seconds) => seconds.is_finite(),
        PlaybackPosition::Samples(_) => true,
    }
}

fn fits(region: Region, sample_rate: u32, frames: usize) -> bool {
    let is_end = match region.end {
        EndPosition::EndOfAudio => true,
        EndPosition::Custom(place) => is_place(place),
    };
    let (start, end) = Document.to_region(region, sample_rate, frames);
    is_place(region.start) && is_end && start < end && end <= frames
}
