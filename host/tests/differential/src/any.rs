// Random inputs of every kind, the same for the same seed.

use std::sync::Arc;

use oracle::{
    Answer, Commands, EndPosition, Entry, LIMIT, LaneBuffers, PlaybackPosition, PlaybackState,
    Region, Settings, Signals, State, Wraps,
};
use random::Random;
use rules::{Document, Rules};

use crate::call::{Ask, Block, Call, Place, Sound};

/// One of these values.
pub fn one_of<T: Copy>(random: &mut Random, choices: &[T]) -> T {
    choices[random.below(choices.len())]
}

/// A sound: mostly short, sometimes long, with ordinary samples or any.
pub fn sound(random: &mut Random) -> Arc<Sound> {
    let most = one_of(random, &[3, 12, 12, 12, 300, 300, 20_000]);
    let frames = 1 + random.below(most);
    let wild = random.one_in(4);
    Sound::new((0..2 * frames).map(|_| sample(random, wild)).collect())
}

/// A short sound of ordinary samples.
pub fn short_sound(random: &mut Random) -> Arc<Sound> {
    let frames = 1 + random.below(12);
    Sound::new((0..2 * frames).map(|_| sample(random, false)).collect())
}

/// A sample: ordinary, or any bits.
fn sample(random: &mut Random, wild: bool) -> f32 {
    if wild && random.coin() {
        return match random.below(5) {
            0 => f32::from_bits(random.word() as u32),
            1 => f32::from_bits(0x7f80_0001 | (random.word() as u32)),
            2 => f32::INFINITY,
            3 => -f32::MAX,
            _ => -0.0,
        };
    }
    (random.unit() * 4.0 - 2.0) as f32
}

/// A sample rate.
pub fn sample_rate(random: &mut Random) -> u32 {
    let any = 1 + random.below(768_000) as u32;
    one_of(random, &[1, 1, 2, 7, 44_100, 48_000, 768_000, any])
}

/// A rate that is finite.
pub fn rate(random: &mut Random) -> f64 {
    let near = random.unit() * 6.0 - 3.0;
    let any = random.with_exponent(-1_022..1_024);
    one_of(
        random,
        &[
            0.0, -0.0, 1.0, 1.0, -1.0, near, near, near, any, -any, 5e-324, -5e-324,
        ],
    )
}

/// A position at or near a frame: in frames, or in seconds on or beside the limits of rounding.
fn place(random: &mut Random, frame: usize, sample_rate: u32) -> PlaybackPosition {
    let hz = f64::from(sample_rate);
    let frame_at = frame as f64;
    let half = (frame_at - 0.5) / hz;
    match random.below(12) {
        0 => PlaybackPosition::Seconds(frame_at / hz),
        1 => PlaybackPosition::Seconds((frame_at + random.unit() - 0.5) / hz),
        2 => PlaybackPosition::Seconds(one_of(random, &[half, half.next_up(), half.next_down()])),
        3 if frame == 0 => PlaybackPosition::Seconds(-random.with_exponent(-1_022..1_024)),
        _ => PlaybackPosition::Samples(frame),
    }
}

/// A region that fits, except for the rounding of seconds.
pub fn region(random: &mut Random, n: usize, sample_rate: u32) -> Region {
    let start = random.below(n);
    let end = start + 1 + random.below(n - start);
    let start = place(random, start, sample_rate);
    let end = if random.one_in(4) {
        EndPosition::EndOfAudio
    } else {
        EndPosition::Custom(place(random, end, sample_rate))
    };
    Region { start, end }
}

/// A region that fits, in frames.
pub fn exact_region(random: &mut Random, n: usize) -> Region {
    let start = random.below(n);
    let end = start + 1 + random.below(n - start);
    samples(start, end)
}

/// The region between two frames.
pub fn samples(start: usize, end: usize) -> Region {
    Region {
        start: PlaybackPosition::Samples(start),
        end: EndPosition::Custom(PlaybackPosition::Samples(end)),
    }
}

/// Settings, mostly accepted.
pub fn settings(random: &mut Random, total: usize) -> Settings {
    let sample_rate = sample_rate(random);
    let slice = random.one_in(3).then(|| region(random, total, sample_rate));
    let n = slice.map_or(total, |region| {
        let (start, end) = Document.to_region(region, sample_rate, total);
        end.min(total).saturating_sub(start).max(1)
    });
    let first = random.below(n);
    Settings {
        sample_rate,
        slice,
        start: place(random, first, sample_rate),
        loop_region: random.coin().then(|| region(random, n, sample_rate)),
        reverse: random.one_in(3),
        rate: rate(random),
        waits: random.one_in(4),
    }
}

/// Accepted settings with all positions in frames.
pub fn accepted_settings(random: &mut Random, total: usize) -> Settings {
    let slice = random.one_in(3).then(|| exact_region(random, total));
    let n = slice.map_or(total, |region| {
        let (start, end) = Document.to_region(region, 1, total);
        end - start
    });
    Settings {
        sample_rate: sample_rate(random),
        slice,
        start: PlaybackPosition::Samples(random.below(n)),
        loop_region: random.coin().then(|| exact_region(random, n)),
        reverse: random.one_in(3),
        rate: rate(random),
        waits: random.one_in(4),
    }
}

/// Any well formed state over this many frames, reachable or not.
pub fn state(random: &mut Random, total: usize) -> State {
    let settings = accepted_settings(random, total);
    let to_range = |region, all| Document.to_region(region, settings.sample_rate, all);
    let slice = settings.slice.map(|region| to_range(region, total));
    let n = slice.map_or(total, |(start, end)| end - start);
    let count = random.below(5);
    let playing = !random.one_in(4);
    let mut window = [Entry::default(); 4];
    for (place, entry) in window.iter_mut().enumerate() {
        entry.number = number(random, 2 * n);
        if place < count {
            let wild = random.one_in(8);
            (entry.left, entry.right) = (sample(random, wild), sample(random, wild));
        }
    }
    let position = if playing {
        random.below(n)
    } else {
        number(random, 2 * n)
    };
    State {
        sample_rate: settings.sample_rate,
        total_frames: total,
        slice,
        reverse: settings.reverse,
        rate: settings.rate,
        started: !random.one_in(5),
        playback: playback(random),
        fraction: fraction(random),
        position,
        loop_region: settings.loop_region.map(|region| to_range(region, n)),
        playing,
        window,
        count,
        wraps: Wraps {
            forward: wraps(window[2].number),
            backward: wraps(window[3].number),
        },
    }
}

/// A number of wraps from a random number: small, or at its limit or slightly below.
fn wraps(number: usize) -> u32 {
    let few = (number / 3 % 4) as u32;
    if number.is_multiple_of(3) {
        u32::MAX - few
    } else {
        few
    }
}

/// One of the seven states, mostly Playing.
fn playback(random: &mut Random) -> PlaybackState {
    if random.one_in(3) {
        PlaybackState::Playing
    } else {
        one_of(random, &PlaybackState::ALL)
    }
}

/// A fraction at least 0 and below 1.
fn fraction(random: &mut Random) -> f64 {
    let any = random.unit();
    let small = random.with_exponent(-1_022..0);
    // These round to the f32 1.
    let near_one = 1.0 - random.with_exponent(-53..-24);
    one_of(
        random,
        &[0.0, 1.0f64.next_down(), any, any, small, near_one, 5e-324],
    )
}

/// Mostly a small number, sometimes the largest.
fn number(random: &mut Random, limit: usize) -> usize {
    if random.one_in(20) {
        LIMIT - random.below(2)
    } else {
        random.below(limit)
    }
}

/// A command set, mostly accepted.
pub fn commands(random: &mut Random, state: &State) -> Commands {
    let n = state.num_frames();
    let looped = random.coin().then(|| region(random, n, state.sample_rate));
    Commands {
        rate: random.one_in(3).then(|| rate(random)),
        loop_region: random.one_in(3).then_some(looped),
        pause: random.one_in(5),
        resume: random.one_in(4).then(|| random.coin()),
        stop: random.one_in(12),
        seek_by: random.one_in(3).then(|| seconds(random, state)),
        seek_to: random.one_in(3).then(|| seconds(random, state)),
    }
}

/// Seconds for a seek: near the sound, at a frame's edge, 0, or far.
fn seconds(random: &mut Random, state: &State) -> f64 {
    let (n, hz) = (state.num_frames() as f64, f64::from(state.sample_rate));
    let near = (random.unit() * 4.0 - 1.5) * n / hz;
    let frame = random.below(2 * state.num_frames()) as f64 / hz;
    let far = random.with_exponent(-60..34) / hz;
    one_of(
        random,
        &[
            near,
            near,
            frame,
            frame.next_down(),
            frame.next_up(),
            0.0,
            -0.0,
            far,
            -far,
            -f64::MAX,
        ],
    )
}

/// Signals.
pub fn signals(random: &mut Random) -> Signals {
    let mut answer = || match random.below(12) {
        0..4 => Answer::Now,
        4 => Answer::Never,
        _ => Answer::Waiting,
    };
    Signals {
        start: answer(),
        resume: answer(),
        finished: random.one_in(3),
    }
}

/// A due tick and the current tick: equal, neighbours, half the range apart, or any.
pub fn tick(random: &mut Random) -> (u32, u32) {
    let (due, any) = (random.word() as u32, random.word() as u32);
    let half = 1u32 << 31;
    let due = one_of(random, &[0, 1, half, u32::MAX, due]);
    let since = one_of(
        random,
        &[0, 1, u32::MAX, half - 1, half, half, half + 1, any],
    );
    (due, due.wrapping_add(since))
}

/// A block's length: 0, few, a usual one, or the largest.
pub fn length(random: &mut Random) -> usize {
    let few = random.below(10);
    let some = random.below(200);
    one_of(
        random,
        &[0, 1, few, few, few, few, some, some, 64, 512, 4_095, 4_096],
    )
}

/// An amplitude or gain that is accepted.
fn amplitude(random: &mut Random) -> f32 {
    let any = f32::from_bits((random.word() as u32) & 0x7fff_ffff);
    let any = if any.is_finite() { any } else { f32::MAX };
    let unit = random.unit() as f32;
    one_of(random, &[0.0, 1.0, 1.0, unit, unit, unit, any, 1e-45])
}

/// An accepted block of this many frames in a state, with an output of its own.
pub fn block(random: &mut Random, n: usize, state: &State) -> Block {
    let hz = f64::from(state.sample_rate);
    let most = one_of(random, &[1.0, 3.0, 3.0, 3.0, 17.0, 256.0]);
    let most = if n > 512 { f64::min(most, 3.0) } else { most };
    let exponent = one_of(random, &[0, 0, 0, 0, -200, 200]);
    // The time step and the scale of the rates, such that advances stay below the limit.
    let dt = (0.1 + random.unit()) / hz * 2f64.powi(exponent);
    let scale = most / (hz * dt);
    let steady = random.one_in(3).then(|| lane_rate(random, scale));
    let rate = |random: &mut Random| steady.unwrap_or_else(|| lane_rate(random, scale));
    let plain = random.one_in(4);
    let lane = |random: &mut Random| -> Vec<f32> {
        let one = |_| if plain { 1.0 } else { amplitude(random) };
        (0..n).map(one).collect()
    };
    Block {
        lanes: LaneBuffers {
            fade: lane(random),
            volume: lane(random),
            left: lane(random),
            right: lane(random),
            rate: (0..n).map(|_| rate(random)).collect(),
        },
        dt,
        signals: signals(random),
        tick: None,
        place: Place::Whole(2 * n),
    }
}

fn lane_rate(random: &mut Random, scale: f64) -> f64 {
    let any = (random.unit() * 2.0 - 1.0) * scale;
    let small = random.with_exponent(-1_022..-1) * scale.min(1.0);
    one_of(random, &[0.0, -0.0, any, any, any, any, small, -small])
}

/// A first frame for this many frames in a longer mix.
pub fn mix(random: &mut Random, n: usize) -> Place {
    let (before, after) = (random.below(6), random.below(6));
    Place::Mix(2 * (before + n + after), before)
}

/// An accepted call of a block over a short sound.
pub fn block_call(random: &mut Random, n: usize) -> Call {
    let sound = short_sound(random);
    let state = state(random, sound.num_frames());
    let block = block(random, n, &state);
    Call {
        ask: Ask::Block(state, block),
        sound,
    }
}
