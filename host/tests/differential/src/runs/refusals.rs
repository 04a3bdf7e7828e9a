// Calls whose refusal is known by construction: an accepted call with one thing broken, and sometimes others with
// higher numbers too; and the nearest calls that are accepted.

use std::sync::Arc;

use oracle::{Commands, EndPosition, Entry, LIMIT, PlaybackPosition, Region, Settings, State};
use random::Random;
use rules::refusals::{MOST_ADVANCE, MOST_BLOCK, MOST_FRAMES, MOST_HZ};

use crate::{
    any::{self, one_of},
    call::{Ask, Block, Call, Place, Sound},
    harness::Harness,
    tally::Kind,
};

/// Sounds at the limit and one frame above it, made once.
pub struct Big {
    most: Arc<Sound>,
    above: Arc<Sound>,
}

impl Big {
    /// Both sounds, silent.
    #[must_use]
    pub fn new() -> Self {
        Self {
            most: Sound::new(vec![0.0; 2 * MOST_FRAMES]),
            above: Sound::new(vec![0.0; 2 * MOST_FRAMES + 2]),
        }
    }

    /// Sounds of the most frames, and of one more.
    pub fn run(&self, harness: &mut Harness) {
        let settings = Settings::new(48_000);
        let create = |sound: &Arc<Sound>| Call {
            ask: Ask::Create(settings),
            sound: sound.clone(),
        };
        harness.expect_accepted(&create(&self.most));
        harness.expect_refused(&create(&self.above), 3);
        let created = harness.ask(Kind::Creation, &create(&self.most));
        let Some(state) = created.state else {
            return;
        };
        let at_end = Commands {
            seek_to: Some((MOST_FRAMES - 1) as f64 / 48_000.0),
            ..Commands::default()
        };
        for sound in [&self.most, &self.above] {
            let call = Call {
                ask: Ask::Command(state, at_end),
                sound: sound.clone(),
            };
            harness.ask(Kind::Commands, &call);
        }
        let grown = State {
            total_frames: MOST_FRAMES + 1,
            ..state
        };
        for (state, sound) in [(grown, &self.most), (grown, &self.above)] {
            let call = Call {
                ask: Ask::Stretch(state),
                sound: sound.clone(),
            };
            harness.expect_refused(&call, 1);
        }
    }
}

impl Default for Big {
    fn default() -> Self {
        Self::new()
    }
}

/// One refused call of each number and entry, and their accepted neighbours.
pub fn refusals(harness: &mut Harness, random: &mut Random) {
    for number in 2..=7 {
        creation(harness, random, number);
    }
    for number in [1, 6, 7, 8] {
        command(harness, random, number);
    }
    for number in [1, 9, 10, 11, 12] {
        block(harness, random, number);
    }
    stretch(harness, random);
    seek_edges(harness, random);
    advance_edges(harness, random);
    creation_edges(harness, random);
    state_edges(harness, random);
}

/// The number itself, and sometimes higher ones of the entry.
fn numbers(random: &mut Random, number: u32, of_entry: &[u32]) -> Vec<u32> {
    let more = random.coin();
    let higher = of_entry.iter().filter(|other| **other > number);
    let mut all: Vec<u32> = higher.copied().filter(|_| more && random.coin()).collect();
    all.push(number);
    all
}

fn creation(harness: &mut Harness, random: &mut Random, number: u32) {
    let mut sound = any::short_sound(random);
    let total = sound.num_frames();
    let mut settings = any::accepted_settings(random, total);
    settings.slice = settings.slice.filter(|_| number > 4);
    let n = frames_of(settings.slice, total);
    for number in numbers(random, number, &[2, 3, 4, 5, 6, 7]) {
        match number {
            2 => settings.sample_rate = bad_sample_rate(random),
            3 => sound = bad_sound(random, &sound),
            4 => settings.slice = Some(bad_region(random, total, settings.sample_rate)),
            5 => settings.start = bad_start(random, n, settings.sample_rate),
            6 => settings.loop_region = Some(bad_region(random, n, settings.sample_rate)),
            _ => settings.rate = not_finite(random),
        }
    }
    let call = Call {
        ask: Ask::Create(settings),
        sound,
    };
    harness.expect_refused(&call, number);
}

fn command(harness: &mut Harness, random: &mut Random, number: u32) {
    let sound = any::short_sound(random);
    let state = any::state(random, sound.num_frames());
    let mut commands = Commands {
        loop_region: None,
        rate: None,
        seek_by: None,
        seek_to: None,
        ..any::commands(random, &state)
    };
    let mut call = Call {
        ask: Ask::Command(state, commands),
        sound,
    };
    for number in numbers(random, number, &[1, 6, 7, 8]) {
        match number {
            1 => break_state(random, &mut call),
            6 => {
                let region = bad_region(random, state.num_frames(), state.sample_rate);
                commands.loop_region = Some(Some(region));
            }
            7 => commands.rate = Some(not_finite(random)),
            _ => bad_seek(random, &state, &mut commands),
        }
        if let Ask::Command(_, held) = &mut call.ask {
            *held = commands;
        }
    }
    harness.expect_refused(&call, number);
}

fn block(harness: &mut Harness, random: &mut Random, number: u32) {
    let needed = usize::from(number > 10);
    let n = needed + random.below(9);
    let mut call = any::block_call(random, n);
    tame(&mut call);
    if random.coin() {
        let place = any::mix(random, n);
        call.block_mut().expect("a block").place = place;
    }
    harness.expect_accepted(&call);
    // The lengths are broken last, so that the other changes find their lanes.
    let mut all = numbers(random, number, &[1, 9, 10, 11, 12]);
    all.sort_by_key(|number| [9, 1].iter().position(|last| last == number));
    for number in all {
        let hz = call.state().map_or(1, |state| state.sample_rate);
        let Some(block) = call.block_mut() else {
            return;
        };
        match number {
            1 => break_state(random, &mut call),
            9 => bad_lengths(random, block),
            10 => block.dt = bad_step(random),
            11 => bad_lane(random, block),
            _ => bad_advance(random, block, hz),
        }
    }
    harness.expect_refused(&call, number);
}

/// Lanes far from the limit of an advance, so that only what is broken can be refused.
fn tame(call: &mut Call) {
    let hz = call
        .state()
        .map_or(1.0, |state| f64::from(state.sample_rate));
    if let Some(block) = call.block_mut() {
        block.dt = 1.0 / hz;
        for rate in &mut block.lanes.rate {
            *rate = rate.clamp(-3.0, 3.0);
        }
    }
}

fn stretch(harness: &mut Harness, random: &mut Random) {
    let sound = any::short_sound(random);
    let state = any::state(random, sound.num_frames());
    let mut call = Call {
        ask: Ask::Stretch(state),
        sound,
    };
    harness.expect_accepted(&call);
    break_state(random, &mut call);
    harness.expect_refused(&call, 1);
}

fn frames_of(slice: Option<Region>, total: usize) -> usize {
    match slice {
        Some(Region {
            start: PlaybackPosition::Samples(start),
            end: EndPosition::Custom(PlaybackPosition::Samples(end)),
        }) => end - start,
        _ => total,
    }
}

fn not_finite(random: &mut Random) -> f64 {
    one_of(
        random,
        &[f64::NAN, -f64::NAN, f64::INFINITY, -f64::INFINITY],
    )
}

fn bad_sample_rate(random: &mut Random) -> u32 {
    let above = MOST_HZ + 1 + random.below((u32::MAX - MOST_HZ) as usize) as u32;
    one_of(random, &[0, MOST_HZ + 1, u32::MAX, above])
}

/// An odd number of samples, or none.
fn bad_sound(random: &mut Random, sound: &Sound) -> Arc<Sound> {
    let samples = sound.samples();
    let length = one_of(random, &[0, 1, samples.len() - 1]);
    Sound::new(samples[..length].to_vec())
}

/// A region that does not fit this many frames.
fn bad_region(random: &mut Random, n: usize, sample_rate: u32) -> Region {
    let hz = f64::from(sample_rate.clamp(1, MOST_HZ));
    let inside = random.below(n);
    let frames = PlaybackPosition::Samples;
    let seconds = PlaybackPosition::Seconds;
    let endless = seconds(not_finite(random));
    let (start, end) = match random.below(12) {
        0 => (frames(inside), frames(inside)),
        1 => (frames(inside + 1), frames(random.below(inside + 1))),
        2 => (frames(inside), frames(n + 1)),
        3 => (frames(inside), frames(usize::MAX)),
        4 => (frames(usize::MAX), frames(usize::MAX)),
        5 => (endless, frames(n)),
        6 => (frames(0), endless),
        7 => (endless, endless),
        // It rounds up to n + 1, or to the largest frame index.
        8 => (frames(inside), seconds((n as f64 + 0.75) / hz)),
        9 => (frames(inside), seconds(1e300)),
        // Both round to the same frame.
        10 => (
            seconds((inside as f64 - 0.25) / hz),
            seconds((inside as f64 + 0.25) / hz),
        ),
        _ => {
            let start = frames(n + random.below(3));
            let end = EndPosition::EndOfAudio;
            return Region { start, end };
        }
    };
    Region {
        start,
        end: EndPosition::Custom(end),
    }
}

fn bad_start(random: &mut Random, n: usize, sample_rate: u32) -> PlaybackPosition {
    let hz = f64::from(sample_rate.clamp(1, MOST_HZ));
    match random.below(7) {
        0 => PlaybackPosition::Samples(n),
        1 => PlaybackPosition::Samples(n + 1 + random.below(9)),
        2 => PlaybackPosition::Samples(usize::MAX),
        3 => PlaybackPosition::Seconds((n as f64 - 0.25) / hz),
        4 => PlaybackPosition::Seconds(f64::MAX),
        _ => PlaybackPosition::Seconds(not_finite(random)),
    }
}

/// A seek that is not finite or reaches the limit, and sometimes another that is accepted.
fn bad_seek(random: &mut Random, state: &State, commands: &mut Commands) {
    let hz = f64::from(state.sample_rate);
    let by = |amount: f64| (state.position as f64 / hz + amount) * hz;
    if random.coin() {
        let edge = least(|x| by(x) >= LIMIT as f64, LIMIT as f64 / hz);
        commands.seek_by = Some(far_or(random, edge));
        commands.seek_to = random.coin().then_some(0.0);
    } else {
        let edge = least(|x| x * hz >= LIMIT as f64, LIMIT as f64 / hz);
        commands.seek_to = Some(far_or(random, edge));
        commands.seek_by = random.coin().then_some(-1.0);
    }
}

fn far_or(random: &mut Random, edge: f64) -> f64 {
    let endless = not_finite(random);
    one_of(
        random,
        &[edge, edge.next_up(), 2.0 * edge + 1.0, f64::MAX, endless],
    )
}

/// The smallest number near another for which a monotonic test holds.
fn least(holds: impl Fn(f64) -> bool, near: f64) -> f64 {
    let (mut low, mut high) = (-near - 1.0, 2.0 * near + 1.0);
    debug_assert!(!holds(low) && holds(high));
    loop {
        let middle = low / 2.0 + high / 2.0;
        if middle <= low || middle >= high {
            return high;
        }
        if holds(middle) {
            high = middle;
        } else {
            low = middle;
        }
    }
}

fn bad_lengths(random: &mut Random, block: &mut Block) {
    let n = block.lanes.rate.len();
    let lanes = &mut block.lanes;
    match random.below(8) {
        0 => {
            let lanes = [
                &mut lanes.fade,
                &mut lanes.volume,
                &mut lanes.left,
                &mut lanes.right,
            ];
            lanes
                .into_iter()
                .for_each(|lane| lane.resize(MOST_BLOCK + 1, 1.0));
            block.lanes.rate.resize(MOST_BLOCK + 1, 1.0);
            block.place = Place::Whole(2 * MOST_BLOCK + 2);
        }
        1 => lanes.fade.push(1.0),
        2 => lanes.volume.push(1.0),
        3 => lanes.left.push(1.0),
        4 => {
            lanes.right.pop();
            lanes.left.push(1.0);
        }
        5 => lanes.rate.push(1.0),
        6 => {
            block.place = match block.place {
                Place::Whole(samples) => Place::Whole(samples + 1 + random.below(2)),
                Place::Mix(samples, from) => Place::Mix(samples + 1, from),
            };
        }
        _ => {
            block.place = match block.place {
                Place::Whole(0) => Place::Whole(2),
                Place::Whole(samples) => Place::Whole(samples - 1 - random.below(2)),
                Place::Mix(samples, _) => {
                    let from = (samples / 2 - n) + 1;
                    // Its sum with n is 2^64.
                    let wraps = n.wrapping_neg().max(from);
                    Place::Mix(samples, one_of(random, &[from, usize::MAX, wraps]))
                }
            };
        }
    }
}

fn bad_step(random: &mut Random) -> f64 {
    let endless = not_finite(random);
    one_of(random, &[0.0, -0.0, -1.0, -5e-324, endless])
}

/// Breaks one number of one lane, if there is one.
fn bad_lane(random: &mut Random, block: &mut Block) {
    let n = block.lanes.rate.len();
    if n == 0 {
        return;
    }
    let place = random.below(n);
    let bad = one_of(
        random,
        &[
            -0.0,
            -1.0,
            -1e-45,
            f32::NAN,
            -f32::NAN,
            f32::INFINITY,
            -f32::INFINITY,
            f32::from_bits(0x7f80_0001),
        ],
    );
    let lanes = &mut block.lanes;
    match random.below(5) {
        0 => lanes.fade[place] = bad,
        1 => lanes.volume[place] = bad,
        2 => lanes.left[place] = bad,
        3 => lanes.right[place] = bad,
        _ => lanes.rate[place] = not_finite(random),
    }
}

/// Gives one rate, if there is one, an advance above the limit.
fn bad_advance(random: &mut Random, block: &mut Block, hz: u32) {
    let n = block.lanes.rate.len();
    if n == 0 {
        return;
    }
    let advance = |rate: f64| f64::from(hz) * rate * block.dt;
    let edge = least(|rate| advance(rate) > MOST_ADVANCE, 300.0);
    let rate = one_of(random, &[edge, edge, 2.0 * edge, f64::MAX]);
    let place = random.below(n);
    if block.lanes.rate[place].is_finite() {
        block.lanes.rate[place] = if random.coin() { rate } else { -rate };
    }
}

/// Breaks a state that is well formed over the sound, or passes another sound.
fn break_state(random: &mut Random, call: &mut Call) {
    let samples = call.sound.samples().to_vec();
    let Some(state) = call.state_mut() else {
        return;
    };
    let n = state.num_frames();
    let place = random.below(4);
    match random.below(20) {
        0 => state.sample_rate = bad_sample_rate(random),
        1 => state.total_frames = one_of(random, &[0, MOST_FRAMES + 1, usize::MAX]),
        2 => state.total_frames += 1,
        3 => {
            state.slice = Some(one_of(
                random,
                &[(0, 0), (1, 0), (0, state.total_frames + 1)],
            ))
        }
        4 => state.slice = Some((usize::MAX, 0)),
        5 => state.loop_region = Some(one_of(random, &[(n, n), (n, 0), (0, n + 1), (n, n + 1)])),
        6 => state.rate = not_finite(random),
        7 => (state.playing, state.position) = (true, n + random.below(2)),
        8 => (state.playing, state.position) = (false, LIMIT + 1),
        9 => state.position = usize::MAX,
        10 => state.window[place].number = one_of(random, &[LIMIT + 1, usize::MAX]),
        11 => state.fraction = one_of(random, &[-0.0, -5e-324, 1.0, 1.5, -1.0]),
        12 => state.fraction = not_finite(random),
        13 => state.count = one_of(random, &[5, 6, u32::MAX as usize]),
        14..17 => {
            state.count = random.below(4);
            state.window[3] = Entry {
                left: one_of(random, &[-0.0, 1.0, f32::NAN, 1e-45]),
                ..state.window[3]
            };
        }
        17 => {
            state.count = state.count.min(place);
            let count = state.count;
            state.window[count].right = one_of(random, &[-0.0, -1.0, -f32::NAN]);
        }
        18 => call.sound = Sound::new([samples, vec![0.0; 1 + place]].concat()),
        _ => call.sound = Sound::new(samples[..samples.len() - 1 - random.below(2)].to_vec()),
    }
}

/// Seeks whose product is the last below the limit, and the first at it.
fn seek_edges(harness: &mut Harness, random: &mut Random) {
    let sound = any::short_sound(random);
    let state = State {
        loop_region: None,
        ..any::state(random, sound.num_frames())
    };
    let hz = f64::from(state.sample_rate);
    let by = |amount: f64| (state.position as f64 / hz + amount) * hz;
    let edge_by = least(|x| by(x) >= LIMIT as f64, LIMIT as f64 / hz);
    let edge_to = least(|x| x * hz >= LIMIT as f64, LIMIT as f64 / hz);
    let call = |seek_by, seek_to| Call {
        ask: Ask::Command(
            state,
            Commands {
                seek_by,
                seek_to,
                ..Commands::default()
            },
        ),
        sound: sound.clone(),
    };
    harness.expect_accepted(&call(Some(edge_by.next_down()), None));
    harness.expect_refused(&call(Some(edge_by), None), 8);
    harness.expect_accepted(&call(None, Some(edge_to.next_down())));
    harness.expect_refused(&call(None, Some(edge_to)), 8);
    harness.expect_accepted(&call(Some(-f64::MAX), Some(-f64::MAX)));
}

/// The largest accepted advances, and the smallest refused ones.
fn advance_edges(harness: &mut Harness, random: &mut Random) {
    let n = 1 + random.below(3);
    let mut call = any::block_call(random, n);
    let hz = call.state().map_or(1, |state| state.sample_rate);
    let place = random.below(n);
    let Some(block) = call.block_mut() else {
        return;
    };
    block.dt = (0.5 + random.unit()) / f64::from(hz);
    block.lanes.rate.fill(random.unit());
    let dt = block.dt;
    let edge = least(|rate| f64::from(hz) * rate * dt > MOST_ADVANCE, 600.0);
    let sign = one_of(random, &[1.0, -1.0]);
    block.lanes.rate[place] = sign * edge.next_down();
    harness.expect_accepted(&call);
    call.block_mut().expect("a block").lanes.rate[place] = sign * edge;
    harness.expect_refused(&call, 12);
}

/// Creations just inside the limits.
fn creation_edges(harness: &mut Harness, random: &mut Random) {
    let sound = any::short_sound(random);
    let total = sound.num_frames();
    let whole = Region {
        start: PlaybackPosition::Samples(0),
        end: EndPosition::Custom(PlaybackPosition::Samples(total)),
    };
    let settings = Settings {
        sample_rate: one_of(random, &[1, MOST_HZ]),
        slice: random.coin().then_some(whole),
        start: PlaybackPosition::Samples(total - 1),
        loop_region: random.coin().then_some(whole),
        reverse: random.coin(),
        rate: one_of(random, &[f64::MAX, -f64::MAX, 5e-324, -0.0]),
        waits: random.coin(),
    };
    let call = Call {
        ask: Ask::Create(settings),
        sound,
    };
    harness.expect_accepted(&call);
}

/// States just inside the limits, for a block, a command set and a stretch.
fn state_edges(harness: &mut Harness, random: &mut Random) {
    let mut call = any::block_call(random, 2);
    tame(&mut call);
    let Some(state) = call.state_mut() else {
        return;
    };
    let n = state.num_frames();
    match random.below(6) {
        0 => (state.playing, state.position) = (true, n - 1),
        1 => (state.playing, state.position) = (false, LIMIT),
        2 => state.window[random.below(4)].number = LIMIT,
        3 => state.fraction = one_of(random, &[1.0f64.next_down(), 5e-324, 0.0]),
        4 => {
            state.count = 4;
            state.window[3].left = -0.0;
        }
        _ => state.loop_region = Some(one_of(random, &[(0, n), (n - 1, n)])),
    }
    let held = *state;
    harness.expect_accepted(&call);
    call.ask = Ask::Stretch(held);
    harness.expect_accepted(&call);
    call.ask = Ask::Command(held, Commands::default());
    harness.expect_accepted(&call);
}
