// One call of any bytes, its raw result, and what is wrong with it.

use std::sync::Arc;

use differential::{Ask, Block, Call, Outcome, Place, Sound, judged, refusal, tick};
use oracle::LaneBuffers;
use random::Random;
use raw::{
    CableowlCommands, CableowlEntry, CableowlPlace, CableowlRegion, CableowlSettings,
    CableowlSignals, CableowlState, Held, STATE_BYTES, StateBytes, convert,
};

/// The input as the entries get it.
#[derive(Debug, Clone, Copy)]
enum Kind {
    New(CableowlSettings),
    Commands(CableowlState, CableowlCommands),
    Process(CableowlState, CableowlSignals, f64),
    Into(CableowlState, CableowlSignals, f64, u64),
    /// A block with held lanes.
    Held(CableowlState, CableowlSignals, f64, Held),
    /// The same, from a frame on.
    HeldInto(CableowlState, CableowlSignals, f64, Held, u64),
    Stretch(CableowlState),
}

/// A call of any bytes.
#[derive(Debug, Clone)]
pub struct Case {
    kind: Kind,
    sound: Arc<Sound>,
    lanes: LaneBuffers,
    /// The samples of the output.
    output: usize,
}

/// A raw result.
pub struct Answer {
    /// The refusal's number.
    pub refusal: u32,
    state: CableowlState,
    steps: u64,
    lowest_count: u32,
    position: f64,
    part: (usize, usize),
    samples: Vec<f32>,
}

impl Case {
    /// Any call.
    pub fn any(random: &mut Random) -> Self {
        let frames = 1 + random.below(6);
        let samples = match random.below(12) {
            0 => random.below(14),
            _ => 2 * frames,
        };
        let sound = Sound::new((0..samples).map(|_| any_f32(random)).collect());
        let n = random.below(6);
        let lanes = lanes(random, n);
        let output = match random.below(8) {
            0 => random.below(16),
            _ => 2 * n,
        };
        let state = state(random, frames as u64);
        let kind = match random.below(8) {
            0 => Kind::New(settings(random, frames as u64)),
            1 | 2 => Kind::Commands(state, commands(random, frames as u64)),
            3 => Kind::Stretch(state),
            4 => Kind::Into(state, signals(random), step(random), any_small(random, 8)),
            _ => Kind::Process(state, signals(random), step(random)),
        };
        Self {
            kind,
            sound,
            lanes,
            output,
        }
    }

    /// The same block with held lanes, which are the first frame's numbers. With no frames they are any.
    pub fn held(&self) -> Option<Self> {
        let lanes = self.lanes.as_lanes();
        let first = |lane: &[f32]| lane.first().copied().unwrap_or(f32::NAN);
        let held = Held {
            fade: first(lanes.fade),
            volume: first(lanes.volume),
            left: first(lanes.left),
            right: first(lanes.right),
            rate: lanes.rate.first().copied().unwrap_or(f64::NAN),
        };
        let (kind, frames) = match self.kind {
            Kind::Process(state, signals, dt) => {
                (Kind::Held(state, signals, dt, held), self.output / 2)
            }
            Kind::Into(state, signals, dt, from) => {
                let kind = Kind::HeldInto(state, signals, dt, held, from);
                (kind, lanes.rate.len())
            }
            _ => return None,
        };
        let gains = (held.left, held.right);
        let lanes = LaneBuffers::constant(frames, held.fade, held.volume, gains, held.rate);
        Some(Self {
            kind,
            lanes,
            ..self.clone()
        })
    }

    /// What the entry returns.
    pub fn answer(&self) -> Answer {
        let sound = self.sound.samples();
        let mut answer = Answer {
            refusal: 0,
            state: CableowlState::default(),
            steps: 0,
            lowest_count: 4,
            position: 0.0,
            part: (0, 0),
            samples: self.pattern(),
        };
        let lanes = self.lanes.as_lanes();
        match self.kind {
            Kind::New(settings) => {
                let raw = raw::new(settings, sound);
                (answer.state, answer.refusal) = (raw.state, raw.refusal);
            }
            Kind::Commands(state, commands) => {
                let raw = raw::on_start_processing(state, sound, commands);
                (answer.state, answer.refusal) = (raw.state, raw.refusal);
                answer.position = raw.position;
            }
            Kind::Process(state, signals, dt) => {
                let raw = raw::process(state, sound, &lanes, dt, signals, &mut answer.samples);
                (answer.state, answer.refusal) = (raw.state, raw.refusal);
                (answer.steps, answer.lowest_count) = (raw.steps, raw.lowest_count);
            }
            Kind::Into(state, signals, dt, from) => {
                let mix = &mut answer.samples;
                let raw = raw::process_into(state, sound, &lanes, dt, signals, mix, from);
                (answer.state, answer.refusal) = (raw.state, raw.refusal);
                (answer.steps, answer.lowest_count) = (raw.steps, raw.lowest_count);
            }
            Kind::Held(state, signals, dt, held) => {
                let raw = raw::process_held(state, sound, held, dt, signals, &mut answer.samples);
                (answer.state, answer.refusal) = (raw.state, raw.refusal);
                (answer.steps, answer.lowest_count) = (raw.steps, raw.lowest_count);
            }
            Kind::HeldInto(state, signals, dt, held, from) => {
                let (mix, frames) = (&mut answer.samples, lanes.rate.len() as u64);
                let raw =
                    raw::process_held_into(state, sound, held, dt, signals, mix, from, frames);
                (answer.state, answer.refusal) = (raw.state, raw.refusal);
                (answer.steps, answer.lowest_count) = (raw.steps, raw.lowest_count);
            }
            Kind::Stretch(state) => {
                let part = raw::stretch(state, sound);
                answer.state = state;
                answer.part = (part.offset as usize, part.length as usize);
                answer.refusal = u32::from(part.length == 0);
            }
        }
        answer
    }

    /// What is wrong with a result, if anything.
    pub fn fault(&self, answer: &Answer) -> Option<String> {
        let Some(call) = self.meaning() else {
            return self.fault_of_refused(answer, 1);
        };
        let number = refusal(&call);
        if number != 0 {
            return self.fault_of_refused(answer, number);
        }
        let outcome = Outcome {
            refusal: answer.refusal,
            state: convert::state_out(&answer.state),
            steps: answer.steps,
            lowest_count: answer.lowest_count,
            position: answer.position,
            part: answer.part,
            samples: answer.samples.clone(),
        };
        if !outcome.state.is_some_and(|state| state.is_well_formed()) {
            return Some("the state that comes back is not well formed".into());
        }
        judged(&call).difference(&outcome, &call)
    }

    /// A refused call must change no byte.
    fn fault_of_refused(&self, answer: &Answer, number: u32) -> Option<String> {
        let given = self.state().unwrap_or(CableowlState {
            state: 6,
            ..CableowlState::default()
        });
        let bits = |samples: &[f32]| samples.iter().map(|x| x.to_bits()).collect::<Vec<_>>();
        if answer.refusal != number {
            Some(format!("refusal {number} against {}", answer.refusal))
        } else if answer.state.to_bytes() != given.to_bytes() {
            Some("a refused call changes the state".into())
        } else if bits(&answer.samples) != bits(&self.pattern()) {
            Some("a refused call writes".into())
        } else if (answer.steps, answer.position.to_bits(), answer.part) != (0, 0, (0, 0))
            || answer.lowest_count != 4
        {
            Some("a refused call reports".into())
        } else {
            None
        }
    }

    fn state(&self) -> Option<CableowlState> {
        match self.kind {
            Kind::New(_) => None,
            Kind::Commands(state, _)
            | Kind::Process(state, ..)
            | Kind::Into(state, ..)
            | Kind::Held(state, ..)
            | Kind::HeldInto(state, ..)
            | Kind::Stretch(state) => Some(state),
        }
    }

    /// What the bytes mean; `None` if the state is not well formed.
    fn meaning(&self) -> Option<Call> {
        let held = |state| convert::state_out(state);
        let block = |signals, dt, place| {
            let (signals, tick) = convert::signals_out(signals);
            Block {
                lanes: self.lanes.clone(),
                dt,
                signals,
                tick,
                place,
            }
        };
        let ask = match &self.kind {
            Kind::New(settings) => Ask::Create(convert::settings_out(settings)),
            Kind::Commands(state, commands) => {
                Ask::Command(held(state)?, convert::commands_out(commands))
            }
            Kind::Process(state, signals, dt) | Kind::Held(state, signals, dt, _) => {
                let place = Place::Whole(self.output);
                Ask::Block(held(state)?, block(signals, *dt, place))
            }
            Kind::Into(state, signals, dt, from) | Kind::HeldInto(state, signals, dt, _, from) => {
                let place = Place::Mix(self.output, *from as usize);
                Ask::Block(held(state)?, block(signals, *dt, place))
            }
            Kind::Stretch(state) => Ask::Stretch(held(state)?),
        };
        Some(Call {
            ask,
            sound: self.sound.clone(),
        })
    }

    /// The output before the call, the same as the model's if the call has one.
    fn pattern(&self) -> Vec<f32> {
        match self.kind {
            Kind::Process(..) | Kind::Into(..) | Kind::Held(..) | Kind::HeldInto(..) => {
                differential::pattern(self.output)
            }
            _ => Vec::new(),
        }
    }
}

/// Any bits, special or ordinary.
fn any_f32(random: &mut Random) -> f32 {
    match random.below(6) {
        0 => f32::from_bits(random.word() as u32),
        1 => -0.0,
        _ => (random.unit() * 4.0 - 2.0) as f32,
    }
}

fn any_f64(random: &mut Random) -> f64 {
    match random.below(8) {
        0 => f64::from_bits(random.word()),
        1 => [f64::NAN, f64::INFINITY, -f64::INFINITY, -0.0, f64::MAX][random.below(5)],
        _ => random.unit() * 6.0 - 2.0,
    }
}

/// A tag: mostly a valid one, sometimes any.
fn any_tag(random: &mut Random, valid: usize) -> u32 {
    match random.below(24) {
        0 => random.word() as u32,
        1 => valid as u32,
        _ => random.below(valid) as u32,
    }
}

/// A number: mostly below the limit, sometimes any.
fn any_small(random: &mut Random, limit: usize) -> u64 {
    match random.below(30) {
        0 => random.word(),
        1 => u64::MAX - random.below(8) as u64,
        2 => (1 << 32) + random.below(2) as u64,
        _ => random.below(limit) as u64,
    }
}

/// A well formed state, a few bits away from one, or any bytes.
fn state(random: &mut Random, frames: u64) -> CableowlState {
    let mut bytes = well_formed(random, frames).to_bytes();
    match random.below(6) {
        0 => {
            for _ in 0..1 + random.below(3) {
                let bit = random.below(8 * STATE_BYTES);
                bytes[bit / 8] ^= 1 << (bit % 8);
            }
        }
        1 => {
            let word = 4 * random.below(STATE_BYTES / 4);
            let value = any_tag(random, 3).to_le_bytes();
            bytes[word..word + 4].copy_from_slice(&value);
        }
        2 if random.one_in(4) => bytes.fill_with(|| random.word() as u8),
        _ => {}
    }
    CableowlState::from_bytes(bytes)
}

fn well_formed(random: &mut Random, frames: u64) -> CableowlState {
    let count = random.below(5);
    let mut window = [CableowlEntry::default(); 4];
    for (place, entry) in window.iter_mut().enumerate() {
        entry.number = random.below(9) as u64;
        if place < count {
            (entry.left, entry.right) = (any_f32(random), any_f32(random));
        }
    }
    let slice = region_in(random, frames);
    let n = slice.map_or(frames, |(start, end)| end - start);
    let looped = region_in(random, n);
    CableowlState {
        sample_rate: [1, 2, 48_000][random.below(3)],
        state: random.below(7) as u32,
        reverse: random.below(2) as u32,
        started: random.below(2) as u32,
        playing: random.below(2) as u32,
        has_slice: u32::from(slice.is_some()),
        has_loop: u32::from(looped.is_some()),
        count: count as u32,
        num_frames: frames,
        slice_start: slice.unwrap_or_default().0,
        slice_end: slice.unwrap_or_default().1,
        position: random.below(n as usize) as u64,
        loop_start: looped.unwrap_or_default().0,
        loop_end: looped.unwrap_or_default().1,
        playback_rate: [1.0, -1.0, 0.0, -0.0][random.below(4)],
        fraction: random.unit(),
        window,
        forward_wraps: any_count(random),
        backward_wraps: any_count(random),
    }
}

/// A number of wraps: small, or at its limit or slightly below.
fn any_count(random: &mut Random) -> u32 {
    let few = random.below(4) as u32;
    if random.coin() { few } else { u32::MAX - few }
}

/// No region, or one within this many frames.
fn region_in(random: &mut Random, frames: u64) -> Option<(u64, u64)> {
    let start = random.below(frames as usize) as u64;
    let end = start + 1 + random.below((frames - start) as usize) as u64;
    random.coin().then_some((start, end))
}

fn place(random: &mut Random, frames: u64) -> CableowlPlace {
    CableowlPlace {
        seconds: any_f64(random),
        samples: any_small(random, frames as usize + 2),
        kind: any_tag(random, 3),
    }
}

fn region(random: &mut Random, frames: u64) -> CableowlRegion {
    CableowlRegion {
        start: place(random, frames),
        end: place(random, frames),
    }
}

fn settings(random: &mut Random, frames: u64) -> CableowlSettings {
    CableowlSettings {
        sample_rate: [1, 1, 2, 48_000, any_tag(random, 2)][random.below(5)],
        has_slice: any_tag(random, 2),
        has_loop: any_tag(random, 2),
        reverse: any_tag(random, 2),
        start_waits: any_tag(random, 2),
        playback_rate: any_f64(random),
        start: place(random, frames),
        slice: region(random, frames),
        loop_region: region(random, frames),
    }
}

fn commands(random: &mut Random, frames: u64) -> CableowlCommands {
    CableowlCommands {
        has_rate: any_tag(random, 2),
        loop_command: any_tag(random, 3),
        pause: any_tag(random, 2),
        resume: any_tag(random, 3),
        stop: any_tag(random, 2),
        has_seek_by: any_tag(random, 2),
        has_seek_to: any_tag(random, 2),
        rate: any_f64(random),
        seek_by: any_f64(random),
        seek_to: any_f64(random),
        loop_region: region(random, frames),
    }
}

fn signals(random: &mut Random) -> CableowlSignals {
    // Drawn separately, so that the seed's other numbers do not change.
    let (due, now) = tick(&mut random.clone());
    CableowlSignals {
        finished: any_tag(random, 2),
        start: any_tag(random, 4),
        resume: any_tag(random, 3),
        due,
        now,
    }
}

fn step(random: &mut Random) -> f64 {
    match random.below(6) {
        0 => any_f64(random),
        _ => random.unit() / [1.0, 48_000.0][random.below(2)],
    }
}

/// Lanes of this many frames; sometimes one number or one length differs.
fn lanes(random: &mut Random, n: usize) -> LaneBuffers {
    let mut lane = || -> Vec<f32> {
        let length = if random.one_in(40) {
            random.below(9)
        } else {
            n
        };
        let wild = random.one_in(12);
        let mut one = || {
            if wild {
                any_f32(random)
            } else {
                random.unit() as f32
            }
        };
        (0..length).map(|_| one()).collect()
    };
    let (fade, volume, left, right) = (lane(), lane(), lane(), lane());
    let wild = random.one_in(6);
    let mut rate = || {
        if wild {
            any_f64(random)
        } else {
            random.unit() * 4.0 - 2.0
        }
    };
    LaneBuffers {
        fade,
        volume,
        left,
        right,
        rate: (0..n).map(|_| rate()).collect(),
    }
}
