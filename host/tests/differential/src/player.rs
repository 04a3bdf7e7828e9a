// The players: the compiled library through the C entries, kira's text, and a model of the rules.

use oracle::{LaneBuffers, Oracle, State};
use raw::convert;
use rules::{Document, Rules, Voice, refusals};

use crate::call::{Ask, Block, Call, Outcome, Place};

/// Something that answers calls.
pub trait Player: Sync {
    /// Its name.
    fn name(&self) -> &str;

    /// The outcome, or `None` if it does not handle the call.
    fn answer(&self, call: &Call) -> Option<Outcome>;
}

/// The compiled library, through the C entries.
pub struct Ours;

impl Player for Ours {
    fn name(&self) -> &str {
        "ours"
    }

    fn answer(&self, call: &Call) -> Option<Outcome> {
        let mut outcome = Outcome::untouched(call);
        let sound = call.sound.samples();
        match &call.ask {
            Ask::Create(settings) => {
                let answer = raw::new(convert::settings_in(settings), sound);
                outcome.refusal = answer.refusal;
                outcome.state = convert::state_out(&answer.state);
            }
            Ask::Command(state, commands) => {
                let given = convert::state_in(state);
                let answer = raw::on_start_processing(given, sound, convert::commands_in(commands));
                outcome.refusal = answer.refusal;
                outcome.state = convert::state_out(&answer.state);
                outcome.position = answer.position;
            }
            Ask::Block(state, block) => {
                let answer = our_block(state, block, sound, &mut outcome.samples);
                outcome.refusal = answer.refusal;
                outcome.state = convert::state_out(&answer.state);
                outcome.steps = answer.steps;
                outcome.lowest_count = answer.lowest_count;
            }
            Ask::Stretch(state) => {
                let part = raw::stretch(convert::state_in(state), sound);
                outcome.part = (part.offset as usize, part.length as usize);
                // A stretch can only be refused with 1, which shows only as the empty part.
                outcome.refusal = u32::from(part.length == 0);
            }
        }
        Some(outcome)
    }
}

fn our_block(
    state: &State,
    block: &Block,
    sound: &[f32],
    samples: &mut [f32],
) -> raw::CableowlProcessed {
    let given = convert::state_in(state);
    let signals = convert::signals_in(block.signals, block.tick);
    let lanes = block.lanes.as_lanes();
    match block.place {
        Place::Whole(_) => raw::process(given, sound, &lanes, block.dt, signals, samples),
        Place::Mix(_, from) => {
            let from = from as u64;
            raw::process_into(given, sound, &lanes, block.dt, signals, samples, from)
        }
    }
}

/// The compiled library, through the C entries with held lanes. It does not handle other calls, or lanes with two
/// different numbers.
pub struct OursHeld;

impl Player for OursHeld {
    fn name(&self) -> &str {
        "ours, numbers given once"
    }

    fn answer(&self, call: &Call) -> Option<Outcome> {
        let Ask::Block(state, block) = &call.ask else {
            return None;
        };
        let mut outcome = Outcome::untouched(call);
        let held = held(&block.lanes)?;
        let (given, sound, samples) = (
            convert::state_in(state),
            call.sound.samples(),
            &mut outcome.samples,
        );
        let signals = convert::signals_in(block.signals, block.tick);
        let (frames, dt) = (block.lanes.rate.len(), block.dt);
        let answer = match block.place {
            Place::Whole(samples) if samples / 2 != frames => return None,
            Place::Whole(_) => raw::process_held(given, sound, held, dt, signals, samples),
            Place::Mix(_, from) => {
                let (from, frames) = (from as u64, frames as u64);
                raw::process_held_into(given, sound, held, dt, signals, samples, from, frames)
            }
        };
        outcome.refusal = answer.refusal;
        outcome.state = convert::state_out(&answer.state);
        outcome.steps = answer.steps;
        outcome.lowest_count = answer.lowest_count;
        Some(outcome)
    }
}

/// The numbers of a block's lanes, if all have the same length and each has one number. With no frames none is checked,
/// so numbers are returned that would be refused.
fn held(lanes: &LaneBuffers) -> Option<raw::Held> {
    let frames = lanes.rate.len();
    let one = |lane: &[f32]| {
        let first = lane.first().copied().unwrap_or(f32::NAN);
        let same = |number: &f32| number.to_bits() == first.to_bits();
        (lane.len() == frames && lane.iter().all(same)).then_some(first)
    };
    let rate = lanes.rate.first().copied().unwrap_or(f64::INFINITY);
    let same = |number: &f64| number.to_bits() == rate.to_bits();
    lanes.rate.iter().all(same).then_some(())?;
    Some(raw::Held {
        fade: one(&lanes.fade)?,
        volume: one(&lanes.volume)?,
        left: one(&lanes.left)?,
        right: one(&lanes.right)?,
        rate,
    })
}

/// A voice that follows rules, with the refusals of the rules.
pub struct Model<R> {
    name: &'static str,
    rules: R,
}

/// The rules as written.
pub const DOCUMENT: Model<Document> = Model {
    name: "the rules",
    rules: Document,
};

impl<R: Rules + Sync> Model<R> {
    /// A model by these rules.
    pub fn new(name: &'static str, rules: R) -> Self {
        Self { name, rules }
    }
}

impl<R: Rules + Sync> Player for Model<R> {
    fn name(&self) -> &str {
        self.name
    }

    fn answer(&self, call: &Call) -> Option<Outcome> {
        let mut outcome = call.refused(refusal(call));
        if outcome.refusal != 0 {
            return Some(outcome);
        }
        let (rules, sound) = (&self.rules, call.sound.samples());
        let voice = |state: &State| Voice {
            rules,
            state: *state,
            sound,
        };
        match &call.ask {
            Ask::Create(settings) => {
                outcome.state = Some(Voice::create(rules, settings, sound).state);
            }
            Ask::Command(state, commands) => {
                let mut voice = voice(state);
                outcome.position = voice.command(commands);
                outcome.state = Some(voice.state);
            }
            Ask::Block(state, block) => {
                let mut voice = voice(state);
                let written = block.place.written(block.lanes.rate.len());
                let out = &mut outcome.samples[written];
                let reported = voice.block(
                    &block.lanes.as_lanes(),
                    block.dt,
                    block.signals_by(rules),
                    out,
                );
                (outcome.steps, outcome.lowest_count) = (reported.steps, reported.lowest_count);
                outcome.state = Some(voice.state);
            }
            Ask::Stretch(state) => {
                let (start, end) = state.slice.unwrap_or((0, state.total_frames));
                outcome.part = (2 * start, 2 * (end - start));
            }
        }
        Some(outcome)
    }
}

/// The refusal of a call by the rules, 0 for none.
#[must_use]
pub fn refusal(call: &Call) -> u32 {
    let samples = call.sound.samples().len();
    match &call.ask {
        Ask::Create(settings) => refusals::of_creation(settings, samples),
        Ask::Command(state, commands) => refusals::of_commands(state, samples, commands),
        Ask::Stretch(state) => u32::from(!refusals::is_ours(state, samples)),
        Ask::Block(state, block) => {
            let n = block.lanes.rate.len();
            let placed = match block.place {
                Place::Whole(samples) => refusals::holds(samples, n),
                Place::Mix(samples, from) => refusals::has_room(samples, from, n),
            };
            refusals::of_block(state, samples, &block.lanes.as_lanes(), block.dt, placed)
        }
    }
}

/// kira's text, for accepted calls. It does not handle refusals, stretches, or a seek for which its `while` would run
/// for minutes.
pub struct Kira;

impl Player for Kira {
    fn name(&self) -> &str {
        "kira's text"
    }

    fn answer(&self, call: &Call) -> Option<Outcome> {
        if refusal(call) != 0 {
            return None;
        }
        let mut outcome = Outcome::untouched(call);
        let frames = || call.sound.frames();
        let found = |state| Oracle::inject_shared(state, frames());
        let voice = match &call.ask {
            Ask::Create(settings) => Oracle::create_shared(settings, frames()),
            Ask::Command(state, commands) => {
                let mut voice = found(state);
                outcome.position = voice.command(commands).ok()?;
                voice
            }
            Ask::Block(state, block) => {
                let mut voice = found(state);
                let written = block.place.written(block.lanes.rate.len());
                let out = &mut outcome.samples[written];
                let reported = voice.block(
                    &block.lanes.as_lanes(),
                    block.dt,
                    block.signals_by(&Document),
                    out,
                );
                (outcome.steps, outcome.lowest_count) = (reported.steps, reported.lowest_count);
                voice
            }
            Ask::Stretch(_) => return None,
        };
        outcome.state = Some(voice.state());
        Some(outcome)
    }
}
