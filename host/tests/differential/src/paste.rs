//! Calls as Rust text: what is printed can be pasted below `use differential::paste::*;`.

use std::fmt::{self, Display};

pub use oracle::{
    Answer::{Never, Now, Waiting},
    Commands,
    EndPosition::{Custom, EndOfAudio},
    Entry,
    PlaybackPosition::{Samples, Seconds},
    PlaybackState::{Paused, Pausing, Playing, Resuming, Stopped, Stopping, WaitingToResume},
    Region, Settings, Signals, State, Wraps,
};

pub use crate::call::Place::{Mix, Whole};

use crate::{
    call::{Ask, Block, Call, Place, Sound},
    harness::differs,
    player::{Kira, Ours, Player},
};
use oracle::{EndPosition, LaneBuffers, PlaybackPosition};

/// A creation over these samples.
#[must_use]
pub fn create(settings: Settings, sound: &[f32]) -> Call {
    call(Ask::Create(settings), sound)
}

/// A command set.
#[must_use]
pub fn command(state: State, commands: Commands, sound: &[f32]) -> Call {
    call(Ask::Command(state, commands), sound)
}

/// A block: its lanes are fade, volume, left, right.
#[must_use]
pub fn block(
    state: State,
    amplitudes: [&[f32]; 4],
    rate: &[f64],
    dt: f64,
    signals: Signals,
    place: Place,
    sound: &[f32],
) -> Call {
    let [fade, volume, left, right] = amplitudes.map(<[f32]>::to_vec);
    let block = Block {
        lanes: LaneBuffers {
            fade,
            volume,
            left,
            right,
            rate: rate.to_vec(),
        },
        dt,
        signals,
        tick: None,
        place,
    };
    call(Ask::Block(state, block), sound)
}

/// The same block with its start due at a tick, and the current tick.
#[must_use]
pub fn ticked(mut call: Call, due: u32, now: u32) -> Call {
    if let Ask::Block(_, block) = &mut call.ask {
        block.tick = Some((due, now));
    }
    call
}

/// A stretch.
#[must_use]
pub fn stretch(state: State, sound: &[f32]) -> Call {
    call(Ask::Stretch(state), sound)
}

fn call(ask: Ask, sound: &[f32]) -> Call {
    let sound = Sound::new(sound.to_vec());
    Call { ask, sound }
}

/// A window entry.
#[must_use]
pub fn entry(left: f32, right: f32, number: usize) -> Entry {
    Entry {
        left,
        right,
        number,
    }
}

/// The compiled library and kira's text must answer the call as the rules do.
///
/// # Panics
/// If one of them does not.
pub fn agree(call: &Call) {
    let players: [&dyn Player; 2] = [&Kira, &Ours];
    for player in players {
        if let Some(reason) = differs(player, call) {
            panic!("{}: {reason}\n{call}", player.name());
        }
    }
}

impl Display for Call {
    fn fmt(&self, f: &mut fmt::Formatter<'_>) -> fmt::Result {
        let sound = list(self.sound.samples(), single);
        match &self.ask {
            Ask::Create(settings) => write!(f, "create({}, &{sound})", of_settings(settings)),
            Ask::Command(state, commands) => {
                let commands = of_commands(commands);
                write!(f, "command({}, {commands}, &{sound})", of_state(state))
            }
            Ask::Block(state, block) => {
                let lanes = &block.lanes;
                let amplitudes = [&lanes.fade, &lanes.volume, &lanes.left, &lanes.right]
                    .map(|lane| format!("&{}", list(lane, single)))
                    .join(", ");
                let open = block.tick.map_or("", |_| "ticked(");
                let close = block
                    .tick
                    .map_or(String::new(), |(due, now)| format!(", {due}, {now})"));
                write!(
                    f,
                    "{open}block({}, [{amplitudes}], &{}, {}, Signals {{ finished: {}, start: {:?}, resume: {:?} }}, {:?}, &{sound}){close}",
                    of_state(state),
                    list(&lanes.rate, double),
                    double(block.dt),
                    block.signals.finished,
                    block.signals.start,
                    block.signals.resume,
                    block.place,
                )
            }
            Ask::Stretch(state) => write!(f, "stretch({}, &{sound})", of_state(state)),
        }
    }
}

fn single(x: f32) -> String {
    if x.is_finite() {
        format!("{x:?}")
    } else {
        format!("f32::from_bits({:#x})", x.to_bits())
    }
}

fn double(x: f64) -> String {
    if x.is_finite() {
        format!("{x:?}")
    } else {
        format!("f64::from_bits({:#x})", x.to_bits())
    }
}

/// A list, in the short form if all its entries are the same.
fn list<T: Copy>(entries: &[T], text: impl Fn(T) -> String) -> String {
    let texts: Vec<String> = entries.iter().map(|&entry| text(entry)).collect();
    match texts.split_first() {
        Some((first, rest)) if rest.len() > 1 && rest.iter().all(|other| other == first) => {
            format!("[{first}; {}]", texts.len())
        }
        _ => format!("[{}]", texts.join(", ")),
    }
}

fn option<T>(given: Option<T>, text: impl Fn(T) -> String) -> String {
    given.map_or("None".into(), |value| format!("Some({})", text(value)))
}

fn of_state(state: &State) -> String {
    let entries = state.window.map(|entry| {
        let (left, right) = (single(entry.left), single(entry.right));
        format!("entry({left}, {right}, {})", entry.number)
    });
    format!(
        "State {{ sample_rate: {}, total_frames: {}, slice: {:?}, reverse: {}, rate: {}, started: {}, playback: {:?}, fraction: {}, position: {}, loop_region: {:?}, playing: {}, window: [{}], count: {}, wraps: Wraps {{ forward: {}, backward: {} }} }}",
        state.sample_rate,
        state.total_frames,
        state.slice,
        state.reverse,
        double(state.rate),
        state.started,
        state.playback,
        double(state.fraction),
        state.position,
        state.loop_region,
        state.playing,
        entries.join(", "),
        state.count,
        state.wraps.forward,
        state.wraps.backward,
    )
}

fn of_place(place: PlaybackPosition) -> String {
    match place {
        Seconds(seconds) => format!("Seconds({})", double(seconds)),
        Samples(frames) => format!("Samples({frames})"),
    }
}

fn of_region(region: Region) -> String {
    let end = match region.end {
        EndPosition::EndOfAudio => "EndOfAudio".into(),
        EndPosition::Custom(place) => format!("Custom({})", of_place(place)),
    };
    format!("Region {{ start: {}, end: {end} }}", of_place(region.start))
}

fn of_settings(settings: &Settings) -> String {
    format!(
        "Settings {{ sample_rate: {}, slice: {}, start: {}, loop_region: {}, reverse: {}, rate: {}, waits: {} }}",
        settings.sample_rate,
        option(settings.slice, of_region),
        of_place(settings.start),
        option(settings.loop_region, of_region),
        settings.reverse,
        double(settings.rate),
        settings.waits,
    )
}

fn of_commands(commands: &Commands) -> String {
    let looped = option(commands.loop_region, |region| option(region, of_region));
    let fields = [
        (
            "rate",
            option(commands.rate, double),
            commands.rate.is_some(),
        ),
        ("loop_region", looped, commands.loop_region.is_some()),
        ("pause", commands.pause.to_string(), commands.pause),
        (
            "resume",
            format!("{:?}", commands.resume),
            commands.resume.is_some(),
        ),
        ("stop", commands.stop.to_string(), commands.stop),
        (
            "seek_by",
            option(commands.seek_by, double),
            commands.seek_by.is_some(),
        ),
        (
            "seek_to",
            option(commands.seek_to, double),
            commands.seek_to.is_some(),
        ),
    ];
    let given = fields.iter().filter(|(.., given)| *given);
    let texts: Vec<String> = given
        .map(|(name, text, _)| format!("{name}: {text}, "))
        .collect();
    format!("Commands {{ {}..Default::default() }}", texts.concat())
}
