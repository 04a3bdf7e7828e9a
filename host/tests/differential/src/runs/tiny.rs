// Tiny sounds exhaustively: every slice, loop, position, direction and seek, with states, signals and
// counts.

use std::sync::Arc;

use oracle::{
    Answer, Commands, EndPosition, Entry, LaneBuffers, PlaybackPosition, PlaybackState, Region,
    Settings, Signals, State, Wraps,
};

use crate::{
    call::{Ask, Block, Call, Place, Sound},
    harness::Harness,
    tally::Kind,
};

/// How far an exhaustive run goes.
#[derive(Debug, Clone, Copy, PartialEq, Eq)]
pub enum Extent {
    /// Every transport up to 8 frames, each with few states; every state, signal and count up to 3 frames.
    Short,
    /// Every transport up to 8 frames with every state, signal and count.
    Full,
}

/// A sound of this many frames, all samples different.
pub(super) fn sound(frames: usize) -> Arc<Sound> {
    let sample = |i: usize| [0.5, -0.75][i % 2] * (i as f32 + 1.0);
    Sound::new((0..2 * frames).map(sample).collect())
}

/// No region, and every region within this many frames.
fn regions(frames: usize) -> impl Iterator<Item = Option<(usize, usize)>> {
    let pairs =
        (0..frames).flat_map(move |start| (start + 1..=frames).map(move |end| (start, end)));
    [None].into_iter().chain(pairs.map(Some))
}

/// Every transport over this many frames, with every slice and direction, in a plain state at 1 Hz.
pub fn transports(total: usize) -> impl Iterator<Item = State> {
    let slices = regions(total);
    let with_loops = slices.flat_map(move |slice| {
        let n = slice.map_or(total, |(start, end)| end - start);
        regions(n).map(move |loop_region| (slice, n, loop_region))
    });
    let with_positions = with_loops.flat_map(|(slice, n, loop_region)| {
        let playing = (0..n).map(|position| (position, true));
        let ended = (0..n + 2).map(|position| (position, false));
        let places = playing.chain(ended);
        places.map(move |place| (slice, loop_region, place))
    });
    let directions = [(1.0, false), (-1.0, false), (1.0, true), (-1.0, true)];
    with_positions.flat_map(move |(slice, loop_region, (position, playing))| {
        directions.into_iter().map(move |(rate, reverse)| State {
            sample_rate: 1,
            total_frames: total,
            slice,
            reverse,
            rate,
            started: true,
            playback: PlaybackState::Playing,
            fraction: 0.0,
            position,
            loop_region,
            playing,
            window: window(4),
            count: 4,
            // Above 0, and one wrap before the limit.
            wraps: Wraps {
                forward: 7,
                backward: u32::MAX - 1,
            },
        })
    })
}

/// A window in which this many entries are frames of the sound.
fn window(count: usize) -> [Entry; 4] {
    std::array::from_fn(|place| {
        let sounds = |value: f32| if place < count { value } else { 0.0 };
        Entry {
            left: sounds(0.25 + place as f32),
            right: sounds(-1.5 * (place as f32 + 1.0)),
            number: 7 + place,
        }
    })
}

/// Settings that create a voice with this slice, loop, position and direction.
pub(super) fn settings_at(state: &State) -> Settings {
    let region = |(start, end)| Region {
        start: PlaybackPosition::Samples(start),
        end: EndPosition::Custom(PlaybackPosition::Samples(end)),
    };
    Settings {
        sample_rate: state.sample_rate,
        slice: state.slice.map(region),
        start: PlaybackPosition::Samples(state.position),
        loop_region: state.loop_region.map(region),
        reverse: state.reverse,
        rate: state.rate,
        waits: false,
    }
}

/// Every creation over 1 to this many frames.
pub fn tiny_creations(harness: &mut Harness, most: usize) {
    for total in 1..=most {
        let sound = sound(total);
        // A creation starts where a transport plays. The other transports have no creation.
        for state in transports(total).filter(|state| state.playing) {
            for waits in [false, true] {
                let settings = Settings {
                    waits,
                    ..settings_at(&state)
                };
                let call = Call {
                    ask: Ask::Create(settings),
                    sound: sound.clone(),
                };
                harness.ask(Kind::TinyCreation, &call);
            }
            if harness.has_enough() {
                return;
            }
        }
    }
}

/// Every seek to a frame, or by frames, from every transport; in two states, or in all seven.
pub fn tiny_seeks(harness: &mut Harness, most: usize, extent: Extent) {
    let states: &[PlaybackState] = match extent {
        Extent::Short => &[PlaybackState::Playing, PlaybackState::Paused],
        Extent::Full => &PlaybackState::ALL,
    };
    for total in 1..=most {
        let sound = sound(total);
        for state in transports(total) {
            for (&playback, target) in states
                .iter()
                .flat_map(|playback| (0..=total + 1).map(move |target| (playback, target)))
            {
                let (p, q) = (state.position as f64, target as f64);
                for (seek_by, seek_to) in [(None, Some(q)), (Some(q - p), None)] {
                    let commands = Commands {
                        seek_by,
                        seek_to,
                        ..Commands::default()
                    };
                    let call = Call {
                        ask: Ask::Command(State { playback, ..state }, commands),
                        sound: sound.clone(),
                    };
                    harness.ask(Kind::TinySeek, &call);
                }
            }
            if harness.has_enough() {
                return;
            }
        }
    }
}

/// A block of four frames from every transport, with states, counts, signals and starts.
pub fn tiny_blocks(harness: &mut Harness, most: usize, extent: Extent) {
    for total in 1..=most {
        let sound = sound(total);
        let full = extent == Extent::Full || total <= 3;
        for state in transports(total) {
            for count in 0..=4 {
                let counted = State {
                    count,
                    window: window(count),
                    ..state
                };
                if full {
                    every_state(harness, &counted, &sound);
                } else {
                    ask(harness, counted, Signals::default(), &sound);
                }
            }
            if harness.has_enough() {
                return;
            }
        }
    }
}

fn every_state(harness: &mut Harness, state: &State, sound: &Arc<Sound>) {
    let answers = [Answer::Waiting, Answer::Now, Answer::Never];
    for playback in PlaybackState::ALL {
        for (started, finished) in [(true, false), (true, true), (false, false), (false, true)] {
            let held = State {
                playback,
                started,
                ..*state
            };
            for (start, resume) in answers.into_iter().flat_map(|a| answers.map(|b| (a, b))) {
                let signals = Signals {
                    finished,
                    start,
                    resume,
                };
                ask(harness, held, signals, sound);
            }
        }
    }
}

fn ask(harness: &mut Harness, state: State, signals: Signals, sound: &Arc<Sound>) {
    let block = Block {
        lanes: LaneBuffers {
            // Steps 1, 0, 3, 1: whole and half frames, with both signs in the lane.
            rate: vec![1.0, -0.5, 2.5, 1.0],
            ..LaneBuffers::constant(4, 1.0, 0.5, (1.0, 2.0), 0.0)
        },
        dt: 1.0,
        signals,
        tick: None,
        place: Place::Whole(8),
    };
    let call = Call {
        ask: Ask::Block(state, block),
        sound: sound.clone(),
    };
    harness.ask(Kind::TinyBlock, &call);
}
