// Makes a failing call smaller, one simple change at a time, as long as it still fails.

use oracle::{
    Commands, EndPosition, Entry, LaneBuffers, PlaybackPosition, PlaybackState, Region, Settings,
    Signals, State,
};

use crate::call::{Ask, Block, Call, Place, Sound};

/// The smallest call found that still fails, and how it fails.
pub fn shrink(call: &Call, fails: &dyn Fn(&Call) -> Option<String>) -> (Call, String) {
    let mut held = call.clone();
    let mut reason = fails(&held).unwrap_or_default();
    let mut size = size_of(&held);
    'smaller: loop {
        for candidate in candidates(&held) {
            let smaller = size_of(&candidate);
            if smaller >= size {
                continue;
            }
            if let Some(other) = fails(&candidate) {
                (held, reason, size) = (candidate, other, smaller);
                continue 'smaller;
            }
        }
        return (held, reason);
    }
}

/// How large a call is: the numbers in its lists, then, if they are few, its text.
fn size_of(call: &Call) -> (usize, usize) {
    let output = call.block().map_or(0, |block| {
        let lanes = &block.lanes;
        let amplitudes = [&lanes.fade, &lanes.volume, &lanes.left, &lanes.right];
        let lengths = amplitudes.map(|lane| lane.len());
        lengths.iter().sum::<usize>() + lanes.rate.len() + block.place.samples()
    });
    let numbers = call.sound.samples().len() + output;
    let text = if numbers < 300 {
        call.to_string().len()
    } else {
        0
    };
    (numbers, text)
}

/// The call with one thing simpler, the largest change first.
fn candidates(call: &Call) -> Vec<Call> {
    let mut all = with_simpler_sounds(call);
    let mut with = |ask: Ask| {
        all.push(Call {
            ask,
            sound: call.sound.clone(),
        });
    };
    match &call.ask {
        Ask::Create(settings) => {
            for settings in simpler_settings(settings) {
                with(Ask::Create(settings));
            }
        }
        Ask::Command(state, commands) => {
            for commands in simpler_commands(commands) {
                with(Ask::Command(*state, commands));
            }
            for state in simpler_states(state) {
                with(Ask::Command(state, *commands));
            }
        }
        Ask::Block(state, block) => {
            for block in simpler_blocks(block, state.sample_rate) {
                with(Ask::Block(*state, block));
            }
            for state in simpler_states(state) {
                with(Ask::Block(state, block.clone()));
            }
        }
        Ask::Stretch(state) => {
            for state in simpler_states(state) {
                with(Ask::Stretch(state));
            }
        }
    }
    all
}

/// Applies each change to a copy.
fn each<T: Clone>(given: &T, changes: &[&dyn Fn(&mut T)]) -> Vec<T> {
    let change = |change: &&dyn Fn(&mut T)| {
        let mut changed = given.clone();
        change(&mut changed);
        changed
    };
    changes.iter().map(change).collect()
}

fn with_simpler_sounds(call: &Call) -> Vec<Call> {
    let samples = call.sound.samples();
    let frames = call.sound.num_frames();
    let ramp = |frames: usize| (0..2 * frames).map(|i| (i / 2) as f32).collect();
    let lengths = [1, 2, frames / 2, frames.saturating_sub(1)];
    let shorter = lengths.into_iter().filter(|length| *length < frames);
    let sounds = shorter
        .map(|length| samples[..2 * length].to_vec())
        .chain([ramp(frames), vec![1.0; samples.len()]]);
    sounds
        .map(|samples| {
            let mut simpler = call.clone();
            if let Some(state) = simpler.state_mut() {
                // If the recorded length was right, it stays right.
                if state.total_frames == frames {
                    state.total_frames = samples.len() / 2;
                }
            }
            simpler.sound = Sound::new(samples);
            simpler
        })
        .collect()
}

fn simpler_states(given: &State) -> Vec<State> {
    let mut all = each(
        given,
        &[
            &|s| s.slice = None,
            &|s| s.loop_region = None,
            &|s| s.window = [Entry::default(); 4],
            &|s| s.window = s.window.map(|entry| Entry { number: 0, ..entry }),
            &|s| {
                s.window = s.window.map(|e| Entry {
                    left: 1.0,
                    right: 1.0,
                    ..e
                })
            },
            &|s| s.count = 4,
            &|s| s.count = 0,
            &|s| s.fraction = 0.0,
            &|s| s.fraction = 0.5,
            &|s| s.rate = 1.0,
            &|s| s.rate = -1.0,
            &|s| s.sample_rate = 1,
            &|s| s.position = 0,
            &|s| s.position /= 2,
            &|s| s.position = s.position.saturating_sub(1),
            &|s| s.started = true,
            &|s| s.playing = true,
            &|s| s.playback = PlaybackState::Playing,
            &|s| s.loop_region = Some((0, 1)),
            &|s| s.wraps.forward = 0,
            &|s| s.wraps.backward = 0,
            &|s| s.loop_region = s.loop_region.map(|(_, end)| (0, end)),
            &|s| s.loop_region = s.loop_region.map(|(start, end)| (start / 2, end / 2)),
            &|s| s.slice = s.slice.map(|(start, end)| (0, end - start.min(end))),
        ],
    );
    for place in 0..4 {
        all.extend(each(given, &[&|s| s.window[place] = Entry::default()]));
    }
    all
}

fn simpler_commands(given: &Commands) -> Vec<Commands> {
    each(
        given,
        &[
            &|c| {
                *c = Commands {
                    seek_to: c.seek_to,
                    ..Commands::default()
                }
            },
            &|c| {
                *c = Commands {
                    seek_by: c.seek_by,
                    ..Commands::default()
                }
            },
            &|c| c.rate = None,
            &|c| c.loop_region = None,
            &|c| c.loop_region = Some(None),
            &|c| c.pause = false,
            &|c| c.resume = None,
            &|c| c.stop = false,
            &|c| c.seek_by = None,
            &|c| c.seek_to = None,
            &|c| c.rate = c.rate.map(|_| 1.0),
            &|c| c.rate = c.rate.map(|_| -1.0),
            &|c| c.seek_by = c.seek_by.map(|_| 0.0),
            &|c| c.seek_by = c.seek_by.map(f64::round),
            &|c| c.seek_to = c.seek_to.map(|_| 0.0),
            &|c| c.seek_to = c.seek_to.map(|_| 0.5),
            &|c| c.seek_to = c.seek_to.map(f64::round),
            &|c| c.loop_region = c.loop_region.map(|_| Some(first_frame())),
        ],
    )
}

fn simpler_settings(given: &Settings) -> Vec<Settings> {
    each(
        given,
        &[
            &|s| s.slice = None,
            &|s| s.loop_region = None,
            &|s| s.start = PlaybackPosition::Samples(0),
            &|s| s.rate = 1.0,
            &|s| s.rate = -1.0,
            &|s| s.sample_rate = 1,
            &|s| s.reverse = false,
            &|s| s.waits = false,
            &|s| s.slice = s.slice.map(|_| first_frame()),
            &|s| s.loop_region = s.loop_region.map(|_| first_frame()),
        ],
    )
}

fn first_frame() -> Region {
    Region {
        start: PlaybackPosition::Samples(0),
        end: EndPosition::Custom(PlaybackPosition::Samples(1)),
    }
}

fn simpler_blocks(given: &Block, sample_rate: u32) -> Vec<Block> {
    let n = given.lanes.rate.len();
    let lengths = [0, 1, 2, n / 2, n.saturating_sub(1)];
    let shorter = lengths.into_iter().filter(|length| *length < n);
    let mut all: Vec<Block> = shorter.map(|length| shortened(given, length)).collect();
    all.extend(each(
        given,
        &[
            &|b| b.place = Place::Whole(2 * n),
            &|b| b.place = Place::Mix(2 * n, 0),
            &|b| b.place = Place::Mix(2 * n + 2, 1),
            &|b| b.signals = Signals::default(),
            &|b| b.signals.finished = false,
            &|b| b.tick = None,
            &|b| b.signals.start = Signals::default().start,
            &|b| b.signals.resume = Signals::default().resume,
            &|b| b.dt = 1.0,
            &|b| b.dt = 1.0 / f64::from(sample_rate.max(1)),
            &|b| b.lanes.rate.fill(1.0),
            &|b| b.lanes.rate.fill(-1.0),
            &|b| b.lanes.rate.fill(0.5),
            &|b| b.lanes.rate.fill(2.0),
            &|b| b.lanes.fade.fill(1.0),
            &|b| b.lanes.volume.fill(1.0),
            &|b| b.lanes.left.fill(1.0),
            &|b| b.lanes.right.fill(1.0),
        ],
    ));
    all
}

/// A block of fewer frames. Its lanes and output stay as right or as wrong as before.
fn shortened(given: &Block, length: usize) -> Block {
    let fewer = given.lanes.rate.len() - length;
    let shorter = |lane: &[f32]| lane[..lane.len().saturating_sub(fewer)].to_vec();
    let place = match given.place {
        Place::Whole(samples) => Place::Whole(samples.saturating_sub(2 * fewer)),
        Place::Mix(samples, from) => Place::Mix(samples.saturating_sub(2 * fewer), from),
    };
    Block {
        lanes: LaneBuffers {
            fade: shorter(&given.lanes.fade),
            volume: shorter(&given.lanes.volume),
            left: shorter(&given.lanes.left),
            right: shorter(&given.lanes.right),
            rate: given.lanes.rate[..length].to_vec(),
        },
        place,
        ..*given
    }
}
