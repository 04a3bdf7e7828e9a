//! Converts between the structs of the C entries and the oracle's types, and says what any tag means.

use oracle::{
    Answer, Commands, EndPosition, Entry, PlaybackPosition, PlaybackState, Region, Settings,
    Signals, State, Wraps,
};

use crate::{
    CableowlCommands, CableowlEntry, CableowlPlace, CableowlRegion, CableowlSettings,
    CableowlSignals, CableowlState,
};

/// A state for the entries.
#[must_use]
pub fn state_in(given: &State) -> CableowlState {
    let (slice_start, slice_end) = given.slice.unwrap_or_default();
    let (loop_start, loop_end) = given.loop_region.unwrap_or_default();
    CableowlState {
        sample_rate: given.sample_rate,
        state: u32::from(given.playback.number()),
        reverse: u32::from(given.reverse),
        started: u32::from(given.started),
        playing: u32::from(given.playing),
        has_slice: u32::from(given.slice.is_some()),
        has_loop: u32::from(given.loop_region.is_some()),
        count: u32::try_from(given.count).unwrap_or(u32::MAX),
        num_frames: given.total_frames as u64,
        slice_start: slice_start as u64,
        slice_end: slice_end as u64,
        position: given.position as u64,
        loop_start: loop_start as u64,
        loop_end: loop_end as u64,
        playback_rate: given.rate,
        fraction: given.fraction,
        window: given.window.map(|entry| CableowlEntry {
            left: entry.left,
            right: entry.right,
            number: entry.number as u64,
        }),
        forward_wraps: given.wraps.forward,
        backward_wraps: given.wraps.backward,
    }
}

/// A state for the oracle, if its tags are in their range and its absent numbers are 0.
#[must_use]
pub fn state_out(given: &CableowlState) -> Option<State> {
    Some(State {
        sample_rate: given.sample_rate,
        total_frames: given.num_frames as usize,
        slice: pair(given.has_slice, given.slice_start, given.slice_end)?,
        reverse: flag(given.reverse)?,
        rate: given.playback_rate,
        started: flag(given.started)?,
        playback: PlaybackState::from_number(u8::try_from(given.state).ok()?)?,
        fraction: given.fraction,
        position: given.position as usize,
        loop_region: pair(given.has_loop, given.loop_start, given.loop_end)?,
        playing: flag(given.playing)?,
        window: given.window.map(|entry| Entry {
            left: entry.left,
            right: entry.right,
            number: entry.number as usize,
        }),
        count: given.count as usize,
        wraps: Wraps {
            forward: given.forward_wraps,
            backward: given.backward_wraps,
        },
    })
}

fn flag(tag: u32) -> Option<bool> {
    match tag {
        0 => Some(false),
        1 => Some(true),
        _ => None,
    }
}

fn pair(has: u32, start: u64, end: u64) -> Option<Option<(usize, usize)>> {
    match (flag(has)?, start, end) {
        (true, ..) => Some(Some((start as usize, end as usize))),
        (false, 0, 0) => Some(None),
        (false, ..) => None,
    }
}

/// Settings for the entries.
#[must_use]
pub fn settings_in(given: &Settings) -> CableowlSettings {
    CableowlSettings {
        sample_rate: given.sample_rate,
        has_slice: u32::from(given.slice.is_some()),
        has_loop: u32::from(given.loop_region.is_some()),
        reverse: u32::from(given.reverse),
        start_waits: u32::from(given.waits),
        playback_rate: given.rate,
        start: place_in(given.start),
        slice: given.slice.map(region_in).unwrap_or_default(),
        loop_region: given.loop_region.map(region_in).unwrap_or_default(),
    }
}

/// What settings of any bytes mean.
#[must_use]
pub fn settings_out(given: &CableowlSettings) -> Settings {
    Settings {
        sample_rate: given.sample_rate,
        slice: given_region(given.has_slice, &given.slice),
        start: place_out(&given.start),
        loop_region: given_region(given.has_loop, &given.loop_region),
        reverse: given.reverse != 0,
        rate: given.playback_rate,
        waits: given.start_waits != 0,
    }
}

/// A command set for the entries.
#[must_use]
pub fn commands_in(given: &Commands) -> CableowlCommands {
    CableowlCommands {
        has_rate: u32::from(given.rate.is_some()),
        loop_command: match given.loop_region {
            None => 0,
            Some(None) => 1,
            Some(Some(_)) => 2,
        },
        pause: u32::from(given.pause),
        resume: match given.resume {
            None => 0,
            Some(false) => 1,
            Some(true) => 2,
        },
        stop: u32::from(given.stop),
        has_seek_by: u32::from(given.seek_by.is_some()),
        has_seek_to: u32::from(given.seek_to.is_some()),
        rate: given.rate.unwrap_or_default(),
        seek_by: given.seek_by.unwrap_or_default(),
        seek_to: given.seek_to.unwrap_or_default(),
        loop_region: given
            .loop_region
            .flatten()
            .map(region_in)
            .unwrap_or_default(),
    }
}

/// What a command set of any bytes means.
#[must_use]
pub fn commands_out(given: &CableowlCommands) -> Commands {
    Commands {
        rate: given_number(given.has_rate, given.rate),
        loop_region: match given.loop_command {
            0 => None,
            1 => Some(None),
            2 => Some(Some(region_out(&given.loop_region))),
            _ => Some(Some(NO_REGION)),
        },
        pause: given.pause != 0,
        resume: match given.resume {
            0 => None,
            1 => Some(false),
            _ => Some(true),
        },
        stop: given.stop != 0,
        seek_by: given_number(given.has_seek_by, given.seek_by),
        seek_to: given_number(given.has_seek_to, given.seek_to),
    }
}

/// Signals for the entries; the due tick and the current tick replace the start answer if they are given.
#[must_use]
pub fn signals_in(given: Signals, tick: Option<(u32, u32)>) -> CableowlSignals {
    let answer = |answer| match answer {
        Answer::Waiting => 0,
        Answer::Now => 1,
        Answer::Never => 2,
    };
    let (due, now) = tick.unwrap_or_default();
    CableowlSignals {
        finished: u32::from(given.finished),
        start: tick.map_or(answer(given.start), |_| 3),
        resume: answer(given.resume),
        due,
        now,
    }
}

/// What signals of any bytes mean. A tick comes before the start answer.
#[must_use]
pub fn signals_out(given: &CableowlSignals) -> (Signals, Option<(u32, u32)>) {
    let answer = |tag| match tag {
        1 => Answer::Now,
        2 => Answer::Never,
        _ => Answer::Waiting,
    };
    let signals = Signals {
        finished: given.finished != 0,
        start: answer(given.start),
        resume: answer(given.resume),
    };
    let tick = (given.start == 3).then_some((given.due, given.now));
    (signals, tick)
}

/// A position that is refused, which is what an unknown kind means.
const NO_PLACE: PlaybackPosition = PlaybackPosition::Seconds(f64::NAN);

/// A region that is refused, which is what an unknown tag means.
const NO_REGION: Region = Region {
    start: NO_PLACE,
    end: EndPosition::EndOfAudio,
};

fn given_number(has: u32, number: f64) -> Option<f64> {
    match has {
        0 => None,
        1 => Some(number),
        _ => Some(f64::NAN),
    }
}

fn given_region(has: u32, region: &CableowlRegion) -> Option<Region> {
    match has {
        0 => None,
        1 => Some(region_out(region)),
        _ => Some(NO_REGION),
    }
}

fn place_in(given: PlaybackPosition) -> CableowlPlace {
    match given {
        PlaybackPosition::Seconds(seconds) => CableowlPlace {
            seconds,
            samples: 0,
            kind: 0,
        },
        PlaybackPosition::Samples(samples) => CableowlPlace {
            seconds: 0.0,
            samples: samples as u64,
            kind: 1,
        },
    }
}

fn place_out(given: &CableowlPlace) -> PlaybackPosition {
    match given.kind {
        0 => PlaybackPosition::Seconds(given.seconds),
        1 => PlaybackPosition::Samples(given.samples as usize),
        _ => NO_PLACE,
    }
}

fn region_in(given: Region) -> CableowlRegion {
    let end = match given.end {
        EndPosition::Custom(place) => place_in(place),
        EndPosition::EndOfAudio => CableowlPlace {
            kind: 2,
            ..CableowlPlace::default()
        },
    };
    CableowlRegion {
        start: place_in(given.start),
        end,
    }
}

fn region_out(given: &CableowlRegion) -> Region {
    let end = match given.end.kind {
        2 => EndPosition::EndOfAudio,
        _ => EndPosition::Custom(place_out(&given.end)),
    };
    Region {
        start: place_out(&given.start),
        end,
    }
}
