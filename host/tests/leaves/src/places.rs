//! Positions in a sound, in seconds or in samples, as frame indices.

use oracle::{EndPosition, PlaybackPosition, Region};

use crate::calls::{self, PlainPosition, PlainRange, PlainRegion};

/// `PlaybackPosition::into_samples`.
#[must_use]
pub fn into_samples(position: PlaybackPosition, sample_rate: u32) -> usize {
    calls::cableowl_test_into_samples(plain_position(position), sample_rate) as usize
}

/// `Region::into_frames`.
#[must_use]
pub fn into_frames(region: Region, sample_rate: u32, num_frames: usize) -> Option<(usize, usize)> {
    let range =
        calls::cableowl_test_into_frames(plain_region(region), sample_rate, num_frames as u64);
    range_of(range)
}

/// `Region::is_well_formed`.
#[must_use]
pub fn is_well_formed(region: Region, sample_rate: u32, num_frames: usize) -> bool {
    calls::cableowl_test_is_lawful(plain_region(region), sample_rate, num_frames as u64) != 0
}

pub(crate) fn plain_range(range: Option<(usize, usize)>) -> PlainRange {
    let (start, end) = range.unwrap_or_default();
    PlainRange {
        given: range.is_some().into(),
        start: start as u64,
        end: end as u64,
    }
}

pub(crate) fn range_of(range: PlainRange) -> Option<(usize, usize)> {
    (range.given != 0).then_some((range.start as usize, range.end as usize))
}

fn plain_position(position: PlaybackPosition) -> PlainPosition {
    match position {
        PlaybackPosition::Seconds(seconds) => PlainPosition {
            in_seconds: 1,
            seconds,
            samples: 0,
        },
        PlaybackPosition::Samples(samples) => PlainPosition {
            in_seconds: 0,
            seconds: 0.0,
            samples: samples as u64,
        },
    }
}

fn plain_region(region: Region) -> PlainRegion {
    let (end_given, end) = match region.end {
        EndPosition::EndOfAudio => (0, PlaybackPosition::Samples(0)),
        EndPosition::Custom(end) => (1, end),
    };
    PlainRegion {
        start: plain_position(region.start),
        end_given,
        end: plain_position(end),
    }
}
