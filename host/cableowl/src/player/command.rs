//! One command to a player, as a value for a channel; and the checks of commands.

use std::{hint::black_box, time::Duration};

use crate::{EndPosition, Level, PlaybackPosition, Refusal, Region, State, Tween, float_mode};

/// The host's 32-bit tick counter, which wraps: its current value and its speed.
#[derive(Debug, Clone, Copy, PartialEq, Eq, Hash)]
pub struct Ticks {
    /// The tick of the next frame.
    pub now: u32,
    /// Ticks per second. The player advances the counter with its frames; with 0 it stays.
    pub per_second: u32,
}

/// One command to a [`Player`](crate::Player), for a host that sends commands through a channel.
/// [`Player::command`](crate::Player::command) calls the method of the same name.
#[derive(Debug, Clone, Copy, PartialEq)]
#[non_exhaustive]
pub enum Command {
    /// [`Player::pause`](crate::Player::pause).
    Pause(Tween),
    /// [`Player::resume`](crate::Player::resume).
    Resume(Tween),
    /// [`Player::stop`](crate::Player::stop).
    Stop(Tween),
    /// [`Player::set_playback_rate`](crate::Player::set_playback_rate).
    SetPlaybackRate(f64, Tween),
    /// [`Player::set_volume`](crate::Player::set_volume).
    SetVolume(Level, Tween),
    /// [`Player::set_panning`](crate::Player::set_panning).
    SetPanning(f32, Tween),
    /// [`Player::set_loop_region`](crate::Player::set_loop_region).
    SetLoopRegion(Region),
    /// [`Player::clear_loop_region`](crate::Player::clear_loop_region).
    ClearLoopRegion,
    /// [`Player::seek_by`](crate::Player::seek_by).
    SeekBy(f64),
    /// [`Player::seek_to`](crate::Player::seek_to).
    SeekTo(f64),
    /// [`Player::start_after`](crate::Player::start_after).
    StartAfter(Duration),
    /// [`Player::start_at_tick`](crate::Player::start_at_tick).
    StartAtTick(u32, Ticks),
}

/// A seek, in seconds.
#[derive(Debug, Clone, Copy, PartialEq)]
pub enum Seek {
    By(f64),
    To(f64),
}

/// Positions are below this frame index: docs/assurance/RULES.md, "Seconds to frames".
const FRAME_LIMIT: f64 = 4_294_967_296.0;

/// A loop in frames, or refusal 6 as the voice would return it.
pub fn frames_of(state: &State, region: Region) -> Result<(u64, u64), Refusal> {
    let frames = state
        .slice
        .map_or(state.num_frames, |(start, end)| end.saturating_sub(start)) as u64;
    let frame_of = |place: PlaybackPosition| match place {
        PlaybackPosition::Samples(samples) => Some(samples as u64),
        PlaybackPosition::Seconds(seconds) if seconds.is_finite() => {
            let rate = f64::from(state.sample_rate);
            // Negative results become 0.
            let frame = |seconds: f64| (seconds * rate).min(FRAME_LIMIT).round() as u64;
            Some(float_mode::plain(|| black_box(frame(black_box(seconds)))))
        }
        PlaybackPosition::Seconds(_) => None,
    };
    let end = match region.end {
        EndPosition::EndOfAudio => Some(frames),
        EndPosition::Custom(place) => frame_of(place),
    };
    match (frame_of(region.start), end) {
        (Some(start), Some(end)) if start < end && end <= frames => Ok((start, end)),
        _ => Err(Refusal::LoopRegion),
    }
}

/// The target frame of a seek from this position, or refusal 8 as the voice would return it. In the
/// float mode of the thread.
pub fn judge_seek(sample_rate: u32, position: u64, seek: Seek) -> Result<u64, Refusal> {
    let rate = f64::from(sample_rate);
    let (seconds, product) = match seek {
        Seek::By(seconds) => (seconds, (position as f64 / rate + seconds) * rate),
        Seek::To(seconds) => (seconds, seconds * rate),
    };
    match seconds.is_finite() && product < FRAME_LIMIT {
        // Negative results become 0.
        true => Ok(product as u64),
        false => Err(Refusal::Seek),
    }
}

/// Where a seek from `position` to the frame `to` lands: docs/assurance/RULES.md, "The transport".
pub fn wrapped(position: u64, to: u64, loop_region: Option<(u64, u64)>) -> u64 {
    match loop_region {
        Some((start, end)) if to > position && to >= end => {
            start.saturating_add((to - start) % (end - start))
        }
        Some((start, end)) if to <= position && to < start => {
            let length = end - start;
            start.saturating_add((length - (start - to) % length) % length)
        }
        _ => to,
    }
}
