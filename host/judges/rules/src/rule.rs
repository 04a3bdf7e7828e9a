// Each rule of docs/assurance/RULES.md as one method, so that a wrong player can differ in exactly one.

use oracle::{
    Answer, EndPosition, Entry, Frame, LIMIT, PlaybackPosition, PlaybackState, Region, Signals,
    State, Wraps,
    leaves::{Transport, Window},
};

/// The rules, each of which may be overridden.
pub trait Rules {
    /// A forward step.
    fn forward(&self, given: Transport, num_frames: usize) -> Transport {
        let next = given.position + 1;
        match given.loop_region {
            _ if !given.playing => given,
            Some(held) if next >= held.1 => ended_at(wrapped(next as i64, held), given, num_frames),
            _ => ended_at(next, given, num_frames),
        }
    }

    /// A backward step.
    fn backward(&self, given: Transport) -> Transport {
        let p = given.position;
        match given.loop_region {
            _ if !given.playing => given,
            Some(held) if p <= held.0 => Transport {
                position: wrapped(p as i64 - 1, held),
                ..given
            },
            _ if p == 0 => Transport {
                playing: false,
                ..given
            },
            _ => Transport {
                position: p - 1,
                ..given
            },
        }
    }

    /// The counts after a step from `from`: one more for its direction if it wraps, up to the limit.
    fn counted(&self, given: Wraps, from: Transport, backward: bool) -> Wraps {
        let wrapped = match from.loop_region {
            Some((start, _)) if backward => from.playing && from.position <= start,
            Some((_, end)) => from.playing && from.position + 1 >= end,
            None => false,
        };
        let Wraps {
            forward: ahead,
            backward: back,
        } = given;
        Wraps {
            forward: ahead.saturating_add((wrapped && !backward).into()),
            backward: back.saturating_add((wrapped && backward).into()),
        }
    }

    /// A seek to `q`.
    fn seek(&self, given: Transport, q: usize, num_frames: usize) -> Transport {
        let p = given.position;
        match given.loop_region {
            Some(held) if q > p && q >= held.1 || q <= p && q < held.0 => {
                ended_at(wrapped(q as i64, held), given, num_frames)
            }
            _ => ended_at(q, given, num_frames),
        }
    }

    /// The frame that a seek's product names.
    fn target(&self, product: f64) -> usize {
        product.max(0.0) as usize
    }

    /// The product of a seek by an amount.
    fn product_by(&self, position: usize, sample_rate: f64, amount: f64) -> f64 {
        (position as f64 / sample_rate + amount) * sample_rate
    }

    /// A window after a push.
    fn push(&self, given: &Window, frame: Option<Frame>, number: usize) -> Window {
        let [_, b, c, d] = given.entries;
        let Frame { left, right } = frame.unwrap_or(Frame::ZERO);
        let entry = Entry {
            left,
            right,
            number,
        };
        Window {
            entries: [b, c, d, entry],
            count: frame.map_or(given.count.saturating_sub(1), |_| 4),
        }
    }

    /// A channel's reading at a fraction.
    fn reading(&self, [a, b, c, d]: [f32; 4], f: f32) -> f32 {
        let c1 = (c - a) * 0.5;
        let c2 = a - b * 2.5 + c * 2.0 - d * 0.5;
        let c3 = (d - a) * 0.5 + (b - c) * 1.5;
        ((c3 * f + c2) * f + c1) * f + b
    }

    /// The fraction that a reading uses.
    fn narrowed(&self, fraction: f64) -> f32 {
        fraction as f32
    }

    /// The frame of a position, for start, slice and loop.
    fn to_frames(&self, position: PlaybackPosition, sample_rate: u32) -> usize {
        match position {
            PlaybackPosition::Samples(frames) => frames,
            PlaybackPosition::Seconds(seconds) => {
                let product = seconds * f64::from(sample_rate);
                let cut = product.floor();
                let rounded = if product < 0.0 {
                    0.0
                } else if product - cut >= 0.5 {
                    cut + 1.0
                } else {
                    cut
                };
                rounded.min(LIMIT as f64) as usize
            }
        }
    }

    /// The frames of a region, if the audio ends after `all` frames.
    fn to_region(&self, region: Region, sample_rate: u32, all: usize) -> (usize, usize) {
        let end = match region.end {
            EndPosition::EndOfAudio => all,
            EndPosition::Custom(end) => self.to_frames(end, sample_rate),
        };
        (self.to_frames(region.start, sample_rate), end)
    }

    /// The first position.
    fn first(&self, start: usize, reverse: bool, num_frames: usize) -> usize {
        if reverse {
            num_frames - 1 - start
        } else {
            start
        }
    }

    /// How a block's signal changes the playback state.
    fn states(&self, given: PlaybackState, signals: Signals) -> PlaybackState {
        use PlaybackState::{
            Paused, Pausing, Playing, Resuming, Stopped, Stopping, WaitingToResume,
        };
        match (given, signals.finished, signals.resume) {
            (Pausing, true, _) => Paused,
            (Resuming, true, _) => Playing,
            (Stopping, true, _) => Stopped,
            (WaitingToResume, _, Answer::Never) => Stopped,
            (WaitingToResume, _, Answer::Now) => Resuming,
            _ => given,
        }
    }

    /// The answer for a due tick: reached from its own number on for half the range, with wrapping.
    fn ticked(&self, due: u32, now: u32) -> Answer {
        let since = (i64::from(now) - i64::from(due)).rem_euclid(1 << 32);
        if since < 1 << 31 {
            Answer::Now
        } else {
            Answer::Waiting
        }
    }

    /// The answer for the sound's own start: whether it has started, and its state.
    fn start(&self, started: bool, given: PlaybackState, answer: Answer) -> (bool, PlaybackState) {
        match answer {
            _ if started => (true, given),
            Answer::Waiting => (false, given),
            Answer::Now => (true, given),
            Answer::Never => (false, PlaybackState::Stopped),
        }
    }

    /// Whether a voice advances in this state.
    fn is_advancing(&self, given: PlaybackState) -> bool {
        [0, 1, 4, 5].contains(&given.number())
    }

    /// Pause, resume and stop: ignored in Stopped.
    fn ordered(&self, given: PlaybackState, to: PlaybackState) -> PlaybackState {
        match given {
            PlaybackState::Stopped => given,
            _ => to,
        }
    }

    /// The direction, from the held rate. It also gets the lane's rate, which does not count.
    fn is_backward(&self, held: f64, _lane: Option<f64>, reverse: bool) -> bool {
        held.is_sign_negative() != reverse
    }

    /// The fraction of a sum, after its whole part is subtracted.
    fn rest(&self, sum: f64) -> f64 {
        sum - sum.floor()
    }

    /// Whether a voice has stopped after an update.
    fn has_stopped(&self, after: &State) -> bool {
        !after.playing && after.count == 0
    }

    /// Whether a seek pushes a frame.
    fn seek_pushes(&self, given: PlaybackState) -> bool {
        self.is_advancing(given)
    }

    /// The window's entry whose frame index is the reported position.
    fn heard(&self, window: &[Entry; 4]) -> usize {
        window[1].number
    }
}

/// The rules as written.
#[derive(Debug, Clone, Copy, Default)]
pub struct Document;

impl Rules for Document {}

fn wrapped(place: i64, (start, end): (usize, usize)) -> usize {
    start + (place - start as i64).rem_euclid((end - start) as i64) as usize
}

fn ended_at(position: usize, given: Transport, num_frames: usize) -> Transport {
    Transport {
        position,
        playing: given.playing && position < num_frames,
        ..given
    }
}
