//! Deliberately wrong players: each makes one slip, and the harness must find it.

use oracle::{
    Answer, Entry, PlaybackPosition, PlaybackState, Region, Signals, State, Wraps,
    leaves::{Transport, Window},
};
use rules::{Document, Rules, refusals::MOST_ADVANCE};

use crate::{
    call::{Ask, Call, Outcome, Place},
    harness::judged,
    player::{Model, Player},
};

/// A player that answers as the rules do, except for one change to the call or to the outcome.
struct Slip {
    name: &'static str,
    answer: fn(&Call) -> Outcome,
}

impl Player for Slip {
    fn name(&self) -> &str {
        self.name
    }

    fn answer(&self, call: &Call) -> Option<Outcome> {
        Some((self.answer)(call))
    }
}

/// All wrong players.
#[must_use]
pub fn all() -> Vec<Box<dyn Player>> {
    let by_hand = BY_HAND
        .into_iter()
        .map(|slip| -> Box<dyn Player> { Box::new(slip) });
    by_rule().into_iter().chain(by_hand).collect()
}

fn by_rule() -> Vec<Box<dyn Player>> {
    vec![
        Box::new(Model::new("a seek is rounded", SeekRounds)),
        Box::new(Model::new("a seek starts playing", SeekStarts)),
        Box::new(Model::new("a backward step wraps at p < s", WrapsBelow)),
        Box::new(Model::new("the direction is the lane's", LaneDirection)),
        Box::new(Model::new("pause wakes a stopped voice", PauseWakes)),
        Box::new(Model::new("the loop's end is inclusive", InclusiveEnd)),
        Box::new(Model::new("signals are taken again", SignalsTwice)),
        Box::new(Model::new("a start that has come is answered", StartAgain)),
        Box::new(Model::new("half a turn is reached", HalfReached)),
        Box::new(Model::new("due minus now is taken", DueMinusNow)),
        Box::new(Model::new("ticks do not wrap", TicksUnwrapped)),
        Box::new(Model::new("the fraction is cut to f32", FractionCut)),
        Box::new(Model::new("a start is rounded to even", RoundsToEven)),
        Box::new(Model::new("a paused seek pushes", PausedSeekPushes)),
        Box::new(Model::new("a voice stops one push early", StopsEarly)),
        Box::new(Model::new("the position is entry 2's", NextEntryHeard)),
        Box::new(Model::new("reverse starts at N - start", ReverseOneOff)),
        Box::new(Model::new("seek_by adds frames", SeekByFrames)),
        Box::new(Model::new("minus zero plays forward", MinusZeroForward)),
        Box::new(Model::new("minus zero is created forward", CreatedForward)),
        Box::new(Model::new("an empty push keeps the count", PushKeepsCount)),
        Box::new(Model::new("a resume waits for the fade", FinishedResumes)),
        Box::new(Model::new("a count of wraps goes on from 0", CountTurns)),
        Box::new(Model::new("a far wrap counts its lengths", CountsLengths)),
        Box::new(Model::new(
            "a turn to the edge is not counted",
            EdgeUncounted,
        )),
        Box::new(Model::new("backward wraps count forward", CountsForward)),
    ]
}

struct SeekRounds;
impl Rules for SeekRounds {
    fn target(&self, product: f64) -> usize {
        product.max(0.0).round() as usize
    }
}

struct SeekStarts;
impl Rules for SeekStarts {
    fn seek(&self, given: Transport, q: usize, num_frames: usize) -> Transport {
        let sought = Document.seek(given, q, num_frames);
        let playing = sought.position < num_frames;
        Transport { playing, ..sought }
    }
}

struct WrapsBelow;
impl Rules for WrapsBelow {
    fn backward(&self, given: Transport) -> Transport {
        match given.loop_region {
            Some((start, _)) if given.position == start => {
                let free = Transport {
                    loop_region: None,
                    ..given
                };
                Transport {
                    loop_region: given.loop_region,
                    ..Document.backward(free)
                }
            }
            _ => Document.backward(given),
        }
    }
}

struct LaneDirection;
impl Rules for LaneDirection {
    fn is_backward(&self, held: f64, lane: Option<f64>, reverse: bool) -> bool {
        lane.unwrap_or(held).is_sign_negative() != reverse
    }
}

struct PauseWakes;
impl Rules for PauseWakes {
    fn ordered(&self, given: PlaybackState, to: PlaybackState) -> PlaybackState {
        match to {
            PlaybackState::Pausing => to,
            _ => Document.ordered(given, to),
        }
    }
}

struct InclusiveEnd;
impl Rules for InclusiveEnd {
    fn forward(&self, given: Transport, num_frames: usize) -> Transport {
        let longer = given.loop_region.map(|(start, end)| (start, end + 1));
        let stepped = Document.forward(
            Transport {
                loop_region: longer,
                ..given
            },
            num_frames,
        );
        Transport {
            loop_region: given.loop_region,
            ..stepped
        }
    }
}

struct SignalsTwice;
impl Rules for SignalsTwice {
    fn states(&self, given: PlaybackState, signals: Signals) -> PlaybackState {
        Document.states(Document.states(given, signals), signals)
    }
}

struct StartAgain;
impl Rules for StartAgain {
    fn start(&self, started: bool, given: PlaybackState, answer: Answer) -> (bool, PlaybackState) {
        let (now, after) = Document.start(false, given, answer);
        (now || started, after)
    }
}

fn answer_if(reached: bool) -> Answer {
    if reached {
        Answer::Now
    } else {
        Answer::Waiting
    }
}

struct HalfReached;
impl Rules for HalfReached {
    fn ticked(&self, due: u32, now: u32) -> Answer {
        answer_if(now.wrapping_sub(due) <= 1 << 31)
    }
}

struct DueMinusNow;
impl Rules for DueMinusNow {
    fn ticked(&self, due: u32, now: u32) -> Answer {
        Document.ticked(now, due)
    }
}

struct TicksUnwrapped;
impl Rules for TicksUnwrapped {
    fn ticked(&self, due: u32, now: u32) -> Answer {
        answer_if(now >= due)
    }
}

struct FractionCut;
impl Rules for FractionCut {
    fn narrowed(&self, fraction: f64) -> f32 {
        let nearest = fraction as f32;
        if f64::from(nearest) > fraction {
            nearest.next_down()
        } else {
            nearest
        }
    }
}

struct RoundsToEven;
impl Rules for RoundsToEven {
    fn to_frames(&self, position: PlaybackPosition, sample_rate: u32) -> usize {
        match position {
            PlaybackPosition::Seconds(seconds) => {
                let product = seconds * f64::from(sample_rate);
                product.round_ties_even().max(0.0) as usize
            }
            PlaybackPosition::Samples(frames) => frames,
        }
    }

    fn to_region(&self, region: Region, sample_rate: u32, all: usize) -> (usize, usize) {
        Document.to_region(region, sample_rate, all)
    }
}

struct PausedSeekPushes;
impl Rules for PausedSeekPushes {
    fn seek_pushes(&self, _: PlaybackState) -> bool {
        true
    }
}

struct StopsEarly;
impl Rules for StopsEarly {
    fn has_stopped(&self, after: &State) -> bool {
        !after.playing && after.count <= 1
    }
}

struct NextEntryHeard;
impl Rules for NextEntryHeard {
    fn heard(&self, window: &[Entry; 4]) -> usize {
        window[2].number
    }
}

struct ReverseOneOff;
impl Rules for ReverseOneOff {
    fn first(&self, start: usize, reverse: bool, num_frames: usize) -> usize {
        if reverse {
            (num_frames - start).min(num_frames - 1)
        } else {
            start
        }
    }
}

struct SeekByFrames;
impl Rules for SeekByFrames {
    fn product_by(&self, position: usize, sample_rate: f64, amount: f64) -> f64 {
        position as f64 + amount * sample_rate
    }
}

struct MinusZeroForward;
impl Rules for MinusZeroForward {
    fn is_backward(&self, held: f64, _: Option<f64>, reverse: bool) -> bool {
        (held < 0.0) != reverse
    }
}

struct CreatedForward;
impl Rules for CreatedForward {
    fn is_backward(&self, held: f64, lane: Option<f64>, reverse: bool) -> bool {
        match lane {
            None => MinusZeroForward.is_backward(held, lane, reverse),
            Some(_) => Document.is_backward(held, lane, reverse),
        }
    }
}

struct PushKeepsCount;
impl Rules for PushKeepsCount {
    fn push(&self, given: &Window, frame: Option<oracle::Frame>, number: usize) -> Window {
        Window {
            count: frame.map_or(given.count, |_| 4),
            ..Document.push(given, frame, number)
        }
    }
}

struct FinishedResumes;
impl Rules for FinishedResumes {
    fn states(&self, given: PlaybackState, signals: Signals) -> PlaybackState {
        match given {
            PlaybackState::WaitingToResume if !signals.finished => given,
            _ => Document.states(given, signals),
        }
    }
}

struct CountTurns;
impl Rules for CountTurns {
    fn counted(&self, given: Wraps, from: Transport, backward: bool) -> Wraps {
        let more = Document.counted(Wraps::default(), from, backward);
        Wraps {
            forward: given.forward.wrapping_add(more.forward),
            backward: given.backward.wrapping_add(more.backward),
        }
    }
}

struct CountsLengths;
impl Rules for CountsLengths {
    fn counted(&self, given: Wraps, from: Transport, backward: bool) -> Wraps {
        let lengths = |(start, end): (usize, usize)| match backward {
            true => (start - from.position.min(start)) / (end - start),
            false => (from.position + 1 - end.min(from.position + 1)) / (end - start),
        };
        let once = Document.counted(given, from, backward);
        let more = once != given;
        let more = from.loop_region.filter(|_| more).map_or(0, lengths) as u32;
        match backward {
            true => Wraps {
                backward: once.backward.saturating_add(more),
                ..once
            },
            false => Wraps {
                forward: once.forward.saturating_add(more),
                ..once
            },
        }
    }
}

struct EdgeUncounted;
impl Rules for EdgeUncounted {
    fn counted(&self, given: Wraps, from: Transport, backward: bool) -> Wraps {
        let at_the_edge = |(start, end)| match backward {
            true => from.position == start,
            false => from.position + 1 == end,
        };
        match from.loop_region {
            Some(held) if at_the_edge(held) => given,
            _ => Document.counted(given, from, backward),
        }
    }
}

struct CountsForward;
impl Rules for CountsForward {
    fn counted(&self, given: Wraps, from: Transport, backward: bool) -> Wraps {
        let counted = Document.counted(Wraps::default(), from, backward);
        Wraps {
            forward: given
                .forward
                .saturating_add(counted.forward + counted.backward),
            ..given
        }
    }
}

const BY_HAND: [Slip; 15] = [
    Slip {
        name: "the fraction is cleared between blocks",
        answer: |call| {
            let mut call = call.clone();
            if let Ask::Block(state, _) = &mut call.ask
                && state.is_well_formed()
            {
                state.fraction = 0.0;
            }
            judged(&call)
        },
    },
    Slip {
        name: "the steps are the frames",
        answer: |call| {
            let mut outcome = judged(call);
            if let Some(block) = call.block()
                && outcome.steps > 0
            {
                outcome.steps = block.lanes.rate.len() as u64;
            }
            outcome
        },
    },
    Slip {
        name: "a silent block reports the window's count",
        answer: |call| {
            let mut outcome = judged(call);
            if let Ask::Block(state, block) = &call.ask
                && outcome.refusal == 0
                && !block.lanes.rate.is_empty()
            {
                outcome.lowest_count = outcome.lowest_count.min(state.count as u32);
            }
            outcome
        },
    },
    Slip {
        name: "12 comes before 11",
        answer: |call| {
            let mut outcome = judged(call);
            if let Ask::Block(state, block) = &call.ask
                && outcome.refusal == 11
            {
                let advance = |rate: &f64| f64::from(state.sample_rate) * rate.abs() * block.dt;
                let too_fast = |rate: &f64| advance(rate) > MOST_ADVANCE && rate.is_finite();
                if block.lanes.rate.iter().any(too_fast) {
                    outcome.refusal = 12;
                }
            }
            outcome
        },
    },
    Slip {
        name: "an amplitude of minus zero is accepted",
        answer: |call| {
            let mut other = call.clone();
            if let Some(block) = other.block_mut() {
                for x in &mut block.lanes.volume {
                    *x = if *x == 0.0 { 0.0 } else { *x };
                }
            }
            judged(&other)
        },
    },
    Slip {
        name: "a refused block writes",
        answer: |call| {
            let mut outcome = judged(call);
            if outcome.refusal > 9 {
                outcome.samples.fill(0.0);
            }
            outcome
        },
    },
    Slip {
        name: "a mix is cleared round its block",
        answer: |call| {
            let mut outcome = judged(call);
            if let Some(block) = call.block()
                && let Place::Mix(samples, from) = block.place
                && outcome.refusal == 0
            {
                let end = 2 * (from + block.lanes.rate.len());
                outcome.samples[end..samples].fill(0.0);
            }
            outcome
        },
    },
    Slip {
        name: "the position is read after the commands",
        answer: |call| {
            let mut outcome = judged(call);
            if let (Ask::Command(..), Some(state)) = (&call.ask, outcome.state)
                && outcome.refusal == 0
            {
                outcome.position = state.window[1].number as f64 / f64::from(state.sample_rate);
            }
            outcome
        },
    },
    Slip {
        name: "an empty block keeps its signals",
        answer: |call| {
            let outcome = judged(call);
            match call.block() {
                Some(block) if block.lanes.rate.is_empty() && outcome.refusal == 0 => {
                    Outcome::untouched(call)
                }
                _ => outcome,
            }
        },
    },
    Slip {
        name: "a stretch is counted in frames",
        answer: |call| {
            let mut outcome = judged(call);
            outcome.part = (outcome.part.0 / 2, outcome.part.1 / 2);
            outcome
        },
    },
    Slip {
        name: "a refused command set stops the voice",
        answer: |call| {
            let mut outcome = judged(call);
            if let (Ask::Command(..), Some(state)) = (&call.ask, &mut outcome.state)
                && outcome.refusal == 8
            {
                state.playback = PlaybackState::Stopped;
            }
            outcome
        },
    },
    Slip {
        name: "creation's wraps do not count",
        answer: |call| {
            let mut outcome = judged(call);
            if let (Ask::Create(..), Some(state)) = (&call.ask, &mut outcome.state) {
                state.wraps = Wraps::default();
            }
            outcome
        },
    },
    Slip {
        name: "a seek that wraps is counted",
        answer: |call| {
            let mut outcome = judged(call);
            if let (Ask::Command(_, commands), Some(state)) = (&call.ask, &mut outcome.state)
                && let Some(seconds) = commands.seek_to
                && outcome.refusal == 0
                && let Some((_, end)) = state.loop_region
                && seconds * f64::from(state.sample_rate) >= end as f64
                && state.position < end
            {
                state.wraps.forward = state.wraps.forward.saturating_add(1);
            }
            outcome
        },
    },
    Slip {
        name: "a loop command clears the wraps",
        answer: |call| {
            let mut outcome = judged(call);
            if let (Ask::Command(_, commands), Some(state)) = (&call.ask, &mut outcome.state)
                && commands.loop_region.is_some()
                && outcome.refusal == 0
            {
                state.wraps = Wraps::default();
            }
            outcome
        },
    },
    Slip {
        name: "everything is refused",
        answer: |call| call.refused(1),
    },
];
