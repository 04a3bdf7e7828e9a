// One call of a voice by value, and everything that it returns, so that two players can be compared.

use std::{
    ops::Range,
    sync::{Arc, OnceLock},
};

use oracle::{Commands, Frame, LaneBuffers, Oracle, Settings, Signals, State, same_f32, same_f64};
use rules::Rules;

/// A sound that calls share.
#[derive(Debug)]
pub struct Sound {
    samples: Vec<f32>,
    frames: OnceLock<Arc<[Frame]>>,
}

impl Sound {
    /// A sound of these samples, left then right.
    #[must_use]
    pub fn new(samples: Vec<f32>) -> Arc<Self> {
        Arc::new(Self {
            samples,
            frames: OnceLock::new(),
        })
    }

    /// Its samples.
    #[must_use]
    pub fn samples(&self) -> &[f32] {
        &self.samples
    }

    /// Its number of whole frames.
    #[must_use]
    pub fn num_frames(&self) -> usize {
        self.samples.len() / 2
    }

    /// Its frames as the oracle shares them.
    pub(crate) fn frames(&self) -> Arc<[Frame]> {
        let frames = || Oracle::frames_of(&self.samples);
        Arc::clone(self.frames.get_or_init(frames))
    }
}

/// Where a block is written: to an output of its own, or into a mix from a frame on.
#[derive(Debug, Clone, Copy, PartialEq, Eq)]
pub enum Place {
    /// An output of this many samples.
    Whole(usize),
    /// A mix of this many samples, from the given frame on.
    Mix(usize, usize),
}

impl Place {
    /// The number of samples of the buffer.
    #[must_use]
    pub fn samples(self) -> usize {
        match self {
            Self::Whole(samples) | Self::Mix(samples, _) => samples,
        }
    }

    /// The samples that a block of this many frames must write.
    #[must_use]
    pub fn written(self, frames: usize) -> Range<usize> {
        match self {
            Self::Whole(samples) => 0..samples,
            Self::Mix(_, from) => 2 * from..2 * (from + frames),
        }
    }
}

/// A block: its lanes, time step and signals, and where it is written.
#[derive(Debug, Clone)]
pub struct Block {
    /// The five lanes.
    pub lanes: LaneBuffers,
    /// The seconds of one output frame.
    pub dt: f64,
    /// The signals.
    pub signals: Signals,
    /// The due tick and the current tick, if they replace the start answer.
    pub tick: Option<(u32, u32)>,
    /// Where it is written.
    pub place: Place,
}

impl Block {
    /// The signals with the answer for the tick by these rules.
    #[must_use]
    pub fn signals_by(&self, rules: &impl Rules) -> Signals {
        let start = self
            .tick
            .map_or(self.signals.start, |(due, now)| rules.ticked(due, now));
        Signals {
            start,
            ..self.signals
        }
    }
}

/// What a call asks.
#[derive(Debug, Clone)]
pub enum Ask {
    /// A creation.
    Create(Settings),
    /// A command set, in a state.
    Command(State, Commands),
    /// A block, in a state.
    Block(State, Block),
    /// The stretch of the voice.
    Stretch(State),
}

/// One call: what it asks, and its sound.
#[derive(Debug, Clone)]
pub struct Call {
    /// What is asked.
    pub ask: Ask,
    /// The sound.
    pub sound: Arc<Sound>,
}

/// Everything that a call returns. What a kind of call does not return has its value from [`Outcome::untouched`].
#[derive(Debug, Clone)]
pub struct Outcome {
    /// The refusal's number, 0 for none.
    pub refusal: u32,
    /// The state after the call; `None` if its numbers are no well formed state.
    pub state: Option<State>,
    /// The reported steps.
    pub steps: u64,
    /// The reported lowest count.
    pub lowest_count: u32,
    /// The reported position.
    pub position: f64,
    /// The part of the samples that a stretch returns: offset and length.
    pub part: (usize, usize),
    /// The whole output or mix after the call.
    pub samples: Vec<f32>,
}

impl Call {
    /// The state that the call gets; a creation gets none.
    #[must_use]
    pub fn state(&self) -> Option<&State> {
        match &self.ask {
            Ask::Create(_) => None,
            Ask::Command(state, _) | Ask::Block(state, _) | Ask::Stretch(state) => Some(state),
        }
    }

    /// The same, to change it.
    pub fn state_mut(&mut self) -> Option<&mut State> {
        match &mut self.ask {
            Ask::Create(_) => None,
            Ask::Command(state, _) | Ask::Block(state, _) | Ask::Stretch(state) => Some(state),
        }
    }

    /// The block, if the call is one.
    #[must_use]
    pub fn block(&self) -> Option<&Block> {
        match &self.ask {
            Ask::Block(_, block) => Some(block),
            _ => None,
        }
    }

    /// The same, to change it.
    pub fn block_mut(&mut self) -> Option<&mut Block> {
        match &mut self.ask {
            Ask::Block(_, block) => Some(block),
            _ => None,
        }
    }

    /// The output or mix before the call, a [`pattern`].
    #[must_use]
    pub fn output(&self) -> Vec<f32> {
        pattern(self.block().map_or(0, |block| block.place.samples()))
    }

    /// What this call must return if it is refused with this number.
    #[must_use]
    pub fn refused(&self, number: u32) -> Outcome {
        Outcome {
            refusal: number,
            ..Outcome::untouched(self)
        }
    }
}

impl Outcome {
    /// Nothing has happened: the given state (the blank one for a creation), no steps, a lowest count of 4, unchanged
    /// samples.
    #[must_use]
    pub fn untouched(call: &Call) -> Self {
        Self {
            refusal: 0,
            state: Some(call.state().copied().unwrap_or(State::BLANK)),
            steps: 0,
            lowest_count: 4,
            position: 0.0,
            part: (0, 0),
            samples: call.output(),
        }
    }

    /// The first difference from another outcome of the call, if there is one. What a block computes is compared by
    /// bits, with any NaN equal to any NaN. What must not change is compared by bits alone.
    #[must_use]
    pub fn difference(&self, other: &Self, call: &Call) -> Option<String> {
        if self.refusal != other.refusal {
            return Some(format!(
                "refusal {} against {}",
                self.refusal, other.refusal
            ));
        }
        let is_same = match (&self.state, &other.state) {
            (Some(a), Some(b)) if self.refusal == 0 => a.same_bits(b),
            (Some(a), Some(b)) => is_identical(a, b),
            _ => false,
        };
        if !is_same {
            return Some(match (&self.state, &other.state) {
                (Some(a), Some(b)) => other_fields(a, b),
                (a, b) => format!("state {a:?} against {b:?}"),
            });
        }
        if self.steps != other.steps {
            return Some(format!("{} steps against {}", self.steps, other.steps));
        }
        if self.lowest_count != other.lowest_count {
            return Some(format!(
                "lowest count {} against {}",
                self.lowest_count, other.lowest_count
            ));
        }
        if !same_f64(self.position, other.position) {
            return Some(format!(
                "position {:?} against {:?}",
                self.position, other.position
            ));
        }
        if self.part != other.part {
            return Some(format!("part {:?} against {:?}", self.part, other.part));
        }
        self.first_other_sample(other, call)
    }

    fn first_other_sample(&self, other: &Self, call: &Call) -> Option<String> {
        let written = match call.block() {
            Some(block) if self.refusal == 0 => block.place.written(block.lanes.rate.len()),
            _ => 0..0,
        };
        let mut pairs = self.samples.iter().zip(&other.samples).enumerate();
        let (place, (a, b)) = pairs.find(|(place, (a, b))| {
            let is_same = a.to_bits() == b.to_bits();
            !(is_same || written.contains(place) && same_f32(**a, **b))
        })?;
        let bits = |x: &f32| format!("{x:?} ({:#x})", x.to_bits());
        Some(format!("sample {place}: {} against {}", bits(a), bits(b)))
    }
}

/// This many samples, all different, some of them NaN.
#[must_use]
pub fn pattern(samples: usize) -> Vec<f32> {
    (0..samples as u32)
        .map(|i| f32::from_bits(0x7fa0_0000 ^ i.wrapping_mul(0x9e37_79b1)))
        .collect()
}

/// The fields in which two states differ, each with both values.
fn other_fields(a: &State, b: &State) -> String {
    let fields = |state: &State| {
        let text = format!("{state:?}");
        // At the top level a field begins with a name and a colon.
        let mut depth = 0;
        let split = text.split(move |letter| {
            depth += i32::from("([{".contains(letter)) - i32::from(")]}".contains(letter));
            letter == ',' && depth == 1
        });
        split.map(str::to_string).collect::<Vec<_>>()
    };
    let pairs = fields(a).into_iter().zip(fields(b));
    let others = pairs.filter(|(a, b)| a != b);
    let texts = others.map(|(a, b)| {
        let value = b.split_once(": ").map_or(b.as_str(), |(_, value)| value);
        format!("{} against {value}", a.trim())
    });
    texts.collect::<Vec<_>>().join("; ")
}

/// Equal bit by bit, also NaNs.
#[must_use]
pub fn is_identical(a: &State, b: &State) -> bool {
    let floats = |state: &State| {
        let window = state.window.map(|e| (e.left.to_bits(), e.right.to_bits()));
        (state.rate.to_bits(), state.fraction.to_bits(), window)
    };
    a.same_bits(b) && floats(a) == floats(b)
}
