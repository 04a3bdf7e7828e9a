// One workload, played by our code through the C entry, by our code through the safe crate, or by kira's text, with the
// same sound, loop, lanes and blocks.

use random::Random;
use raw::{
    CableowlPlace, CableowlRegion, CableowlSettings, CableowlSignals, CableowlState, Held, Lanes,
};

/// Frames per second, of the sound and of the output.
pub const HZ: u32 = 48_000;
/// Frames of the sound.
const FRAMES: usize = 48_000;

/// What is played.
#[derive(Debug, Clone, Copy, PartialEq)]
pub struct Workload {
    /// The rate, held and in the lane.
    pub rate: f64,
    /// Frames of a block.
    pub block: usize,
    /// What is looped.
    pub looped: Looped,
    /// The numbers of the frames.
    pub lanes: LaneKind,
    /// The frame at which it starts; without one, the loop's first.
    pub start: Option<usize>,
}

/// The numbers of a block's frames.
#[derive(Debug, Clone, Copy, PartialEq, Eq)]
pub enum LaneKind {
    /// Held lanes: five numbers for the whole block, with amplitudes and gains 1, 0.5, 0.8 and 0.9.
    Once,
    /// Lanes that repeat one number, with amplitudes and gains of 1.
    Constant,
    /// Amplitudes and gains for each frame, and one rate in the whole lane.
    PerFrame,
    /// The same with a rate for each frame, up to a thousandth above the workload's.
    Rates,
}

impl LaneKind {
    /// All of them.
    pub const ALL: [Self; 4] = [Self::Once, Self::Constant, Self::PerFrame, Self::Rates];

    /// Its name in tables.
    #[must_use]
    pub fn name(self) -> &'static str {
        match self {
            Self::Once => "given once",
            Self::Constant => "constant",
            Self::PerFrame => "per frame, one rate",
            Self::Rates => "per frame, rates vary",
        }
    }

    /// Its name in options.
    #[must_use]
    pub fn word(self) -> &'static str {
        match self {
            Self::Once => "once",
            Self::Constant => "constant",
            Self::PerFrame => "frames",
            Self::Rates => "rates",
        }
    }
}

/// What is looped, and which samples it has.
#[derive(Debug, Clone, Copy, PartialEq, Eq)]
pub enum Looped {
    /// All of the sound.
    Long,
    /// Three frames of it.
    Three,
    /// All of a sound whose samples are subnormal, as in the tail of a decay.
    Tail,
    /// All of a sound whose left samples are NaN: no window is contiguous, so every block is played by the slow path.
    Slow,
}

impl Looped {
    /// Its name in tables and options.
    #[must_use]
    pub fn name(self) -> &'static str {
        match self {
            Self::Long => "long",
            Self::Three => "3 frames",
            Self::Tail => "subnormal",
            Self::Slow => "slow path",
        }
    }

    fn frames(self) -> usize {
        match self {
            Self::Long | Self::Tail | Self::Slow => FRAMES,
            Self::Three => 3,
        }
    }

    /// The sound: samples from -1 to 1, for the tail times 2^-130, for the slow path NaN on the left.
    #[must_use]
    pub fn sound(self) -> Vec<f32> {
        let level = match self {
            Self::Long | Self::Three | Self::Slow => 1.0,
            Self::Tail => 2.0_f64.powi(-130),
        };
        let mut random = Random::new(2);
        let sample = |i| match self {
            Self::Slow if i % 2 == 0 => f32::NAN,
            _ => ((random.unit() * 2.0 - 1.0) * level) as f32,
        };
        (0..2 * FRAMES).map(sample).collect()
    }
}

/// The lanes of every block.
struct Numbers {
    amplitudes: [Vec<f32>; 4],
    rate: Vec<f64>,
}

impl Workload {
    fn loop_start(&self) -> usize {
        (FRAMES - self.looped.frames()) / 2
    }

    fn first(&self) -> usize {
        self.start.unwrap_or_else(|| self.loop_start())
    }

    fn loop_end(&self) -> usize {
        self.loop_start() + self.looped.frames()
    }

    fn numbers(&self) -> Numbers {
        let mut random = Random::new(3);
        let amplitudes = match self.lanes {
            LaneKind::Once => [1.0, 0.5, 0.8, 0.9].map(|number| vec![number; self.block]),
            LaneKind::Constant => [1.0; 4].map(|number| vec![number; self.block]),
            LaneKind::PerFrame | LaneKind::Rates => {
                let mut lane = || (0..self.block).map(|_| random.unit() as f32).collect();
                [lane(), lane(), lane(), lane()]
            }
        };
        let mut rate = || match self.lanes {
            LaneKind::Rates => self.rate * (1.0 + 0.001 * random.unit()),
            _ => self.rate,
        };
        let rate = (0..self.block).map(|_| rate()).collect();
        Numbers { amplitudes, rate }
    }
}

/// The seconds of an output frame.
fn step() -> f64 {
    1.0 / f64::from(HZ)
}

/// Something that plays a workload block by block.
pub trait Voice {
    /// Plays one block.
    fn block(&mut self);

    /// The samples of the last block, by bits.
    fn heard(&self) -> Vec<u32>;
}

fn bits(samples: &[f32]) -> Vec<u32> {
    samples.iter().map(|sample| sample.to_bits()).collect()
}

/// Our code, with all its checks: every call checks the state and the lanes.
pub struct Ours<'a> {
    state: CableowlState,
    sound: &'a [f32],
    lanes: LaneKind,
    numbers: Numbers,
    out: Vec<f32>,
}

impl<'a> Ours<'a> {
    /// A voice at the workload's beginning.
    #[must_use]
    pub fn new(workload: &Workload, sound: &'a [f32]) -> Self {
        let place = |frame| CableowlPlace {
            seconds: 0.0,
            samples: frame as u64,
            kind: 1,
        };
        let settings = CableowlSettings {
            sample_rate: HZ,
            has_loop: 1,
            playback_rate: workload.rate,
            start: place(workload.first()),
            loop_region: CableowlRegion {
                start: place(workload.loop_start()),
                end: place(workload.loop_end()),
            },
            ..CableowlSettings::default()
        };
        let created = raw::new(settings, sound);
        assert_eq!(created.refusal, 0, "accepted settings");
        Self {
            state: created.state,
            sound,
            lanes: workload.lanes,
            numbers: workload.numbers(),
            out: vec![0.0; 2 * workload.block],
        }
    }
}

impl Voice for Ours<'_> {
    fn block(&mut self) {
        let [fade, volume, left, right] = &self.numbers.amplitudes;
        let lanes = Lanes {
            fade,
            volume,
            left,
            right,
            rate: &self.numbers.rate,
        };
        let signals = CableowlSignals::default();
        let (state, sound, out) = (self.state, self.sound, &mut self.out);
        let answer = match self.lanes {
            LaneKind::Once => {
                let held = Held {
                    fade: fade[0],
                    volume: volume[0],
                    left: left[0],
                    right: right[0],
                    rate: self.numbers.rate[0],
                };
                raw::process_held(state, sound, held, step(), signals, out)
            }
            _ => raw::process(state, sound, &lanes, step(), signals, out),
        };
        debug_assert_eq!(answer.refusal, 0);
        self.state = answer.state;
    }

    fn heard(&self) -> Vec<u32> {
        bits(&self.out)
    }
}

/// Our code through the safe crate, which sets the float mode of each call.
pub struct Safe<'a> {
    voice: cableowl::StaticSound,
    sound: &'a [f32],
    kind: LaneKind,
    lanes: cableowl::Lanes,
    numbers: Numbers,
    out: Vec<f32>,
}

impl<'a> Safe<'a> {
    /// A voice at the workload's beginning.
    ///
    /// # Panics
    /// If the settings are refused, which does not happen.
    #[must_use]
    pub fn new(workload: &Workload, sound: &'a [f32]) -> Self {
        let frames = cableowl::Frames;
        let settings = cableowl::Settings::new(HZ)
            .start_position(frames(workload.first()))
            .loop_region(frames(workload.loop_start())..frames(workload.loop_end()))
            .playback_rate(workload.rate);
        Self {
            voice: cableowl::StaticSound::new(settings, sound).expect("accepted settings"),
            sound,
            kind: workload.lanes,
            lanes: cableowl::Lanes::new(),
            numbers: workload.numbers(),
            out: vec![0.0; 2 * workload.block],
        }
    }
}

impl Voice for Safe<'_> {
    fn block(&mut self) {
        let [fade, volume, left, right] = &self.numbers.amplitudes;
        let rate = &self.numbers.rate;
        let lanes = self.lanes.frames(rate.len());
        let lanes = match self.kind {
            LaneKind::Once => {
                let lanes = lanes.fade(fade[0]).volume(volume[0]).left(left[0]);
                lanes.right(right[0]).rate(rate[0])
            }
            _ => {
                let lanes = lanes.fade(fade).volume(volume).left(left);
                lanes.right(right).rate(rate)
            }
        };
        let signals = cableowl::Signals::new();
        let answer = self
            .voice
            .process(self.sound, lanes, step(), signals, &mut self.out);
        debug_assert!(answer.is_ok());
    }

    fn heard(&self) -> Vec<u32> {
        bits(&self.out)
    }
}

/// kira's text, without checks, counts, or a copy of lanes or output.
pub struct Kira {
    voice: timed::Oracle,
    lanes: timed::LaneBuffers,
    out: Vec<timed::Frame>,
}

impl Kira {
    /// A voice at the workload's beginning.
    #[must_use]
    pub fn new(workload: &Workload, sound: &[f32]) -> Self {
        let start = timed::PlaybackPosition::Samples(workload.loop_start());
        let end = timed::PlaybackPosition::Samples(workload.loop_end());
        let settings = timed::Settings {
            start: timed::PlaybackPosition::Samples(workload.first()),
            loop_region: Some(timed::Region {
                start,
                end: timed::EndPosition::Custom(end),
            }),
            rate: workload.rate,
            ..timed::Settings::new(HZ)
        };
        let numbers = workload.numbers();
        let [fade, volume, left, right] = numbers.amplitudes;
        Self {
            voice: timed::Oracle::create(&settings, sound),
            lanes: timed::LaneBuffers {
                fade,
                volume,
                left,
                right,
                rate: numbers.rate,
            },
            out: vec![timed::Frame::ZERO; workload.block],
        }
    }
}

impl Voice for Kira {
    fn block(&mut self) {
        let signals = timed::Signals::default();
        let (lanes, out) = (&mut self.lanes, &mut self.out);
        self.voice.block_frames(lanes, step(), signals, out);
    }

    fn heard(&self) -> Vec<u32> {
        let frames = self.out.iter();
        frames
            .flat_map(|frame| [frame.left, frame.right].map(f32::to_bits))
            .collect()
    }
}
