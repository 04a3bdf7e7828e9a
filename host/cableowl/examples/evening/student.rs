//! The student of the examples: what happens at which second of the evening, to which lesson, and the
//! host's block sizes.

use std::{
    fmt,
    time::{Duration, Instant},
};

use cableowl::{Command, MAX_BLOCK_FRAMES, Region, Tween};
use random::Random;

/// Frames per second of the lesson, and of the box's audio device.
pub const LESSON_RATE: u32 = 44_100;
pub const DEVICE_RATE: u32 = 48_000;

/// The lesson's length and the evening's, in seconds.
pub const LESSON: u32 = 30;
pub const EVENING: u32 = 300;

/// How long a pause, a resume and a stop fade.
const FADE: Tween = Tween::from_millis(250);

/// What a student does.
pub enum Act {
    Loop(f64, f64),
    Speed { rate: f64, seconds: u32 },
    Pause,
    StepBack(f64),
    Resume,
    StartOver(f64),
    LeaveLoop,
    Stop,
}

impl fmt::Display for Act {
    fn fmt(&self, f: &mut fmt::Formatter<'_>) -> fmt::Result {
        match self {
            Self::Loop(start, end) => write!(f, "loop the sentence from {start} s to {end} s"),
            Self::Speed { rate, seconds } => write!(f, "set the speed to {rate}, over {seconds} s"),
            Self::Pause => write!(f, "pause"),
            Self::StepBack(seconds) => write!(f, "step back {seconds} s"),
            Self::Resume => write!(f, "resume"),
            Self::StartOver(_) => write!(f, "start the sentence over"),
            Self::LeaveLoop => write!(f, "leave the loop"),
            Self::Stop => write!(f, "stop"),
        }
    }
}

impl Act {
    /// The player's command for it.
    pub fn command(&self) -> Command {
        match *self {
            Self::Loop(start, end) => Command::SetLoopRegion(Region::from(start..end)),
            Self::Speed { rate, seconds } => {
                let tween = Tween::from(Duration::from_secs(seconds.into()));
                Command::SetPlaybackRate(rate, tween)
            }
            Self::Pause => Command::Pause(FADE),
            Self::StepBack(seconds) => Command::SeekBy(-seconds),
            Self::Resume => Command::Resume(FADE),
            Self::StartOver(seconds) => Command::SeekTo(seconds),
            Self::LeaveLoop => Command::ClearLoopRegion,
            Self::Stop => Command::Stop(FADE),
        }
    }
}

/// The evening: at which second the student does what.
#[rustfmt::skip]
pub const SCRIPT: [(u32, Act); 9] = [
    (8, Act::Loop(6.2, 10.9)),
    (40, Act::Speed { rate: 0.7, seconds: 2 }),
    (150, Act::Pause),
    (170, Act::StepBack(1.5)),
    (172, Act::Resume),
    (210, Act::StartOver(6.2)),
    (240, Act::Speed { rate: 1.0, seconds: 1 }),
    (280, Act::LeaveLoop),
    (298, Act::Stop),
];

/// How the host chooses block sizes.
#[derive(Clone)]
pub enum Blocks {
    Of(usize),
    Random(Random),
}

impl Blocks {
    pub fn next(&mut self) -> usize {
        match self {
            Self::Of(frames) => *frames,
            Self::Random(random) => 1 + random.below(MAX_BLOCK_FRAMES),
        }
    }
}

/// Adds a sample's bits to a digest.
pub fn digested(digest: u64, sample: &f32) -> u64 {
    let mixed = (digest ^ u64::from(sample.to_bits())).wrapping_mul(0x9e37_79b9_7f4a_7c15);
    mixed ^ (mixed >> 32)
}

/// A lesson of this many frames that rises and falls like speech: two triangle waves under syllables.
pub fn lesson(frames: usize) -> Vec<f32> {
    let triangle = |clock: u64, hertz: u64| {
        let phase = (clock * hertz % u64::from(LESSON_RATE)) as f32 / LESSON_RATE as f32;
        4.0 * (phase - 0.5).abs() - 1.0
    };
    (0..frames as u64)
        .flat_map(|clock| {
            let syllable = 0.5 + 0.5 * triangle(clock, 4);
            let tone = |hertz| 0.6 * triangle(clock, hertz) + 0.3 * triangle(clock, 7 * hertz);
            [syllable * tone(140), syllable * tone(141)]
        })
        .collect()
}

/// Prints progress every two seconds.
pub struct Progress<'a> {
    name: &'a str,
    said: Instant,
}

impl<'a> Progress<'a> {
    pub fn new(name: &'a str) -> Self {
        let said = Instant::now();
        Self { name, said }
    }

    /// This many frames of the evening are done.
    pub fn at(&mut self, frames: u64) {
        if self.said.elapsed() > Duration::from_secs(2) {
            self.said = Instant::now();
            let part = frames * 100 / (u64::from(EVENING) * u64::from(DEVICE_RATE));
            eprintln!("  ... {}: {part} % of the evening", self.name);
        }
    }
}

/// A whole number with a comma after each three digits.
pub fn grouped(number: u64) -> String {
    let digits = number.to_string();
    let mut text = String::new();
    for (index, digit) in digits.chars().enumerate() {
        if index > 0 && (digits.len() - index).is_multiple_of(3) {
            text.push(',');
        }
        text.push(digit);
    }
    text
}
