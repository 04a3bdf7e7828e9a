//! The refusals: docs/assurance/RULES.md, "Numbers and their refusals".

use std::{error::Error, fmt, hint::black_box};

use crate::{ffi, float_mode};

/// One of a block's five lanes.
#[derive(Debug, Clone, Copy, PartialEq, Eq, Hash)]
pub enum LaneName {
    /// The fade's amplitudes.
    Fade,
    /// The volume's amplitudes.
    Volume,
    /// The left channel's gains.
    Left,
    /// The right channel's gains.
    Right,
    /// The rates.
    Rate,
}

impl fmt::Display for LaneName {
    fn fmt(&self, f: &mut fmt::Formatter<'_>) -> fmt::Result {
        f.write_str(match self {
            Self::Fade => "fade",
            Self::Volume => "volume",
            Self::Left => "left",
            Self::Right => "right",
            Self::Rate => "rate",
        })
    }
}

/// Why a call was refused: a number, and a sentence to act on.
///
/// If several of 1 to 12 apply, the lowest is returned; 13 comes before 14; 15 to 18 are checked byte
/// by byte. A refused call changes nothing.
///
/// ```
/// use cableowl::{Refusal, Settings, StaticSound};
///
/// let refusal = StaticSound::new(Settings::new(0), &[0.0, 0.0]).unwrap_err();
/// assert_eq!(refusal, Refusal::SampleRate);
/// assert_eq!(refusal.number(), 2);
/// assert_eq!(refusal.to_string(), "refusal 2: the sample rate must be from 1 to 768,000");
/// ```
#[derive(Debug, Clone, Copy, PartialEq, Eq, Hash)]
#[non_exhaustive]
pub enum Refusal {
    /// 1: the state is not well formed, or the sound's length is not the one that it records.
    State,
    /// 2: the sample rate.
    SampleRate,
    /// 3: the sound's sample or frame count.
    FrameCount,
    /// 4: the slice.
    Slice,
    /// 5: the start position.
    StartPosition,
    /// 6: the loop region.
    LoopRegion,
    /// 7: the playback rate.
    PlaybackRate,
    /// 8: the target of a seek.
    Seek,
    /// 9: the block's size, its lanes' lengths, or the space for it.
    Block,
    /// 10: the time step.
    TimeStep,
    /// 11: a number in a lane.
    Lane {
        /// The lane of the first such number; if a frame has several, the first lane.
        lane: LaneName,
        /// Its frame in the block, from 0.
        frame: usize,
    },
    /// 12: an advance.
    Advance {
        /// The first frame of the block, from 0, that goes too far.
        frame: usize,
    },
    /// 13: a level.
    Level,
    /// 14: a ramp's frame count, or its lane's length.
    Ramp,
    /// 15: the mark that a record begins with.
    Mark,
    /// 16: the kind of a record.
    Kind,
    /// 17: a record's length, a tag or a limit in it.
    Record,
    /// 18: bytes that end inside a record.
    Truncated,
    /// 19: the space for a record.
    Room,
    /// 20: a slot of a loop table.
    LoopSlot,
    /// 21: a write or a clear of the other hall's slot.
    OtherHall,
    /// 22: a read of an empty slot.
    EmptySlot,
    /// 23: a version that the reader does not know.
    Version,
    /// 24: a field of saved settings or of a hall's loops, or the length of their record.
    SavedField,
    /// 25: a salvage's output.
    Output,
    /// 26: sounds are given to a replay, and none is the recorded one.
    OtherSound,
    /// 27: two copies of a loop table over sounds of different frame counts.
    OtherFrames,
    /// 28: two copies of a loop table that have the same number of changes for a hall and different
    /// slots.
    TwoHalves,
    /// 29: a player's seek, when 64 already wait for the next frame.
    Queue,
    /// A player's output rate: number 10, as for a time step.
    OutputRate,
    /// A player's panning: number 11, as for gains.
    Panning,
    /// A player's playback rate: number 12, as for an advance.
    TooFast,
    /// A player's output: number 9, as for a block.
    OddOutput,
    /// A level in decibels: number 13, as for a level.
    Decibels,
}

impl Refusal {
    /// Its number, from 1.
    #[must_use]
    pub fn number(self) -> u32 {
        match self {
            Self::State => 1,
            Self::SampleRate => 2,
            Self::FrameCount => 3,
            Self::Slice => 4,
            Self::StartPosition => 5,
            Self::LoopRegion => 6,
            Self::PlaybackRate => 7,
            Self::Seek => 8,
            Self::Block | Self::OddOutput => 9,
            Self::TimeStep | Self::OutputRate => 10,
            Self::Lane { .. } | Self::Panning => 11,
            Self::Advance { .. } | Self::TooFast => 12,
            Self::Level | Self::Decibels => 13,
            Self::Ramp => 14,
            Self::Mark => 15,
            Self::Kind => 16,
            Self::Record => 17,
            Self::Truncated => 18,
            Self::Room => 19,
            Self::LoopSlot => 20,
            Self::OtherHall => 21,
            Self::EmptySlot => 22,
            Self::Version => 23,
            Self::SavedField => 24,
            Self::Output => 25,
            Self::OtherSound => 26,
            Self::OtherFrames => 27,
            Self::TwoHalves => 28,
            Self::Queue => 29,
        }
    }

    /// All that the archive returns and that have no fields, by number.
    pub(crate) const PLAIN: &[Self] = &[
        Self::State,
        Self::SampleRate,
        Self::FrameCount,
        Self::Slice,
        Self::StartPosition,
        Self::LoopRegion,
        Self::PlaybackRate,
        Self::Seek,
        Self::Block,
        Self::TimeStep,
        Self::Level,
        Self::Ramp,
        Self::Mark,
        Self::Kind,
        Self::Record,
        Self::Truncated,
        Self::Room,
        Self::LoopSlot,
        Self::OtherHall,
        Self::EmptySlot,
        Self::Version,
        Self::SavedField,
        Self::Output,
        Self::OtherSound,
        Self::OtherFrames,
        Self::TwoHalves,
    ];

    /// The sentence for a number, for example from a log. `None` if no refusal has the number. In C,
    /// `cableowl_refusal_text` returns the same.
    ///
    /// ```
    /// use cableowl::Refusal;
    ///
    /// assert_eq!(Refusal::text(2), Some("the sample rate must be from 1 to 768,000"));
    /// assert_eq!(Refusal::text(0), None);
    /// ```
    #[must_use]
    pub fn text(number: u32) -> Option<&'static str> {
        match number {
            11 => Some(
                "fade, volume and gains must be finite with no minus sign (minus zero has one), and rates must be finite",
            ),
            12 => Some(Self::Advance { frame: 0 }.sentence()),
            29 => Some(Self::Queue.sentence()),
            _ => {
                let named = |refusal: &&Self| refusal.number() == number;
                Self::PLAIN
                    .iter()
                    .find(named)
                    .map(|refusal| refusal.sentence())
            }
        }
    }

    /// The refusal with the number that a creation or a command set returned; 0 is no refusal.
    pub(crate) fn check(number: u32) -> Result<(), Self> {
        if number == 0 {
            return Ok(());
        }
        let named = |refusal: &&Self| refusal.number() == number;
        // The library has no other number.
        Err(*Self::PLAIN.iter().find(named).unwrap_or(&Self::State))
    }

    /// The same for a 64-bit number.
    pub(crate) fn check_word(number: u64) -> Result<(), Self> {
        Self::check(u32::try_from(number).unwrap_or(u32::MAX))
    }

    /// The same for a block: for refusals 11 and 12 it also finds the frame and lane.
    pub(crate) fn check_block(
        number: u32,
        sample_rate: u32,
        dt: f64,
        lanes: ffi::Lanes,
    ) -> Result<(), Self> {
        match number {
            11 => Err(first_wrong_number(lanes)),
            12 => Err(Self::Advance {
                frame: first_too_far(sample_rate, dt, lanes.rate),
            }),
            _ => Self::check(number),
        }
    }

    fn sentence(self) -> &'static str {
        match self {
            Self::State => {
                "the state is not well formed or belongs to another sound: pass the samples it was created with, or create the sound anew"
            }
            Self::SampleRate => "the sample rate must be from 1 to 768,000",
            Self::FrameCount => {
                "a sound is left and right samples in turn, an even count, and 1 to 16,777,216 frames"
            }
            Self::Slice => {
                "the slice must start before it ends and end within the sound, in finite seconds or in frames"
            }
            Self::StartPosition => {
                "the start position must be a finite time or a frame, before the end of the slice or sound"
            }
            Self::LoopRegion => {
                "the loop must start before it ends and end within the slice or sound, in finite seconds or in frames"
            }
            Self::PlaybackRate => "the playback rate must be finite",
            Self::Seek => {
                "a seek must be a finite number of seconds and go to a frame below 4,294,967,296"
            }
            Self::Block => {
                "a block has at most 4,096 frames, each lane as many, and two samples of output a frame"
            }
            Self::TimeStep => {
                "the time step, the seconds of one output frame, must be finite and above 0"
            }
            Self::Lane {
                lane: LaneName::Rate,
                ..
            } => "rates must be finite",
            Self::Lane { .. } => {
                "fade, volume and gains must be finite with no minus sign (minus zero has one)"
            }
            Self::Advance { .. } => {
                "sample rate times lane rate times time step must be at most 256 in every frame: lower the rate"
            }
            Self::Level => {
                "a level is 0 to 600 tenths of a decibel below full level, or 601 for silence"
            }
            Self::Mark => {
                "no record begins here: saved settings begin with the bytes 5E 71, a hall's loops with A7 4C, a record of a trace with A5 1D"
            }
            Self::Kind => {
                "a record of a trace is of kind 1 to 3, or in version 2 of kind 1 to 5: read the trace as version 2 or with a newer reader, or salvage it"
            }
            Self::Record => {
                "a record of a trace holds a sound of at most 64 frames, or a block of at most 1,024 with constant lanes (in version 2, with 24 bytes of lanes a frame): cut the block at the limit or at the change; if the record was read, its bytes are damaged: salvage the trace"
            }
            Self::Truncated => {
                "the bytes end inside the record: give the rest of it, then read again"
            }
            Self::Room => {
                "the buffer is too short: saved settings have 25 bytes, or 26 with a pitch, a hall's loops 666, a record of a trace at most 575, or in version 2 24,598"
            }
            Self::Version => {
                "the record is of a version that this reader does not know: load it with a newer reader"
            }
            Self::SavedField => {
                "saved settings need a loop that starts before it ends, a finite rate, a pitch of -24 to 24 (0 in version 1), and in bytes the length of their version, 21 or 22; a hall's loops must lie in their sound, a name has at most 64 bytes of UTF-8, and in bytes their length is 661 and their CRC right"
            }
            Self::Output => "the output of a salvage must be at least as long as the trace",
            Self::OtherSound => {
                "none of the given sounds is the recorded one: give the sound whose frame count and SHA-256 the record names, or give no sound"
            }
            Self::Ramp => {
                "a ramp has 1 to 65,536 frames, and its lane as many: cut a longer fade into several ramps"
            }
            Self::LoopSlot => "a loop table has the slots 0 to 15",
            Self::OtherHall => {
                "hall A writes and clears slots 0 to 7, hall B slots 8 to 15: ask the other hall"
            }
            Self::EmptySlot => "the slot holds no loop: its hall must write one first",
            Self::OtherFrames => {
                "the two copies are of loop tables over different sounds: merge copies over one sound"
            }
            Self::TwoHalves => {
                "one hall has made the same number of changes in both copies, but its slots differ: two boxes have written for one hall, or one went back to an old copy; keep the copy that is right and write its slots again"
            }
            Self::Queue => {
                "64 seeks wait for the next frame already: play a frame, then seek again"
            }
            Self::Decibels => "decibels must be a number, and at most 0, which is full level",
            Self::OutputRate => "the output rate, its frames a second, must be at least 1",
            Self::Panning => "the panning must be finite: -1 is left, 0 the centre, 1 right",
            Self::TooFast => {
                "the playback rate is too fast: it may play at most 256 frames of the sound in a frame of output"
            }
            Self::OddOutput => {
                "the output must have an even number of samples, left and right in turn"
            }
        }
    }
}

impl fmt::Display for Refusal {
    fn fmt(&self, f: &mut fmt::Formatter<'_>) -> fmt::Result {
        write!(f, "refusal {}: ", self.number())?;
        match self {
            Self::Lane { lane, frame } => write!(f, "frame {frame} of lane {lane}: ")?,
            Self::Advance { frame } => write!(f, "frame {frame}: ")?,
            _ => {}
        }
        f.write_str(self.sentence())
    }
}

impl Error for Refusal {}

/// The first number to which refusal 11 applies.
fn first_wrong_number(lanes: ffi::Lanes) -> Refusal {
    let amplitudes = [
        (LaneName::Fade, lanes.fade),
        (LaneName::Volume, lanes.volume),
        (LaneName::Left, lanes.left),
        (LaneName::Right, lanes.right),
    ];
    let wrong = |frame: usize| {
        let amplitude = |(_, lane): &&(LaneName, &[f32])| {
            let at = lane.get(frame);
            at.is_some_and(|x| !x.is_finite() || x.is_sign_negative())
        };
        match amplitudes.iter().find(amplitude) {
            Some(&(lane, _)) => Some(lane),
            None => {
                let rate = lanes.rate.get(frame);
                rate.is_some_and(|x| !x.is_finite())
                    .then_some(LaneName::Rate)
            }
        }
    };
    let places = (0..lanes.rate.len()).find_map(|frame| Some((wrong(frame)?, frame)));
    // There is one: the library returns 11 exactly then.
    let (lane, frame) = places.unwrap_or((LaneName::Rate, 0));
    Refusal::Lane { lane, frame }
}

/// The first frame to which refusal 12 applies.
fn first_too_far(sample_rate: u32, dt: f64, rate: &[f64]) -> usize {
    let too_far = |rate: &f64| too_far(sample_rate, dt, *rate);
    // Hidden from the optimizer, so that no product is computed before the mode is set.
    let first = || black_box(black_box(rate).iter().position(too_far));
    // There is one: the library returns 12 exactly then, by the same products in the same mode.
    float_mode::plain(first).unwrap_or_default()
}

/// Whether an advance is above 256, in the float mode of the thread.
pub fn too_far(sample_rate: u32, dt: f64, rate: f64) -> bool {
    f64::from(sample_rate) * rate.abs() * dt > 256.0
}
