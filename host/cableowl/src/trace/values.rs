//! A record as its kind and numbers, in the order of docs/formats/TRACE.md; absent ones are 0.

use super::{
    Block, Digest, FrameNumbers, LanedBlock, MAX_SOUND_FRAMES, Record, ShortSound, SoundId,
};
use crate::{
    Commands, EndPosition, LoopCommand, PlaybackPosition, Region, ResumeCommand, Settings,
    StartAnswer, ffi,
};

/// The numbers of any kind.
pub type Values = [u64; 80];

const CREATION: u64 = 1;
const COMMANDS: u64 = 2;
const BLOCK: u64 = 3;
const GIVEN_CREATION: u64 = 4;
const LANED_BLOCK: u64 = 5;

/// The number of fields before the sound's frames.
const BEFORE_SOUND: usize = 13;

/// The bytes of a record after its lanes: the checksum.
const AFTER_LANES: usize = 4;

/// A record's kind, numbers and lanes.
pub fn of<'a>(record: &Record<'a>) -> (u64, Values, &'a [u8]) {
    let mut values = [0; 80];
    let mut lanes = &[][..];
    let kind = match record {
        Record::Creation { settings, sound } => {
            put(&mut values, &creation(settings, sound.frames() as u64));
            let frames = sound.samples().chunks_exact(2);
            for (value, frame) in values[BEFORE_SOUND..].iter_mut().zip(frames) {
                *value = u64::from(frame[0].to_bits()) | u64::from(frame[1].to_bits()) << 32;
            }
            CREATION
        }
        Record::Commands(commands) => {
            put(&mut values, &command_set(commands));
            COMMANDS
        }
        Record::Block(block) => {
            put(&mut values, &block_of(block));
            BLOCK
        }
        Record::GivenCreation { settings, sound } => {
            put(&mut values, &creation(settings, sound.frames.into()));
            let words = sound.digest.0.as_chunks().0.iter();
            for (value, word) in values[BEFORE_SOUND..].iter_mut().zip(words) {
                *value = u64::from_le_bytes(*word);
            }
            GIVEN_CREATION
        }
        Record::LanedBlock(block) => {
            put(&mut values, &laned_block_of(block));
            lanes = block.lanes;
            LANED_BLOCK
        }
    };
    (kind, values, lanes)
}

impl PartialEq for Record<'_> {
    fn eq(&self, other: &Self) -> bool {
        of(self) == of(other)
    }
}

impl Eq for Record<'_> {}

fn put(values: &mut Values, numbers: &[u64]) {
    for (value, number) in values.iter_mut().zip(numbers) {
        *value = *number;
    }
}

fn creation(settings: &Settings, frames: u64) -> [u64; BEFORE_SOUND] {
    let [slice, slice_start, slice_end] = optional(settings.slice);
    let [looped, loop_start, loop_end] = optional(settings.loop_region);
    let (unit, start) = place(settings.start_position);
    [
        settings.sample_rate.into(),
        slice,
        slice_start,
        slice_end,
        unit,
        start,
        looped,
        loop_start,
        loop_end,
        settings.reverse.into(),
        settings.playback_rate.to_bits(),
        settings.start_waits.into(),
        frames,
    ]
}

fn command_set(commands: &Commands) -> [u64; 12] {
    let [looped, loop_start, loop_end] = match commands.loop_region {
        LoopCommand::Keep => [0; 3],
        LoopCommand::Clear => [1, 0, 0],
        LoopCommand::Set(given) => {
            let [tag, start, end] = region(given);
            [tag + 1, start, end]
        }
    };
    let [rate, seek_by, seek_to] =
        [commands.playback_rate, commands.seek_by, commands.seek_to].map(amount);
    [
        rate[0],
        rate[1],
        looped,
        loop_start,
        loop_end,
        commands.pause.into(),
        commands.resume as u64,
        commands.stop.into(),
        seek_by[0],
        seek_by[1],
        seek_to[0],
        seek_to[1],
    ]
}

fn block_of(block: &Block) -> [u64; 10] {
    [
        block.frames as u64,
        block.fade.to_bits().into(),
        block.volume.to_bits().into(),
        block.left.to_bits().into(),
        block.right.to_bits().into(),
        block.rate.to_bits(),
        block.time_step.to_bits(),
        block.finished.into(),
        block.start as u64,
        block.resume as u64,
    ]
}

fn laned_block_of(block: &LanedBlock<'_>) -> [u64; 5] {
    [
        block.frames() as u64,
        block.time_step.to_bits(),
        block.finished.into(),
        block.start as u64,
        block.resume as u64,
    ]
}

fn amount(amount: Option<f64>) -> [u64; 2] {
    amount.map_or([0; 2], |amount| [1, amount.to_bits()])
}

/// A position's unit and number.
fn place(position: PlaybackPosition) -> (u64, u64) {
    match position {
        PlaybackPosition::Samples(samples) => (0, samples as u64),
        PlaybackPosition::Seconds(seconds) => (1, seconds.to_bits()),
    }
}

/// A region's tag, 1 to 6, its start and its end.
fn region(region: Region) -> [u64; 3] {
    let (start_unit, start) = place(region.start);
    let (end_tag, end) = match region.end {
        EndPosition::EndOfAudio => (1, 0),
        EndPosition::Custom(position) => {
            let (unit, end) = place(position);
            (3 + 2 * unit, end)
        }
    };
    [end_tag + start_unit, start, end]
}

fn optional(given: Option<Region>) -> [u64; 3] {
    given.map_or([0; 3], region)
}

/// The record that the reader has found in these bytes.
pub fn record<'a>(found: &ffi::Record, bytes: &'a [u8]) -> Record<'a> {
    let values = &found.values;
    match found.kind {
        CREATION => Record::Creation {
            settings: settings(values),
            sound: sound(values),
        },
        COMMANDS => Record::Commands(commands(values)),
        BLOCK => Record::Block(block(values)),
        GIVEN_CREATION => Record::GivenCreation {
            settings: settings(values),
            sound: sound_id(values),
        },
        _ => Record::LanedBlock(laned_block(values, bytes)),
    }
}

fn settings(values: &Values) -> Settings {
    Settings {
        sample_rate: values[0] as u32,
        slice: optional_in(values[1], values[2], values[3]),
        start_position: place_in(values[4], values[5]),
        loop_region: optional_in(values[6], values[7], values[8]),
        reverse: values[9] == 1,
        playback_rate: f64::from_bits(values[10]),
        start_waits: values[11] == 1,
    }
}

fn sound(values: &Values) -> ShortSound {
    let frames = (values[12] as usize).min(MAX_SOUND_FRAMES);
    let mut samples = [0.0; 2 * MAX_SOUND_FRAMES];
    for (frame, value) in samples.chunks_exact_mut(2).zip(&values[BEFORE_SOUND..]) {
        frame[0] = single(*value);
        frame[1] = single(*value >> 32);
    }
    // An even count of at most 64 frames is never refused.
    ShortSound::new(&samples[..2 * frames]).unwrap_or(ShortSound::EMPTY)
}

fn sound_id(values: &Values) -> SoundId {
    let mut digest = [0; 32];
    let words = digest.as_chunks_mut().0.iter_mut();
    for (word, value) in words.zip(&values[BEFORE_SOUND..]) {
        *word = value.to_le_bytes();
    }
    SoundId {
        frames: values[12] as u32,
        digest: Digest(digest),
    }
}

fn commands(values: &Values) -> Commands {
    Commands {
        playback_rate: amount_in(values[0], values[1]),
        loop_region: match values[2] {
            0 => LoopCommand::Keep,
            1 => LoopCommand::Clear,
            tag => LoopCommand::Set(region_in(tag - 1, values[3], values[4])),
        },
        pause: values[5] == 1,
        resume: match values[6] {
            0 => ResumeCommand::No,
            1 => ResumeCommand::AtOnce,
            _ => ResumeCommand::Waiting,
        },
        stop: values[7] == 1,
        seek_by: amount_in(values[8], values[9]),
        seek_to: amount_in(values[10], values[11]),
    }
}

fn block(values: &Values) -> Block {
    Block {
        frames: values[0] as usize,
        fade: single(values[1]),
        volume: single(values[2]),
        left: single(values[3]),
        right: single(values[4]),
        rate: f64::from_bits(values[5]),
        time_step: f64::from_bits(values[6]),
        finished: values[7] == 1,
        start: answer(values[8]),
        resume: answer(values[9]),
    }
}

fn laned_block<'a>(values: &Values, bytes: &'a [u8]) -> LanedBlock<'a> {
    let lanes = FrameNumbers::BYTES * values[0] as usize;
    let end = bytes.len().saturating_sub(AFTER_LANES);
    LanedBlock {
        lanes: bytes
            .get(end.saturating_sub(lanes)..end)
            .unwrap_or_default(),
        time_step: f64::from_bits(values[1]),
        finished: values[2] == 1,
        start: answer(values[3]),
        resume: answer(values[4]),
    }
}

/// The low half of a number as a float.
fn single(value: u64) -> f32 {
    f32::from_bits(value as u32)
}

fn amount_in(tag: u64, value: u64) -> Option<f64> {
    (tag == 1).then_some(f64::from_bits(value))
}

fn answer(value: u64) -> StartAnswer {
    match value {
        0 => StartAnswer::Waiting,
        1 => StartAnswer::Now,
        _ => StartAnswer::Never,
    }
}

fn place_in(unit: u64, value: u64) -> PlaybackPosition {
    match unit {
        0 => PlaybackPosition::Samples(value as usize),
        _ => PlaybackPosition::Seconds(f64::from_bits(value)),
    }
}

fn region_in(tag: u64, start: u64, end: u64) -> Region {
    Region {
        start: place_in(1 - tag % 2, start),
        end: match tag {
            1 | 2 => EndPosition::EndOfAudio,
            3 | 4 => EndPosition::Custom(place_in(0, end)),
            _ => EndPosition::Custom(place_in(1, end)),
        },
    }
}

fn optional_in(tag: u64, start: u64, end: u64) -> Option<Region> {
    (tag > 0).then(|| region_in(tag, start, end))
}
