//! Records and traces for the tests: well formed, slightly wrong, damaged.

pub mod second;

use random::Random;

use crate::{Values, page};

/// Any bits, ordinary or special.
fn double(random: &mut Random) -> u64 {
    let double = match random.below(8) {
        0 => return random.word(),
        1 => [f64::NAN, f64::INFINITY, -0.0, 0.0, 1e300, -1.0, 256.0][random.below(7)],
        2 | 3 => [1.0, 0.5, -1.0, 2.0][random.below(4)],
        _ => random.unit() * 8.0 - 2.0,
    };
    double.to_bits()
}

fn single(random: &mut Random) -> u64 {
    let single = match random.below(16) {
        0 => return u64::from(random.word() as u32),
        1 => [f32::NAN, f32::INFINITY, -0.0, 0.0][random.below(4)],
        2..=6 => 1.0,
        _ => random.unit() as f32,
    };
    single.to_bits().into()
}

/// A lane's constant: mostly one that the player accepts.
fn amplitude(random: &mut Random) -> u64 {
    match random.one_in(40) {
        true => single(random),
        false => (random.unit() as f32).to_bits().into(),
    }
}

/// A frame's number, or its seconds, sometimes any.
fn place(random: &mut Random, is_frames: bool, frame: usize, sample_rate: u64) -> u64 {
    match (is_frames, random.one_in(16)) {
        (true, true) => random.word() >> random.below(64),
        (true, false) => frame as u64,
        (false, true) => double(random),
        (false, false) => (frame as f64 / sample_rate as f64).to_bits(),
    }
}

/// A region's three numbers, mostly within this many frames; `tag` is 0 to 6.
fn region(random: &mut Random, tag: u64, frames: usize, sample_rate: u64) -> [u64; 3] {
    let start = random.below(frames.max(1));
    let end = start + 1 + random.below(frames.saturating_sub(start).max(1));
    let mut numbers = [tag, 0, 0];
    if tag >= 1 {
        numbers[1] = place(random, tag % 2 == 1, start, sample_rate);
    }
    if tag >= 3 {
        numbers[2] = place(random, tag < 5, end, sample_rate);
    }
    numbers
}

fn creation(random: &mut Random) -> Values {
    let mut values = [0; 80];
    let frames = match random.below(8) {
        0 => random.below(65),
        1 => [0, 63, 64][random.below(3)],
        _ => 1 + random.below(12),
    };
    values[0] = match random.below(12) {
        0 => random.word() as u32,
        1 => [0, 768_000, 768_001, u32::MAX][random.below(4)],
        2 => 48_000,
        _ => 1 + random.below(3) as u32,
    }
    .into();
    let sample_rate = values[0];
    // Rarely, because most slices and loops of any numbers are refused.
    let slice = if random.one_in(4) { random.below(7) } else { 0 };
    values[1..4].copy_from_slice(&region(random, slice as u64, frames, sample_rate));
    values[4] = random.below(2) as u64;
    if random.one_in(3) {
        let frame = random.below(frames + 1);
        values[5] = place(random, values[4] == 0, frame, sample_rate);
    }
    let looped = if random.coin() { random.below(7) } else { 0 };
    // Mostly inside the slice.
    let within = if slice > 0 && !random.one_in(8) {
        1
    } else {
        frames
    };
    values[6..9].copy_from_slice(&region(random, looped as u64, within, sample_rate));
    values[9] = random.below(2) as u64;
    values[10] = if random.one_in(12) {
        double(random)
    } else {
        1.0_f64.to_bits()
    };
    values[11] = u64::from(random.one_in(6));
    values[12] = frames as u64;
    for value in &mut values[13..13 + frames] {
        *value = single(random) | single(random) << 32;
    }
    values
}

fn commands(random: &mut Random) -> Values {
    let mut values = [0; 80];
    let given = |random: &mut Random, values: &mut Values, at: usize, one_in| {
        if random.one_in(one_in) {
            values[at] = 1;
            values[at + 1] = double(random);
        }
    };
    given(random, &mut values, 0, 4);
    if random.one_in(3) {
        let looped = random.below(8) as u64;
        let region = region(random, looped.saturating_sub(1), 4, 1);
        values[2] = looped;
        if looped > 1 {
            values[3..5].copy_from_slice(&region[1..]);
        }
    }
    values[5] = u64::from(random.one_in(6));
    values[6] = match random.one_in(3) {
        true => random.below(3) as u64,
        false => 0,
    };
    values[7] = u64::from(random.one_in(16));
    given(random, &mut values, 8, 4);
    given(random, &mut values, 10, 4);
    values
}

fn block(random: &mut Random) -> Values {
    let mut values = [0; 80];
    values[0] = match random.below(12) {
        0 => random.below(1_025),
        1 => [0, 1, 1_023, 1_024][random.below(4)],
        _ => random.below(12),
    } as u64;
    for value in &mut values[1..5] {
        *value = amplitude(random);
    }
    values[5] = match random.one_in(16) {
        true => double(random),
        false => (random.unit() * 2.0).to_bits(),
    };
    values[6] = match random.below(16) {
        0 => double(random),
        1 => (1.0 / 48_000.0_f64).to_bits(),
        _ => 1.0_f64.to_bits(),
    };
    values[7] = u64::from(random.one_in(4));
    values[8] = random.below(3) as u64;
    values[9] = random.below(3) as u64;
    values
}

/// A well formed record: its kind and numbers.
pub fn well_formed(random: &mut Random) -> (u64, Values) {
    match random.below(6) {
        0 => (1, creation(random)),
        1 | 2 => (2, commands(random)),
        _ => (3, block(random)),
    }
}

/// A record, well formed or with one wrong number.
pub fn any(random: &mut Random) -> (u64, Values) {
    let (mut kind, mut values) = well_formed(random);
    if random.coin() {
        return (kind, values);
    }
    match random.below(4) {
        0 => kind = random.word() >> random.below(64),
        1 => values[random.below(80)] = random.word(),
        2 => values[random.below(14)] = random.below(70) as u64,
        _ => {
            let at = random.below(14);
            let limit = [2, 3, 4, 7, 8, 65, 1_025, 1 << 16, 1 << 32];
            values[at] = limit[random.below(limit.len())] - random.below(2) as u64;
        }
    }
    (kind, values)
}

/// A well formed trace of this many records. The first is mostly a creation.
///
/// # Panics
///
/// If the page's writer refuses a well formed record.
#[must_use]
pub fn trace(random: &mut Random, records: usize) -> Vec<u8> {
    let mut bytes = Vec::new();
    for record in 0..records {
        let (kind, values) = match record == 0 && !random.one_in(10) {
            true => (1, creation(random)),
            false => well_formed(random),
        };
        bytes.extend(page::bytes(kind, &values).expect("a well formed record"));
    }
    bytes
}

/// One fault of a trace: a flipped bit, a hole, lost bytes, a cut, an added mark or head.
pub fn damage(random: &mut Random, bytes: &mut Vec<u8>) {
    let place = |random: &mut Random, bytes: &[u8]| random.below(bytes.len() + 1);
    let at = place(random, bytes);
    let to = (at + random.below(60)).min(bytes.len());
    match random.below(8) {
        0 | 1 if at < bytes.len() => bytes[at] = random.word() as u8,
        2 if at < bytes.len() => bytes[at] ^= 1 << random.below(8),
        3 => bytes[at..to].fill([0, 0xff, 0xa5][random.below(3)]),
        4 => drop(bytes.drain(at..to)),
        5 => bytes.truncate(at),
        6 => drop(bytes.splice(at..at, [0xa5, 0x1d])),
        _ => {
            let heads: [&[u8]; 5] = [
                &[0xa5],
                &[0xa5, 0x1d, 2, 7, 0],
                &[0xa5, 0x1d, 3, 0x25, 0],
                &[0xa5, 0x1d, 3, 0x25, 0, 0, 0],
                &[0xa5, 0x1d, 2, 7, 0, 0, 0, 0, 0, 0, 0, 0],
            ];
            drop(bytes.splice(at..at, heads[random.below(heads.len())].iter().copied()));
        }
    }
}

/// A trace with at most this many faults, sometimes none.
#[must_use]
pub fn damaged(random: &mut Random, records: usize, faults: usize) -> Vec<u8> {
    let records = random.below(records + 1);
    let mut bytes = trace(random, records);
    for _ in 0..random.below(faults + 1) {
        damage(random, &mut bytes);
    }
    bytes
}

/// A short trace with every kind and every optional field: a creation, a command set, a block and an
/// empty command set.
///
/// # Panics
///
/// If the page's writer refuses one of them.
#[must_use]
pub fn all_kinds() -> Vec<u8> {
    let seconds = f64::to_bits;
    let frame = u64::from(0.5_f32.to_bits()) << 32 | u64::from(0.25_f32.to_bits());
    let one: u64 = 1.0_f32.to_bits().into();
    let records: [(u64, &[&[u64]]); 4] = [
        (
            1,
            &[
                &[1],
                &[3, 1, 4],
                &[0, 0],
                &[6, 0, seconds(2.0)],
                &[1, seconds(-1.0), 1],
                &[2, frame, frame],
            ],
        ),
        (
            2,
            &[
                &[1, seconds(0.5)],
                &[5, seconds(1.0), 3],
                &[1, 2, 1],
                &[1, seconds(-0.5)],
                &[1, seconds(2.5)],
            ],
        ),
        (
            3,
            &[&[513], &[one; 4], &[seconds(1.0), seconds(1.0)], &[1, 2, 1]],
        ),
        (2, &[&[0; 12]]),
    ];
    let mut bytes = Vec::new();
    for (kind, numbers) in records {
        let mut values = [0; 80];
        let numbers = numbers.concat();
        values[..numbers.len()].copy_from_slice(&numbers);
        bytes.extend(page::bytes(kind, &values).expect("well formed"));
    }
    bytes
}

/// A part of a long trace: a creation over 64 looped frames, a command set, and `blocks` blocks of `frames` frames.
///
/// # Panics
///
/// If the page's writer refuses one of them.
pub fn long(part: &mut Vec<u8>, blocks: u32, frames: u64) {
    part.clear();
    let one: u64 = 1.0_f32.to_bits().into();
    let frame = u64::from(0.5_f32.to_bits()) << 32 | u64::from(0.25_f32.to_bits());
    let mut record = |kind, numbers: &[u64]| {
        let mut values = [0; 80];
        values[..numbers.len()].copy_from_slice(numbers);
        part.extend(page::bytes(kind, &values).expect("well formed"));
    };
    let double = f64::to_bits;
    let head = [48_000, 0, 0, 0, 0, 0, 1, 0, 0, 0, double(1.0), 0, 64];
    record(1, &[&head[..], &[frame; 64]].concat());
    record(2, &[0, 0, 0, 0, 0, 0, 0, 0, 1, double(-0.0001)]);
    for block in 0..blocks {
        let rate = double(0.5 + f64::from(block) / f64::from(blocks));
        let step = double(1.0 / 48_000.0);
        record(3, &[frames, one, one, one, one, rate, step]);
    }
}

/// Creations of the largest length, one in each 80 bytes, that are refused only at their end: a salvage takes longest
/// for these.
#[must_use]
pub fn false_creations(length: usize) -> Vec<u8> {
    let mut bytes = vec![0; length / 80 * 80];
    for head in bytes.chunks_mut(80) {
        // All following tags are 0, except the number of frames.
        head[..5].copy_from_slice(&[0xa5, 0x1d, 1, 0x3a, 2]);
        head[30] = 63;
    }
    bytes
}
