//! Records and traces of version 2 for the tests: well formed, slightly wrong, damaged, sealed again after a change.

use random::Random;

use super::{amplitude, double};
use crate::{
    Values,
    page::second::{self as page, CHECKSUM, FRAME},
};

/// A record: its kind, its numbers and its lanes.
pub type Made = (u64, Values, Vec<u8>);

/// A sound's digest in four numbers, and its frame count.
#[derive(Debug, Clone, Copy, PartialEq, Eq)]
pub struct Named {
    /// How many frames the sound has.
    pub frames: u64,
    /// Its digest, as four numbers of eight bytes.
    pub digest: [u64; 4],
}

impl Named {
    /// The name of these samples: their SHA-256 as little-endian f32.
    #[must_use]
    pub fn of(samples: &[f32]) -> Self {
        let bytes: Vec<u8> = samples.iter().flat_map(|s| s.to_le_bytes()).collect();
        let digest = sha256::digest(&bytes);
        let word = |at: usize| {
            let eight = digest[8 * at..8 * at + 8].try_into();
            u64::from_le_bytes(eight.expect("eight bytes"))
        };
        Self {
            frames: samples.len() as u64 / 2,
            digest: [word(0), word(1), word(2), word(3)],
        }
    }
}

/// A creation over a sound with one of these names, or another.
fn creation(random: &mut Random, names: &[Named]) -> Made {
    let mut values = super::creation(random);
    values[13..].fill(0);
    let named = match names.is_empty() || random.one_in(4) {
        true => Named {
            frames: match random.below(6) {
                0 => random.word() as u32 as u64,
                1 => [0, 16_777_216, 16_777_217, u32::MAX.into()][random.below(4)],
                _ => values[12],
            },
            digest: [0; 4].map(|_| random.word()),
        },
        false => names[random.below(names.len())],
    };
    values[12] = named.frames;
    values[13..17].copy_from_slice(&named.digest);
    if random.one_in(8) && !names.is_empty() {
        // One digit of the digest, or the count, is changed.
        values[12 + random.below(5)] ^= 1 << random.below(24);
    }
    (4, values, Vec::new())
}

/// The frames of a laned block: mostly few.
fn frames(random: &mut Random) -> usize {
    match random.below(60) {
        0 => 1 + random.below(1_024),
        1 => [1, 2, 1_023, 1_024][random.below(4)],
        _ => 1 + random.below(6),
    }
}

/// A block whose lanes change in each frame.
fn block(random: &mut Random) -> Made {
    let mut values = [0; 80];
    let count = frames(random);
    values[0] = count as u64;
    values[1] = match random.below(16) {
        0 => double(random),
        1 => (1.0 / 48_000.0_f64).to_bits(),
        _ => 1.0_f64.to_bits(),
    };
    values[2] = u64::from(random.one_in(4));
    values[3] = random.below(3) as u64;
    values[4] = random.below(3) as u64;
    let mut lanes = Vec::with_capacity(count * FRAME);
    // At most one frame that the player refuses.
    let odd = random.below(8 * count);
    for frame in 0..count {
        for _ in 0..4 {
            let single = match frame == odd {
                true => amplitude(random),
                false => (random.unit() as f32).to_bits().into(),
            };
            lanes.extend(&single.to_le_bytes()[..4]);
        }
        let rate = match frame == odd {
            true => double(random),
            false => (random.unit() * 2.0 - 0.2).to_bits(),
        };
        lanes.extend(rate.to_le_bytes());
    }
    if random.one_in(12) {
        // Lanes that look like records.
        let (kind, inner, within) = well_formed(random, &[]);
        let inner = page::bytes(kind, &inner, &within).expect("a well formed record");
        let at = random.below(lanes.len());
        for (to, from) in lanes[at..].iter_mut().zip(inner) {
            *to = from;
        }
    }
    (5, values, lanes)
}

/// A well formed record. A creation is mostly over a sound with one of these names.
pub fn well_formed(random: &mut Random, names: &[Named]) -> Made {
    match random.below(8) {
        0..=2 => {
            let (kind, values) = super::well_formed(random);
            (kind, values, Vec::new())
        }
        3 => creation(random, names),
        _ => block(random),
    }
}

/// A record, well formed or with a wrong number or wrong lanes.
pub fn any(random: &mut Random) -> Made {
    let (mut kind, mut values, mut lanes) = well_formed(random, &[]);
    match random.below(8) {
        0..=2 => {}
        3 => kind = [0, 1, 2, 3, 4, 5, 6, random.word()][random.below(8)],
        4 => values[random.below(20)] = random.word() >> random.below(64),
        5 => {
            let limit = [1, 2, 3, 4, 7, 8, 1_025, 1 << 16, 1 << 32];
            values[random.below(13)] = limit[random.below(limit.len())] - random.below(2) as u64;
        }
        6 => {
            let length = lanes.len() + random.below(3 * FRAME);
            lanes.resize(length.saturating_sub(random.below(30)), 7);
        }
        _ => {
            values[0] = random.below(4) as u64;
            lanes.resize(FRAME * random.below(4), 9);
        }
    }
    (kind, values, lanes)
}

/// A well formed trace of this many records over sounds with these names. The first is mostly a creation.
///
/// # Panics
///
/// If the page's writer refuses a well formed record.
#[must_use]
pub fn trace(random: &mut Random, names: &[Named], records: usize) -> Vec<u8> {
    let mut bytes = Vec::new();
    for record in 0..records {
        let (kind, values, lanes) = match record == 0 && !random.one_in(10) {
            true => creation(random, names),
            false => well_formed(random, names),
        };
        bytes.extend(page::bytes(kind, &values, &lanes).expect("a well formed record"));
    }
    bytes
}

/// The offsets of the sealed records of a trace, with the offsets after them.
fn sealed(bytes: &[u8]) -> Vec<(usize, usize)> {
    let (mut at, mut found) = (0, Vec::new());
    while at < bytes.len() {
        let read = page::read(bytes, at as u64);
        if read.refusal != 0 {
            break;
        }
        let next = read.next as usize;
        if read.kind >= 4 {
            found.push((at, next));
        }
        at = next;
    }
    found
}

/// Corrects the checksum of the record between these offsets.
fn seal(bytes: &mut [u8], at: usize, next: usize) {
    let end = next - CHECKSUM;
    let sum = page::checksum(&bytes[at + 2..end]).to_le_bytes();
    bytes[end..next].copy_from_slice(&sum);
}

/// One fault: one of version 1's, or one of a sealed record.
pub fn damage(random: &mut Random, bytes: &mut Vec<u8>) {
    let sealed = sealed(bytes);
    let which = random.below(12);
    if sealed.is_empty() || which < 3 {
        return super::damage(random, bytes);
    }
    let (at, next) = sealed[random.below(sealed.len())];
    let payload = at + 5..next - CHECKSUM;
    match which {
        // A wrong checksum, then one byte of the record changed.
        3 => bytes[next - 1 - random.below(CHECKSUM)] ^= 1 << random.below(8),
        4 => bytes[at + 2 + random.below(next - at - 2)] ^= 1 << random.below(8),
        // The same with a correct checksum.
        5 | 6 => {
            let place = payload.start + random.below(payload.len());
            let place = if random.coin() { payload.start } else { place };
            bytes[place] = random.word() as u8 >> random.below(8);
            seal(bytes, at, next);
        }
        // A frame more or less than the field says, with a correct length and checksum.
        7 | 8 if bytes[at + 2] == 5 => {
            let end = payload.end;
            let length = match random.coin() {
                true => {
                    bytes.splice(end..end, [0; FRAME]);
                    payload.len() + FRAME
                }
                false => {
                    bytes.drain(end - FRAME..end);
                    payload.len() - FRAME
                }
            };
            let stated = ((length + CHECKSUM) as u16).to_le_bytes();
            bytes[at + 3..at + 5].copy_from_slice(&stated);
            let end = at + 5 + length;
            seal(bytes, at, end + CHECKSUM);
            if random.one_in(3) {
                bytes.truncate(end + random.below(CHECKSUM));
            }
        }
        // Cut inside the record, or inside its checksum.
        9 => bytes.truncate(at + random.below(next - at)),
        10 => bytes.truncate(next - 1 - random.below(CHECKSUM)),
        // A false head before a record.
        _ => {
            let heads: [&[u8]; 7] = [
                &[0xa5, 0x1d, 4, 0x41, 0],
                &[0xa5, 0x1d, 4, 0x41, 0, 1, 0, 0, 0, 0],
                &[0xa5, 0x1d, 5, 0x29, 0],
                &[0xa5, 0x1d, 5, 0x29, 0, 1, 0],
                &[
                    0xa5, 0x1d, 5, 0x11, 0x60, 0, 4, 0, 0, 0, 0, 0, 0, 0, 0, 0, 0, 0,
                ],
                &[
                    0xa5, 0x1d, 5, 0x41, 0, 2, 0, 0, 0, 0, 0, 0, 0, 0, 0, 0, 0, 0,
                ],
                &[0xa5, 0x1d, 6, 0x29, 0],
            ];
            let head = heads[random.below(heads.len())];
            drop(bytes.splice(at..at, head.iter().copied()));
        }
    }
}

/// A trace with at most this many faults, sometimes none.
#[must_use]
pub fn damaged(random: &mut Random, names: &[Named], records: usize, faults: usize) -> Vec<u8> {
    let records = random.below(records + 1);
    let mut bytes = trace(random, names, records);
    for _ in 0..random.below(faults + 1) {
        damage(random, &mut bytes);
    }
    bytes
}

/// A short trace with each kind: version 1's, then a creation over a given sound with a slice and a loop, a block of
/// two frames, and an empty command set.
///
/// # Panics
///
/// If the page's writer refuses one of them.
#[must_use]
pub fn all_kinds() -> Vec<u8> {
    let seconds = f64::to_bits;
    let mut given = [0; 80];
    given[..17].copy_from_slice(&[
        1,
        3,
        1,
        4,
        0,
        0,
        6,
        0,
        seconds(2.0),
        1,
        seconds(-1.0),
        1,
        5,
        0x1d_a5,
        2,
        3,
        4,
    ]);
    let mut laned = [0; 80];
    laned[..5].copy_from_slice(&[2, seconds(1.0), 1, 2, 1]);
    let mut lanes = Vec::new();
    for frame in [0.5_f32, 0.25] {
        for lane in 1..=4 {
            lanes.extend((frame / lane as f32).to_le_bytes());
        }
        lanes.extend(f64::from(frame).to_le_bytes());
    }
    let sealed = [(4, given, Vec::new()), (5, laned, lanes)];
    let sealed = sealed.map(|(kind, values, lanes)| {
        let bytes = page::bytes(kind, &values, &lanes);
        bytes.expect("well formed")
    });
    let end = super::page::bytes(2, &[0; 80]).expect("well formed");
    [super::all_kinds(), sealed.concat(), end].concat()
}

/// Sounds for a replay, including two of the same length.
pub fn sounds(random: &mut Random) -> Vec<(Named, Vec<f32>)> {
    let lengths = [1, 5, 5, 64, 65, 300];
    let sound = |frames: usize| {
        let samples: Vec<f32> = (0..2 * frames)
            .map(|_| random.unit() as f32 - 0.5)
            .collect();
        (Named::of(&samples), samples)
    };
    lengths.map(sound).into()
}
