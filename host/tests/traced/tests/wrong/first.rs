//! Wrong readers, writers and salvages of version 1.

use super::{
    Page, clearing, finds_readers, finds_salvages, finds_writers, partial_write, refused, skipping,
    space_first, space_for_kept,
};
use traced::{
    entries::{Read, Saved, Sent},
    page,
    runs::{Reader, Salvage, Version, Writer},
};

struct First;

impl Page for First {
    const VERSION: Version = Version::First;
    const SEED: u64 = 1;
}

/// The kind and the length of the record at this offset, and whether all of its payload is in the bytes.
fn head(bytes: &[u8], at: u64) -> Option<(u8, u16, bool)> {
    let rest = bytes.get(usize::try_from(at).ok()?..)?;
    let &[0xa5, 0x1d, kind, low, high, ref payload @ ..] = rest else {
        return None;
    };
    let length = u16::from_le_bytes([low, high]);
    Some((kind, length, payload.len() >= length.into()))
}

/// The bytes with the one at `at + by` changed.
fn changed(bytes: &[u8], at: u64, by: usize, to: u8) -> Vec<u8> {
    let mut bytes = bytes.to_vec();
    if let Some(byte) = bytes.get_mut(at as usize + by) {
        *byte = to;
    }
    bytes
}

const READERS: [(&str, Reader); 12] = [
    ("18 before 17 in the head", |bytes, at| {
        match head(bytes, at) {
            Some((1..=3, length, false)) if !is_length(bytes, at, length) => refused(18, at),
            _ => page::read(bytes, at),
        }
    }),
    (
        "a tag checked after the payload's bytes",
        |bytes, at| match head(bytes, at) {
            Some((1..=3, length, false)) if is_length(bytes, at, length) => refused(18, at),
            _ => page::read(bytes, at),
        },
    ),
    (
        "the stated length not compared with the fields",
        |bytes, at| {
            let lengths: Vec<u16> = (0..=68)
                .map(|k| 26 + 8 * k)
                .chain([7, 15, 23, 31, 39, 47])
                .collect();
            let right = page::read(bytes, at);
            match (right.refusal, head(bytes, at)) {
                (17, Some(_)) => lengths
                    .iter()
                    .map(|length| changed(bytes, at, 3, *length as u8))
                    .map(|bytes| page::read(&bytes, at))
                    .find(|read| read.refusal == 0)
                    .unwrap_or(right),
                _ => right,
            }
        },
    ),
    ("kind 4 accepted", |bytes, at| match head(bytes, at) {
        Some((4, ..)) => page::read(&changed(bytes, at, 2, 3), at),
        _ => page::read(bytes, at),
    }),
    ("a length read as a signed number", |bytes, at| {
        match head(bytes, at) {
            Some((1..=3, 0x8000.., _)) => refused(18, at),
            _ => page::read(bytes, at),
        }
    }),
    ("half a mark", |bytes, at| {
        let second = usize::try_from(at).ok().and_then(|at| bytes.get(at + 1));
        match second {
            Some(_) => page::read(&changed(bytes, at, 1, 0x1d), at),
            None => page::read(bytes, at),
        }
    }),
    ("nothing is a bad mark", |bytes, at| {
        match bytes.len() as u64 == at {
            true => refused(15, at),
            false => page::read(bytes, at),
        }
    }),
    ("the next offset counted from the record", |bytes, at| {
        let read = page::read(bytes, at);
        let next = if read.refusal == 0 {
            read.next - at
        } else {
            at
        };
        Read { next, ..read }
    }),
    ("a NaN made quiet", |bytes, at| {
        let mut read = page::read(bytes, at);
        if read.kind == 3 {
            for value in &mut read.values[1..5] {
                let single = f32::from_bits(*value as u32);
                if single.is_nan() {
                    *value |= 1 << 22;
                }
            }
        }
        read
    }),
    ("left and right exchanged", |bytes, at| {
        let mut read = page::read(bytes, at);
        if read.kind == 1 {
            for value in &mut read.values[13..] {
                *value = value.rotate_left(32);
            }
        }
        read
    }),
    ("1,024 frames refused", |bytes, at| {
        let read = page::read(bytes, at);
        match (read.kind, read.values[0]) {
            (3, 1_024) => refused(17, at),
            _ => read,
        }
    }),
    ("a refused record returns its kind", |bytes, at| {
        let read = page::read(bytes, at);
        match (read.refusal, head(bytes, at)) {
            (17, Some((kind, ..))) => Read {
                kind: kind.into(),
                ..read
            },
            _ => read,
        }
    }),
];

fn is_length(bytes: &[u8], at: u64, length: u16) -> bool {
    head(bytes, at).is_some_and(|(kind, ..)| page::is_length(kind, length))
}

#[test]
fn every_wrong_reader_is_found() {
    finds_readers::<First>(&READERS);
}

const WRITERS: [(&str, Writer); 6] = [
    ("19 before 17", space_first::<First, 12>),
    ("a partial write on 19", partial_write::<First>),
    ("an exact fit refused", |buffer, at, kind, values, _| {
        let bytes = page::bytes(kind, values).map_or(0, |bytes| bytes.len());
        match at.checked_add(bytes as u64) == Some(buffer.len() as u64) && bytes > 0 {
            true => Sent {
                refusal: 19,
                next: at,
            },
            false => page::write(buffer, at, kind, values),
        }
    }),
    ("the offset ignored", |buffer, at, kind, values, _| {
        let sent = page::write(buffer, 0, kind, values);
        Sent {
            next: sent.next + at,
            ..sent
        }
    }),
    (
        "a number in an absent field ignored",
        |buffer, at, kind, values, _| {
            let mut values = *values;
            if kind == 2 && values[0] == 0 {
                values[1] = 0;
            }
            page::write(buffer, at, kind, &values)
        },
    ),
    (
        "the byte after a record cleared",
        |buffer, at, kind, values, _| {
            let sent = page::write(buffer, at, kind, values);
            if sent.refusal == 0
                && let Some(byte) = buffer.get_mut(sent.next as usize)
            {
                *byte = 0;
            }
            sent
        },
    ),
];

#[test]
fn every_wrong_writer_is_found() {
    finds_writers::<First>(&WRITERS);
}

const SALVAGES: [(&str, Salvage); 7] = [
    (
        "a damaged record skipped by its stated length",
        |bytes, out| {
            skipping::<First>(bytes, out, page::read, |rest| match head(rest, 0) {
                Some((_, length, _)) => 5 + usize::from(length),
                None => 1,
            })
        },
    ),
    ("on to the next mark's second byte", |bytes, out| {
        skipping::<First>(bytes, out, page::read, |rest| {
            if rest.starts_with(&[0xa5]) { 2 } else { 1 }
        })
    }),
    (
        "the last skipped offset in place of the first",
        |bytes, out| {
            let saved = page::salvage(bytes, out);
            let (mut at, mut last) = (0, saved.first);
            while saved.refusal == 0 && at < bytes.len() as u64 {
                let read = page::read(bytes, at);
                if read.refusal == 0 {
                    at = read.next;
                } else {
                    (at, last) = (at + 1, at);
                }
            }
            Saved {
                first: last,
                ..saved
            }
        },
    ),
    ("the first skipped offset is 0 if none is", |bytes, out| {
        let saved = page::salvage(bytes, out);
        match saved.skipped {
            0 => Saved { first: 0, ..saved },
            _ => saved,
        }
    }),
    ("a byte lost at the end", |bytes, out| {
        let saved = page::salvage(bytes, out);
        let last = page::salvage(&bytes[..bytes.len().saturating_sub(1)], &mut out.to_vec());
        match last.records == saved.records && last.skipped + 1 == saved.skipped {
            true => last,
            false => saved,
        }
    }),
    ("25 judged by the kept bytes", space_for_kept::<First>),
    ("the output cleared after the kept bytes", clearing::<First>),
];

#[test]
fn every_wrong_salvage_is_found() {
    finds_salvages::<First>(100_000, &SALVAGES);
}
