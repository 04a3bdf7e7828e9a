//! Wrong readers, writers, salvages and replays of version 2.

use super::{
    Page, clearing, finds_readers, finds_salvages, finds_writers, partial_write, refused, skipping,
    space_first, space_for_kept,
};
use traced::{
    entries::{Read, Sent},
    model::second::{Slip, Sounds, did},
    page::{
        self,
        second::{self, CHECKSUM, FRAME, checksum},
    },
    replays::second::compare,
    runs::{Reader, Salvage, Version, Writer},
};

struct Second;

impl Page for Second {
    const VERSION: Version = Version::Second;
    const SEED: u64 = 2;
}

/// A sealed record at this offset: the offset, the kind, and the record's end by its stated length.
fn head(bytes: &[u8], at: u64) -> Option<(usize, u8, usize)> {
    let at = usize::try_from(at).ok()?;
    let &[0xa5, 0x1d, kind @ 4..=5, low, high, ..] = bytes.get(at..)? else {
        return None;
    };
    let length = u16::from_le_bytes([low, high]);
    let end = at + 5 + usize::from(length);
    second::is_length(kind, length).then_some((at, kind, end))
}

/// The stated number of frames of a record of kind 5, if the field is in the bytes.
fn stated_frames(bytes: &[u8], at: usize) -> Option<u64> {
    let field = bytes.get(at + 5..at + 7)?;
    Some(u64::from(u16::from_le_bytes([field[0], field[1]])))
}

/// A reader that computes the checksum by `sum`, from the record's bytes before it and the stated checksum.
fn summed(bytes: &[u8], at: u64, sum: fn(&[u8], [u8; 4]) -> [u8; 4]) -> Read {
    let whole = head(bytes, at).filter(|(_, _, end)| *end <= bytes.len());
    let Some((from, _, end)) = whole else {
        return second::read(bytes, at);
    };
    let seal = end - CHECKSUM;
    let stated: [u8; 4] = bytes[seal..end].try_into().expect("four");
    let mut right = bytes.to_vec();
    let sums = checksum(&bytes[from + 2..seal]).to_le_bytes();
    right[seal..end].copy_from_slice(&sums);
    let read = second::read(&right, at);
    match read.refusal == 0 && sum(&bytes[from..seal], stated) != stated {
        true => refused(17, at),
        false => read,
    }
}

/// Returns another refusal for the record at a head, if the slip makes one.
type Other = fn(&Read, &[u8], (usize, u8, usize)) -> Option<u64>;

/// The page's answer, or a refusal if `other` returns one for the record.
fn unless(bytes: &[u8], at: u64, other: Other) -> Read {
    let read = second::read(bytes, at);
    let number = head(bytes, at).and_then(|head| other(&read, bytes, head));
    number.map_or(read, |number| refused(number, at))
}

const READERS: [(&str, Reader); 24] = [
    ("the checksum covers the mark", |bytes, at| {
        summed(bytes, at, |record, _| checksum(record).to_le_bytes())
    }),
    ("the checksum covers the payload alone", |bytes, at| {
        summed(bytes, at, |record, _| checksum(&record[5..]).to_le_bytes())
    }),
    ("the checksum does not cover the kind", |bytes, at| {
        summed(bytes, at, |record, _| checksum(&record[3..]).to_le_bytes())
    }),
    ("the checksum's highest byte first", |bytes, at| {
        summed(bytes, at, |record, _| checksum(&record[2..]).to_be_bytes())
    }),
    ("the checksum not inverted at the end", |bytes, at| {
        summed(bytes, at, |record, _| {
            (!checksum(&record[2..])).to_le_bytes()
        })
    }),
    ("any checksum accepted", |bytes, at| {
        summed(bytes, at, |_, stated| stated)
    }),
    ("the checksum's last byte not compared", |bytes, at| {
        summed(bytes, at, |record, stated| {
            let [a, b, c, _] = checksum(&record[2..]).to_le_bytes();
            [a, b, c, stated[3]]
        })
    }),
    ("17 for a missing checksum", |bytes, at| {
        unless(bytes, at, |read, bytes, (_, _, end)| {
            (read.refusal == 18 && bytes.len() >= end - CHECKSUM).then_some(17)
        })
    }),
    ("18 before a wrong field", |bytes, at| {
        unless(bytes, at, |read, bytes, (_, _, end)| {
            (read.refusal == 17 && bytes.len() < end).then_some(18)
        })
    }),
    ("the frames checked after the lanes", |bytes, at| {
        unless(bytes, at, |read, bytes, (from, kind, end)| {
            let frames = stated_frames(bytes, from)?;
            let wrong = kind == 5 && !(1..=1_024).contains(&frames);
            (read.refusal == 17 && wrong && bytes.len() < end).then_some(18)
        })
    }),
    ("a frame may reach into the checksum", |bytes, at| {
        unless(bytes, at, |read, bytes, (from, kind, end)| {
            let frames = stated_frames(bytes, from).filter(|_| kind == 5)?;
            let there = bytes.len() - from;
            let over = 18 + frames as usize * FRAME > end - CHECKSUM - from;
            let cut = (end - CHECKSUM - from..end - from).contains(&there);
            (read.refusal == 17 && over && cut && frames <= 1_024).then_some(18)
        })
    }),
    ("a frame too many ignored", |bytes, at| {
        let read = second::read(bytes, at);
        let whole = head(bytes, at).filter(|(_, kind, end)| *kind == 5 && *end <= bytes.len());
        let Some((from, _, end)) = whole.filter(|_| read.refusal == 17) else {
            return read;
        };
        let mut cut = bytes[..end].to_vec();
        let seal = end - CHECKSUM;
        if seal - from < 18 + 2 * FRAME
            || checksum(&cut[from + 2..seal]).to_le_bytes() != cut[seal..]
        {
            return read;
        }
        let length = ((seal - FRAME - from - 5 + CHECKSUM) as u16).to_le_bytes();
        cut.truncate(seal - FRAME);
        cut[from + 3..from + 5].copy_from_slice(&length);
        cut.extend(checksum(&cut[from + 2..]).to_le_bytes());
        let less = second::read(&cut, at);
        match less.refusal {
            0 => Read {
                next: end as u64,
                ..less
            },
            _ => read,
        }
    }),
    ("18 before 17 in the head", |bytes, at| {
        let read = second::read(bytes, at);
        let there = usize::try_from(at).ok().and_then(|at| bytes.get(at..));
        match there {
            Some(&[0xa5, 0x1d, 4..=5, low, high, ref payload @ ..]) if read.refusal == 17 => {
                let length = u16::from_le_bytes([low, high]);
                let short = payload.len() < usize::from(length);
                match short && head(bytes, at).is_none() {
                    true => refused(18, at),
                    false => read,
                }
            }
            _ => read,
        }
    }),
    ("a sound of 0 frames refused", |bytes, at| {
        unless(bytes, at, |read, _, (_, kind, _)| {
            (kind == 4 && read.refusal == 0 && read.values[12] == 0).then_some(17)
        })
    }),
    ("a sound of 16,777,217 frames refused", |bytes, at| {
        unless(bytes, at, |read, _, (_, kind, _)| {
            (kind == 4 && read.values[12] > 16_777_216).then_some(17)
        })
    }),
    ("1,024 frames refused", |bytes, at| {
        unless(bytes, at, |read, _, (_, kind, _)| {
            (kind == 5 && read.values[0] == 1_024).then_some(17)
        })
    }),
    ("the digest's highest byte first", |bytes, at| {
        let mut read = second::read(bytes, at);
        if read.kind == 4 {
            for word in &mut read.values[13..17] {
                *word = word.swap_bytes();
            }
        }
        read
    }),
    ("the digest from its end", |bytes, at| {
        let mut read = second::read(bytes, at);
        if read.kind == 4 {
            read.values[13..17].reverse();
        }
        read
    }),
    ("start and resume exchanged", |bytes, at| {
        let mut read = second::read(bytes, at);
        if read.kind == 5 {
            read.values.swap(3, 4);
        }
        read
    }),
    ("the first lane among the numbers", |bytes, at| {
        let mut read = second::read(bytes, at);
        if read.kind == 5 {
            let fade = &second::lanes(bytes, &read)[..4];
            read.values[5] = u32::from_le_bytes(fade.try_into().expect("four")).into();
        }
        read
    }),
    ("the next offset before the checksum", |bytes, at| {
        let mut read = second::read(bytes, at);
        if read.kind >= 4 {
            read.next -= CHECKSUM as u64;
        }
        read
    }),
    ("kind 6 read as kind 5", |bytes, at| {
        let mut changed = bytes.to_vec();
        if let Some(kind @ 6) = changed.get_mut((at as usize).saturating_add(2)) {
            *kind = 5;
        }
        second::read(&changed, at)
    }),
    ("reader 1", page::read),
    ("a refused record returns its kind", |bytes, at| {
        let read = second::read(bytes, at);
        match (read.refusal, head(bytes, at)) {
            (17, Some((_, kind, _))) => Read {
                kind: kind.into(),
                ..read
            },
            _ => read,
        }
    }),
];

#[test]
fn every_wrong_reader_is_found() {
    finds_readers::<Second>(&READERS);
}

/// Writes these bytes, or refuses with this number.
fn put(buffer: &mut [u8], at: u64, bytes: Result<Vec<u8>, u64>) -> Sent {
    let refused = |refusal| Sent { refusal, next: at };
    let bytes = match bytes {
        Ok(bytes) => bytes,
        Err(refusal) => return refused(refusal),
    };
    let end = at.saturating_add(bytes.len() as u64);
    match buffer.get_mut(at as usize..end as usize) {
        Some(space) => {
            space.copy_from_slice(&bytes);
            Sent {
                refusal: 0,
                next: end,
            }
        }
        None => refused(19),
    }
}

/// A sealed record with these bytes in place of its checksum.
fn sealed_with(record: &[u8], sum: u32) -> Vec<u8> {
    let seal = record.len() - CHECKSUM;
    [&record[..seal], &sum.to_le_bytes()].concat()
}

const WRITERS: [(&str, Writer); 10] = [
    ("lanes made to fit", |buffer, at, kind, values, lanes| {
        let mut lanes = lanes.to_vec();
        if kind == 5 && values[0] <= 1_024 {
            lanes.resize(FRAME * values[0] as usize, 0);
        }
        second::write(buffer, at, kind, values, &lanes)
    }),
    ("19 before 17", space_first::<Second, 18>),
    (
        "lanes of a kind 4 ignored",
        |buffer, at, kind, values, lanes| {
            let lanes = if kind == 4 { &[] } else { lanes };
            second::write(buffer, at, kind, values, lanes)
        },
    ),
    (
        "lanes refused in kinds 1 to 3",
        |buffer, at, kind, values, lanes| match (1..=3).contains(&kind) && !lanes.is_empty() {
            true => Sent {
                refusal: 17,
                next: at,
            },
            false => second::write(buffer, at, kind, values, lanes),
        },
    ),
    (
        "a block of no frames written",
        |buffer, at, kind, values, lanes| {
            let right = second::bytes(kind, values, lanes);
            if kind != 5 || values[0] != 0 || !lanes.is_empty() {
                return put(buffer, at, right);
            }
            put(buffer, at, Ok(second::sealed(5, &[0; 13])))
        },
    ),
    (
        "the length without the checksum",
        |buffer, at, kind, values, lanes| {
            let bytes = second::bytes(kind, values, lanes).map(|mut bytes| {
                if kind >= 4 {
                    let length = ((bytes.len() - 5 - CHECKSUM) as u16).to_le_bytes();
                    bytes[3..5].copy_from_slice(&length);
                }
                bytes
            });
            put(buffer, at, bytes)
        },
    ),
    (
        "the checksum covers the mark",
        |buffer, at, kind, values, lanes| {
            let bytes = second::bytes(kind, values, lanes).map(|bytes| match kind {
                4.. => sealed_with(&bytes, checksum(&bytes[..bytes.len() - CHECKSUM])),
                _ => bytes,
            });
            put(buffer, at, bytes)
        },
    ),
    (
        "sealed kinds as version 1",
        |buffer, at, kind, values, _| page::write(buffer, at, kind, values),
    ),
    (
        "a long sound refused",
        |buffer, at, kind, values, lanes| match kind == 4 && values[12] > 16_777_216 {
            true => Sent {
                refusal: 17,
                next: at,
            },
            false => second::write(buffer, at, kind, values, lanes),
        },
    ),
    ("a partial write on 19", partial_write::<Second>),
];

#[test]
fn every_wrong_writer_is_found() {
    finds_writers::<Second>(&WRITERS);
}

const SALVAGES: [(&str, Salvage); 6] = [
    (
        "a sealed record skipped by its stated length",
        |bytes, out| {
            skipping::<Second>(bytes, out, second::read, |rest| {
                head(rest, 0).map_or(1, |(_, _, end)| end)
            })
        },
    ),
    (
        "the fields of a false block skipped with its head",
        |bytes, out| {
            skipping::<Second>(bytes, out, second::read, |rest| {
                head(rest, 0).map_or(1, |(_, kind, _)| if kind == 5 { 18 } else { 1 })
            })
        },
    ),
    ("a wrong checksum kept", |bytes, out| {
        skipping::<Second>(
            bytes,
            out,
            |bytes, at| summed(bytes, at, |_, stated| stated),
            |_| 1,
        )
    }),
    ("the salvage of version 1", page::salvage),
    ("25 judged by the kept bytes", space_for_kept::<Second>),
    (
        "the output cleared after the kept bytes",
        clearing::<Second>,
    ),
];

#[test]
fn every_wrong_salvage_is_found() {
    finds_salvages::<Second>(20_000, &SALVAGES);
}

#[test]
fn every_wrong_replay_is_found() {
    let play = |slip| move |bytes: &[u8], sounds: Option<&Sounds>| did(bytes, sounds, slip);
    let tally = compare(2, 20_000, play(Slip::Right)).unwrap();
    println!("{tally}");
    for refusal in [0, 1, 3, 26] {
        assert!(tally.refused[refusal] > 100, "{refusal}: {tally}");
    }
    for slip in Slip::ALL {
        assert!(compare(2, 100_000, play(slip)).is_err(), "{slip:?}");
    }
}
