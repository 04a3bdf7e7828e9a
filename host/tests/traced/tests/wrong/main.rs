//! The random runs find every reader, writer, salvage and replay with one slip, in both versions of the trace page.
//! This file has the slips that both versions can make, and what runs them.

mod first;
mod second;

use traced::{
    Values,
    entries::{Read, Saved, Sent},
    runs::{Codec, Reader, Salvage, Version, Writer},
};

/// A version of the page.
trait Page {
    const VERSION: Version;
    /// The seed of the version's random runs.
    const SEED: u64;

    fn right() -> Codec {
        Self::VERSION.page()
    }
}

/// The run accepts the page's reader and finds each of the wrong ones.
fn finds_readers<P: Page>(wrong: &[(&str, Reader)]) {
    let right = P::right();
    right.reads(P::SEED, 20_000).unwrap();
    for &(slip, read) in wrong {
        let found = Codec { read, ..right }.reads(P::SEED, 400_000);
        assert!(found.is_err(), "{slip}");
    }
}

/// The same for writers.
fn finds_writers<P: Page>(wrong: &[(&str, Writer)]) {
    let right = P::right();
    right.writes(P::SEED, 20_000).unwrap();
    for &(slip, write) in wrong {
        let found = Codec { write, ..right }.writes(P::SEED, 400_000);
        assert!(found.is_err(), "{slip}");
    }
}

/// The same for salvages, which must be found within `calls`.
fn finds_salvages<P: Page>(calls: u64, wrong: &[(&str, Salvage)]) {
    let right = P::right();
    right.salvages(P::SEED, calls / 40).unwrap();
    for &(slip, salvage) in wrong {
        let found = Codec { salvage, ..right }.salvages(P::SEED, calls);
        assert!(found.is_err(), "{slip}");
    }
}

/// What a reader returns for a refused record.
fn refused(refusal: u64, at: u64) -> Read {
    Read {
        refusal,
        kind: 0,
        next: at,
        values: [0; 80],
    }
}

/// A writer that checks the space first: refusal 19 if fewer than `NEEDED` bytes are left, where the page says 17.
fn space_first<P: Page, const NEEDED: u64>(
    buffer: &mut [u8],
    at: u64,
    kind: u64,
    values: &Values,
    lanes: &[u8],
) -> Sent {
    let right = (P::right().write)(buffer, at, kind, values, lanes);
    let space = (buffer.len() as u64).saturating_sub(at);
    match right.refusal == 17 && space < NEEDED {
        true => Sent {
            refusal: 19,
            ..right
        },
        false => right,
    }
}

/// A writer that has written the first byte when it refuses with 19.
fn partial_write<P: Page>(
    buffer: &mut [u8],
    at: u64,
    kind: u64,
    values: &Values,
    lanes: &[u8],
) -> Sent {
    let right = (P::right().write)(buffer, at, kind, values, lanes);
    if right.refusal == 19
        && let Some(byte) = buffer.get_mut(at as usize)
    {
        *byte = 0xa5;
    }
    right
}

/// A salvage that skips `passes` bytes at each offset without a record. `read` finds the records.
fn skipping<P: Page>(
    bytes: &[u8],
    out: &mut [u8],
    read: Reader,
    passes: fn(&[u8]) -> usize,
) -> Saved {
    let (mut at, mut to, mut records, mut skipped, mut first) = (0, 0, 0, 0, bytes.len());
    if out.len() < bytes.len() {
        return (P::right().salvage)(bytes, out);
    }
    while at < bytes.len() {
        let found = read(bytes, at as u64);
        if found.refusal == 0 {
            let length = found.next as usize - at;
            out[to..to + length].copy_from_slice(&bytes[at..at + length]);
            (at, to, records) = (at + length, to + length, records + 1);
        } else {
            let passed = passes(&bytes[at..]).min(bytes.len() - at);
            first = first.min(at);
            (at, skipped) = (at + passed, skipped + passed);
        }
    }
    Saved {
        refusal: 0,
        records,
        skipped: skipped as u64,
        first: first as u64,
    }
}

/// A salvage that refuses with 25 only if the kept bytes do not fit.
fn space_for_kept<P: Page>(bytes: &[u8], out: &mut [u8]) -> Saved {
    let right = P::right().salvage;
    let mut copy = vec![0; bytes.len()];
    let saved = right(bytes, &mut copy);
    let kept = bytes.len() - saved.skipped as usize;
    match out.get_mut(..kept) {
        Some(out) => {
            out.copy_from_slice(&copy[..kept]);
            saved
        }
        None => right(bytes, out),
    }
}

/// A salvage that clears the output after the kept bytes.
fn clearing<P: Page>(bytes: &[u8], out: &mut [u8]) -> Saved {
    let saved = (P::right().salvage)(bytes, out);
    if saved.refusal == 0 {
        out[bytes.len() - saved.skipped as usize..].fill(0);
    }
    saved
}
