//! A sound as a file: raw f32 samples, left and right in turn, little-endian. `cableowl sound` shows
//! what is in it.

use std::{
    io::Read,
    path::{Path, PathBuf},
};

use cableowl::{Refusal, trace};
use sha256::Sha256;

use crate::{
    fault::{Fault, Result},
    input::{FileKind, Input},
    out::Out,
    plot::{counted, grouped},
};

/// The bytes of a frame: two samples.
const FRAME: u64 = 8;

/// The most frames of a sound that a player accepts.
pub const MOST: u64 = 16_777_216;

/// How much of a sound is read at once, in bytes: whole frames.
const PIECE: usize = 64 * 1_024;

/// An open sound. Its length is known and possible for a sound, unless it is standard input.
pub struct Sound {
    input: Input,
    /// Its frames by the file's length; `None` for standard input.
    frames: Option<u64>,
}

impl Sound {
    /// Opens a sound, or standard input for `-`.
    pub fn open(path: &Path) -> Result<Self> {
        let mut input = Input::open(path)?;
        let kind = input.kind()?;
        // A sample may begin like a trace or settings, but not like the head of a record.
        if let FileKind::Log | FileKind::Page | FileKind::Encoded(_) = kind {
            input.must_be(&[], "raw samples")?;
        }
        if kind == FileKind::Trace && is_head(&mut input)? {
            input.must_be(&[], "a sound")?;
        }
        let frames = match input.length() {
            Some(length) => Some(frames_of(&input, length)?),
            None => None,
        };
        Ok(Self { input, frames })
    }

    /// Says nothing about progress, if it is one of many files.
    pub fn without_progress(mut self, one_of_many: bool) -> Self {
        self.input = self.input.without_progress(one_of_many);
        self
    }

    /// Its frames, if it is a file.
    pub fn frames(&self) -> Option<u64> {
        self.frames
    }

    /// Its name, as it may be printed.
    pub fn name(&self) -> &str {
        self.input.name()
    }

    /// Reads it once, in pieces of whole frames, and returns the number of frames.
    pub fn read(mut self, mut take: impl FnMut(&[u8])) -> Result<u64> {
        let mut piece = vec![0; PIECE];
        let mut length = 0;
        loop {
            let got = fill(&mut self.input, &mut piece)?;
            length += got as u64;
            let whole = got - got % FRAME as usize;
            take(&piece[..whole]);
            // If it is too long, the rest is not read.
            if got < piece.len() || length > FRAME * MOST {
                break;
            }
        }
        if self.input.has_changed(length) {
            return Err(self
                .input
                .wrong("changed while it was read: run this again when nothing writes to it"));
        }
        frames_of(&self.input, length)
    }
}

/// Fills the piece, unless the input ends.
fn fill(input: &mut Input, piece: &mut [u8]) -> Result<usize> {
    let mut got = 0;
    while got < piece.len() {
        match input.read(&mut piece[got..]) {
            Ok(0) => break,
            Ok(more) => got += more,
            Err(error) if error.kind() == std::io::ErrorKind::Interrupted => {}
            Err(error) => return Err(input.unread(&error)),
        }
    }
    Ok(got)
}

/// Whether the first bytes are the head of a record of a trace and only the payload is missing.
fn is_head(input: &mut Input) -> Result<bool> {
    let first = input.first()?;
    let head = first.get(..5).unwrap_or(&first);
    Ok(trace::read(head, 0) == Err(Refusal::Truncated))
}

/// The frames of a sound of this many bytes.
fn frames_of(input: &Input, length: u64) -> Result<u64> {
    let frames = length / FRAME;
    match (frames, length % FRAME) {
        (_, 1..) => Err(input.wrong(format_args!(
            "has {}, which is no whole number of frames: a frame is two f32 samples, {FRAME} bytes",
            counted(length, "byte")
        ))),
        (0, _) => Err(input.wrong("is empty: a sound has at least one frame")),
        (1..=MOST, _) => Ok(frames),
        _ => Err(input.wrong(format_args!(
            "has more than {} frames, the most that a sound can have: cut it",
            grouped(MOST)
        ))),
    }
}

/// What is in a sound.
struct Figures {
    digest: Sha256,
    /// The largest magnitude of the finite samples.
    largest: f32,
    nans: u64,
    infinities: u64,
    /// The samples so far, and the first that is not finite.
    samples: u64,
    first: Option<u64>,
}

impl Figures {
    fn new() -> Self {
        Self {
            digest: Sha256::new(),
            largest: 0.0,
            nans: 0,
            infinities: 0,
            samples: 0,
            first: None,
        }
    }

    fn add(&mut self, bytes: &[u8]) {
        self.digest.update(bytes);
        for sample in samples(bytes) {
            if sample.is_finite() {
                self.largest = self.largest.max(sample.abs());
            } else {
                self.first.get_or_insert(self.samples);
                match sample.is_nan() {
                    true => self.nans += 1,
                    false => self.infinities += 1,
                }
            }
            self.samples += 1;
        }
    }

    /// The samples that are not numbers, in words.
    fn not_finite(&self) -> String {
        let Some(first) = self.first else {
            return "none".into();
        };
        let infinities = match self.infinities {
            1 => "1 infinity".into(),
            many => format!("{} infinities", grouped(many)),
        };
        let parts = match (self.nans, self.infinities) {
            (nans, 0) => counted(nans, "NaN"),
            (0, _) => infinities,
            (nans, _) => format!("{} and {infinities}", counted(nans, "NaN")),
        };
        format!("{parts}, the first in frame {}", grouped(first / 2))
    }
}

/// The samples of these bytes.
pub fn samples(bytes: &[u8]) -> impl Iterator<Item = f32> {
    let (samples, _) = bytes.as_chunks();
    samples.iter().map(|sample| f32::from_le_bytes(*sample))
}

/// Shows what is in each sound, at this many frames per second, and returns whether all could be read.
pub fn show(
    files: &[PathBuf],
    rate: u32,
    out: &mut Out<'_>,
    complain: &mut dyn FnMut(&Fault),
) -> Result<bool> {
    let (mut well, mut shown) = (true, false);
    for file in files {
        match figures(file) {
            Ok((name, frames, figures)) => {
                if shown {
                    out.put("\n")?;
                }
                shown = true;
                put(&name, frames, figures, rate, out)?;
            }
            Err(fault) => {
                complain(&fault);
                well = false;
            }
        }
        if out.closed() {
            return Err(Fault::Closed);
        }
    }
    Ok(well)
}

fn figures(file: &Path) -> Result<(String, u64, Figures)> {
    let sound = Sound::open(file)?;
    let (name, mut figures) = (sound.name().to_owned(), Figures::new());
    let frames = sound.read(|bytes| figures.add(bytes))?;
    Ok((name, frames, figures))
}

fn put(name: &str, frames: u64, figures: Figures, rate: u32, out: &mut Out<'_>) -> Result<()> {
    let seconds = frames as f64 / f64::from(rate);
    let not_finite = figures.not_finite();
    let lines = [
        ("sound", name.to_owned()),
        ("frames", grouped(frames)),
        (
            "length",
            format!("{seconds:.3} s at {} frames a second", grouped(rate.into())),
        ),
        ("digest", sha256::hex(&figures.digest.finish())),
        ("largest magnitude", format!("{:?}", figures.largest)),
        ("NaN or infinity", not_finite),
    ];
    for (name, says) in lines {
        out.put(format!("{name:<20}{says}\n"))?;
    }
    Ok(())
}
