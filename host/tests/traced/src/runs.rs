//! Random runs compared with the page. Each returns a tally, or the first difference.

use std::{fmt, ops::RangeInclusive};

use cableowl::trace::{Replay, Trace, TraceVersion};
use random::Random;

use crate::{
    Values,
    entries::{self, Read, Saved, Sent},
    make, page,
    program::Program,
};

/// What a run tried.
#[derive(Debug, Clone, Default)]
pub struct Tally {
    /// The calls compared.
    pub calls: u64,
    /// The bytes compared.
    pub bytes: u64,
    /// How many calls returned each refusal; 0 is none.
    pub refused: [u64; 30],
}

impl Tally {
    /// Counts a call.
    pub(crate) fn call(&mut self, refusal: u64, bytes: usize) {
        self.calls += 1;
        self.bytes += bytes as u64;
        self.refused[refusal as usize % 30] += 1;
    }
}

impl fmt::Display for Tally {
    fn fmt(&self, f: &mut fmt::Formatter<'_>) -> fmt::Result {
        write!(f, "{} calls, {} bytes", self.calls, self.bytes)?;
        write!(f, ", accepted {}", self.refused[0])?;
        for (number, times) in self.refused.iter().enumerate().skip(1) {
            if *times > 0 {
                write!(f, ", {number} {times}")?;
            }
        }
        Ok(())
    }
}

/// The result of a run.
pub type Run = Result<Tally, String>;

/// Reads the record at an offset.
pub type Reader = fn(&[u8], u64) -> Read;
/// Writes a record of a kind at an offset; version 1 ignores the lanes.
pub type Writer = fn(&mut [u8], u64, u64, &Values, &[u8]) -> Sent;
/// Copies complete records.
pub type Salvage = fn(&[u8], &mut [u8]) -> Saved;

/// A version of the format.
#[derive(Debug, Clone, Copy, PartialEq, Eq)]
pub enum Version {
    /// Kinds 1 to 3.
    First,
    /// All five kinds.
    Second,
}

impl Version {
    /// The page's own reader, writer and salvage.
    #[must_use]
    pub fn page(self) -> Codec {
        match self {
            Self::First => Codec {
                version: self,
                read: page::read,
                write: |buffer, at, kind, values, _| page::write(buffer, at, kind, values),
                salvage: page::salvage,
            },
            Self::Second => Codec {
                version: self,
                read: page::second::read,
                write: page::second::write,
                salvage: page::second::salvage,
            },
        }
    }

    /// A trace with at most this many faults.
    fn damaged(self, random: &mut Random, records: usize, faults: usize) -> Vec<u8> {
        match self {
            Self::First => make::damaged(random, records, faults),
            Self::Second => make::second::damaged(random, &[], records, faults),
        }
    }

    /// A record, well formed or not, and the number of bytes that it needs.
    fn any(self, random: &mut Random) -> (make::second::Made, usize) {
        let (made, bytes) = match self {
            Self::First => {
                let (kind, values) = make::any(random);
                ((kind, values, Vec::new()), page::bytes(kind, &values))
            }
            Self::Second => {
                let made = make::second::any(random);
                let bytes = page::second::bytes(made.0, &made.1, &made.2);
                (made, bytes)
            }
        };
        (made, bytes.map_or(20, |bytes| bytes.len()))
    }
}

/// A reader, a writer and a salvage.
#[derive(Debug, Clone, Copy)]
pub struct Codec {
    /// Their version.
    pub version: Version,
    /// The reader.
    pub read: Reader,
    /// The writer.
    pub write: Writer,
    /// The salvage.
    pub salvage: Salvage,
}

/// The compiled ones of version 1.
pub const COMPILED: Codec = Codec {
    version: Version::First,
    read: entries::read,
    write: |buffer, at, kind, values, _| entries::write(buffer, at, kind, values),
    salvage: entries::salvage,
};

/// The compiled ones of version 2.
pub const COMPILED_V2: Codec = Codec {
    version: Version::Second,
    read: entries::read_v2,
    write: entries::write_v2,
    salvage: entries::salvage_v2,
};

impl Codec {
    /// Compares what is read at an offset with the page. Returns the refusal.
    ///
    /// # Errors
    ///
    /// What differs.
    pub fn compare_read(&self, bytes: &[u8], at: u64) -> Result<u64, String> {
        let pages = (self.version.page().read)(bytes, at);
        let ours = (self.read)(bytes, at);
        match ours == pages {
            true => Ok(ours.refusal),
            false => Err(format!("at {at} of {bytes:x?}: {ours:?} against {pages:?}")),
        }
    }

    /// Compares a salvage with the page's, also the bytes after the kept ones. Returns the refusal, the kept bytes and
    /// the number of records.
    ///
    /// # Errors
    ///
    /// What differs.
    pub fn compare_salvage(
        &self,
        bytes: &[u8],
        room: usize,
    ) -> Result<(u64, Vec<u8>, u64), String> {
        let before: Vec<u8> = (0..room).map(|place| !place as u8).collect();
        let (mut ours, mut pages) = (before.clone(), before);
        let saved = (self.salvage)(bytes, &mut ours);
        let expected = (self.version.page().salvage)(bytes, &mut pages);
        if (saved, &ours) != (expected, &pages) {
            return Err(format!("{bytes:x?}: {saved:?} against {expected:?}"));
        }
        let kept = bytes.len() - saved.skipped as usize;
        ours.truncate(if saved.refusal == 0 { kept } else { 0 });
        Ok((saved.refusal, ours, saved.records))
    }

    /// The same. Also, what is kept must be readable to its end, and a second salvage must not change it.
    ///
    /// # Errors
    ///
    /// What differs.
    pub fn compare_salvages(&self, bytes: &[u8], room: usize) -> Result<u64, String> {
        let (refusal, kept, records) = self.compare_salvage(bytes, room)?;
        let mut again = vec![0x5a; kept.len()];
        let second = (self.salvage)(&kept, &mut again);
        let whole = Saved {
            refusal: 0,
            records,
            skipped: 0,
            first: kept.len() as u64,
        };
        match second == whole && again == kept && self.records(&kept) == records {
            true => Ok(refusal),
            false => Err(format!("{bytes:x?}: a second salvage gives {second:?}")),
        }
    }

    /// Compares the salvage of a trace with each of its bytes changed to each value, removed, or preceded by another;
    /// and of the trace cut at each byte.
    ///
    /// # Errors
    ///
    /// What differs.
    pub fn compare_faults(&self, trace: &[u8]) -> Result<(), String> {
        self.compare_salvages(trace, trace.len())?;
        for place in 0..trace.len() {
            let mut damaged = trace.to_vec();
            for byte in 0..=255 {
                damaged[place] = byte;
                self.compare_salvage(&damaged, damaged.len())?;
            }
            damaged.remove(place);
            self.compare_salvages(&damaged, damaged.len())?;
            for byte in [0, 0x1d, 0xa5] {
                let mut damaged = trace.to_vec();
                damaged.insert(place, byte);
                self.compare_salvages(&damaged, damaged.len())?;
            }
            self.compare_salvage(&trace[..place], place)?;
            self.compare_salvage(&trace[place..], trace.len())?;
        }
        Ok(())
    }

    /// Compares what is read of a head alone, for each of these kinds with every length.
    ///
    /// # Errors
    ///
    /// What differs.
    pub fn compare_heads(&self, kinds: RangeInclusive<u8>) -> Result<(), String> {
        for kind in kinds {
            for length in 0..=u16::MAX {
                let [low, high] = length.to_le_bytes();
                self.compare_read(&[0xa5, 0x1d, kind, low, high], 0)?;
            }
        }
        Ok(())
    }

    /// How many records can be read from the first byte on.
    fn records(&self, bytes: &[u8]) -> u64 {
        if self.version == Version::First {
            let records = Trace::with_version(bytes, TraceVersion::First);
            return records.map_while(Result::ok).count() as u64;
        }
        let (mut at, mut records) = (0, 0);
        while at < bytes.len() as u64 {
            let read = (self.read)(bytes, at);
            if read.refusal != 0 {
                break;
            }
            (at, records) = (read.next, records + 1);
        }
        records
    }

    /// Traces with faults, read at each record and at any offsets.
    ///
    /// # Errors
    ///
    /// What differs.
    pub fn reads(&self, seed: u64, count: u64) -> Run {
        let (mut random, mut tally) = (Random::new(seed), Tally::default());
        while tally.calls < count {
            // Boxed, so that they have no spare byte: a memory checker sees every access beyond them.
            let bytes = self.version.damaged(&mut random, 4, 3).into_boxed_slice();
            let mut at = 0;
            while at <= bytes.len() {
                let refusal = self.compare_read(&bytes, at as u64)?;
                tally.call(refusal, bytes.len() - at);
                match refusal {
                    0 => at = (self.version.page().read)(&bytes, at as u64).next as usize,
                    _ => break,
                }
            }
            for _ in 0..2 {
                let at = match random.one_in(100) {
                    true => random.word() >> random.below(64),
                    false => random.below(bytes.len() + 3) as u64,
                };
                let refusal = self.compare_read(&bytes, at)?;
                tally.call(refusal, bytes.len().saturating_sub(at as usize));
            }
        }
        Ok(tally)
    }

    /// Records, well formed or not, written at any offset of a buffer of any length, and read back.
    ///
    /// # Errors
    ///
    /// What differs.
    pub fn writes(&self, seed: u64, count: u64) -> Run {
        let (mut random, mut tally) = (Random::new(seed), Tally::default());
        while tally.calls < count {
            let ((kind, values, lanes), needed) = self.version.any(&mut random);
            let at = random.below(9);
            let length = match random.below(4) {
                0 => random.below(at + needed + 8),
                1 => at + needed,
                2 => (at + needed).saturating_sub(1),
                _ => at + needed + random.below(8),
            };
            let at = match random.one_in(40) {
                true => random.word() >> random.below(64),
                false => at as u64,
            };
            let before: Vec<u8> = (0..length).map(|_| random.word() as u8).collect();
            let (mut ours, mut pages) = (before.clone(), before);
            let sent = (self.write)(&mut ours, at, kind, &values, &lanes);
            let expected = (self.version.page().write)(&mut pages, at, kind, &values, &lanes);
            if (sent, &ours) != (expected, &pages) {
                return Err(format!(
                    "kind {kind}, {values:?} at {at} of {length}: {sent:?}, {ours:x?} against {expected:?}, {pages:x?}"
                ));
            }
            if sent.refusal == 0 {
                let back = (self.read)(&ours, at);
                let same = (back.kind, back.next) == (kind, sent.next);
                let fields = [77, 12, 10, 17, 5][kind as usize - 1];
                if !same || back.values[..fields] != values[..fields] {
                    return Err(format!("kind {kind}, {values:?} is read back as {back:?}"));
                }
                if kind == 5 && page::second::lanes(&ours, &back) != lanes {
                    return Err(format!("{lanes:x?} are not where {back:?} has them"));
                }
                if self.version == Version::First {
                    compare_record(&ours, at as usize)?;
                }
            }
            tally.call(sent.refusal, length);
        }
        Ok(tally)
    }

    /// Traces with faults, salvaged into outputs of any length.
    ///
    /// # Errors
    ///
    /// What differs.
    pub fn salvages(&self, seed: u64, count: u64) -> Run {
        let (mut random, mut tally) = (Random::new(seed), Tally::default());
        while tally.calls < count {
            let bytes = self.version.damaged(&mut random, 8, 6).into_boxed_slice();
            let room = match random.one_in(16) {
                true => random.below(bytes.len() + 1),
                false => bytes.len() + random.below(4),
            };
            tally.call(self.compare_salvages(&bytes, room)?, bytes.len());
        }
        Ok(tally)
    }
}

/// The Rust crate reads as the page does, and writes the record as the bytes from which it was read.
///
/// # Errors
///
/// What differs.
pub fn compare_record(bytes: &[u8], at: usize) -> Result<u64, String> {
    let refusal = page::read(bytes, at as u64).refusal;
    let version = TraceVersion::First;
    let safe = version.read(bytes, at);
    let number = safe.as_ref().err().map_or(0, |refusal| refusal.number());
    if u64::from(number) != refusal {
        return Err(format!("at {at} of {bytes:x?}: {safe:?} against {refusal}"));
    }
    if let Ok((record, next)) = safe {
        let mut again = [0x5a; TraceVersion::First.max_record_bytes() + 1];
        let written = version.write(&record, &mut again, 0);
        if written != Ok(next - at)
            || again[..next - at] != bytes[at..next]
            || again[next - at..].iter().any(|byte| *byte != 0x5a)
        {
            return Err(format!("{record:?} is not written as it was read at {at}"));
        }
    }
    Ok(refusal)
}

/// What the library prints of a trace, at once and in pieces.
///
/// # Errors
///
/// If the two differ.
pub fn library_prints(bytes: &[u8]) -> Result<Vec<u8>, String> {
    let replay = || Replay::with_version(TraceVersion::First);
    let whole: String = replay()
        .lines(bytes)
        .map(|line| format!("{line}\n"))
        .collect();
    let mut read = Vec::new();
    let printed = replay().print(Slow(bytes), &mut read);
    printed.map_err(|error| error.to_string())?;
    match whole.as_bytes() == read {
        true => Ok(read),
        false => Err(format!("{bytes:x?}: {whole:?} at once, else as it is read")),
    }
}

/// Bytes that are read a few at a time.
struct Slow<'a>(&'a [u8]);

impl std::io::Read for Slow<'_> {
    fn read(&mut self, into: &mut [u8]) -> std::io::Result<usize> {
        let few = into.len().min(1 + self.0.len() % 700);
        std::io::Read::read(&mut self.0, &mut into[..few])
    }
}

/// The program `replay` and the library must print the same bytes of a trace.
///
/// # Errors
///
/// What differs.
pub fn compare_print(program: &Program, bytes: &[u8]) -> Result<Vec<u8>, String> {
    let library = library_prints(bytes)?;
    let program = program.printed(bytes).map_err(|error| error.to_string())?;
    match program == library {
        true => Ok(program),
        false => Err(format!(
            "{bytes:x?}: the program prints {:?}, the library {:?}",
            String::from_utf8_lossy(&program),
            String::from_utf8_lossy(&library)
        )),
    }
}

/// Traces with faults and without, printed by the program and by the library. The counted refusals are those of records
/// and of blocks, and the bytes are the printed ones.
///
/// # Errors
///
/// What differs.
pub fn prints(program: &Program, seed: u64, count: u64) -> Run {
    let (mut random, mut tally) = (Random::new(seed), Tally::default());
    for trace in 0..count {
        let bytes = match trace % 4 {
            // Long traces have many lines for one start of the program.
            0 => make::trace(&mut random, 400),
            1 => make::damaged(&mut random, 400, 2),
            _ => make::damaged(&mut random, 40, 3),
        };
        let printed = compare_print(program, &bytes)?;
        tally.bytes += printed.len() as u64;
        for line in printed
            .split(|byte| *byte == b'\n')
            .filter(|line| !line.is_empty())
        {
            let line = String::from_utf8_lossy(line);
            let refusal = line.split("refused=").nth(1).map_or(0, |rest| {
                let digits = rest.split(' ').next().unwrap_or_default();
                digits.parse().unwrap_or(25)
            });
            tally.call(refusal, 0);
        }
    }
    Ok(tally)
}

/// Every cut of a short trace with all kinds, and each of its bytes raised by 1, and set to 0 and FF, printed by both.
///
/// # Errors
///
/// What differs.
pub fn print_cuts(program: &Program) -> Run {
    let (trace, mut tally) = (make::all_kinds(), Tally::default());
    for place in 0..trace.len() {
        let changed = [trace[place].wrapping_add(1), 0, 0xff].map(|byte| {
            let mut changed = trace.clone();
            changed[place] = byte;
            changed
        });
        for bytes in [&trace[..place], &changed[0], &changed[1], &changed[2]] {
            let printed = compare_print(program, bytes)?;
            tally.call(0, printed.len());
        }
    }
    Ok(tally)
}
