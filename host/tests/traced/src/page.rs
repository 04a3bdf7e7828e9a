//! docs/formats/TRACE.md: what is read, written and salvaged, field by field and byte by byte.

pub mod second;

use crate::{
    Values,
    entries::{Read, Saved, Sent},
};

/// The lengths that a kind's payload can have.
#[must_use]
pub fn is_length(kind: u8, length: u16) -> bool {
    match kind {
        1 => (0..=68).any(|k| length == 26 + 8 * k),
        2 => [7, 15, 23, 31, 39, 47].contains(&length),
        3 => length == 37,
        _ => false,
    }
}

/// The fields of each kind in their order, as a reader and a writer go through them. An error is a refusal.
trait Fields {
    /// A number of at most `most`, in `bytes` bytes with the lowest first.
    fn number(&mut self, bytes: usize, most: u64) -> Result<u64, u64>;

    /// A field that is absent: no bytes, and its value is 0.
    fn absent(&mut self) -> Result<(), u64>;

    fn tag(&mut self, most: u64) -> Result<u64, u64> {
        self.number(1, most)
    }

    fn single(&mut self) -> Result<u64, u64> {
        self.number(4, u32::MAX.into())
    }

    fn word(&mut self) -> Result<u64, u64> {
        self.number(8, u64::MAX)
    }

    fn word_if(&mut self, present: bool) -> Result<(), u64> {
        match present {
            true => self.word().map(|_| ()),
            false => self.absent(),
        }
    }

    /// The fields of a creation from the sample rate to "start waits".
    fn settings(&mut self) -> Result<(), u64> {
        self.single()?;
        let slice = self.tag(6)?;
        self.word_if(slice >= 1)?;
        self.word_if(slice >= 3)?;
        self.tag(1)?;
        self.word()?;
        let looped = self.tag(6)?;
        self.word_if(looped >= 1)?;
        self.word_if(looped >= 3)?;
        self.tag(1)?;
        self.word()?;
        self.tag(1)?;
        Ok(())
    }

    fn creation(&mut self) -> Result<(), u64> {
        self.settings()?;
        let frames = self.tag(64)?;
        for frame in 0..64 {
            // The left sample's four bytes, then the right one's.
            self.word_if(frame < frames)?;
        }
        Ok(())
    }

    fn command_set(&mut self) -> Result<(), u64> {
        let rate = self.tag(1)?;
        self.word_if(rate == 1)?;
        let looped = self.tag(7)?;
        self.word_if(looped >= 2)?;
        self.word_if(looped >= 4)?;
        self.tag(1)?;
        self.tag(2)?;
        self.tag(1)?;
        let seek_by = self.tag(1)?;
        self.word_if(seek_by == 1)?;
        let seek_to = self.tag(1)?;
        self.word_if(seek_to == 1)
    }

    fn block(&mut self) -> Result<(), u64> {
        self.number(2, 1_024)?;
        for _ in 0..4 {
            self.single()?;
        }
        self.word()?;
        self.word()?;
        self.signals()
    }

    fn signals(&mut self) -> Result<(), u64> {
        self.tag(1)?;
        self.tag(2)?;
        self.tag(2)?;
        Ok(())
    }
}

/// Reads the fields of a record. `bytes` starts at the record's first byte.
struct Reader<'a> {
    bytes: &'a [u8],
    at: usize,
    /// Where the payload ends.
    end: usize,
    values: Values,
    count: usize,
}

impl Reader<'_> {
    fn byte(&mut self) -> Result<u8, u64> {
        if self.at == self.end {
            return Err(17);
        }
        let byte = *self.bytes.get(self.at).ok_or(18_u64)?;
        self.at += 1;
        Ok(byte)
    }
}

impl Fields for Reader<'_> {
    fn number(&mut self, bytes: usize, most: u64) -> Result<u64, u64> {
        let mut value = 0;
        for place in 0..bytes {
            value |= u64::from(self.byte()?) << (8 * place);
        }
        if value > most {
            return Err(17);
        }
        self.values[self.count] = value;
        self.count += 1;
        Ok(value)
    }

    fn absent(&mut self) -> Result<(), u64> {
        self.count += 1;
        Ok(())
    }
}

/// A record's kind, the offset after it, and its numbers.
type Found = Result<(u8, usize, Values), u64>;

/// A record's kind and the offset after it, from its head. Any other kind than `kinds` is refused.
fn head(bytes: &[u8], kinds: &[u8], is_length: fn(u8, u16) -> bool) -> Result<(u8, usize), u64> {
    let byte = |at: usize| bytes.get(at).copied().ok_or(18_u64);
    for (at, mark) in [0xa5, 0x1d].into_iter().enumerate() {
        if byte(at)? != mark {
            return Err(15);
        }
    }
    let kind = byte(2)?;
    if !kinds.contains(&kind) {
        return Err(16);
    }
    let length = u16::from_le_bytes([byte(3)?, byte(4)?]);
    match is_length(kind, length) {
        true => Ok((kind, 5 + usize::from(length))),
        false => Err(17),
    }
}

fn record(bytes: &[u8]) -> Found {
    let (kind, end) = head(bytes, &[1, 2, 3], is_length)?;
    let mut reader = Reader {
        bytes,
        at: 5,
        end,
        values: [0; 80],
        count: 0,
    };
    match kind {
        1 => reader.creation()?,
        2 => reader.command_set()?,
        _ => reader.block()?,
    }
    if reader.at != end {
        return Err(17);
    }
    Ok((kind, end, reader.values))
}

/// What the reader must return.
#[must_use]
pub fn read(bytes: &[u8], at: u64) -> Read {
    read_by(record, bytes, at)
}

fn read_by(record: fn(&[u8]) -> Found, bytes: &[u8], at: u64) -> Read {
    let rest = usize::try_from(at).ok().and_then(|at| bytes.get(at..));
    match record(rest.unwrap_or(&[])) {
        Ok((kind, length, values)) => Read {
            refusal: 0,
            kind: kind.into(),
            next: at + length as u64,
            values,
        },
        Err(refusal) => Read {
            refusal,
            kind: 0,
            next: at,
            values: [0; 80],
        },
    }
}

/// Writes the fields of a payload.
struct Writer<'a> {
    values: std::slice::Iter<'a, u64>,
    bytes: Vec<u8>,
}

impl Writer<'_> {
    fn value(&mut self) -> u64 {
        *self.values.next().expect("80 are enough")
    }
}

impl Fields for Writer<'_> {
    fn number(&mut self, bytes: usize, most: u64) -> Result<u64, u64> {
        let value = self.value();
        if value > most {
            return Err(17);
        }
        self.bytes.extend(&value.to_le_bytes()[..bytes]);
        Ok(value)
    }

    fn absent(&mut self) -> Result<(), u64> {
        match self.value() {
            0 => Ok(()),
            _ => Err(17),
        }
    }
}

/// A record's bytes.
///
/// # Errors
///
/// 16 for an unknown kind, 17 for a number that a field does not accept.
pub fn bytes(kind: u64, values: &Values) -> Result<Vec<u8>, u64> {
    let mut writer = Writer {
        values: values.iter(),
        bytes: Vec::new(),
    };
    match kind {
        1 => writer.creation()?,
        2 => writer.command_set()?,
        3 => writer.block()?,
        _ => return Err(16),
    }
    Ok(headed(kind as u8, writer.bytes.len(), &writer.bytes))
}

/// A head that states this length, and bytes after it.
fn headed(kind: u8, length: usize, bytes: &[u8]) -> Vec<u8> {
    let [low, high] = (length as u16).to_le_bytes();
    let head = [0xa5, 0x1d, kind, low, high];
    [&head, bytes].concat()
}

/// What the writer must do with a buffer.
pub fn write(buffer: &mut [u8], at: u64, kind: u64, values: &Values) -> Sent {
    put(buffer, at, bytes(kind, values))
}

fn put(buffer: &mut [u8], at: u64, bytes: Result<Vec<u8>, u64>) -> Sent {
    let refused = |refusal| Sent { refusal, next: at };
    let bytes = match bytes {
        Ok(bytes) => bytes,
        Err(refusal) => return refused(refusal),
    };
    let space = usize::try_from(at)
        .ok()
        .and_then(|at| buffer.get_mut(at..)?.get_mut(..bytes.len()));
    match space {
        Some(space) => {
            space.copy_from_slice(&bytes);
            Sent {
                refusal: 0,
                next: at + bytes.len() as u64,
            }
        }
        None => refused(19),
    }
}

/// What salvage must do with an output.
pub fn salvage(bytes: &[u8], out: &mut [u8]) -> Saved {
    salvage_by(record, bytes, out)
}

fn salvage_by(record: fn(&[u8]) -> Found, bytes: &[u8], out: &mut [u8]) -> Saved {
    if out.len() < bytes.len() {
        return Saved {
            refusal: 25,
            records: 0,
            skipped: 0,
            first: 0,
        };
    }
    let (mut records, mut skipped) = (0, Vec::new());
    let (mut at, mut to) = (0, 0);
    while at < bytes.len() {
        match record(&bytes[at..]) {
            Ok((_, length, _)) => {
                out[to..to + length].copy_from_slice(&bytes[at..at + length]);
                records += 1;
                to += length;
                at += length;
            }
            Err(_) => {
                skipped.push(at);
                at += 1;
            }
        }
    }
    Saved {
        refusal: 0,
        records,
        skipped: skipped.len() as u64,
        first: skipped.first().copied().unwrap_or(bytes.len()) as u64,
    }
}
