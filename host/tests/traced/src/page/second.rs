//! docs/formats/TRACE.md, "Version 2": all five kinds.

use super::{Fields, Found, Read, Reader, Saved, Sent, Values, Writer};

/// The bytes of the checksum at the end of a sealed record.
pub const CHECKSUM: usize = 4;

/// The bytes of a frame of a laned block.
pub const FRAME: usize = 24;

/// The bytes of the longest record.
pub const LONGEST: usize = 24_598;

/// The lengths that a kind's payload can have.
#[must_use]
pub fn is_length(kind: u8, length: u16) -> bool {
    match kind {
        4 => [65, 73, 81, 89, 97].contains(&length),
        5 => (41..=24_593).contains(&length) && (length - 17).is_multiple_of(24),
        _ => super::is_length(kind, length),
    }
}

/// The CRC-32 of IEEE 802.3, a bit at a time.
#[must_use]
pub fn checksum(bytes: &[u8]) -> u32 {
    let mut rest = u32::MAX;
    for byte in bytes {
        rest ^= u32::from(*byte);
        for _ in 0..8 {
            let odd = rest & 1 == 1;
            rest >>= 1;
            if odd {
                rest ^= 0xedb8_8320;
            }
        }
    }
    !rest
}

fn given_creation(fields: &mut impl Fields) -> Result<(), u64> {
    fields.settings()?;
    fields.single()?;
    // The digest's 32 bytes.
    for _ in 0..4 {
        fields.word()?;
    }
    Ok(())
}

/// The fields of a laned block before its lanes. Returns its frames.
fn laned_block(fields: &mut impl Fields) -> Result<u64, u64> {
    let frames = fields.number(2, 1_024)?;
    if frames == 0 {
        return Err(17);
    }
    fields.word()?;
    fields.signals()?;
    Ok(frames)
}

fn record(bytes: &[u8]) -> Found {
    let (kind, end) = super::head(bytes, &[1, 2, 3, 4, 5], is_length)?;
    if kind < 4 {
        return super::record(bytes);
    }
    let seal = end - CHECKSUM;
    let mut reader = Reader {
        bytes,
        at: 5,
        end: seal,
        values: [0; 80],
        count: 0,
    };
    match kind {
        4 => given_creation(&mut reader)?,
        _ => {
            for _ in 0..laned_block(&mut reader)? * FRAME as u64 {
                reader.byte()?;
            }
        }
    }
    if reader.at != seal {
        return Err(17);
    }
    let stated = bytes.get(seal..end).ok_or(18_u64)?;
    match stated == checksum(&bytes[2..seal]).to_le_bytes() {
        true => Ok((kind, end, reader.values)),
        false => Err(17),
    }
}

/// What reader 2 must return.
#[must_use]
pub fn read(bytes: &[u8], at: u64) -> Read {
    super::read_by(record, bytes, at)
}

/// The lanes of a laned block that was read: the bytes of its frames.
#[must_use]
pub fn lanes<'a>(bytes: &'a [u8], read: &Read) -> &'a [u8] {
    let end = read.next as usize - CHECKSUM;
    match read.kind {
        5 => &bytes[end - FRAME * read.values[0] as usize..end],
        _ => &[],
    }
}

/// A sealed record with this payload. Its stated length includes the checksum.
#[must_use]
pub fn sealed(kind: u8, payload: &[u8]) -> Vec<u8> {
    let mut bytes = super::headed(kind, payload.len() + CHECKSUM, payload);
    bytes.extend(checksum(&bytes[2..]).to_le_bytes());
    bytes
}

/// A record's bytes. Kinds 1 to 3 do not look at the lanes.
///
/// # Errors
///
/// 16 for an unknown kind; 17 for a number that a field does not accept, and for lanes that are not 24 bytes a frame.
pub fn bytes(kind: u64, values: &Values, lanes: &[u8]) -> Result<Vec<u8>, u64> {
    let mut writer = Writer {
        values: values.iter(),
        bytes: Vec::new(),
    };
    let frames = match kind {
        1..=3 => return super::bytes(kind, values),
        4 => {
            given_creation(&mut writer)?;
            0
        }
        5 => laned_block(&mut writer)?,
        _ => return Err(16),
    };
    if lanes.len() as u64 != frames * FRAME as u64 {
        return Err(17);
    }
    writer.bytes.extend(lanes);
    Ok(sealed(kind as u8, &writer.bytes))
}

/// What writer 2 must do with a buffer.
pub fn write(buffer: &mut [u8], at: u64, kind: u64, values: &Values, lanes: &[u8]) -> Sent {
    super::put(buffer, at, bytes(kind, values, lanes))
}

/// What the salvage of version 2 must do with an output.
pub fn salvage(bytes: &[u8], out: &mut [u8]) -> Saved {
    super::salvage_by(record, bytes, out)
}
