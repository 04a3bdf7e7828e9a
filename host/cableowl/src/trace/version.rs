//! The versions of the trace format, and reading and writing one record.

use super::{Record, values};
use crate::{Refusal, ffi, float_mode};

/// A version of the trace format: which kinds of records a reader knows and a writer writes
/// (docs/formats/TRACE.md).
///
/// Reading, writing and recording use [`TraceVersion::Second`] unless a host asks for the first. The
/// second reads every trace of the first.
///
/// ```
/// use cableowl::{Refusal, trace::{TraceVersion, read}};
///
/// let kind_4 = [0xa5, 0x1d, 4];
/// assert_eq!(TraceVersion::First.read(&kind_4, 0), Err(Refusal::Kind));
/// assert_eq!(TraceVersion::Second.read(&kind_4, 0), Err(Refusal::Truncated));
/// assert_eq!(read(&kind_4, 0), Err(Refusal::Truncated));
/// ```
#[derive(Debug, Clone, Copy, PartialEq, Eq, PartialOrd, Ord, Hash, Default)]
pub enum TraceVersion {
    /// Sounds of at most 64 frames, and blocks with constant lanes: kinds 1 to 3.
    First = 1,
    /// Sounds of any length, named by their digest, and lanes that change: kinds 1 to 5.
    #[default]
    Second,
}

impl TraceVersion {
    /// The length in bytes of the longest record. That many bytes of a trace are enough to read one.
    ///
    /// ```
    /// use cableowl::trace::TraceVersion;
    ///
    /// assert_eq!(TraceVersion::First.max_record_bytes(), 575);
    /// assert_eq!(TraceVersion::Second.max_record_bytes(), 24_598);
    /// ```
    #[must_use]
    pub const fn max_record_bytes(self) -> usize {
        match self {
            Self::First => 575,
            Self::Second => super::MAX_RECORD_BYTES,
        }
    }

    /// As [`read`](super::read()), in this version.
    ///
    /// # Errors
    ///
    /// As [`read`](super::read()). The first version refuses kinds 4 and 5 with [`Refusal::Kind`].
    pub fn read(self, bytes: &[u8], at: usize) -> Result<(Record<'_>, usize), Refusal> {
        let found = self.found(bytes, at)?;
        let next = found.next as usize;
        let record = bytes.get(at..next).unwrap_or_default();
        Ok((values::record(&found, record), next))
    }

    /// The kind and the numbers of the record at an offset.
    pub(super) fn found(self, bytes: &[u8], at: usize) -> Result<ffi::Record, Refusal> {
        let found = float_mode::plain(|| match self {
            Self::First => ffi::read_record(bytes, at as u64),
            Self::Second => ffi::read_record_v2(bytes, at as u64),
        });
        Refusal::check_word(found.refusal)?;
        Ok(found)
    }

    /// As [`write`](super::write()), in this version.
    ///
    /// # Errors
    ///
    /// [`Refusal::Kind`] for kinds 4 and 5 in the first version; then as [`write`](super::write()).
    pub fn write(
        self,
        record: &Record<'_>,
        buffer: &mut [u8],
        at: usize,
    ) -> Result<usize, Refusal> {
        let (kind, values, lanes) = values::of(record);
        let sent = float_mode::plain(|| match self {
            Self::First => ffi::write_record(buffer, at as u64, kind, &values),
            Self::Second => ffi::write_record_v2(buffer, at as u64, kind, &values, lanes),
        });
        Refusal::check_word(sent.refusal)?;
        Ok(sent.next as usize)
    }
}
