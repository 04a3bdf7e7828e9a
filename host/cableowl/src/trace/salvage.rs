//! The complete records of a damaged trace.

use super::TraceVersion;
use crate::{Refusal, ffi, float_mode};

/// What a salvage kept and skipped.
#[derive(Debug, Clone, Copy, PartialEq, Eq, Hash)]
#[non_exhaustive]
pub struct Salvaged {
    /// The records kept.
    pub records: usize,
    /// Their bytes, at the output's start.
    pub kept: usize,
    /// The bytes that are in no kept record.
    pub skipped: usize,
    /// The offset of the first skipped byte in the input; the input's length if none.
    pub first_skipped: usize,
}

/// Copies the complete records of a damaged trace to the output's start and skips all other bytes. The
/// rest of the output does not change.
///
/// A record is recognised only by its bytes, so a mark inside a damaged payload can be taken for a
/// record (docs/formats/TRACE.md has examples).
///
/// ```
/// use cableowl::{Commands, Refusal, trace::{Record, salvage, write}};
///
/// let mut trace = [0xff; 3 + 12];
/// write(&Record::Commands(Commands::new()), &mut trace, 2)?;
/// let mut out = [9; 15];
/// let salvaged = salvage(&trace, &mut out)?;
/// assert_eq!((salvaged.records, salvaged.kept), (1, 12));
/// assert_eq!((salvaged.skipped, salvaged.first_skipped), (3, 0));
/// assert_eq!((&out[..12], &out[12..]), (&trace[2..14], &[9; 3][..]));
/// # Ok::<(), Refusal>(())
/// ```
///
/// # Errors
///
/// [`Refusal::Output`]: the output is shorter than the trace; nothing is written.
pub fn salvage(trace: &[u8], out: &mut [u8]) -> Result<Salvaged, Refusal> {
    TraceVersion::Second.salvage(trace, out)
}

impl TraceVersion {
    /// As [`salvage`], but a record is what the reader of this version accepts.
    ///
    /// # Errors
    ///
    /// As [`salvage`].
    pub fn salvage(self, trace: &[u8], out: &mut [u8]) -> Result<Salvaged, Refusal> {
        let saved = float_mode::plain(|| match self {
            Self::First => ffi::salvage(trace, out),
            Self::Second => ffi::salvage_v2(trace, out),
        });
        Refusal::check_word(saved.refusal)?;
        let skipped = saved.skipped as usize;
        Ok(Salvaged {
            records: saved.records as usize,
            // The skipped bytes are bytes of the trace.
            kept: trace.len().saturating_sub(skipped),
            skipped,
            first_skipped: saved.first as usize,
        })
    }
}
