// How many iterations kira's `while` loops in the transport would make, computed without running them.

use std::{error, fmt};

/// The largest number of iterations that the oracle allows kira's text in one call.
pub const MAX_TURNS: usize = 50_000_000;

/// A call that was not made, because kira's text would make this many iterations (`usize::MAX`: it would never end).
#[derive(Debug, Clone, Copy, PartialEq, Eq)]
pub struct TooManyTurns(pub usize);

impl fmt::Display for TooManyTurns {
    fn fmt(&self, f: &mut fmt::Formatter<'_>) -> fmt::Result {
        write!(f, "the transport would turn {} times", self.0)
    }
}

impl error::Error for TooManyTurns {}

/// The iterations of a seek from `position` to `target`.
#[must_use]
pub fn seek_turns(position: usize, loop_region: Option<(usize, usize)>, target: usize) -> usize {
    match loop_region {
        Some((start, end)) if target > position => down(target, start, end),
        Some((start, end)) => up(target, start, end),
        None => 0,
    }
}

/// The iterations of a forward step.
pub(crate) fn increment_turns(position: usize, loop_region: Option<(usize, usize)>) -> usize {
    loop_region.map_or(0, |(start, end)| down(position + 1, start, end))
}

/// The iterations of a backward step.
pub(crate) fn decrement_turns(position: usize, loop_region: Option<(usize, usize)>) -> usize {
    loop_region.map_or(0, |(start, end)| up(position, start + 1, end + 1))
}

/// Refuses more iterations than [`MAX_TURNS`].
pub(crate) fn allow(turns: usize) -> Result<(), TooManyTurns> {
    if turns > MAX_TURNS {
        Err(TooManyTurns(turns))
    } else {
        Ok(())
    }
}

/// Iterations until `from` is below `end`.
fn down(from: usize, start: usize, end: usize) -> usize {
    turns(from.saturating_add(1).saturating_sub(end), start, end)
}

/// Iterations until `from` has reached `start`.
fn up(from: usize, start: usize, end: usize) -> usize {
    turns(start.saturating_sub(from), start, end)
}

/// Iterations of one loop length each that cover a distance.
fn turns(distance: usize, start: usize, end: usize) -> usize {
    match end.checked_sub(start) {
        _ if distance == 0 => 0,
        None | Some(0) => usize::MAX,
        Some(length) => distance.div_ceil(length),
    }
}
