//! A copy of a loop table for one of two boxes, and the merge of two copies.

use std::ops::Range;

use crate::{Hall, LoopTable, Refusal, ffi};

/// A copy of a [`LoopTable`] at one of two boxes that share no memory.
///
/// It also counts the writes and clears of each hall. Each hall changes its half only at its own box,
/// so the half with the larger count is the newer one. A box can send its copy to the other box at any
/// time, and [`merge`](Self::merge) keeps each hall's newer half.
///
/// Copies can be lost, repeated, late or out of order. It is proved that
///
/// - a hall's own results and slots, and the frames of voices that take loops from these slots, are
///   the same as without the other box;
/// - a merge never goes back to an older half;
/// - once each box has merged the other's last copy, both hold the table that one shared table would
///   hold.
///
/// ```
/// use cableowl::{Hall, LoopCopy};
///
/// let (mut at_a, mut at_b) = (LoopCopy::new(48_000), LoopCopy::new(48_000));
/// at_a.write(Hall::A, 0, 0..24_000)?;
/// at_b.write(Hall::B, 8, 500..600)?;
/// at_b.clear(Hall::B, 8)?;
/// at_a.merge(&at_b)?;
/// at_b.merge(&at_a)?;
/// assert_eq!(at_a, at_b);
/// assert_eq!(at_b.table().read(0), Ok(0..24_000));
/// assert_eq!((at_b.changes(Hall::A), at_b.changes(Hall::B)), (1, 2));
/// # Ok::<(), cableowl::Refusal>(())
/// ```
#[derive(Debug, Clone, Copy, PartialEq, Eq)]
pub struct LoopCopy {
    copy: ffi::LoopCopy,
}

impl LoopCopy {
    /// An empty table over a sound of this many frames, with no changes.
    #[must_use]
    pub fn new(num_frames: u64) -> Self {
        Self {
            copy: ffi::loop_copy(num_frames),
        }
    }

    /// The table, for reads and for voices that take loops.
    #[must_use]
    pub fn table(&self) -> LoopTable {
        LoopTable {
            table: self.copy.table,
        }
    }

    /// How many writes and clears of a hall this copy contains. The count stays at the largest `u64`.
    #[must_use]
    pub fn changes(&self, hall: Hall) -> u64 {
        match hall {
            Hall::A => self.copy.changes_a,
            Hall::B => self.copy.changes_b,
        }
    }

    /// Writes a loop to a slot and replaces its old one. Call it only at the hall's own box.
    ///
    /// # Errors
    ///
    /// Refusals 6, 20 and 21, in this order.
    pub fn write(&mut self, hall: Hall, slot: usize, frames: Range<u64>) -> Result<(), Refusal> {
        let (start, end) = (frames.start, frames.end);
        self.change(ffi::write_copy(
            self.copy,
            hall as u32,
            slot as u64,
            start,
            end,
        ))
    }

    /// Empties a slot, or leaves it empty. Call it only at the hall's own box.
    ///
    /// # Errors
    ///
    /// Refusals 20 and 21, in this order.
    pub fn clear(&mut self, hall: Hall, slot: usize) -> Result<(), Refusal> {
        self.change(ffi::clear_copy(self.copy, hall as u32, slot as u64))
    }

    /// Takes each hall's newer half.
    ///
    /// # Errors
    ///
    /// Refusal 27 if the copies are over sounds of different frame counts; 28 if both have the same
    /// number of changes for a hall and different slots, which happens only if a hall was written at
    /// two boxes or went back to an old copy. A refused merge changes nothing.
    pub fn merge(&mut self, theirs: &Self) -> Result<(), Refusal> {
        self.change(ffi::merge_copies(self.copy, theirs.copy))
    }

    /// A hall's half.
    pub(crate) fn half(&self, hall: Hall) -> ffi::LoopHalf {
        let mut slots = [ffi::LoopSlot::default(); 8];
        slots.copy_from_slice(&self.copy.table.slots[own_slots(hall)]);
        ffi::LoopHalf {
            hall: hall as u64,
            num_frames: self.copy.table.num_frames,
            changes: self.changes(hall),
            slots,
        }
    }

    /// A copy that has this half, and nothing of the other hall.
    pub(crate) fn of_half(hall: Hall, half: &ffi::LoopHalf) -> Self {
        Self::new(half.num_frames).with_half(hall, half)
    }

    /// This copy with a half in place of its own.
    pub(crate) fn with_half(mut self, hall: Hall, half: &ffi::LoopHalf) -> Self {
        self.copy.table.slots[own_slots(hall)].copy_from_slice(&half.slots);
        match hall {
            Hall::A => self.copy.changes_a = half.changes,
            Hall::B => self.copy.changes_b = half.changes,
        }
        self
    }

    fn change(&mut self, answer: ffi::CopyChanged) -> Result<(), Refusal> {
        Refusal::check(answer.refusal)?;
        self.copy = answer.copy;
        Ok(())
    }
}

/// A hall's slots in the table.
fn own_slots(hall: Hall) -> Range<usize> {
    match hall {
        Hall::A => 0..8,
        Hall::B => 8..16,
    }
}
