//! A table of loops that two halls share: request #109.

use std::ops::Range;

use crate::{Frames, Refusal, Region, ffi};

/// One of the two halls.
#[derive(Debug, Clone, Copy, PartialEq, Eq, Hash)]
pub enum Hall {
    /// Writes slots 0 to 7.
    A,
    /// Writes slots 8 to 15.
    B,
}

/// Sixteen loops over one sound, in frames.
///
/// Hall A writes and clears slots 0 to 7, hall B slots 8 to 15. Both read all slots, so a read names no
/// hall. The host keeps names for the slots, if it needs them. Each loop must lie inside the sound,
/// whose frame count the table records. A voice with a slice checks a loop again when it takes it
/// ([`StaticSound::take_loop`](crate::StaticSound::take_loop)). A refused call changes nothing.
///
/// It is proved that the calls of one hall never change the results of the other hall's writes and
/// clears, its eight slots, or a voice that takes loops only from those slots.
///
/// ```
/// use cableowl::{Hall, LoopTable, Refusal};
///
/// let mut table = LoopTable::new(48_000);
/// table.write(Hall::A, 0, 0..24_000)?;
/// assert_eq!(table.read(0), Ok(0..24_000));
/// assert_eq!(table.write(Hall::B, 7, 0..24_000), Err(Refusal::OtherHall));
/// assert_eq!(table.write(Hall::A, 16, 4..4), Err(Refusal::LoopRegion));
/// table.clear(Hall::A, 0)?;
/// assert_eq!(table.read(0), Err(Refusal::EmptySlot));
/// # Ok::<(), Refusal>(())
/// ```
///
/// The table is a plain value. Two threads can share it behind the host's mutex, locked for one call.
/// The audio thread copies the table, or takes its loop under the mutex between two blocks.
///
/// ```
/// use std::{sync::Mutex, thread};
///
/// use cableowl::{Hall, LoopTable};
///
/// let table = Mutex::new(LoopTable::new(1_000));
/// thread::scope(|scope| {
///     let a = scope.spawn(|| table.lock().unwrap().write(Hall::A, 3, 10..20));
///     let b = scope.spawn(|| table.lock().unwrap().write(Hall::B, 12, 500..1_000));
///     a.join().unwrap().and(b.join().unwrap())
/// })?;
/// let copy = *table.lock().unwrap();
/// assert_eq!((copy.read(3)?, copy.read(12)?), (10..20, 500..1_000));
/// # Ok::<(), cableowl::Refusal>(())
/// ```
#[derive(Debug, Clone, Copy, PartialEq, Eq)]
pub struct LoopTable {
    pub(crate) table: ffi::LoopTable,
}

impl LoopTable {
    /// Sixteen empty slots over a sound of this many frames. Over 0 frames every write is refused
    /// with 6.
    #[must_use]
    pub fn new(num_frames: u64) -> Self {
        Self {
            table: ffi::loop_table(num_frames),
        }
    }

    /// The frames of the sound.
    #[must_use]
    pub fn num_frames(&self) -> u64 {
        self.table.num_frames
    }

    /// Writes a loop to a slot and replaces its old one.
    ///
    /// # Errors
    ///
    /// Refusals 6, 20 and 21, in this order.
    pub fn write(&mut self, hall: Hall, slot: usize, frames: Range<u64>) -> Result<(), Refusal> {
        let (start, end) = (frames.start, frames.end);
        self.change(ffi::write_loop(
            self.table,
            hall as u32,
            slot as u64,
            start,
            end,
        ))
    }

    /// Empties a slot, or leaves it empty.
    ///
    /// # Errors
    ///
    /// Refusals 20 and 21, in this order.
    pub fn clear(&mut self, hall: Hall, slot: usize) -> Result<(), Refusal> {
        self.change(ffi::clear_loop(self.table, hall as u32, slot as u64))
    }

    /// The loop in a slot, for either hall.
    ///
    /// # Errors
    ///
    /// Refusals 20 and 22, in this order.
    pub fn read(&self, slot: usize) -> Result<Range<u64>, Refusal> {
        let found = ffi::read_loop(self.table, slot as u64);
        Refusal::check(found.refusal)?;
        Ok(found.slot.start..found.slot.end)
    }

    /// The same as a `Region`, for a loop command.
    pub(crate) fn region(&self, slot: usize) -> Result<Region, Refusal> {
        let frames = self.read(slot)?;
        Ok((Frames(frames.start as usize)..Frames(frames.end as usize)).into())
    }

    fn change(&mut self, answer: ffi::LoopChanged) -> Result<(), Refusal> {
        Refusal::check(answer.refusal)?;
        self.table = answer.table;
        Ok(())
    }
}
