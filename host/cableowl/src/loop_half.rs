//! A hall's half of a loop table as bytes: docs/formats/LOOPS.md has their layout.

use std::{array, ops::Range, str};

use crate::{Hall, LoopCopy, Refusal, ffi, float_mode};

/// The bytes of a slot's name, at most.
const NAME: usize = 64;

/// Where the names begin in a record, and where they end.
const NAMES: Range<usize> = 150..662;

/// What one hall has written of a loop table: its eight slots with their names, and how many writes
/// and clears it has made.
///
/// A file holds one half. Slots have the numbers that they have in the table: 0 to 7 in hall A's
/// half, 8 to 15 in hall B's.
///
/// ```
/// use cableowl::{Hall, LoopHalf};
///
/// let half = LoopHalf::new(Hall::A, 48_000);
/// let record = half.store();
/// assert_eq!(record.len(), LoopHalf::SIZE);
/// assert_eq!(LoopHalf::load(&record), Ok(half));
/// ```
#[derive(Debug, Clone, PartialEq, Eq)]
pub struct LoopHalf {
    hall: Hall,
    half: ffi::LoopHalf,
    names: [String; 8],
}

impl LoopHalf {
    /// The bytes of a record.
    pub const SIZE: usize = 666;

    /// Eight empty slots of a hall over a sound of `num_frames` frames, without changes.
    #[must_use]
    pub fn new(hall: Hall, num_frames: u64) -> Self {
        Self {
            hall,
            half: LoopCopy::new(num_frames).half(hall),
            names: array::from_fn(|_| String::new()),
        }
    }

    /// Its hall.
    #[must_use]
    pub fn hall(&self) -> Hall {
        self.hall
    }

    /// The frames of the sound.
    #[must_use]
    pub fn num_frames(&self) -> u64 {
        self.half.num_frames
    }

    /// How many writes and clears the hall has made. The larger number is the newer half's.
    #[must_use]
    pub fn changes(&self) -> u64 {
        self.half.changes
    }

    /// The loop in a slot of the table, if the slot is this hall's and holds one.
    #[must_use]
    pub fn read(&self, slot: usize) -> Option<Range<u64>> {
        let held = self.half.slots[own(self.hall, slot)?];
        (held.start < held.end).then_some(held.start..held.end)
    }

    /// The name of a slot of the table; empty if it has none, or is the other hall's.
    #[must_use]
    pub fn name(&self, slot: usize) -> &str {
        own(self.hall, slot).map_or("", |place| &self.names[place])
    }

    /// The bytes of this half.
    #[must_use]
    pub fn store(&self) -> [u8; Self::SIZE] {
        let mut names = [0; 8 * NAME];
        for (room, name) in names.chunks_exact_mut(NAME).zip(&self.names) {
            room[..name.len()].copy_from_slice(name.as_bytes());
        }
        let mut record = [0; Self::SIZE];
        let refusal = float_mode::plain(|| ffi::store_half(&self.half, &names, &mut record));
        assert_eq!(refusal, 0, "a half that was made or loaded here");
        record
    }

    /// Reads the record that the bytes begin with; what follows it is not read.
    ///
    /// # Errors
    ///
    /// In this order: [`Refusal::Mark`], [`Refusal::Version`], [`Refusal::SavedField`] for its
    /// length, [`Refusal::Truncated`], [`Refusal::SavedField`] for its hall, a slot, the CRC or a
    /// name.
    pub fn load(bytes: &[u8]) -> Result<Self, Refusal> {
        let mut half = ffi::LoopHalf::default();
        Refusal::check(float_mode::plain(|| ffi::load_half(bytes, &mut half)))?;
        let mut names = array::from_fn(|_| String::new());
        for (name, room) in names.iter_mut().zip(bytes[NAMES].chunks_exact(NAME)) {
            *name = text(room).ok_or(Refusal::SavedField)?;
        }
        let hall = if half.hall == 0 { Hall::A } else { Hall::B };
        Ok(Self { hall, half, names })
    }

    /// Takes another half of the same hall if it is newer.
    ///
    /// # Errors
    ///
    /// Refusal 27 if the halves are over sounds of different frame counts; 28 if they have the same
    /// number of changes and differ in a slot or a name. Nothing changes then.
    pub fn merge(&mut self, theirs: &Self) -> Result<(), Refusal> {
        let mut copy = LoopCopy::of_half(self.hall, &self.half);
        copy.merge(&LoopCopy::of_half(theirs.hall, &theirs.half))?;
        if theirs.changes() == self.changes() && theirs.names != self.names {
            return Err(Refusal::TwoHalves);
        }
        if theirs.changes() > self.changes() {
            self.names.clone_from(&theirs.names);
        }
        self.half = copy.half(self.hall);
        Ok(())
    }

    /// The half after its hall has changed a slot, with this name for the slot.
    pub(crate) fn changed(
        &self,
        copy: &LoopCopy,
        slot: usize,
        name: &str,
    ) -> Result<Self, Refusal> {
        if name.len() > NAME || name.contains('\0') {
            return Err(Refusal::SavedField);
        }
        let mut changed = self.clone();
        changed.half = copy.half(self.hall);
        if let Some(place) = own(self.hall, slot) {
            name.clone_into(&mut changed.names[place]);
        }
        Ok(changed)
    }

    /// A copy of the table: this half, and the other hall's.
    pub(crate) fn copy_with(&self, other: &Self) -> LoopCopy {
        LoopCopy::of_half(self.hall, &self.half).with_half(other.hall, &other.half)
    }
}

/// The index of a slot among its hall's slots.
fn own(hall: Hall, slot: usize) -> Option<usize> {
    let place = match hall {
        Hall::A => slot,
        Hall::B => slot.checked_sub(8)?,
    };
    (place < 8).then_some(place)
}

/// The name in a record's field for a name.
fn text(room: &[u8]) -> Option<String> {
    let length = room.iter().position(|byte| *byte == 0).unwrap_or(NAME);
    let (name, rest) = room.split_at(length);
    let is_blank = rest.iter().all(|byte| *byte == 0);
    let name = str::from_utf8(name).ok()?;
    is_blank.then(|| name.to_owned())
}
