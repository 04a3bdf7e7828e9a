//! A loop table that two boxes share through a folder: one file a hall, one writer a file.

use std::{
    cmp::Ordering,
    error::Error,
    fmt,
    fs::{self, File},
    io::{self, Read, Write},
    ops::Range,
    path::{Path, PathBuf},
};

use crate::{Hall, LoopHalf, LoopTable, Refusal};

/// The loop table of one of two boxes, which share it through a folder.
///
/// Hall A's half is in the file `hall-a.loops`, hall B's in `hall-b.loops`; docs/formats/LOOPS.md has
/// their bytes. A box writes its own hall's file and reads the other's. The folder may be on a local
/// disk or on NFS, or each box may have a folder of its own, kept in step by rsync or Syncthing. No
/// lock and no daemon is needed: a file is written beside its place and renamed, so a reader sees the
/// old half or the new one, and a half that comes late, twice or out of order does no harm.
///
/// If a call fails, the table does not change. There is one exception: if the file was replaced
/// and only the folder could not be synced, the change stays, because the other box may have read it.
///
/// These calls read and write files, so call them on a thread of your own and not on the audio
/// thread. The audio thread gets a copy of the [`table`](Self::table), which is a plain value.
///
/// ```
/// use cableowl::{Hall, SharedLoops, Start, Theirs};
///
/// # let folder = std::env::temp_dir().join(format!("cableowl-doc-{}", std::process::id()));
/// # std::fs::create_dir_all(&folder)?;
/// let mut at_a = SharedLoops::open(&folder, Hall::A, 48_000, &[])?;
/// let mut at_b = SharedLoops::open(&folder, Hall::B, 48_000, &[])?;
/// assert_eq!(*at_a.start(), Start::New);
/// at_a.write(0, 0..24_000, "first sentence")?;
/// assert_eq!(at_b.refresh()?, Theirs::Newer { changes: 1 });
/// assert_eq!(at_b.table().read(0), Ok(0..24_000));
/// assert_eq!(at_b.half(Hall::A).name(0), "first sentence");
/// # std::fs::remove_dir_all(&folder)?;
/// # Ok::<(), Box<dyn std::error::Error>>(())
/// ```
#[derive(Debug)]
pub struct SharedLoops {
    folder: PathBuf,
    ours: LoopHalf,
    theirs: LoopHalf,
    start: Start,
}

/// Where a box found its own half when it started.
#[derive(Debug, Clone, PartialEq, Eq)]
pub enum Start {
    /// Nowhere: the half is empty, and its number of changes begins at 0. If the other box has seen
    /// a larger number, it says so ([`Theirs::Back`]).
    New,
    /// In its own file.
    Own {
        /// Its number of changes.
        changes: u64,
    },
    /// In a copy: the own file had an older half, or none that could be read.
    Copy {
        /// The copy's file.
        path: PathBuf,
        /// Its number of changes.
        changes: u64,
        /// The own file's number of changes.
        own: Option<u64>,
    },
}

impl fmt::Display for Start {
    fn fmt(&self, f: &mut fmt::Formatter<'_>) -> fmt::Result {
        match self {
            Self::New => f.write_str("no half of this hall was found: it begins empty"),
            Self::Own { changes } => write!(f, "its own file, after {}", counted(*changes)),
            Self::Copy { path, changes, own } => {
                write!(f, "{}, after {}: ", path.display(), counted(*changes))?;
                match own {
                    Some(own) => write!(f, "its own file is older, after {}", counted(*own)),
                    None => f.write_str("it has no file of its own that can be read"),
                }
            }
        }
    }
}

/// What a box found in the other hall's file.
#[derive(Debug, Clone, Copy, PartialEq, Eq)]
pub enum Theirs {
    /// There is no file.
    Absent,
    /// The half that this box has already.
    Same,
    /// A newer half, which was taken.
    Newer {
        /// Its number of changes.
        changes: u64,
    },
    /// An older half, which was not taken. The file may be an old copy that is still on its way. If
    /// it stays, the other hall went back to an older half of its own, and this box shows its loops
    /// again when its number has passed the one that was seen.
    Back {
        /// The number of changes that this box has seen.
        seen: u64,
        /// The number of changes in the file.
        now: u64,
    },
}

impl fmt::Display for Theirs {
    fn fmt(&self, f: &mut fmt::Formatter<'_>) -> fmt::Result {
        match self {
            Self::Absent => f.write_str("the other hall has no file"),
            Self::Same => f.write_str("the other hall's file holds what is here already"),
            Self::Newer { changes } => {
                write!(
                    f,
                    "the other hall's half after {} was taken",
                    counted(*changes)
                )
            }
            Self::Back { seen, now } => write!(
                f,
                "the other hall's file is after {}, and {seen} were seen: it went back to an older half, which was not taken",
                counted(*now)
            ),
        }
    }
}

/// Why a table could not be opened, changed or refreshed.
#[derive(Debug)]
pub enum LoopsFault {
    /// The call was refused.
    Refused(Refusal),
    /// The half in a file was refused.
    Half {
        /// The file.
        path: PathBuf,
        /// Why: 15, 18, 23 or 24 for its bytes, 27 if it is over another sound, 28 if it has the
        /// number of a half that differs.
        refusal: Refusal,
    },
    /// A file could not be read.
    Unread {
        /// The file.
        path: PathBuf,
        /// What the system said.
        error: io::Error,
    },
    /// A file could not be written.
    Unwritten {
        /// The file.
        path: PathBuf,
        /// What the system said.
        error: io::Error,
    },
}

impl LoopsFault {
    /// The refusal, if it is one.
    #[must_use]
    pub fn refusal(&self) -> Option<Refusal> {
        match self {
            Self::Refused(refusal) | Self::Half { refusal, .. } => Some(*refusal),
            Self::Unread { .. } | Self::Unwritten { .. } => None,
        }
    }
}

impl fmt::Display for LoopsFault {
    fn fmt(&self, f: &mut fmt::Formatter<'_>) -> fmt::Result {
        match self {
            Self::Refused(refusal) => refusal.fmt(f),
            Self::Half { path, refusal } => write!(f, "{}: {refusal}", path.display()),
            Self::Unread { path, error } => {
                write!(f, "{}: cannot be read: {error}", path.display())
            }
            Self::Unwritten { path, error } => {
                write!(f, "{}: cannot be written: {error}", path.display())
            }
        }
    }
}

impl Error for LoopsFault {}

impl From<Refusal> for LoopsFault {
    fn from(refusal: Refusal) -> Self {
        Self::Refused(refusal)
    }
}

impl SharedLoops {
    /// Opens the table of a hall's own box, over a sound of `num_frames` frames.
    ///
    /// The own half is read here, once: from the own file or from one of the `copies`, which are
    /// other folders such as a backup, whichever has made more changes. A copy's half is written to
    /// the own file at once. From then on the box never takes its own half from a file. The other
    /// hall's half is empty until the first [`refresh`](Self::refresh), so its file, whatever it
    /// holds, does not keep this box from starting.
    ///
    /// # Errors
    ///
    /// A file that cannot be read or holds no half of its hall over this sound; the own file may be
    /// such if a copy has a half. [`Refusal::TwoHalves`] if two files have one number of changes and
    /// differ.
    pub fn open(
        folder: impl Into<PathBuf>,
        hall: Hall,
        num_frames: u64,
        copies: &[PathBuf],
    ) -> Result<Self, LoopsFault> {
        let mut loops = Self {
            folder: folder.into(),
            ours: LoopHalf::new(hall, num_frames),
            theirs: LoopHalf::new(other(hall), num_frames),
            start: Start::New,
        };
        let own = LoopHalf::read_from(&loops.folder, hall);
        if let Ok(Some(half)) = &own {
            take(&mut loops.ours, half, &loops.folder)?;
            let changes = half.changes();
            loops.start = Start::Own { changes };
        }
        let had = matches!(loops.start, Start::Own { .. }).then(|| loops.ours.changes());
        for folder in copies {
            let Some(half) = LoopHalf::read_from(folder, hall)? else {
                continue;
            };
            let changes = half.changes();
            let is_newer = loops.start == Start::New || changes > loops.ours.changes();
            take(&mut loops.ours, &half, folder)?;
            if is_newer {
                let path = half_path(folder, hall);
                let own = had;
                loops.start = Start::Copy { path, changes, own };
            }
        }
        match &loops.start {
            Start::New => drop(own?),
            Start::Own { .. } => {}
            Start::Copy { .. } => loops.keep(loops.ours.clone())?,
        }
        Ok(loops)
    }

    /// Where the own half was found.
    #[must_use]
    pub fn start(&self) -> &Start {
        &self.start
    }

    /// The table, for reads and for voices that take loops.
    #[must_use]
    pub fn table(&self) -> LoopTable {
        self.ours.copy_with(&self.theirs).table()
    }

    /// A hall's half, with the names of its slots.
    #[must_use]
    pub fn half(&self, hall: Hall) -> &LoopHalf {
        if hall == self.ours.hall() {
            &self.ours
        } else {
            &self.theirs
        }
    }

    /// Puts a loop into a slot of the own hall, with a name of at most 64 bytes, and writes the file.
    ///
    /// # Errors
    ///
    /// Refusals 6, 20, 21, then 24 for the name; [`LoopsFault::Unwritten`] if the file cannot be
    /// written.
    pub fn write(&mut self, slot: usize, frames: Range<u64>, name: &str) -> Result<(), LoopsFault> {
        let mut copy = self.ours.copy_with(&self.theirs);
        copy.write(self.ours.hall(), slot, frames)?;
        self.keep(self.ours.changed(&copy, slot, name)?)
    }

    /// Empties a slot of the own hall, or leaves it empty, and writes the file.
    ///
    /// # Errors
    ///
    /// Refusals 20 and 21; [`LoopsFault::Unwritten`] if the file cannot be written.
    pub fn clear(&mut self, slot: usize) -> Result<(), LoopsFault> {
        let mut copy = self.ours.copy_with(&self.theirs);
        copy.clear(self.ours.hall(), slot)?;
        self.keep(self.ours.changed(&copy, slot, "")?)
    }

    /// Reads the other hall's file, and takes its half if it is newer. It opens and reads one file of
    /// 666 bytes, so a call every second is cheap.
    ///
    /// # Errors
    ///
    /// A file that cannot be read or holds no half of its hall over this sound, or
    /// [`Refusal::TwoHalves`]. The table does not change.
    pub fn refresh(&mut self) -> Result<Theirs, LoopsFault> {
        let Some(half) = LoopHalf::read_from(&self.folder, self.theirs.hall())? else {
            return Ok(Theirs::Absent);
        };
        let (seen, now) = (self.theirs.changes(), half.changes());
        take(&mut self.theirs, &half, &self.folder)?;
        Ok(match now.cmp(&seen) {
            Ordering::Greater => Theirs::Newer { changes: now },
            Ordering::Equal => Theirs::Same,
            Ordering::Less => Theirs::Back { seen, now },
        })
    }

    /// Writes the own half, and keeps it.
    fn keep(&mut self, half: LoopHalf) -> Result<(), LoopsFault> {
        let path = half_path(&self.folder, half.hall());
        let unwritten = |error| LoopsFault::Unwritten { path, error };
        if let Err(error) = replace(&self.folder, file_name(half.hall()), &half.store()) {
            return Err(unwritten(error));
        }
        // Others may read the new half from here on, so it is this box's too.
        self.ours = half;
        let folder = File::open(&self.folder).and_then(|folder| folder.sync_all());
        folder.map_err(unwritten)
    }
}

/// Takes a half from a folder if it is newer.
fn take(ours: &mut LoopHalf, theirs: &LoopHalf, folder: &Path) -> Result<(), LoopsFault> {
    ours.merge(theirs).map_err(|refusal| LoopsFault::Half {
        path: half_path(folder, ours.hall()),
        refusal,
    })
}

impl LoopHalf {
    /// A hall's half in a folder, if its file is there.
    ///
    /// # Errors
    ///
    /// [`LoopsFault::Unread`], or [`LoopsFault::Half`] if the file holds no half of this hall.
    pub fn read_from(folder: &Path, hall: Hall) -> Result<Option<Self>, LoopsFault> {
        let path = half_path(folder, hall);
        let bytes = match begin_of(&path) {
            Ok(bytes) => bytes,
            Err(error) if error.kind() == io::ErrorKind::NotFound => return Ok(None),
            Err(error) => return Err(LoopsFault::Unread { path, error }),
        };
        match Self::load(&bytes) {
            Ok(half) if half.hall() == hall => Ok(Some(half)),
            // The other hall's half under this hall's name.
            Ok(_) => Err(LoopsFault::Half {
                path,
                refusal: Refusal::SavedField,
            }),
            Err(refusal) => Err(LoopsFault::Half { path, refusal }),
        }
    }
}

/// A number of changes in words.
fn counted(changes: u64) -> String {
    let end = if changes == 1 { "" } else { "s" };
    format!("{changes} change{end}")
}

fn other(hall: Hall) -> Hall {
    match hall {
        Hall::A => Hall::B,
        Hall::B => Hall::A,
    }
}

fn file_name(hall: Hall) -> &'static str {
    match hall {
        Hall::A => "hall-a.loops",
        Hall::B => "hall-b.loops",
    }
}

fn half_path(folder: &Path, hall: Hall) -> PathBuf {
    folder.join(file_name(hall))
}

/// The first bytes of a file, as many as a record has.
fn begin_of(path: &Path) -> io::Result<Vec<u8>> {
    let mut bytes = Vec::with_capacity(LoopHalf::SIZE);
    let size = LoopHalf::SIZE as u64;
    File::open(path)?.take(size).read_to_end(&mut bytes)?;
    Ok(bytes)
}

/// Writes a file beside its place and renames it, so that it is there as a whole or not at all.
fn replace(folder: &Path, name: &str, bytes: &[u8]) -> io::Result<()> {
    let beside = folder.join(format!(".{name}.new"));
    let written = File::create(&beside).and_then(|mut file| {
        file.write_all(bytes)?;
        file.sync_all()
    });
    let renamed = written.and_then(|()| fs::rename(&beside, folder.join(name)));
    if renamed.is_err() {
        // The error that is returned says more.
        let _ = fs::remove_file(&beside);
    }
    renamed
}
