//! The sounds that a run is given: files. Each creation takes the one that it names.

use std::{
    fs,
    path::{Path, PathBuf},
    sync::OnceLock,
};

use cableowl::trace::{Digest, Lesson, SoundId};
use sha256::Sha256;

use crate::{
    fault::{Fault, Result, reason},
    out::shown,
    plot::{counted, grouped},
    sound::{Sound, samples},
};

/// How many of the given sounds a sentence names.
const NAMED: usize = 5;

/// Where sounds are: files, and a folder of files NAME.f32.
#[derive(Debug, Clone, PartialEq, Eq, Default)]
pub struct Places {
    /// Files.
    pub files: Vec<PathBuf>,
    /// A folder.
    pub folder: Option<PathBuf>,
}

/// What was read of a file, or why nothing was.
type Once<T> = OnceLock<std::result::Result<T, String>>;

/// A file that was given as a sound. It is read once, when a creation names a sound of its length.
struct Offered {
    name: String,
    path: PathBuf,
    /// Its frames by its length, or why it is not a sound.
    frames: std::result::Result<u64, String>,
    id: Once<SoundId>,
    lesson: Once<Lesson>,
}

impl Offered {
    fn new(path: PathBuf) -> Self {
        let frames = length(&path).map_err(|fault| fault.to_string());
        Self {
            name: shown(&path),
            path,
            frames,
            id: OnceLock::new(),
            lesson: OnceLock::new(),
        }
    }

    /// Whether it has this many frames.
    fn has(&self, frames: u32) -> bool {
        self.frames == Ok(frames.into())
    }

    /// Its frames and its digest, in constant memory.
    fn id(&self) -> &std::result::Result<SoundId, String> {
        self.id.get_or_init(|| {
            let mut digest = Sha256::new();
            let read = self
                .sound()
                .and_then(|sound| sound.read(|bytes| digest.update(bytes)));
            let frames = read.map_err(|fault| fault.to_string())?;
            Ok(SoundId {
                frames: frames as u32,
                digest: Digest(digest.finish()),
            })
        })
    }

    /// Its samples, with its frames and its digest.
    fn lesson(&self) -> &std::result::Result<Lesson, String> {
        self.lesson.get_or_init(|| {
            let mut all: Vec<f32> = Vec::new();
            let read = self.sound().and_then(|sound| {
                let frames = sound.frames().unwrap_or_default() as usize;
                let room = all.try_reserve_exact(2 * frames);
                room.map_err(|_| {
                    let name = &self.name;
                    Fault::refused(format!("{name}: there is no room for it in memory"))
                })?;
                sound.read(|bytes| all.extend(samples(bytes)))
            });
            read.map_err(|fault| fault.to_string())?;
            Lesson::new(all).map_err(|refusal| format!("{}: {refusal}", self.name))
        })
    }

    fn sound(&self) -> Result<Sound> {
        Ok(Sound::open(&self.path)?.without_progress(true))
    }

    /// How it differs from the wanted sound, in words. A file of another length was not read.
    fn words(&self, wanted: &SoundId) -> String {
        let read = match (self.lesson.get(), self.id.get()) {
            (Some(lesson), _) => lesson.as_ref().map(Lesson::id),
            (None, Some(id)) => id.as_ref().copied(),
            (None, None) => Err(&self.name),
        };
        match (&self.frames, read) {
            (Err(words), _) => words.clone(),
            (Ok(frames), _) if *frames != u64::from(wanted.frames) => {
                format!("{}: {}", self.name, counted(*frames, "frame"))
            }
            (Ok(_), Ok(id)) => format!("{}: {}", self.name, named(&id)),
            (Ok(_), Err(words)) => words.clone(),
        }
    }
}

/// The frames of a sound by the length of its file.
fn length(path: &Path) -> Result<u64> {
    // A pipe can be read only once, and opening it may wait.
    let is_file = fs::metadata(path).map_or(true, |file| file.is_file() || file.is_dir());
    let frames = match is_file {
        true => Sound::open(path)?.frames(),
        false => None,
    };
    frames.ok_or_else(|| Fault::refused(format!("{}: is no file on a disk", shown(path))))
}

/// A sound by its frames and its digest, in words.
pub fn named(id: &SoundId) -> String {
    let frames = counted(id.frames.into(), "frame");
    format!("{frames}, digest {}", id.digest)
}

/// Sounds that were given.
pub struct Sounds {
    offered: Vec<Offered>,
}

impl Sounds {
    /// The sounds of these places; `None` if there are no places. A file that is named must be a sound. A file in a
    /// folder that is not a sound is skipped.
    pub fn given(places: &Places) -> Result<Option<Self>> {
        if *places == Places::default() {
            return Ok(None);
        }
        let mut offered = Vec::new();
        for file in &places.files {
            length(file)?;
            offered.push(Offered::new(file.clone()));
        }
        if let Some(folder) = &places.folder {
            let files = files_in(folder)?;
            offered.extend(files.into_iter().map(Offered::new));
        }
        Ok(Some(Self { offered }))
    }

    /// The sound of this name with its samples, if it is one of them.
    pub fn lesson(&self, wanted: &SoundId) -> Option<Lesson> {
        let may = self.offered.iter().filter(|file| file.has(wanted.frames));
        let mut lessons = may.filter_map(|file| file.lesson().as_ref().ok());
        lessons.find(|lesson| lesson.id() == *wanted).cloned()
    }

    /// Whether one of them has this name.
    pub fn has(&self, wanted: &SoundId) -> bool {
        let mut may = self.offered.iter().filter(|file| file.has(wanted.frames));
        may.any(|file| file.id().as_ref() == Ok(wanted))
    }

    /// The sound that the creation at this byte wants, and what was given.
    pub fn missing(&self, at: u64, wanted: &SoundId) -> String {
        let given = self
            .offered
            .iter()
            .take(NAMED)
            .map(|file| file.words(wanted));
        let given: Vec<String> = given.collect();
        let more = match self.offered.len().saturating_sub(NAMED) {
            0 => String::new(),
            more => format!("; and {} more", grouped(more as u64)),
        };
        let given = match given.is_empty() {
            true => "no file NAME.f32 was there".to_owned(),
            false => format!("given were {}{more}", given.join("; ")),
        };
        format!(
            "the creation at byte {at} is over a sound that was not given: {}; {given}",
            named(wanted)
        )
    }
}

/// The sounds of a folder, by name.
fn files_in(folder: &Path) -> Result<Vec<PathBuf>> {
    let unread = |error: std::io::Error| {
        let (name, why) = (shown(folder), reason(&error));
        Fault::refused(format!("{name}: cannot be read: {why}"))
    };
    let mut files = Vec::new();
    for entry in fs::read_dir(folder).map_err(unread)? {
        let path = entry.map_err(unread)?.path();
        if path.extension().is_some_and(|kind| kind == "f32") {
            files.push(path);
        }
    }
    files.sort();
    Ok(files)
}
