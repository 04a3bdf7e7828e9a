//! Sounds that a trace names: a sound with its digest, and the sounds that a replay is given.

use std::{fmt, sync::Arc};

use sha256::Sha256;

use super::MAX_SOUND_FRAMES;
use crate::Refusal;

/// The SHA-256 of a sound: of its samples as little-endian f32, left and right in turn. `Display` writes
/// what `sha256sum` prints for a file of these samples.
///
/// ```
/// use cableowl::trace::Digest;
///
/// let digest = Digest::of(&[1.0, 1.0, 2.0, 2.0, 3.0, 3.0]);
/// assert_eq!(
///     digest.to_string(),
///     "4684afa9fdf369fcad25c4a4c5ff535fd81a53fb02f7d4b54f47a98323a30a09"
/// );
/// ```
#[derive(Clone, Copy, PartialEq, Eq, PartialOrd, Ord, Hash)]
pub struct Digest(pub [u8; 32]);

impl Digest {
    /// The digest of these samples.
    #[must_use]
    pub fn of(samples: &[f32]) -> Self {
        let mut sha256 = Sha256::new();
        let mut bytes = [0; 4 * 1_024];
        for samples in samples.chunks(1_024) {
            for (bytes, sample) in bytes.chunks_exact_mut(4).zip(samples) {
                bytes.copy_from_slice(&sample.to_le_bytes());
            }
            sha256.update(&bytes[..4 * samples.len()]);
        }
        Self(sha256.finish())
    }
}

impl fmt::Display for Digest {
    fn fmt(&self, f: &mut fmt::Formatter<'_>) -> fmt::Result {
        self.0.iter().try_for_each(|byte| write!(f, "{byte:02x}"))
    }
}

impl fmt::Debug for Digest {
    fn fmt(&self, f: &mut fmt::Formatter<'_>) -> fmt::Result {
        write!(f, "Digest({self})")
    }
}

/// How a trace names a sound: by its frame count and its digest.
///
/// ```
/// use cableowl::trace::Lesson;
///
/// let lesson = Lesson::new(vec![1.0, 1.0, 2.0, 2.0, 3.0, 3.0])?;
/// assert_eq!(lesson.id().frames, 3);
/// assert!(lesson.id().to_string().starts_with("3 frames, SHA-256 4684afa9fdf3"));
/// # Ok::<(), cableowl::Refusal>(())
/// ```
#[derive(Debug, Clone, Copy, PartialEq, Eq, PartialOrd, Ord, Hash)]
pub struct SoundId {
    /// The frames of the sound.
    pub frames: u32,
    /// The digest of its samples.
    pub digest: Digest,
}

impl fmt::Display for SoundId {
    fn fmt(&self, f: &mut fmt::Formatter<'_>) -> fmt::Result {
        write!(f, "{} frames, SHA-256 {}", self.frames, self.digest)
    }
}

/// A sound with its digest, to record over and to replay with. Clones share the samples.
///
/// [`Lesson::new`] computes the digest. That takes too long for the audio thread, so make the lesson
/// before the recording begins; no later call computes it again.
///
/// ```
/// use cableowl::{RecordedPlayer, Settings, trace::Lesson};
///
/// let lesson = Lesson::new(vec![0.5; 2 * 44_100])?; // before the playing begins
/// let mut buffer = vec![0; 100_000];
/// let settings = Settings::new(44_100);
/// let mut player = RecordedPlayer::play(settings, 48_000, &lesson, &mut buffer)?;
/// player.process(&mut [0.0; 1_024], |_| {}).recorded?;
/// # Ok::<(), cableowl::Refusal>(())
/// ```
#[derive(Clone)]
pub struct Lesson {
    samples: Arc<[f32]>,
    id: SoundId,
}

impl Lesson {
    /// The sound of these samples, left and right in turn, and its digest.
    ///
    /// # Errors
    ///
    /// [`Refusal::FrameCount`]: their count is odd, or above 4,294,967,295 frames. A player also refuses
    /// 0 frames and more than 16,777,216; such a sound can be recorded all the same.
    pub fn new(samples: impl Into<Arc<[f32]>>) -> Result<Self, Refusal> {
        let samples = samples.into();
        if !samples.len().is_multiple_of(2) {
            return Err(Refusal::FrameCount);
        }
        let frames = u32::try_from(samples.len() / 2).map_err(|_| Refusal::FrameCount)?;
        let digest = Digest::of(&samples);
        Ok(Self {
            samples,
            id: SoundId { frames, digest },
        })
    }

    /// The samples, left and right in turn.
    #[must_use]
    pub fn samples(&self) -> &Arc<[f32]> {
        &self.samples
    }

    /// Its frame count and its digest.
    #[must_use]
    pub fn id(&self) -> SoundId {
        self.id
    }

    /// Whether these are its samples. A short sound is compared by its bits, a longer one only by its address in
    /// memory.
    pub(super) fn is(&self, samples: &[f32]) -> bool {
        let same = |(one, other): (&f32, &f32)| one.to_bits() == other.to_bits();
        let is_short = self.samples.len() <= 2 * MAX_SOUND_FRAMES;
        let equal =
            || self.samples.len() == samples.len() && self.samples.iter().zip(samples).all(same);
        std::ptr::eq(&*self.samples, samples) || (is_short && equal())
    }
}

/// Its many samples are not printed.
impl fmt::Debug for Lesson {
    fn fmt(&self, f: &mut fmt::Formatter<'_>) -> fmt::Result {
        f.debug_tuple("Lesson").field(&self.id).finish()
    }
}

/// The sounds that a replay is given: each creation of kind 4 takes the one that it names.
///
/// ```
/// use cableowl::trace::{Lesson, Sounds};
///
/// let lesson = Lesson::new(vec![0.5; 20])?;
/// let sounds: Sounds = [Lesson::new(vec![0.0; 20])?, lesson.clone()].into_iter().collect();
/// assert_eq!(sounds.find(&lesson.id()).map(Lesson::id), Some(lesson.id()));
/// # Ok::<(), cableowl::Refusal>(())
/// ```
#[derive(Debug, Clone, Default)]
pub struct Sounds {
    lessons: Vec<Lesson>,
}

impl Sounds {
    /// No sounds yet.
    #[must_use]
    pub fn new() -> Self {
        Self::default()
    }

    /// Adds a sound.
    pub fn add(&mut self, lesson: Lesson) {
        self.lessons.push(lesson);
    }

    /// The sound with this frame count and digest, if it is one of them.
    #[must_use]
    pub fn find(&self, id: &SoundId) -> Option<&Lesson> {
        self.lessons.iter().find(|lesson| lesson.id() == *id)
    }

    /// The sounds, in the order in which they were added.
    pub fn iter(&self) -> impl Iterator<Item = &Lesson> {
        self.lessons.iter()
    }
}

impl FromIterator<Lesson> for Sounds {
    fn from_iter<I: IntoIterator<Item = Lesson>>(lessons: I) -> Self {
        Self {
            lessons: lessons.into_iter().collect(),
        }
    }
}

impl From<Lesson> for Sounds {
    fn from(lesson: Lesson) -> Self {
        Self {
            lessons: vec![lesson],
        }
    }
}

/// A creation that a replay refuses with 26: sounds are given, and none is the recorded one.
///
/// ```
/// use cableowl::trace::{Digest, Lesson, OtherSound, SoundId, Sounds};
///
/// let wanted = SoundId { frames: 3, digest: Digest([0xab; 32]) };
/// let given = Sounds::from(Lesson::new(vec![0.5; 20])?);
/// let sentence = OtherSound { at: 82, wanted }.sentence(&given);
/// let begins = "the creation at byte 82 is over another sound than those given: it wants 3 frames, \
///     SHA-256 abab";
/// assert!(sentence.starts_with(begins), "{sentence}");
/// assert!(sentence.contains("; given: 10 frames, SHA-256 "), "{sentence}");
/// # Ok::<(), cableowl::Refusal>(())
/// ```
#[derive(Debug, Clone, Copy, PartialEq, Eq, Hash)]
pub struct OtherSound {
    /// The offset of the record's first byte.
    pub at: u64,
    /// The sound that the record names.
    pub wanted: SoundId,
}

impl OtherSound {
    /// Which sound is wanted, and which were given.
    #[must_use]
    pub fn sentence(&self, given: &Sounds) -> String {
        let given: Vec<String> = given.iter().map(|lesson| lesson.id().to_string()).collect();
        match given.is_empty() {
            true => format!("{self}; no sound is given"),
            false => format!("{self}; given: {}", given.join("; ")),
        }
    }
}

impl fmt::Display for OtherSound {
    fn fmt(&self, f: &mut fmt::Formatter<'_>) -> fmt::Result {
        let Self { at, wanted } = self;
        write!(
            f,
            "the creation at byte {at} is over another sound than those given: it wants {wanted}"
        )
    }
}
