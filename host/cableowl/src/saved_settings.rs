//! Settings saved as bytes: docs/formats/SETTINGS.md has their layout.

use crate::{Frames, Refusal, Region, Settings, ffi, float_mode};

/// The version of a record of saved settings, or the newest that a reader knows.
#[derive(Debug, Clone, Copy, PartialEq, Eq, PartialOrd, Ord, Hash)]
#[repr(u32)]
pub enum SettingsVersion {
    /// Start, loop, direction and rate: 25 bytes.
    First = 1,
    /// The same and a pitch: 26 bytes.
    Second,
}

impl SettingsVersion {
    /// The bytes of a record.
    #[must_use]
    pub const fn size(self) -> usize {
        match self {
            Self::First => 25,
            Self::Second => 26,
        }
    }
}

/// The settings that a tutor saves for a sound.
///
/// ```
/// use cableowl::{SavedSettings, SettingsVersion, StaticSound};
///
/// let saved = SavedSettings {
///     start: 3,
///     loop_region: Some((2, 8)),
///     playback_rate: 0.75,
///     pitch: -5,
///     ..SavedSettings::default()
/// };
/// let mut record = [0; 26];
/// saved.store(SettingsVersion::Second, &mut record)?;
///
/// // Next term: load, and create.
/// let (loaded, version) = SavedSettings::load(SettingsVersion::Second, &record)?;
/// assert_eq!((loaded, version), (saved, SettingsVersion::Second));
/// let sound = [0.0; 20];
/// let voice = StaticSound::new(loaded.settings(48_000), &sound)?;
/// assert_eq!(voice.state().loop_region, Some((2, 8)));
/// # Ok::<(), cableowl::Refusal>(())
/// ```
#[derive(Debug, Clone, Copy, PartialEq)]
pub struct SavedSettings {
    /// The frame to start at.
    pub start: u32,
    /// The loop's first frame and its end, exclusive.
    pub loop_region: Option<(u32, u32)>,
    /// Whether to play in reverse.
    pub reverse: bool,
    /// The rate before the pitch.
    pub playback_rate: f64,
    /// Whole semitones, -24 to 24; version 1 stores only 0.
    #[doc(alias = "Semitones")]
    pub pitch: i8,
}

impl Default for SavedSettings {
    fn default() -> Self {
        Self {
            start: 0,
            loop_region: None,
            reverse: false,
            playback_rate: 1.0,
            pitch: 0,
        }
    }
}

impl SavedSettings {
    /// Writes a record at the buffer's start and returns its length; the rest of the buffer does not
    /// change.
    ///
    /// # Errors
    ///
    /// [`Refusal::SavedField`], then [`Refusal::Room`]; nothing is written.
    pub fn store(&self, version: SettingsVersion, buffer: &mut [u8]) -> Result<usize, Refusal> {
        let saved = ffi::SavedSettings {
            version: version as u64,
            ..self.words()
        };
        Refusal::check(float_mode::plain(|| ffi::store_settings(&saved, buffer)))?;
        Ok(version.size())
    }

    /// Reads the record at the beginning of the bytes, and its version; it ignores what follows.
    /// A record of version 1 has pitch 0.
    ///
    /// # Errors
    ///
    /// In this order: [`Refusal::Mark`], [`Refusal::Version`], [`Refusal::SavedField`] for its
    /// length, [`Refusal::Truncated`], [`Refusal::SavedField`] for a field.
    pub fn load(reader: SettingsVersion, bytes: &[u8]) -> Result<(Self, SettingsVersion), Refusal> {
        let mut saved = ffi::SavedSettings::default();
        Refusal::check(float_mode::plain(|| {
            ffi::load_settings(reader as u32, bytes, &mut saved)
        }))?;
        let version = match saved.version {
            1 => SettingsVersion::First,
            _ => SettingsVersion::Second,
        };
        // A loaded number fits its field.
        let number = |word: u64| word as u32;
        let loaded = Self {
            start: number(saved.start),
            loop_region: (saved.has_loop == 1)
                .then(|| (number(saved.loop_start), number(saved.loop_end))),
            reverse: saved.reverse == 1,
            playback_rate: saved.playback_rate,
            pitch: saved.pitch as i8,
        };
        Ok((loaded, version))
    }

    /// The settings for creation: the whole sound of this sample rate, start and loop in frames, and
    /// the rate times the ratio of the pitch, rounded once.
    #[must_use]
    pub fn settings(&self, sample_rate: u32) -> Settings {
        let settings = float_mode::plain(|| ffi::settings_of(&self.words(), sample_rate));
        let frames = |frame: u32| Frames(frame as usize);
        let region = |(start, end)| Region::from(frames(start)..frames(end));
        Settings {
            start_position: frames(self.start).into(),
            loop_region: self.loop_region.map(region),
            reverse: self.reverse,
            playback_rate: settings.playback_rate,
            ..Settings::new(sample_rate)
        }
    }

    fn words(&self) -> ffi::SavedSettings {
        let (loop_start, loop_end) = self.loop_region.unwrap_or_default();
        ffi::SavedSettings {
            start: self.start.into(),
            has_loop: self.loop_region.is_some().into(),
            loop_start: loop_start.into(),
            loop_end: loop_end.into(),
            reverse: self.reverse.into(),
            playback_rate: self.playback_rate,
            pitch: self.pitch.into(),
            version: 0,
        }
    }
}
