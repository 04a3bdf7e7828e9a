//! Levels in decibels and fades: the table and the ramp of `crates/decibels`.

use std::hint::black_box;

use crate::{Refusal, ffi, float_mode};

/// The largest number of frames in a ramp.
pub const MAX_RAMP_FRAMES: usize = 65_536;

/// A level in tenths of a decibel below full level: 0 to 600, or [`Level::SILENCE`].
///
/// Its amplitude comes from a proved table, so it is the same on every machine.
///
/// ```
/// use cableowl::{Level, Refusal};
///
/// let six_decibels_down = Level::new(60)?;
/// assert_eq!(six_decibels_down.amplitude(), 8_408_526.0 / 16_777_216.0);
/// assert_eq!(Level::FULL.amplitude(), 1.0);
/// assert_eq!(Level::SILENCE.amplitude(), 0.0);
/// assert_eq!(Level::new(602), Err(Refusal::Level));
/// # Ok::<(), Refusal>(())
/// ```
#[doc(alias = "Decibels")]
#[derive(Debug, Clone, Copy, PartialEq, Eq, PartialOrd, Ord, Hash)]
pub struct Level(u32);

impl Level {
    /// Full level, amplitude 1: kira's `Decibels::IDENTITY`.
    #[doc(alias = "IDENTITY")]
    pub const FULL: Self = Self(0);

    /// Silence, amplitude 0. Level 600, 60 decibels down, is not silent.
    pub const SILENCE: Self = Self(601);

    /// The level this many tenths of a decibel below full level; 601 is silence.
    ///
    /// # Errors
    ///
    /// [`Refusal::Level`] above 601.
    pub const fn new(tenths: u32) -> Result<Self, Refusal> {
        match tenths {
            0..=601 => Ok(Self(tenths)),
            _ => Err(Refusal::Level),
        }
    }

    /// The level of this many decibels, 0 or below, rounded to the nearest tenth (a half down). Below
    /// -60.05 it is silence. (kira's `Decibels` can be above 0, and -60 is silence there.)
    ///
    /// ```
    /// use cableowl::{Level, Refusal};
    ///
    /// assert_eq!(Level::decibels(-6.0), Level::new(60));
    /// assert_eq!(Level::decibels(0.0), Ok(Level::FULL));
    /// assert_eq!(Level::decibels(-60.0), Level::new(600));
    /// assert_eq!(Level::decibels(f32::NEG_INFINITY), Ok(Level::SILENCE));
    /// assert_eq!(Level::decibels(0.1), Err(Refusal::Decibels));
    /// ```
    ///
    /// # Errors
    ///
    /// [`Refusal::Decibels`] above 0, and for NaN.
    pub fn decibels(decibels: f32) -> Result<Self, Refusal> {
        if decibels.is_nan() || decibels > 0.0 {
            return Err(Refusal::Decibels);
        }
        // Exact: 24 bits times 4.
        let tenths = float_mode::plain(|| black_box(black_box(f64::from(decibels)) * -10.0));
        Ok(Self(tenths.round().min(601.0) as u32))
    }

    /// Tenths of a decibel below full level, 601 for silence.
    #[must_use]
    pub const fn tenths(self) -> u32 {
        self.0
    }

    /// What a sample is multiplied by: e / 2^24 exactly, for the largest whole number e with
    /// (e / 2^24)^200 * 10^tenths at most 1, and 0 for silence. kira's `Decibels::as_amplitude`.
    #[doc(alias = "as_amplitude")]
    #[must_use]
    pub fn amplitude(self) -> f32 {
        let mut amplitude = 0.0;
        // Never refused: a level is at most 601.
        float_mode::plain(|| ffi::amplitude(self.0, &mut amplitude));
        amplitude
    }
}

/// Fills a fade lane with levels in a straight line from `start` on the first frame to `end` on the
/// last, rounded down to tenths of a decibel. A single frame has the end level.
///
/// The lane's length is the number of frames. Pass each block its part of the lane: a fade can be
/// longer than a block, and block sizes do not change it.
///
/// ```
/// use cableowl::{Lanes, Level, Settings, Signals, StaticSound, fade_ramp};
///
/// let sound = [1.0; 2_000];
/// let mut voice = StaticSound::new(Settings::new(48_000), &sound)?;
/// let mut fade = [0.0; 600];
/// fade_ramp(Level::FULL, Level::SILENCE, &mut fade)?;
///
/// let mut lanes = Lanes::new();
/// let mut out = [0.0; 2 * 256];
/// for part in fade.chunks(256) {
///     let of_this_block = lanes.frames(part.len()).fade(part);
///     let out = &mut out[..2 * part.len()];
///     voice.process(&sound, of_this_block, 1.0 / 48_000.0, Signals::default(), out)?;
/// }
/// assert_eq!(fade[0], 1.0);
/// assert_eq!(fade[599], 0.0);
/// # Ok::<(), cableowl::Refusal>(())
/// ```
///
/// # Errors
///
/// [`Refusal::Ramp`] for an empty lane, or one longer than [`MAX_RAMP_FRAMES`]. Nothing is written.
pub fn fade_ramp(start: Level, end: Level, lane: &mut [f32]) -> Result<(), Refusal> {
    // A length above 32 bits is above the largest count too.
    let count = u32::try_from(lane.len()).unwrap_or(u32::MAX);
    Refusal::check(float_mode::plain(|| {
        ffi::fade_ramp(start.0, end.0, count, lane)
    }))
}
