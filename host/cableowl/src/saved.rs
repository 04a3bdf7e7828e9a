//! A state as bytes, with a version and a check.

use std::{error::Error, fmt};

use crate::{Frame, PlaybackState, RecentFrame, Refusal, State, Wraps};

/// What a saved state begins with.
const MARK: [u8; 4] = *b"COwl";
/// The version that is written. Version 1, which has no wraps, can still be read.
const VERSION: u8 = 2;
const UNCOUNTED: u8 = 1;
/// Bytes before the check, in version 2 and in version 1.
const BODY: usize = 152;
const UNCOUNTED_BODY: usize = 144;
const CHECK: usize = 4;

/// The flags, one bit each.
const REVERSE: u8 = 1;
const STARTED: u8 = 2;
const PLAYING: u8 = 4;
const HAS_SLICE: u8 = 8;
const HAS_LOOP: u8 = 16;
const ALL_FLAGS: u8 = 31;

/// Why bytes are not a saved state or player. It converts to refusal 1.
#[derive(Debug, Clone, Copy, PartialEq, Eq, Hash)]
#[non_exhaustive]
pub enum Unreadable {
    /// They do not begin with the mark.
    Mark,
    /// They have a version that this library cannot read.
    Version(u8),
    /// They are too few or too many for their version.
    Length,
    /// The check does not match: the bytes were changed.
    Check,
    /// A byte or a number has a value that no saved state or player has.
    Value,
    /// They belong to a sound of another length.
    Sound,
}

impl Unreadable {
    /// The number of the refusal: 1.
    #[must_use]
    pub fn number(self) -> u32 {
        Refusal::from(self).number()
    }
}

impl fmt::Display for Unreadable {
    fn fmt(&self, f: &mut fmt::Formatter<'_>) -> fmt::Result {
        write!(f, "refusal {}: ", self.number())?;
        match self {
            Self::Mark => f.write_str("these bytes are not what was saved: they begin otherwise"),
            Self::Version(version) => write!(
                f,
                "these bytes are of version {version}, which this library does not read"
            ),
            Self::Length => f.write_str("these bytes are cut short, or more follow their end"),
            Self::Check => {
                f.write_str("these bytes were damaged: their check is not that of the rest")
            }
            Self::Value => f.write_str("one of these bytes means nothing"),
            Self::Sound => f.write_str(
                "the saved player is of another sound: pass the samples it was created with",
            ),
        }
    }
}

impl Error for Unreadable {}

impl From<Unreadable> for Refusal {
    fn from(_: Unreadable) -> Self {
        Self::State
    }
}

impl State {
    /// The state as bytes, to be saved. Numbers are little-endian, floats by their bits.
    ///
    /// | bytes | contents |
    /// |---|---|
    /// | 0 to 3 | the mark: `43 4F 77 6C`, "COwl" |
    /// | 4 | the version: 2 |
    /// | 5 | the playback state, 0 to 6 |
    /// | 6 | bit 0 reverse, 1 started, 2 playing, 3 a slice is given, 4 a loop is given; the others 0 |
    /// | 7 | 0 |
    /// | 8 to 11 | the sample rate |
    /// | 12 to 15 | the window's count |
    /// | 16 to 23 | all frames of the sound |
    /// | 24 to 39 | the slice's start and end, 8 bytes each; 0 if there is none |
    /// | 40 to 47 | the position |
    /// | 48 to 63 | the loop's start and end, 8 bytes each; 0 if there is none |
    /// | 64 to 71 | the held rate |
    /// | 72 to 79 | the fraction |
    /// | 80 to 143 | the window's four entries, oldest first: left (4), right (4), frame index (8) |
    /// | 144 to 151 | the wraps, forward and backward, 4 bytes each |
    /// | 152 to 155 | the check: CRC-32 of all bytes before it, as in zip and PNG |
    ///
    /// Version 1 has no wraps and its check is at 144 to 147; it is read with both counts 0. A later
    /// version will add fields before the check, and this layout will stay readable.
    ///
    /// ```
    /// use cableowl::{Settings, State, StaticSound};
    ///
    /// let sound = [0.5; 20];
    /// let voice = StaticSound::new(Settings::new(48_000), &sound)?;
    /// let saved: Vec<u8> = voice.state().to_bytes();
    ///
    /// let again = StaticSound::from_state(State::from_bytes(&saved)?, &sound)?;
    /// assert_eq!(again.state(), voice.state());
    /// # Ok::<(), cableowl::Refusal>(())
    /// ```
    #[must_use]
    pub fn to_bytes(&self) -> Vec<u8> {
        let flags = [
            (REVERSE, self.reverse),
            (STARTED, self.started),
            (PLAYING, self.playing),
            (HAS_SLICE, self.slice.is_some()),
            (HAS_LOOP, self.loop_region.is_some()),
        ];
        let flags = flags.iter().fold(0, |set, &(flag, is_set)| {
            set | if is_set { flag } else { 0 }
        });
        let (slice_start, slice_end) = self.slice.unwrap_or_default();
        let (loop_start, loop_end) = self.loop_region.unwrap_or_default();
        let mut bytes = Vec::with_capacity(BODY + CHECK);
        bytes.extend(MARK);
        bytes.extend([VERSION, self.playback_state.number() as u8, flags, 0]);
        bytes.extend(self.sample_rate.to_le_bytes());
        bytes.extend(self.time_until_empty.to_le_bytes());
        for number in [
            self.num_frames,
            slice_start,
            slice_end,
            self.position,
            loop_start,
            loop_end,
        ] {
            bytes.extend((number as u64).to_le_bytes());
        }
        bytes.extend(self.playback_rate.to_bits().to_le_bytes());
        bytes.extend(self.fractional_position.to_bits().to_le_bytes());
        for recent in self.window {
            bytes.extend(recent.frame.left.to_bits().to_le_bytes());
            bytes.extend(recent.frame.right.to_bits().to_le_bytes());
            bytes.extend((recent.frame_index as u64).to_le_bytes());
        }
        bytes.extend(self.wraps.forward.to_le_bytes());
        bytes.extend(self.wraps.backward.to_le_bytes());
        let check = crc_32(&bytes);
        bytes.extend(check.to_le_bytes());
        bytes
    }

    /// Reads a saved state. [`StaticSound::from_state`](crate::StaticSound::from_state) then checks
    /// whether it is well formed and fits the sound.
    ///
    /// ```
    /// use cableowl::{Settings, State, StaticSound, Unreadable};
    ///
    /// let mut saved = StaticSound::new(Settings::new(48_000), &[0.5; 20])?.state().to_bytes();
    /// saved[40] += 1;
    /// assert_eq!(State::from_bytes(&saved), Err(Unreadable::Check));
    /// assert_eq!(State::from_bytes(b"RIFF"), Err(Unreadable::Mark));
    /// assert_eq!(Unreadable::Mark.number(), 1);
    /// # Ok::<(), cableowl::Refusal>(())
    /// ```
    ///
    /// # Errors
    ///
    /// The reason, if the bytes are not what [`State::to_bytes`] writes or wrote in version 1.
    pub fn from_bytes(bytes: &[u8]) -> Result<Self, Unreadable> {
        let rest = bytes.strip_prefix(&MARK).ok_or(Unreadable::Mark)?;
        let (length, counted) = match rest.first() {
            None => return Err(Unreadable::Length),
            Some(&UNCOUNTED) => (UNCOUNTED_BODY, false),
            Some(&VERSION) => (BODY, true),
            Some(&version) => return Err(Unreadable::Version(version)),
        };
        let (body, check) = bytes
            .split_at_checked(length)
            .filter(|(_, check)| check.len() == CHECK)
            .ok_or(Unreadable::Length)?;
        if crc_32(body).to_le_bytes() != check {
            return Err(Unreadable::Check);
        }
        Reader(&body[MARK.len() + 1..])
            .state(counted)
            .ok_or(Unreadable::Value)
    }
}

/// The bytes not yet read.
pub struct Reader<'a>(pub &'a [u8]);

impl Reader<'_> {
    pub fn take<const N: usize>(&mut self) -> Option<[u8; N]> {
        let (taken, rest) = self.0.split_first_chunk()?;
        self.0 = rest;
        Some(*taken)
    }

    pub fn byte(&mut self) -> Option<u8> {
        self.take().map(u8::from_le_bytes)
    }

    pub fn word(&mut self) -> Option<u32> {
        self.take().map(u32::from_le_bytes)
    }

    pub fn double_word(&mut self) -> Option<u64> {
        self.take().map(u64::from_le_bytes)
    }

    fn number(&mut self) -> Option<usize> {
        usize::try_from(self.double_word()?).ok()
    }

    /// Two numbers; both are 0 if there is no region.
    fn region(&mut self, given: bool) -> Option<Option<(usize, usize)>> {
        match (given, (self.number()?, self.number()?)) {
            (true, region) => Some(Some(region)),
            (false, (0, 0)) => Some(None),
            (false, _) => None,
        }
    }

    fn recent_frame(&mut self) -> Option<RecentFrame> {
        Some(RecentFrame {
            frame: Frame {
                left: f32::from_bits(self.word()?),
                right: f32::from_bits(self.word()?),
            },
            frame_index: self.number()?,
        })
    }

    /// The counts, if the version has them.
    fn wraps(&mut self, counted: bool) -> Option<Wraps> {
        if !counted {
            return Some(Wraps::default());
        }
        Some(Wraps {
            forward: self.word()?,
            backward: self.word()?,
        })
    }

    /// The state, from the byte after the version on; `None` if a byte has no meaning.
    fn state(&mut self, counted: bool) -> Option<State> {
        let playback_state = PlaybackState::from_number(self.byte()?.into())?;
        let flags = self.byte()?;
        if flags & !ALL_FLAGS != 0 || self.byte()? != 0 {
            return None;
        }
        let is_set = |flag| flags & flag != 0;
        Some(State {
            playback_state,
            reverse: is_set(REVERSE),
            started: is_set(STARTED),
            playing: is_set(PLAYING),
            sample_rate: self.word()?,
            time_until_empty: self.word()?,
            num_frames: self.number()?,
            slice: self.region(is_set(HAS_SLICE))?,
            position: self.number()?,
            loop_region: self.region(is_set(HAS_LOOP))?,
            playback_rate: f64::from_bits(self.double_word()?),
            fractional_position: f64::from_bits(self.double_word()?),
            window: [
                self.recent_frame()?,
                self.recent_frame()?,
                self.recent_frame()?,
                self.recent_frame()?,
            ],
            wraps: self.wraps(counted)?,
        })
    }
}

/// The check of zip, PNG and Ethernet: polynomial 0x04C11DB7, bits reversed.
pub fn crc_32(bytes: &[u8]) -> u32 {
    let shifted = |crc: u32, _| (crc >> 1) ^ (0xedb8_8320 * (crc & 1));
    let with_byte = |crc: u32, byte: &u8| (0..8).fold(crc ^ u32::from(*byte), shifted);
    !bytes.iter().fold(u32::MAX, with_byte)
}

#[cfg(test)]
mod test {
    use super::*;

    #[test]
    fn the_check_is_crc_32() {
        assert_eq!(crc_32(b"123456789"), 0xcbf4_3926);
    }
}
