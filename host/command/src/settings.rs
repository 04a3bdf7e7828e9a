//! `cableowl settings`: shows saved settings in words, and saves settings.

use std::{io::Read, path::Path};

use cableowl::{Refusal, SavedSettings, SettingsVersion};

use crate::{
    fault::{Fault, Result},
    input::{FileKind, Input},
    out::{Fresh, Out, free, shown},
    plot::{counted, grouped},
};

/// The longest record.
const LONGEST: usize = SettingsVersion::Second.size();

/// Shows saved settings, for a sound of this many frames per second.
pub fn show(file: &Path, rate: u32, out: &mut Out<'_>) -> Result<()> {
    let mut input = Input::open(file)?;
    input.kind()?;
    input.must_be(&[FileKind::Settings], "saved settings")?;
    // One byte more shows whether any follow; the rest is not read.
    let mut bytes = Vec::new();
    let read = (&mut input)
        .take(LONGEST as u64 + 1)
        .read_to_end(&mut bytes);
    read.map_err(|error| input.unread(&error))?;
    let loaded = SavedSettings::load(SettingsVersion::Second, &bytes);
    let (saved, version) = loaded.map_err(|refusal| {
        let place = place(&bytes, refusal);
        input.wrong(format_args!("at byte {place}: {refusal}"))
    })?;
    put(&saved, version, rate, out)?;
    match bytes.len() > version.size() {
        true => out.put(format!(
            "bytes follow the record, from byte {} on, and were not read\n",
            version.size()
        )),
        false => Ok(()),
    }
}

/// What the settings say, and what a voice does with them.
fn put(
    saved: &SavedSettings,
    version: SettingsVersion,
    rate: u32,
    out: &mut Out<'_>,
) -> Result<()> {
    let seconds = |frames: u32| format!("{:.3} s", f64::from(frames) / f64::from(rate));
    let frame = |frame: u32| format!("frame {} ({})", grouped(frame.into()), seconds(frame));
    let frames = |frames: u32| format!("{} ({})", counted(frames.into(), "frame"), seconds(frames));
    let start = match saved.reverse {
        true => format!("{} before the sound's last frame", frames(saved.start)),
        false => frame(saved.start),
    };
    let looped = match saved.loop_region {
        Some((start, end)) => format!(
            "from {} up to {}, {} long",
            frame(start),
            frame(end),
            frames(end.saturating_sub(start))
        ),
        None => "none".into(),
    };
    let held = saved.settings(rate).playback_rate;
    let (direction, with_pitch) = match held.is_finite() {
        true => (direction(saved.reverse, held), format!("{held:?}")),
        false => (
            "none: no voice can be created with this rate",
            format!(
                "{held:?}: creation refuses it ({}): lower the rate or the pitch",
                Refusal::PlaybackRate
            ),
        ),
    };
    let lines = [
        ("version", (version as u32).to_string()),
        ("start", start),
        ("loop", looped),
        ("direction", direction.into()),
        ("rate", format!("{:?}", saved.playback_rate)),
        ("pitch", counted_semitones(saved.pitch)),
        ("rate with the pitch", with_pitch),
        (
            "seconds",
            format!(
                "at {} frames a second; --rate HZ gives another",
                grouped(rate.into())
            ),
        ),
    ];
    for (name, says) in lines {
        out.put(format!("{name:<20}{says}\n"))?;
    }
    Ok(())
}

/// The direction in which the voice plays: reverse and a rate with a minus sign cancel each other.
fn direction(reverse: bool, held: f64) -> &'static str {
    match (reverse, held.is_sign_negative()) {
        (false, false) => "forward",
        (true, false) => "backward, because of reverse",
        (false, true) => "backward, because the rate has a minus sign",
        (true, true) => "forward: reverse, and the minus sign of the rate turns it round again",
    }
}

fn counted_semitones(pitch: i8) -> String {
    match pitch {
        1 | -1 => format!("{pitch} semitone"),
        _ => format!("{pitch} semitones"),
    }
}

/// A position in a sound, with its unit.
#[derive(Debug, Clone, Copy, PartialEq)]
pub enum Place {
    /// In seconds.
    Seconds(f64),
    /// In frames.
    Frames(u32),
}

impl Place {
    /// `6.2s` or `273420f`.
    pub fn read(text: &str) -> Option<Self> {
        if let Some(seconds) = text.strip_suffix('s') {
            let seconds = seconds.parse().ok();
            let good = |seconds: &f64| seconds.is_finite() && *seconds >= 0.0;
            return seconds.filter(good).map(Self::Seconds);
        }
        let frames = text.strip_suffix('f')?;
        let bare = frames.bytes().all(|byte| byte.is_ascii_digit());
        frames.parse().ok().filter(|_| bare).map(Self::Frames)
    }

    /// Its frame, by docs/assurance/RULES.md, "Seconds to frames", if a record can hold it.
    pub fn frame(self, rate: u32) -> Result<u32> {
        match self {
            Self::Frames(frame) => Ok(frame),
            Self::Seconds(seconds) => {
                let frame = (seconds * f64::from(rate)).round();
                match frame <= f64::from(u32::MAX) {
                    true => Ok(frame as u32),
                    false => Err(Fault::usage(format!(
                        "{seconds}s is too far: the last frame is {}",
                        grouped(u32::MAX.into())
                    ))),
                }
            }
        }
    }
}

/// A part of a sound, end exclusive.
#[derive(Debug, Clone, Copy, PartialEq)]
pub struct Part {
    start: Place,
    end: Place,
}

impl Part {
    /// `6.2s..10.9s`.
    pub fn read(text: &str) -> Option<Self> {
        let (start, end) = text.split_once("..")?;
        Some(Self {
            start: Place::read(start)?,
            end: Place::read(end)?,
        })
    }
}

/// Settings to save.
#[derive(Debug, Clone, Copy, PartialEq)]
pub struct Save {
    /// Where to start.
    pub start: Option<Place>,
    /// The loop.
    pub looped: Option<Part>,
    /// Whether to play in reverse.
    pub reverse: bool,
    /// The rate.
    pub speed: f64,
    /// The pitch.
    pub pitch: i8,
    /// The sound's frames per second.
    pub rate: u32,
    /// Whether the record is of version 1.
    pub first: bool,
}

/// Saves settings to a new file, and shows them.
pub fn save(save: &Save, to: &Path, out: &mut Out<'_>) -> Result<()> {
    free(to)?;
    let frame = |place: Place| place.frame(save.rate);
    let looped = match save.looped {
        Some(part) => Some((frame(part.start)?, frame(part.end)?)),
        None => None,
    };
    let saved = SavedSettings {
        start: save.start.map_or(Ok(0), frame)?,
        loop_region: looped,
        reverse: save.reverse,
        playback_rate: save.speed,
        pitch: save.pitch,
    };
    let version = match save.first {
        true => SettingsVersion::First,
        false => SettingsVersion::Second,
    };
    let mut record = [0; LONGEST];
    let length = saved.store(version, &mut record).map_err(|refusal| {
        Fault::refused(format!(
            "{}: these settings cannot be saved: {refusal}",
            shown(to)
        ))
    })?;
    let mut file = Fresh::begin(to)?;
    file.put(record.get(..length).unwrap_or_default())?;
    file.keep()?;
    put(&saved, version, save.rate, out)?;
    out.put(format!("{:<20}{}\n", "written to", shown(to)))
}

/// The byte to which a refusal applies: docs/formats/SETTINGS.md has the layout.
fn place(bytes: &[u8], refusal: Refusal) -> usize {
    let number = |from: usize| {
        let bytes = bytes
            .get(from..from + 4)
            .and_then(|bytes| bytes.try_into().ok());
        bytes.map_or(0, u32::from_le_bytes)
    };
    let at = |place: usize| bytes.get(place).copied().unwrap_or(0);
    match refusal {
        Refusal::Mark => usize::from(at(0) == 0x5e),
        Refusal::Version => 2,
        Refusal::SavedField if (at(2), at(3)) != (1, 21) && (at(2), at(3)) != (2, 22) => 3,
        Refusal::SavedField if (number(8), number(12)) != (0, 0) && number(8) >= number(12) => 8,
        Refusal::SavedField if at(16) > 1 => 16,
        Refusal::SavedField => {
            let rate = bytes.get(17..25).and_then(|bytes| bytes.try_into().ok());
            match rate.is_some_and(|bits| f64::from_le_bytes(bits).is_finite()) {
                true => 25,
                false => 17,
            }
        }
        _ => bytes.len(),
    }
}

#[cfg(test)]
mod tests {
    use super::*;

    #[test]
    fn a_refusal_is_told_its_byte() {
        let record: [u8; 26] = [
            0x5e, 0x71, 2, 22, 0x44, 0xac, 0, 0, 0, 0, 0, 0, 0, 0, 0, 0, 1, 0, 0, 0, 0, 0, 0, 0xf8,
            0xbf, 0xfb,
        ];
        assert!(SavedSettings::load(SettingsVersion::Second, &record).is_ok());
        for (at, byte, expected) in [
            (0, 0, 0),
            (1, 0, 1),
            (2, 3, 2),
            (3, 21, 3),
            (8, 1, 8),
            (16, 2, 16),
            (25, 25, 25),
        ] {
            let mut wrong = record;
            wrong[at] = byte;
            let refusal = SavedSettings::load(SettingsVersion::Second, &wrong).unwrap_err();
            assert_eq!(place(&wrong, refusal), expected, "byte {at}");
        }
        let mut wrong = record;
        wrong[23..25].copy_from_slice(&[0xf0, 0x7f]);
        let refusal = SavedSettings::load(SettingsVersion::Second, &wrong).unwrap_err();
        assert_eq!(place(&wrong, refusal), 17);
        for cut in 0..26 {
            let refusal = SavedSettings::load(SettingsVersion::Second, &record[..cut]).unwrap_err();
            assert_eq!(
                (refusal, place(&record[..cut], refusal)),
                (Refusal::Truncated, cut)
            );
        }
    }
}
