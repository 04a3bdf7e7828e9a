//! docs/formats/SETTINGS.md as Rust: what bytes load as, what words are stored as, and the rate with a pitch.
#![warn(missing_docs)]

/// Saved settings for the C entries: eight words.
#[repr(C)]
#[derive(Debug, Clone, Copy, Default, PartialEq, Eq)]
pub struct Words {
    /// The frame to start at.
    pub start: u64,
    /// 0 for no loop, 1 for one.
    pub has_loop: u64,
    /// The loop's first frame.
    pub loop_start: u64,
    /// The loop's end, exclusive.
    pub loop_end: u64,
    /// 0 or 1.
    pub reverse: u64,
    /// The bits of the rate.
    pub rate: u64,
    /// -24 to 24.
    pub pitch: i64,
    /// 1 or 2.
    pub version: u64,
}

unsafe extern "C" {
    fn cableowl_store_settings(saved: *const Words, buffer: *mut u8, buffer_len: usize) -> u32;
    fn cableowl_load_settings(
        reader: u32,
        bytes: *const u8,
        bytes_len: usize,
        saved: *mut Words,
    ) -> u32;
}

/// The compiled store.
pub fn store(words: &Words, buffer: &mut [u8]) -> u32 {
    // The library that links the archive.
    let _ = cableowl::version;
    // SAFETY: `words` is eight words, and the buffer comes with its length.
    unsafe { cableowl_store_settings(words, buffer.as_mut_ptr(), buffer.len()) }
}

/// The compiled load; the words are not zero before it.
#[must_use]
pub fn load(reader: u32, bytes: &[u8]) -> (u32, Words) {
    let mut words = Words {
        start: 7,
        version: 7,
        pitch: 7,
        ..Words::default()
    };
    // SAFETY: the bytes come with their length, and `words` is eight words.
    let refusal =
        unsafe { cableowl_load_settings(reader, bytes.as_ptr(), bytes.len(), &mut words) };
    (refusal, words)
}

/// What a load must return.
#[must_use]
pub fn loaded(reader: u32, bytes: &[u8]) -> (u32, Words) {
    match parsed(reader, bytes) {
        Ok(words) => (0, words),
        Err(refusal) => (refusal, Words::default()),
    }
}

fn parsed(reader: u32, bytes: &[u8]) -> Result<Words, u32> {
    let byte = |at: usize| bytes.get(at).copied().ok_or(18_u32);
    for (at, mark) in [0x5e, 0x71].into_iter().enumerate() {
        if byte(at)? != mark {
            return Err(15);
        }
    }
    let version = byte(2)?;
    let known = match reader {
        1 => version == 1,
        _ => version == 1 || version == 2,
    };
    if !known {
        return Err(23);
    }
    let length = 20 + version;
    if byte(3)? != length {
        return Err(24);
    }
    let payload = bytes.get(4..4 + usize::from(length)).ok_or(18_u32)?;
    let number = |at: usize| u32::from_le_bytes(payload[at..at + 4].try_into().unwrap());
    let rate = f64::from_le_bytes(payload[13..21].try_into().unwrap());
    let (start, from, to, flag) = (number(0), number(4), number(8), payload[12]);
    let pitch = payload.get(21).map_or(0, |byte| byte.cast_signed());
    let loops = (from, to) == (0, 0) || from < to;
    if !loops || flag > 1 || !rate.is_finite() || !(-24..=24).contains(&pitch) {
        return Err(24);
    }
    Ok(Words {
        start: start.into(),
        has_loop: u64::from((from, to) != (0, 0)),
        loop_start: from.into(),
        loop_end: to.into(),
        reverse: flag.into(),
        rate: rate.to_bits(),
        pitch: pitch.into(),
        version: version.into(),
    })
}

/// What a store must do: the record's bytes, or a refusal.
pub fn stored(words: &Words, room: usize) -> Result<Vec<u8>, u32> {
    let number = |word: u64| u32::try_from(word).map_err(|_| 24_u32);
    let (start, from, to) = (
        number(words.start)?,
        number(words.loop_start)?,
        number(words.loop_end)?,
    );
    let loops = match words.has_loop {
        0 => from == 0 && to == 0,
        1 => from < to,
        _ => false,
    };
    let pitches = match words.version {
        1 => 0..=0,
        2 => -24..=24,
        _ => return Err(24),
    };
    let rate = f64::from_bits(words.rate);
    if !loops || words.reverse > 1 || !rate.is_finite() || !pitches.contains(&words.pitch) {
        return Err(24);
    }
    let mut bytes = vec![0x5e, 0x71, words.version as u8, 20 + words.version as u8];
    for word in [start, from, to] {
        bytes.extend(word.to_le_bytes());
    }
    bytes.push(words.reverse as u8);
    bytes.extend(words.rate.to_le_bytes());
    if words.version == 2 {
        bytes.push(words.pitch as u8);
    }
    if bytes.len() > room {
        return Err(19);
    }
    Ok(bytes)
}

/// The largest e with e^12 at most 2^(n + 576), found by bisection, in whole numbers of any size.
#[must_use]
pub fn semitone(n: u32) -> u64 {
    let limit = fades::Whole::power_of_two(n + 576);
    let fits = |e: u64| fades::Whole::from(e).power(12) <= limit;
    let (mut fitting, mut too_large) = (0, 1 << 50);
    while too_large - fitting > 1 {
        let middle = u64::midpoint(fitting, too_large);
        if fits(middle) {
            fitting = middle;
        } else {
            too_large = middle;
        }
    }
    fitting
}

/// e * 2^(o - 48), which an f64 represents exactly.
#[must_use]
pub fn ratio(pitch: i32) -> f64 {
    let (octave, n) = (pitch.div_euclid(12), pitch.rem_euclid(12));
    let e = semitone(n as u32);
    let ratio = e as f64 * 2.0_f64.powi(octave - 48);
    assert_eq!((ratio * 2.0_f64.powi(48 - octave)) as u64, e);
    ratio
}
