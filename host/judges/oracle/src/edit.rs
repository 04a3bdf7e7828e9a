//! The only edit made to kira's text: panning becomes one product per channel.

/// The line of kira's `sound.rs` that is replaced, without its indentation.
pub const ORIGINAL: &str = "*frame = (resampler_out * fade_volume * volume).panned(panning);";

/// The line that replaces it: the reading times fade, times volume, times the channel's gain.
pub const REPLACEMENT: &str = "*frame = Frame::new(resampler_out.left * fade_volume * volume * panning.0, resampler_out.right * fade_volume * volume * panning.1);";

/// Makes the edit.
///
/// # Panics
/// Unless the original line occurs exactly once.
pub fn apply(text: &str) -> String {
    assert_eq!(
        text.matches(ORIGINAL).count(),
        1,
        "the line to edit must be there exactly once"
    );
    text.replace(ORIGINAL, REPLACEMENT)
}
