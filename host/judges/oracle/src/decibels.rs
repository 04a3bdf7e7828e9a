// Stand-in for kira's Decibels: the lanes contain amplitudes, so nothing is converted.

/// An amplitude, where kira has a volume in decibels.
#[derive(Debug, Clone, Copy, PartialEq)]
pub struct Decibels(pub f32);

impl Decibels {
    pub const SILENCE: Self = Self(0.0);
    pub const IDENTITY: Self = Self(1.0);

    #[inline]
    pub fn as_amplitude(self) -> f32 {
        self.0
    }
}
