// Stand-in for kira's Panning: the lanes contain a gain per channel.

/// The left and the right gain, where kira has one number from -1 to 1.
///
/// `Frame::panned` is compiled against the first of them, and never called.
#[derive(Debug, Clone, Copy, PartialEq)]
pub struct Panning(pub f32, pub f32);

impl Panning {
    pub const CENTER: Self = Self(1.0, 1.0);
}
