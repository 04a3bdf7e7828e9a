// Stand-in for kira's tweens: the host computes them, so nothing remains of them here.

/// A tween; the lanes have its values.
#[derive(Debug, Clone, Copy, PartialEq, Default)]
pub struct Tween;

/// What kira can interpolate.
pub trait Tweenable: Copy {
    fn interpolate(a: Self, b: Self, amount: f64) -> Self;
}

impl Tweenable for f64 {
    fn interpolate(a: Self, b: Self, amount: f64) -> Self {
        a + (b - a) * amount
    }
}
