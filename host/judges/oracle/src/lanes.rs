// The lanes of a block, borrowed or owned.

/// The borrowed lanes of one block: one entry per output frame in each.
#[derive(Debug, Clone, Copy)]
pub struct Lanes<'a> {
    /// Fade amplitudes.
    pub fade: &'a [f32],
    /// Volume amplitudes.
    pub volume: &'a [f32],
    /// Gains of the left channel.
    pub left: &'a [f32],
    /// Gains of the right channel.
    pub right: &'a [f32],
    /// Interpolated rates.
    pub rate: &'a [f64],
}

/// Lanes that own their numbers, so that a block can use them without a copy.
#[derive(Debug, Clone, Default)]
pub struct LaneBuffers {
    /// Fade amplitudes.
    pub fade: Vec<f32>,
    /// Volume amplitudes.
    pub volume: Vec<f32>,
    /// Gains of the left channel.
    pub left: Vec<f32>,
    /// Gains of the right channel.
    pub right: Vec<f32>,
    /// Interpolated rates.
    pub rate: Vec<f64>,
}

impl LaneBuffers {
    /// Lanes of `n` frames, each the same number.
    #[must_use]
    pub fn constant(n: usize, fade: f32, volume: f32, gains: (f32, f32), rate: f64) -> Self {
        Self {
            fade: vec![fade; n],
            volume: vec![volume; n],
            left: vec![gains.0; n],
            right: vec![gains.1; n],
            rate: vec![rate; n],
        }
    }

    /// These lanes, borrowed.
    #[must_use]
    pub fn as_lanes(&self) -> Lanes<'_> {
        Lanes {
            fade: &self.fade,
            volume: &self.volume,
            left: &self.left,
            right: &self.right,
            rate: &self.rate,
        }
    }

    /// Copies the numbers of borrowed lanes into its own buffers.
    pub fn copy_from(&mut self, lanes: &Lanes) {
        refill(&mut self.fade, lanes.fade);
        refill(&mut self.volume, lanes.volume);
        refill(&mut self.left, lanes.left);
        refill(&mut self.right, lanes.right);
        refill(&mut self.rate, lanes.rate);
    }

    /// The number of frames of every lane.
    pub(crate) fn shortest(&self) -> usize {
        [&self.fade, &self.volume, &self.left, &self.right]
            .iter()
            .map(|lane| lane.len())
            .fold(self.rate.len(), usize::min)
    }
}

fn refill<T: Copy>(held: &mut Vec<T>, given: &[T]) {
    held.clear();
    held.extend_from_slice(given);
}
