//! The parameters of a player: volume, fade, playback rate and panning.

use super::{
    block::Numbers,
    room::{Amplitudes, LaneBuffers, amplitudes, first, gain_lanes, gains, gains_once},
    tween::Parameter,
};
use crate::{Lane, ffi};

#[derive(Debug, Clone, Copy)]
pub struct Parameters {
    /// Tenths of a decibel.
    pub volume: Parameter<u16>,
    pub fade: Parameter<u16>,
    pub rate: Parameter<f64>,
    pub panning: Parameter<f64>,
    amplitudes: &'static Amplitudes,
}

impl Parameters {
    /// Parameters at rest: this rate, full levels, the middle.
    pub fn new(rate: f64) -> Self {
        Self {
            volume: Parameter::new(0),
            fade: Parameter::new(0),
            rate: Parameter::new(rate),
            panning: Parameter::new(0.0),
            amplitudes: amplitudes(),
        }
    }

    /// The first frame from which none of them moves.
    fn ends(&self) -> u64 {
        let levels = self.fade.ends().max(self.volume.ends());
        levels.max(self.rate.ends()).max(self.panning.ends())
    }

    fn amplitude(&self, tenths: u16) -> f32 {
        let amplitude = self.amplitudes.get(usize::from(tenths)).copied();
        amplitude.unwrap_or_default()
    }

    /// The numbers of this frame and all later ones, if none of them moves any more.
    #[inline]
    pub fn at_rest(&self, frame: u64) -> Option<ffi::Held> {
        if frame < self.ends() {
            return None;
        }
        let (left, right) = gains_once(self.panning.to);
        Some(ffi::Held {
            fade: self.amplitude(self.fade.to),
            volume: self.amplitude(self.volume.to),
            left,
            right,
            rate: self.rate.to,
        })
    }

    /// The lanes of the frames from this one on: as many as asked for, or fewer if the direction turns.
    #[inline(never)]
    pub fn lanes<'a>(
        &self,
        frame: u64,
        frames: usize,
        buffers: &'a mut LaneBuffers,
    ) -> (usize, Numbers<'a>) {
        let rate = self.rate.lane(frame, first(&mut buffers.rate, frames));
        let frames = match self.rate.may_turn() {
            true => one_direction(rate).min(frames),
            false => frames,
        };
        let panning = first(&mut buffers.panning, frames);
        let left = first(&mut buffers.left, frames);
        let right = first(&mut buffers.right, frames);
        let (left, right) = gain_lanes(self.panning.lane(frame, panning), left, right);
        let fade = first(&mut buffers.fade, frames);
        let volume = first(&mut buffers.volume, frames);
        let amplitude = |tenths| self.amplitude(tenths);
        let numbers = Numbers::Lanes {
            fade: self.fade.lane(frame, fade, amplitude),
            volume: self.volume.lane(frame, volume, amplitude),
            left,
            right,
            rate,
        };
        (frames, numbers)
    }

    /// How many frames from this one on, up to this many, have the same numbers in every lane.
    pub fn constant_frames(&self, frame: u64, most: usize) -> usize {
        if frame >= self.ends() {
            return most;
        }
        let numbers = |frame| {
            let (rate, gains) = (self.rate.at(frame), gains(self.panning.at(frame)));
            let levels = (self.fade.at(frame), self.volume.at(frame));
            (rate.to_bits(), gains.0.to_bits(), gains.1.to_bits(), levels)
        };
        let first = numbers(frame);
        let same = |frame: &u64| numbers(*frame) == first;
        (frame..).take(most).take_while(same).count()
    }
}

/// How many frames, from the first on, have its direction.
fn one_direction(rate: Lane<f64>) -> usize {
    match rate {
        Lane::Constant(_) => usize::MAX,
        Lane::PerFrame(rates) => {
            let backward = rates.first().is_some_and(|rate| rate.is_sign_negative());
            let same = |rate: &&f64| rate.is_sign_negative() == backward;
            rates.iter().take_while(same).count()
        }
    }
}
