//! One block of a player: the input of its voice, where the frames go, who records it, and the frame in which it stops.

use std::ops::Range;

use crate::{
    BlockLanes, Commands, Lane, Lanes, Processed, Refusal, Signals, StaticSound, ffi,
    stopping::until_it_stops,
};

/// Where a call's frames go.
#[derive(Debug, Clone, Copy)]
pub enum Place {
    /// They replace the output.
    Out,
    /// They are added to the output.
    Mix,
}

/// Gets the commands and blocks of a player's voice.
pub trait Watch {
    /// Whether `played` is called.
    const RECORDS: bool = false;

    /// Whether each block must have constant lanes, and at most as many frames as a record.
    const CUTS: bool = false;

    /// The voice got these commands.
    fn commanded(&mut self, _: Commands) {}

    /// The voice, as it is now, played a block with these lanes, time step and signals.
    fn played(&mut self, _: BlockLanes<'_>, _: f64, _: Signals, _: &StaticSound, _: Processed) {}
}

/// Nobody.
impl Watch for () {}

/// The amplitudes, gains and rates of a block.
#[derive(Debug, Clone, Copy)]
pub enum Numbers<'a> {
    /// The same five for every frame.
    Held(ffi::Held),
    /// A lane for each.
    Lanes {
        fade: Lane<'a, f32>,
        volume: Lane<'a, f32>,
        left: Lane<'a, f32>,
        right: Lane<'a, f32>,
        rate: Lane<'a, f64>,
    },
}

/// The input of a voice for a block.
#[derive(Debug, Clone, Copy)]
pub struct Given<'a> {
    pub sound: &'a [f32],
    pub numbers: Numbers<'a>,
    pub time_step: f64,
    pub signals: Signals,
}

impl Given<'_> {
    /// Plays a part of the block into the same part of the output. The part at the beginning gets the
    /// signals.
    #[inline]
    pub fn play(
        &self,
        part: Range<usize>,
        voice: &mut StaticSound,
        lanes: &mut Lanes,
        out: &mut [f32],
    ) -> Result<Processed, Refusal> {
        let signals = match part.start {
            0 => self.signals,
            _ => Signals::new(),
        };
        // The caller cut the block so that it fits into the output.
        let out = out
            .get_mut(2 * part.start..2 * part.end)
            .unwrap_or_default();
        let (sound, time_step) = (self.sound, self.time_step);
        match self.numbers {
            Numbers::Held(held) => voice.process_held(sound, held, time_step, signals, out),
            Numbers::Lanes { .. } => {
                let lanes = self.lanes(part, lanes);
                voice.process(sound, lanes, time_step, signals, out)
            }
        }
    }

    /// The lanes of a part of the block.
    pub fn lanes<'l>(&'l self, part: Range<usize>, lanes: &'l mut Lanes) -> BlockLanes<'l> {
        let lanes = lanes.frames(part.len());
        match self.numbers {
            Numbers::Held(held) => lanes
                .fade(held.fade)
                .volume(held.volume)
                .left(held.left)
                .right(held.right)
                .rate(held.rate),
            Numbers::Lanes {
                fade,
                volume,
                left,
                right,
                rate,
            } => lanes
                .fade(fade.part(&part))
                .volume(volume.part(&part))
                .left(left.part(&part))
                .right(right.part(&part))
                .rate(rate.part(&part)),
        }
    }

    /// Plays the block up to the frame in which the sound ends, or all of it. Returns the frames played
    /// and their counts.
    #[inline]
    pub fn play_all(
        &self,
        frames: usize,
        voice: &mut StaticSound,
        lanes: &mut Lanes,
        out: &mut [f32],
    ) -> Result<(usize, Processed), Refusal> {
        until_it_stops(voice, frames, |part, voice| {
            self.play(part, voice, lanes, out)
        })
    }
}
