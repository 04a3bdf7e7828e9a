//! What a player needs for its blocks: the table of levels, the gains of a panning, buffers for lanes and frames.

use std::{f32::consts::SQRT_2, fmt, sync::OnceLock};

use crate::{Lane, Lanes, Level, MAX_BLOCK_FRAMES, fade_ramp};

/// The amplitude of each level.
pub type Amplitudes = [f32; 602];

/// The table, made once for all players, when the first is created.
pub fn amplitudes() -> &'static Amplitudes {
    static TABLE: OnceLock<Amplitudes> = OnceLock::new();
    TABLE.get_or_init(|| {
        let mut table = [0.0; 602];
        // One frame per level; never refused.
        let _ = fade_ramp(Level::FULL, Level::SILENCE, &mut table);
        table
    })
}

/// The gains of one panning. Most sounds are in the middle, and then no root is taken.
pub fn gains_once(panning: f64) -> (f32, f32) {
    match panning {
        0.0 => (1.0, 1.0),
        _ => gains(panning),
    }
}

/// The gains of a panning, as kira's `Frame::panned` has them.
pub fn gains(panning: f64) -> (f32, f32) {
    let panning = panning as f32;
    let right = (panning.clamp(-1.0, 1.0) + 1.0) * 0.5;
    let gains = ((1.0 - right).sqrt() * SQRT_2, right.sqrt() * SQRT_2);
    // Chosen last, so that a loop over gains vectorises.
    if panning == 0.0 { (1.0, 1.0) } else { gains }
}

/// The lanes of both gains of a lane of pannings.
pub fn gain_lanes<'a>(
    panning: Lane<f64>,
    left: &'a mut [f32],
    right: &'a mut [f32],
) -> (Lane<'a, f32>, Lane<'a, f32>) {
    match panning {
        Lane::Constant(panning) => {
            let (left, right) = gains_once(panning);
            (Lane::Constant(left), Lane::Constant(right))
        }
        Lane::PerFrame(pannings) => {
            for ((panning, left), right) in pannings.iter().zip(&mut *left).zip(&mut *right) {
                (*left, *right) = gains(*panning);
            }
            (Lane::PerFrame(left), Lane::PerFrame(right))
        }
    }
}

/// Buffers for a block's lanes and frames, allocated once.
pub struct Room {
    pub lanes: Lanes,
    pub buffers: LaneBuffers,
    pub played: Vec<f32>,
}

/// A buffer for each lane of a block, and for its pannings.
pub struct LaneBuffers {
    pub fade: Vec<f32>,
    pub volume: Vec<f32>,
    pub left: Vec<f32>,
    pub right: Vec<f32>,
    pub rate: Vec<f64>,
    pub panning: Vec<f64>,
}

impl Room {
    pub fn new() -> Self {
        let lane = || vec![0.0; MAX_BLOCK_FRAMES];
        let buffers = LaneBuffers {
            fade: lane(),
            volume: lane(),
            left: lane(),
            right: lane(),
            rate: vec![0.0; MAX_BLOCK_FRAMES],
            panning: vec![0.0; MAX_BLOCK_FRAMES],
        };
        Self {
            lanes: Lanes::new(),
            buffers,
            played: vec![0.0; 2 * MAX_BLOCK_FRAMES],
        }
    }
}

/// The first numbers of a lane's buffer, one per frame of a block, which never has more frames.
pub fn first<N>(room: &mut [N], frames: usize) -> &mut [N] {
    room.get_mut(..frames).unwrap_or_default()
}

/// A clone has buffers of the same size; their contents do not last from block to block.
impl Clone for Room {
    fn clone(&self) -> Self {
        Self::new()
    }
}

/// Its contents belong to the last block.
impl fmt::Debug for Room {
    fn fmt(&self, f: &mut fmt::Formatter<'_>) -> fmt::Result {
        f.write_str("Room")
    }
}
