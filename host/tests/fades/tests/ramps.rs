//! Compares ramps with the formula: every pair of levels for few frames, random pairs for many; and what is refused.

use cableowl::{Level, MAX_RAMP_FRAMES, Refusal, fade_ramp};
use random::Random;

/// The amplitudes of all levels, by their bits.
fn amplitudes() -> Vec<u32> {
    let levels = 0..=601;
    levels
        .map(|t| Level::new(t).unwrap().amplitude().to_bits())
        .collect()
}

fn compare(start: u32, end: u32, amplitudes: &[u32], lane: &mut [f32]) {
    let n = lane.len();
    lane.fill(f32::NAN);
    let levels = [start, end].map(|t| Level::new(t).unwrap());
    assert_eq!(fade_ramp(levels[0], levels[1], lane), Ok(()));
    for (i, amplitude) in lane.iter().enumerate() {
        let level = fades::level(start, end, n, i);
        assert!((start.min(end)..=start.max(end)).contains(&level));
        assert_eq!(
            amplitude.to_bits(),
            amplitudes[level as usize],
            "{start} to {end}, frame {i} of {n}"
        );
    }
}

#[test]
fn every_pair_for_few_frames() {
    let amplitudes = amplitudes();
    let mut lane = [0.0; 8];
    for start in 0..=601 {
        for end in 0..=601 {
            for n in 1..=8 {
                compare(start, end, &amplitudes, &mut lane[..n]);
            }
        }
    }
}

#[test]
fn random_pairs_for_many_frames() {
    let amplitudes = amplitudes();
    let mut random = Random::new(101);
    let mut lane = vec![0.0; MAX_RAMP_FRAMES];
    for round in 0..400 {
        let n = match round % 4 {
            0 => MAX_RAMP_FRAMES,
            _ => 1 + random.below(MAX_RAMP_FRAMES),
        };
        let [start, end] = [random.below(602), random.below(602)];
        compare(start as u32, end as u32, &amplitudes, &mut lane[..n]);
    }
}

#[test]
fn three_frames_round_down_both_ways() {
    let levels = |start, end| [0, 1, 2].map(|i| fades::level(start, end, 3, i));
    assert_eq!(levels(1, 0), [1, 0, 0]);
    assert_eq!(levels(0, 1), [0, 0, 1]);
    assert_eq!(levels(0, 601), [0, 300, 601]);
}

#[test]
fn a_refused_ramp_writes_nothing() {
    for n in [0, MAX_RAMP_FRAMES + 1] {
        let mut lane = vec![7.0; n];
        assert_eq!(
            fade_ramp(Level::FULL, Level::SILENCE, &mut lane),
            Err(Refusal::Ramp)
        );
        assert!(lane.iter().all(|x| *x == 7.0));
    }
    assert_eq!(Level::new(602), Err(Refusal::Level));
    assert_eq!(Level::new(u32::MAX), Err(Refusal::Level));
}

unsafe extern "C" {
    fn cableowl_fade_ramp(start: u32, end: u32, count: u32, lane: *mut f32, lane_len: usize)
    -> u32;
    fn cableowl_amplitude(level: u32, to: *mut f32) -> u32;
}

/// The C entries on any numbers: the refusal is the first that applies, and then nothing is written.
#[test]
fn any_levels_and_counts() {
    let mut random = Random::new(13);
    let mut lane = vec![0.0_f32; 40];
    let near = |random: &mut Random, around: usize| match random.below(4) {
        0 => random.word() as u32,
        1 => (around + random.below(3)).wrapping_sub(1) as u32,
        _ => random.below(around + 2) as u32,
    };
    for _ in 0..2_000_000 {
        let [start, end] = [(); 2].map(|()| near(&mut random, 601));
        let room = random.below(41);
        let count = match random.below(3) {
            0 => near(&mut random, 65_536),
            _ => room as u32,
        };
        let expected = match () {
            () if start > 601 || end > 601 => 13,
            () if !(1..=65_536).contains(&count) || count as usize != room => 14,
            () => 0,
        };
        lane.fill(7.0);
        // SAFETY: the pointer comes with the length of the lane.
        let refusal = unsafe { cableowl_fade_ramp(start, end, count, lane.as_mut_ptr(), room) };
        assert_eq!(refusal, expected, "{start} to {end}, {count} in {room}");
        let written = if refusal == 0 { room } else { 0 };
        assert!(lane[..written].iter().all(|x| (0.0..=1.0).contains(x)));
        assert!(lane[written..].iter().all(|x| *x == 7.0));

        let mut amplitude = 7.0;
        // SAFETY: the pointer leads to one number.
        let refusal = unsafe { cableowl_amplitude(start, &mut amplitude) };
        assert_eq!(refusal, if start > 601 { 13 } else { 0 });
        assert_eq!(amplitude == 7.0, refusal > 0);
    }
}
