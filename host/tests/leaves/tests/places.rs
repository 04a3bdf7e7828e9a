// The compiled positions and kira's agree, with kira's limited to 2^32: random seconds, samples and regions.

use leaves::{Tally, doubles, moves, places};
use oracle::{
    EndPosition, LIMIT,
    PlaybackPosition::{self, Samples, Seconds},
    Region, leaves as original,
};
use random::Random;

fn any_rate(random: &mut Random) -> u32 {
    match random.below(4) {
        0 => [1, 2, 3, 7, 44_100, 48_000, 96_000, 768_000][random.below(8)],
        1 => random.word() as u32,
        _ => 1 + random.below(768_000) as u32,
    }
}

/// Seconds of any kind, or near the half of a frame; or samples.
fn any_position(random: &mut Random, rate: u32) -> PlaybackPosition {
    match random.below(6) {
        0 => Seconds(doubles::any(random)),
        1 => Samples(random.word() as usize),
        2 => Samples(random.below(20)),
        _ => {
            let near = random.below(1 << 25) as f64 / 2.0 / f64::from(rate);
            let scale = [1.0, 1.0, 1e-5, 512.0][random.below(4)];
            let seconds = near * scale;
            Seconds([seconds.next_down(), seconds, seconds.next_up()][random.below(3)])
        }
    }
}

fn any_region(random: &mut Random, rate: u32) -> Region {
    Region {
        start: any_position(random, rate),
        end: match random.below(4) {
            0 => EndPosition::EndOfAudio,
            _ => EndPosition::Custom(any_position(random, rate)),
        },
    }
}

/// For seconds kira saturates at 2^64 - 1, and we return 2^32; samples are never capped.
fn capped(position: PlaybackPosition, frames: usize) -> usize {
    match position {
        Seconds(_) => frames.min(LIMIT),
        Samples(_) => frames,
    }
}

fn is_finite(position: PlaybackPosition) -> bool {
    match position {
        Seconds(seconds) => seconds.is_finite(),
        Samples(_) => true,
    }
}

#[test]
fn places_agree_with_kira() {
    let mut random = Random::new(31);
    let mut tally = Tally::new("into_samples");
    for _ in 0..2_000_000 {
        let rate = any_rate(&mut random);
        let position = any_position(&mut random, rate);
        let theirs = capped(position, original::into_samples(position, rate));
        let ours = places::into_samples(position, rate);
        tally.count(ours == theirs, || {
            format!("{position:?} at {rate} Hz: {ours}, not {theirs}")
        });
    }
    assert!(tally.report());
}

#[test]
fn regions_agree_with_kira() {
    let mut random = Random::new(32);
    let mut frames = Tally::new("into_frames");
    let mut well_formed = Tally::new("is_well_formed");
    for _ in 0..1_000_000 {
        let rate = any_rate(&mut random);
        let region = any_region(&mut random, rate);
        let num_frames = [12, 1 << 24, random.below(1 << 24)][random.below(3)];
        // kira converts a region to frames when it sets a loop
        let blank = moves::new_transport(0, None, false, 1);
        let set = original::set_loop_region(blank, Some(region), rate, num_frames);
        let (start, end) = set.loop_region.unwrap();
        let start = capped(region.start, start);
        let (end, end_is_finite) = match region.end {
            EndPosition::EndOfAudio => (end, true),
            EndPosition::Custom(position) => (capped(position, end), is_finite(position)),
        };
        let ours = places::into_frames(region, rate, num_frames);
        frames.count(ours == Some((start, end)), || {
            format!("{region:?} at {rate} Hz of {num_frames}: {ours:?}")
        });
        let expected = is_finite(region.start) && end_is_finite && start < end && end <= num_frames;
        let ours = places::is_well_formed(region, rate, num_frames);
        well_formed.count(ours == expected, || {
            format!("{region:?} at {rate} Hz of {num_frames}: {ours}")
        });
    }
    let alike = [frames.report(), well_formed.report()];
    assert_eq!(alike, [true; 2]);
}
