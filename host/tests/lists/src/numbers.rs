// The list of number cases: narrowing, rounded seconds, cut seconds, magnitudes.
//
// A line is `kind f64-bits rate answer`, in lower-case hex of 16, 8 and 16 digits:
// n narrows a double of [0, 1) to f32; r turns seconds into frames, rounded half away from zero;
// c turns seconds into frames, cut; m takes the sign away. r and c stop at 2^32.

use std::fmt::Write;

use oracle::{LIMIT, PlaybackPosition, leaves};
use random::Random;

/// Common sample rates, the smallest and the largest accepted, and some primes.
const RATES: [u32; 12] = [
    1, 2, 3, 7, 8_000, 11_025, 44_100, 48_000, 65_537, 96_000, 192_000, 768_000,
];

/// The whole list.
#[must_use]
pub fn numbers() -> String {
    let mut random = Random::new(1);
    let mut list = String::new();
    for given in narrowings(&mut random) {
        let answer = u64::from((given as f32).to_bits());
        line(&mut list, 'n', given, 0, answer);
    }
    for (seconds, rate) in seconds(&mut random) {
        let rounded = leaves::into_samples(PlaybackPosition::Seconds(seconds), rate);
        line(&mut list, 'r', seconds, rate, capped(rounded));
    }
    for (seconds, rate) in seconds(&mut random) {
        let cut = (seconds * f64::from(rate)) as usize;
        line(&mut list, 'c', seconds, rate, capped(cut));
    }
    for given in magnitudes(&mut random) {
        line(&mut list, 'm', given, 0, given.abs().to_bits());
    }
    list
}

fn line(list: &mut String, kind: char, given: f64, rate: u32, answer: u64) {
    let bits = given.to_bits();
    writeln!(list, "{kind} {bits:016x} {rate:08x} {answer:016x}").expect("a String takes any text");
}

fn capped(frames: usize) -> u64 {
    frames.min(LIMIT) as u64
}

/// A number, and the next double on either side of it.
fn with_neighbours(number: f64) -> [f64; 3] {
    [number.next_down(), number, number.next_up()]
}

/// Doubles of [0, 1): ties of narrowing, and their neighbours.
fn narrowings(random: &mut Random) -> Vec<f64> {
    let mut given = vec![0.0, f64::from_bits(1), f64::MIN_POSITIVE, 0.1, 1.0 / 3.0];
    for power in 1..160 {
        given.extend(with_neighbours(2f64.powi(-power)));
    }
    for power in 22..60 {
        given.extend(with_neighbours(1.0 - 2f64.powi(-power)));
    }
    let floats = (0..400).map(|_| random.below(0x3f80_0000) as u32);
    let subnormals = (0..100).map(|place| 1 + place * 83_887);
    let edges = [0, 1, 2, 0x7f_fffe, 0x7f_ffff, 0x80_0000, 0x3f7f_fffe];
    let lower: Vec<u32> = edges.into_iter().chain(subnormals).chain(floats).collect();
    for bits in lower {
        let pair = [bits, bits + 1].map(|bits| f64::from(f32::from_bits(bits)));
        given.extend(with_neighbours((pair[0] + pair[1]) / 2.0));
        given.push(pair[0]);
    }
    given.extend((0..400).map(|_| random.with_exponent(-30..0)));
    given.extend((0..100).map(|_| random.with_exponent(-160..-120)));
    given.retain(|number| number.is_sign_positive() && *number < 1.0);
    given
}

/// Seconds and sample rates: halves of a frame and their neighbours, negative seconds, the limit.
fn seconds(random: &mut Random) -> Vec<(f64, u32)> {
    let mut given = Vec::new();
    let limit = LIMIT as f64;
    let special = [
        0.0,
        f64::from_bits(1),
        f64::MIN_POSITIVE,
        0.25,
        0.5f64.next_down(),
        0.5,
        0.5f64.next_up(),
        1.5f64.next_down(),
        2.5,
        4_503_599_627_370_495.5,
        4_503_599_627_370_497.0,
        9_007_199_254_740_993.0,
        1e18,
        2f64.powi(63),
        2f64.powi(64),
        1e300,
        f64::MAX,
        f64::INFINITY,
    ];
    for number in special {
        for rate in [1, 44_100, 768_000] {
            given.extend([(number, rate), (-number, rate)]);
        }
    }
    for rate in RATES {
        let frames = f64::from(rate);
        for halves in [1.0, 2.0, 3.0, 5.0, 2_047.0, 33_554_431.0, 33_554_433.0] {
            let near = with_neighbours(halves / 2.0 / frames);
            given.extend(near.map(|seconds| (seconds, rate)));
        }
        for edge in [limit - 1.0, limit - 0.5, limit, limit + 0.5, 2.0 * limit] {
            let near = with_neighbours(edge / frames);
            given.extend(near.map(|seconds| (seconds, rate)));
        }
    }
    for _ in 0..250 {
        let rate = RATES[random.below(RATES.len())];
        let halves = (random.below(1 << 25) as f64) / 2.0;
        given.extend(with_neighbours(halves / f64::from(rate)).map(|seconds| (seconds, rate)));
        let any_rate = 1 + random.below(768_000) as u32;
        given.push((random.with_exponent(-24..16), any_rate));
        given.push((-random.with_exponent(-24..16), any_rate));
    }
    given
}

/// Doubles of either sign, finite and infinite.
fn magnitudes(random: &mut Random) -> Vec<f64> {
    let mut given = vec![0.0, f64::from_bits(1), f64::MIN_POSITIVE.next_down()];
    given.extend([f64::MIN_POSITIVE, 1.0, f64::MAX, f64::INFINITY]);
    given.extend((0..100).map(|_| random.with_exponent(-1022..1024)));
    given.extend((0..20).map(|_| f64::from_bits(random.word() >> 12)));
    given
        .into_iter()
        .flat_map(|number| [number, -number])
        .collect()
}
