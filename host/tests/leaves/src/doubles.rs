//! Random floats of every kind: ties of rounding, limits of the range, and values that are not numbers.

use random::Random;

/// A double of any kind and either sign, NaNs and infinities among them.
pub fn any(random: &mut Random) -> f64 {
    let magnitude = match random.below(8) {
        0 => f64::from_bits(random.word()),
        1 => fraction(random),
        2 => near_a_half(random, 1 << 20),
        3 => near_a_half(random, 1 << 34),
        4 => {
            let power = 2f64.powi(random.below(128) as i32 - 64);
            beside(random, power)
        }
        5 => random.with_exponent(-30..40),
        6 => random.with_exponent(-1022..1024),
        _ => special(random),
    };
    if random.one_in(4) {
        -magnitude
    } else {
        magnitude
    }
}

/// A double of [0, 1), its sign bit clear.
pub fn fraction(random: &mut Random) -> f64 {
    match random.below(5) {
        0 => random.unit(),
        1 => random.with_exponent(-32..0),
        2 => f64::from_bits(random.below(0x3ff0_0000_0000_0000) as u64),
        3 => tie(random),
        _ => {
            let below_one = 1.0 - 2f64.powi(-(random.below(60) as i32));
            beside(random, below_one).clamp(0.0, BELOW_ONE)
        }
    }
}

/// A float of any kind and either sign.
pub fn any_f32(random: &mut Random) -> f32 {
    match random.below(6) {
        0 => f32::from_bits(random.word() as u32),
        1 => (random.unit() * 2.0 - 1.0) as f32,
        2 => (random.unit() * 16.0 - 8.0) as f32,
        3 => [0.0, -0.0, 1.0, -1.0, 8.0, -8.0][random.below(6)],
        4 => f32::from_bits(random.below(0x80_0000) as u32),
        _ => [
            f32::NAN,
            -f32::NAN,
            f32::INFINITY,
            f32::NEG_INFINITY,
            f32::MAX,
            f32::MIN_POSITIVE,
        ][random.below(6)],
    }
}

const BELOW_ONE: f64 = 1.0 - f64::EPSILON / 2.0;

/// The middle between two neighbouring floats of [0, 1), or a double beside it.
fn tie(random: &mut Random) -> f64 {
    let bits = random.below(0x3f80_0000) as u32;
    let [low, high] = [bits, bits + 1].map(|bits| f64::from(f32::from_bits(bits)));
    beside(random, (low + high) / 2.0).clamp(0.0, BELOW_ONE)
}

/// A half of a whole number below the limit, or a double beside it.
fn near_a_half(random: &mut Random, limit: usize) -> f64 {
    let half = random.below(limit) as f64 / 2.0;
    beside(random, half)
}

/// A number, or the next double on either side of it.
fn beside(random: &mut Random, number: f64) -> f64 {
    match random.below(3) {
        0 => number.next_down(),
        1 => number,
        _ => number.next_up(),
    }
}

fn special(random: &mut Random) -> f64 {
    let special = [
        0.0,
        f64::from_bits(1),
        f64::MIN_POSITIVE,
        0.5,
        1.0,
        4_294_967_295.5,
        4_294_967_296.0,
        4_503_599_627_370_495.5,
        9_007_199_254_740_992.0,
        2f64.powi(63),
        2f64.powi(64),
        f64::MAX,
        f64::INFINITY,
        f64::NAN,
    ];
    let number = special[random.below(special.len())];
    beside(random, number)
}
