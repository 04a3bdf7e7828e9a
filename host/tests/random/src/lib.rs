//! Inputs for tests: random words, the same on every run and every machine, and all inputs of at most three bytes.
#![forbid(unsafe_code)]
#![warn(missing_docs)]

use std::{ops::Range, thread};

/// A xorshift generator: the same seed produces the same words.
#[derive(Debug, Clone)]
pub struct Random(u64);

impl Random {
    /// A generator for this seed; neighbouring seeds start far apart.
    #[must_use]
    pub fn new(seed: u64) -> Self {
        Self(seed.wrapping_mul(0x9e37_79b9_7f4a_7c15) | 1)
    }

    /// The next word, never 0.
    pub fn word(&mut self) -> u64 {
        self.0 ^= self.0 << 13;
        self.0 ^= self.0 >> 7;
        self.0 ^= self.0 << 17;
        self.0
    }

    /// A number below the limit, which must not be 0.
    pub fn below(&mut self, limit: usize) -> usize {
        ((self.word() >> 16) % limit as u64) as usize
    }

    /// Yes or no.
    pub fn coin(&mut self) -> bool {
        self.below(2) == 1
    }

    /// Yes with a probability of 1 in `many`.
    pub fn one_in(&mut self, many: usize) -> bool {
        self.below(many) == 0
    }

    /// A double from 0 up to 1.
    pub fn unit(&mut self) -> f64 {
        (self.word() >> 11) as f64 / (1u64 << 53) as f64
    }

    /// A positive normal double with its exponent in the range and any bits after the point.
    pub fn with_exponent(&mut self, exponents: Range<i32>) -> f64 {
        let width = exponents.end.abs_diff(exponents.start) as usize;
        let exponent = i64::from(exponents.start) + self.below(width) as i64;
        f64::from_bits(((exponent + 1023) as u64) << 52 | self.word() >> 12)
    }
}

/// Calls `compare` with every input of at most three bytes, in four threads.
pub fn short_inputs(compare: impl Fn(&[u8]) + Sync) {
    compare(&[]);
    let compare = &compare;
    thread::scope(|scope| {
        for quarter in 0..4_u8 {
            scope.spawn(move || {
                for first in (0..=255).filter(|byte| byte % 4 == quarter) {
                    compare(&[first]);
                    for second in 0..=255 {
                        compare(&[first, second]);
                        for third in 0..=255 {
                            compare(&[first, second, third]);
                        }
                    }
                }
            });
        }
    });
}
