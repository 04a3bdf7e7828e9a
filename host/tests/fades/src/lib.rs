//! The rule of the decibel table in whole numbers of any size. It uses no table and no power of floats.
#![forbid(unsafe_code)]
#![warn(missing_docs)]

use std::cmp::Ordering;

/// A whole number of any size: digits to base 2^32, the lowest first, the last one not 0.
#[derive(Debug, Clone, PartialEq, Eq)]
pub struct Whole(Vec<u32>);

impl Whole {
    /// The number one.
    #[must_use]
    pub fn one() -> Self {
        Self(vec![1])
    }

    /// This number times a small one, which is not 0.
    #[must_use]
    pub fn times(&self, small: u32) -> Self {
        let mut carry = 0;
        let mut digits: Vec<u32> = self
            .0
            .iter()
            .map(|&digit| {
                let sum = u64::from(digit) * u64::from(small) + carry;
                carry = sum >> 32;
                sum as u32
            })
            .collect();
        if carry > 0 {
            digits.push(carry as u32);
        }
        Self(digits)
    }

    /// A power of a small number, which is not 0, times this number.
    #[must_use]
    pub fn times_power(&self, small: u32, exponent: u32) -> Self {
        (0..exponent).fold(self.clone(), |product, _| product.times(small))
    }

    /// The product of two numbers.
    #[must_use]
    pub fn product(&self, other: &Self) -> Self {
        let mut digits = vec![0; self.0.len() + other.0.len()];
        for (at, &digit) in self.0.iter().enumerate() {
            let mut carry = 0;
            for (to, &by) in digits[at..].iter_mut().zip(other.0.iter().chain([&0])) {
                let sum = u64::from(*to) + u64::from(digit) * u64::from(by) + carry;
                *to = sum as u32;
                carry = sum >> 32;
            }
        }
        while digits.len() > 1 && digits.last() == Some(&0) {
            digits.pop();
        }
        Self(digits)
    }

    /// A power of this number.
    #[must_use]
    pub fn power(&self, exponent: u32) -> Self {
        (0..exponent).fold(Self::one(), |product, _| product.product(self))
    }

    /// A power of two.
    #[must_use]
    pub fn power_of_two(exponent: u32) -> Self {
        let mut digits = vec![0; (exponent / 32) as usize];
        digits.push(1 << (exponent % 32));
        Self(digits)
    }
}

impl From<u64> for Whole {
    fn from(number: u64) -> Self {
        match number >> 32 {
            0 => Self(vec![number as u32]),
            high => Self(vec![number as u32, high as u32]),
        }
    }
}

impl Ord for Whole {
    fn cmp(&self, other: &Self) -> Ordering {
        let lengths = self.0.len().cmp(&other.0.len());
        lengths.then_with(|| self.0.iter().rev().cmp(other.0.iter().rev()))
    }
}

impl PartialOrd for Whole {
    fn partial_cmp(&self, other: &Self) -> Option<Ordering> {
        Some(self.cmp(other))
    }
}

/// Whether (e / 2^24)^200 * 10^t is at most 1.
#[must_use]
pub fn fits(e: u32, t: u32) -> bool {
    let one = Whole::power_of_two(4_800);
    e == 0 || Whole::one().times_power(10, t).times_power(e, 200) <= one
}

/// The largest e that fits, found by bisection.
#[must_use]
pub fn largest(t: u32) -> u32 {
    let (mut fitting, mut too_large) = (0, (1 << 24) + 1);
    while too_large - fitting > 1 {
        let middle = fitting + (too_large - fitting) / 2;
        if fits(middle, t) {
            fitting = middle;
        } else {
            too_large = middle;
        }
    }
    fitting
}

/// The level of frame i of n, by the formula.
#[must_use]
pub fn level(start: u32, end: u32, n: usize, i: usize) -> u32 {
    let (start, end, n, i) = (i128::from(start), i128::from(end), n as i128, i as i128);
    if n == 1 {
        return end as u32;
    }
    ((start * (n - 1 - i) + end * i) / (n - 1)) as u32
}

#[cfg(test)]
mod test {
    use super::*;

    #[test]
    fn whole_numbers() {
        assert_eq!(
            Whole::one().times_power(2, 4_800),
            Whole::power_of_two(4_800)
        );
        assert_eq!(
            Whole::one().times_power(10, 10),
            Whole(vec![1_410_065_408, 2])
        );
        assert_eq!(Whole::from(3).power(100), Whole::one().times_power(3, 100));
        assert_eq!(Whole::from(1 << 40).power(12), Whole::power_of_two(480));
        assert!(Whole::one().times_power(3, 200) < Whole::one().times_power(3, 201));
        assert!(Whole::one().times_power(3, 100) < Whole::one().times_power(2, 159));
        assert!(Whole::one().times_power(3, 100) > Whole::one().times_power(2, 158));
    }
}
