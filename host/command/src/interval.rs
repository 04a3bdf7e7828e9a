//! Shares of sessions with a 95 percent interval, and the difference of two shares: Wilson's score interval (1927), and
//! for a difference the interval built from two of Wilson's (R. G. Newcombe, Statistics in Medicine 17, 1998: 857 to
//! 872 for one share, 873 to 890 for a difference, method 10).

/// The two-sided 95 percent point of the normal distribution.
const Z: f64 = 1.959_964;

/// A count out of a total.
#[derive(Debug, Clone, Copy, PartialEq, Eq, Default)]
pub struct Share {
    /// How many have the property.
    pub of: u64,
    /// How many there are.
    pub all: u64,
}

/// A number with its interval.
#[derive(Debug, Clone, Copy, PartialEq)]
pub struct Estimate {
    /// The number.
    pub value: f64,
    /// The interval's lower end.
    pub low: f64,
    /// The interval's upper end.
    pub high: f64,
}

impl Estimate {
    /// Whether 0 lies outside the interval.
    pub fn is_a_change(&self) -> bool {
        self.low > 0.0 || self.high < 0.0
    }
}

impl Share {
    /// The share with Wilson's interval; `None` without sessions.
    pub fn estimate(self) -> Option<Estimate> {
        if self.all == 0 {
            return None;
        }
        let (of, all) = (self.of.min(self.all) as f64, self.all as f64);
        let (value, z2) = (of / all, Z * Z);
        let centre = of + z2 / 2.0;
        let half = Z * (of * (1.0 - value) + z2 / 4.0).sqrt();
        let bound = |end: f64| (end / (all + z2)).clamp(0.0, 1.0);
        Some(Estimate {
            value,
            // If the count is 0 the lower end is exactly 0, and if it is the total the upper end is exactly 1.
            low: if self.of == 0 {
                0.0
            } else {
                bound(centre - half)
            },
            high: if self.of >= self.all {
                1.0
            } else {
                bound(centre + half)
            },
        })
    }

    /// How much larger the later share is, with Newcombe's interval.
    pub fn rise(earlier: Self, later: Self) -> Option<Estimate> {
        let (from, to) = (earlier.estimate()?, later.estimate()?);
        let value = to.value - from.value;
        let down = (to.value - to.low).hypot(from.high - from.value);
        let up = (to.high - to.value).hypot(from.value - from.low);
        Some(Estimate {
            value,
            low: value - down,
            high: value + up,
        })
    }
}

#[cfg(test)]
#[path = "../tests/people/exact.rs"]
mod exact;

#[cfg(test)]
mod tests {
    use super::*;

    fn share(of: u64, all: u64) -> Share {
        Share { of, all }
    }

    fn rounded(estimate: Option<Estimate>) -> (String, String) {
        let Estimate { low, high, .. } = estimate.expect("an interval");
        (format!("{low:.4}"), format!("{high:.4}"))
    }

    /// The expected numbers were computed with exact fractions in two ways: by the closed form with its root to 40
    /// digits, and by bisection.
    #[test]
    fn wilson_s_intervals_are_those_of_two_other_computations() {
        for (of, all, low, high) in [
            (81, 263, "0.2553", "0.3662"),
            (15, 148, "0.0624", "0.1605"),
            (0, 20, "0.0000", "0.1611"),
            (1, 29, "0.0061", "0.1718"),
        ] {
            let ours = rounded(share(of, all).estimate());
            assert_eq!(ours, (low.into(), high.into()), "{of} of {all}");
        }
    }

    /// The same.
    #[test]
    fn newcombe_s_differences_are_those_of_two_other_computations() {
        for (later, earlier, low, high) in [
            ((56, 70), (48, 80), "0.0524", "0.3339"),
            ((9, 10), (3, 10), "0.1705", "0.8090"),
            ((6, 7), (2, 7), "0.0582", "0.8062"),
            ((5, 56), (0, 29), "-0.0381", "0.1926"),
            ((0, 10), (0, 20), "-0.1611", "0.2775"),
            ((0, 10), (0, 10), "-0.2775", "0.2775"),
            ((10, 10), (0, 20), "0.6791", "1.0000"),
            ((10, 10), (0, 10), "0.6075", "1.0000"),
        ] {
            let (later, earlier) = (share(later.0, later.1), share(earlier.0, earlier.1));
            let ours = rounded(Share::rise(earlier, later));
            assert_eq!(ours, (low.into(), high.into()), "{later:?} {earlier:?}");
        }
    }

    fn is_near(ours: f64, exact: i128, what: &str) {
        let apart = ours - exact as f64 / exact::ONE as f64;
        assert!(apart.abs() < 5e-9, "{what}: {ours} {exact}");
    }

    #[test]
    fn the_ends_are_the_roots_in_whole_numbers() {
        for all in [1_u64, 2, 3, 7, 30, 100, 299, 1_000] {
            for of in 0..=all {
                let Estimate { low, high, .. } = share(of, all).estimate().expect("one");
                let (exact_low, exact_high) = exact::wilson((of, all));
                is_near(low, exact_low, &format!("{of} of {all}"));
                is_near(high, exact_high, &format!("{of} of {all}"));
            }
        }
    }

    #[test]
    fn differences_are_those_in_whole_numbers() {
        for (n, m) in [(1, 1), (7, 3), (30, 30), (100, 29)] {
            for (k, j) in (0..=n).flat_map(|k| (0..=m).map(move |j| (k, j))) {
                let rise = Share::rise(share(k, n), share(j, m)).expect("both");
                let (value, low, high) = exact::newcombe((k, n), (j, m));
                let what = format!("{k} of {n}, {j} of {m}");
                for (ours, exact) in [(rise.value, value), (rise.low, low), (rise.high, high)] {
                    is_near(ours, exact, &what);
                }
            }
        }
    }

    #[test]
    fn two_to_nine_in_a_hundred_is_a_change_and_two_to_three_of_thirty_is_not() {
        let rise = |from, to, all| Share::rise(share(from, all), share(to, all)).expect("both");
        assert!(rise(2, 9, 100).is_a_change());
        assert!(!rise(2, 3, 30).is_a_change());
        assert_eq!(Share::rise(share(0, 0), share(1, 2)), None);
    }
}
