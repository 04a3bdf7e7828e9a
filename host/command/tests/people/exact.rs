//! Wilson's and Newcombe's intervals computed a second time, in whole numbers. Wilson's ends are found by bisection,
//! since they are the roots of (p - of/all)^2 = z^2 p (1 - p) / all, with z = 1.959964.

/// Shares are in thousand millionths.
pub const ONE: i128 = 1_000_000_000;

/// z^2 in millionths of millionths.
const Z2: i128 = 1_959_964 * 1_959_964;

/// A count out of a total of at most 1,000.
pub type Share = (u64, u64);

/// The ends of Wilson's interval, to a thousand millionth.
pub fn wilson((of, all): Share) -> (i128, i128) {
    let (k, n) = (i128::from(of), i128::from(all));
    let outside = |p: i128| {
        let apart = n * p - k * ONE;
        apart * apart * 1_000_000_000_000 > Z2 * n * p * (ONE - p)
    };
    let end = |mut far: i128| {
        let mut near = k * ONE / n;
        while (far - near).abs() > 1 {
            let middle = (far + near) / 2;
            match outside(middle) {
                true => far = middle,
                false => near = middle,
            }
        }
        near
    };
    let low = if of == 0 { 0 } else { end(0) };
    let high = if of == all { ONE } else { end(ONE) };
    (low, high)
}

/// The later share less the earlier one, and the ends of Newcombe's interval.
pub fn newcombe(earlier: Share, later: Share) -> (i128, i128, i128) {
    let share = |(of, all): Share| i128::from(of) * ONE / i128::from(all);
    let (from, to) = (share(earlier), share(later));
    let ((from_low, from_high), (to_low, to_high)) = (wilson(earlier), wilson(later));
    let root = |a: i128, b: i128| (a * a + b * b).isqrt();
    let value = to - from;
    let low = value - root(to - to_low, from_high - from);
    let high = value + root(to_high - to, from - from_low);
    (value, low, high)
}
