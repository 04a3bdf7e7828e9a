// Stand-in for kira's Value: a constant value, since the lanes contain what moves.

/// A parameter's value.
#[derive(Debug, Clone, Copy, PartialEq)]
pub enum Value<T> {
    Fixed(T),
}
