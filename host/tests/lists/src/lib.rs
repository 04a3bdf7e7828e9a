//! Fixed lists of cases with the oracle's answers: text, the same on every run.

mod numbers;
mod scenarios;

pub use numbers::numbers;
pub use scenarios::scenarios;
