//! The compiled leaves, over the oracle's own types, so that a test compares one call with another.
//!
//! The archive is that of `crates/test_exports`; `build.rs` runs `rt` to prove and write it. The export checks what a
//! leaf requires. If that does not hold, it returns all zeros.
#![deny(unsafe_code)]
#![warn(missing_docs)]

mod calls;
pub mod doubles;
pub mod moves;
pub mod numbers;
pub mod places;
pub mod states;
mod tally;
pub mod window;

pub use tally::Tally;
