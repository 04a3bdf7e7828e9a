//! The rules of docs/assurance/RULES.md (with remainders, not `while` loops), as a second model to compare with kira's
//! text and with ours.
//!
//! [`Rules`] has one method for each rule. [`Document`] implements all of them as written, and a wrong player overrides
//! one. [`Voice`] is a voice that follows such rules; [`refusals`] has the numbers 1 to 12.
#![forbid(unsafe_code)]
#![warn(missing_docs)]

pub mod refusals;
mod rule;
mod voice;

pub use rule::{Document, Rules};
pub use voice::Voice;
