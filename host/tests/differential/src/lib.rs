//! Makes the same calls of the compiled library, kira's text and the rules.
//!
//! A [`Player`] answers a [`Call`]: a creation, a command set, a block into an output or a mix, or a stretch. Each call
//! gets the whole state and returns it, so a difference is always one call. The [`Harness`] calls all players, compares
//! each outcome with that of the model of the rules, and shrinks what differs. [`runs`] makes the calls from a seed.
//! [`wrong`] has players that must be found.
#![forbid(unsafe_code)]
#![warn(missing_docs)]

mod any;
mod call;
mod harness;
pub mod paste;
mod player;
pub mod runs;
mod shrink;
mod tally;
pub mod wrong;

pub use any::tick;
pub use call::{Ask, Block, Call, Outcome, Place, Sound, is_identical, pattern};
pub use harness::{Harness, differs, judged};
pub use player::{DOCUMENT, Kira, Model, Ours, OursHeld, Player, refusal};
pub use tally::{Found, Kind, Tally};
