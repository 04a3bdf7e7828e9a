//! The runs: tiny sounds exhaustively, held zeros, random calls, voices that play on, refusals by construction, cuts,
//! sequences of calls inside a loop, starts due at a tick, blocks with held lanes, two sounds of equal length.

mod cuts;
mod held;
mod in_the_loop;
mod large;
mod lengths;
mod refusals;
mod scans;
mod ticks;
mod tiny;
mod zeros;

pub use cuts::cuts;
pub use held::held;
pub use in_the_loop::{Seen, in_the_loop};
pub use large::large;
pub use lengths::{Alike, lengths};
pub use refusals::{Big, refusals};
pub use scans::scans;
pub use ticks::ticks;
pub use tiny::{Extent, tiny_blocks, tiny_creations, tiny_seeks, transports};
pub use zeros::zeros;
