//! What five users ran into: one module per finding, by the numbers of docs/assurance/FINDINGS.md.
//!
//! Each module is self-contained, so that it can be run on the version in which the users found it (`tools/findings`).

mod finding_1;
mod finding_11;
mod finding_12;
mod finding_17_delay;
mod finding_17_easing;
mod finding_17_level;
mod finding_17_names;
mod finding_8_shared_player;
mod finding_8_table;
mod finding_9;
mod finding_9_saved;
