// The player: its commands, what it refuses, and that block sizes do not change what it does.

mod cuts;
mod evening;
mod modes;
mod order;
mod per_block;
mod saved;
mod traces;
mod words;

#[path = "../../examples/evening/edges.rs"]
mod edges;
#[path = "../mode/mod.rs"]
mod mode;
