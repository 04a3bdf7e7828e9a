// kira's frame.rs, unchanged.
#![allow(clippy::all, dead_code)]
include!("../kira/src/frame.rs");
