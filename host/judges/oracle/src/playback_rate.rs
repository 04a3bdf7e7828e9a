// kira's playback_rate.rs, unchanged.
#![allow(clippy::all, dead_code)]
include!("../kira/src/playback_rate.rs");
