//! docs/formats/TRACE.md as Rust, implemented a second time, and traces of every kind to compare with it.
#![warn(missing_docs)]

pub mod entries;
pub mod make;
pub mod model;
pub mod page;
pub mod program;
pub mod replays;
pub mod runs;

/// A record's numbers in the page's order, one for each field; absent ones are 0.
pub type Values = [u64; 80];

/// The bytes of a text of hex numbers.
///
/// # Panics
///
/// If a word is not a byte.
#[must_use]
pub fn hex(text: &str) -> Vec<u8> {
    let byte = |word: &str| u8::from_str_radix(word, 16).expect("a byte");
    text.split_whitespace().map(byte).collect()
}
