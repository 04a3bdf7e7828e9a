// The list of scenarios: sounds, and on each some calls with the oracle's results.
//
// A line is one number in lower-case hex. docs/formats/LISTS.md has the layout; `scene` writes it.

mod any;
mod known;
mod refused;
mod scene;
mod words;

use random::Random;
use words::Words;

/// The whole list.
#[must_use]
pub fn scenarios() -> String {
    let mut list = Words::default();
    known::write(&mut list);
    refused::write(&mut list);
    for seed in 0..260 {
        any::write(&mut list, &mut Random::new(seed));
    }
    list.into_text()
}
