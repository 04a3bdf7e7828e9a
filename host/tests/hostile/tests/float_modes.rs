// In every float mode with masked exceptions each call returns, whatever its bytes. Its result is checked only in the
// plain mode.

#[path = "../../../cableowl/tests/mode/mod.rs"]
mod mode;

use mode::Mode;

#[test]
fn every_call_returns() {
    let before = Mode::now();
    for mode in mode::ALL.into_iter().filter(|mode| mode.masks()) {
        mode.set();
        let answered = hostile::unjudged(2, 100_000);
        before.set();
        assert_eq!(answered, 100_000, "in {mode:?}");
    }
}
