// The compiled states and kira's agree on every case.

use leaves::{Tally, states};
use oracle::{Answer, PlaybackState, Signals, leaves as original};

const ANSWERS: [Answer; 3] = [Answer::Waiting, Answer::Now, Answer::Never];

fn number(state: PlaybackState) -> u32 {
    state.number().into()
}

#[test]
fn states_agree_with_kira() {
    let mut tally = Tally::new("states");
    for given in PlaybackState::ALL {
        let state = number(given);
        let mut count = |move_: &str, ours: u32, theirs: u32| {
            tally.count(ours == theirs, || format!("{move_} of {given:?}: {ours}"));
        };
        count("number", states::number(state), state);
        let advancing = given.is_advancing().into();
        count("is_advancing", states::is_advancing(state), advancing);
        count(
            "pause",
            states::pause(state),
            number(original::pause(given)),
        );
        count("stop", states::stop(state), number(original::stop(given)));
        let marked = number(original::mark_as_stopped(given));
        count("mark", states::mark_as_stopped(state), marked);
        for waits in [false, true] {
            let resumed = number(original::resume(given, waits));
            count("resume", states::resume(state, waits.into()), resumed);
        }
        for (answer, resume) in (0..).zip(ANSWERS) {
            for finished in [false, true] {
                let signals = Signals {
                    finished,
                    start: Answer::Waiting,
                    resume,
                };
                let updated = number(original::update(given, signals).0);
                let ours = states::update(state, finished.into(), answer);
                count("update", ours, updated);
            }
        }
    }
    assert!(tally.report());
}

#[test]
fn numbers_past_the_last_count_as_the_last() {
    for past in [7, 8, 255, 256, u32::MAX] {
        assert_eq!(states::number(past), 6);
        assert_eq!(states::pause(past), 6);
        assert_eq!(states::update(3, 0, past), 6);
        assert_eq!(states::resume(0, past), 3);
    }
}
