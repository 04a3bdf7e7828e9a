// A start that is due at a tick: the compiled library is compared with the rule, around every power of two and on both
// sides of the wrap. Then whole blocks are compared with kira's text too, which has no ticks and gets the answer.

use differential::{Harness, Kira, Ours, runs};
use oracle::{Answer, LaneBuffers, Oracle, Settings};
use random::Random;
use raw::{CableowlSignals, CableowlState, StateBytes, convert};
use rules::{Document, Rules};

const SOUND: [f32; 32] = [0.5; 32];

/// The ticks at most this far from a power of two, including 0 and the wrap.
fn near_powers(far: u32) -> Vec<u32> {
    let powers = (0..32).map(|bit| 1u32 << bit).chain([0]);
    let mut all: Vec<u32> = powers
        .flat_map(|power| (0..=2 * far).map(move |i| power.wrapping_add(i).wrapping_sub(far)))
        .collect();
    all.sort_unstable();
    all.dedup();
    all
}

fn waiting() -> CableowlState {
    let settings = Settings {
        waits: true,
        ..Settings::new(1)
    };
    convert::state_in(&Oracle::create(&settings, &SOUND).state())
}

/// The state after a block of this many frames with this tick.
fn after(state: CableowlState, frames: usize, due: u32, now: u32) -> CableowlState {
    let signals = CableowlSignals {
        start: 3,
        due,
        now,
        ..CableowlSignals::default()
    };
    let lanes = LaneBuffers::constant(frames, 1.0, 1.0, (1.0, 1.0), 1.0);
    let out = &mut [0.0; 2][..2 * frames];
    let answer = raw::process(state, &SOUND, &lanes.as_lanes(), 1.0, signals, out);
    assert_eq!(answer.refusal, 0);
    answer.state
}

#[test]
fn ticks_near_every_power_of_two_are_reached_as_the_rule_says() {
    let state = waiting();
    assert_eq!(state.started, 0);
    let lanes = LaneBuffers::constant(0, 1.0, 1.0, (1.0, 1.0), 1.0);
    let borrowed = lanes.as_lanes();
    let (mut asked, mut reached) = (0u64, 0u64);
    let ahead = near_powers(24);
    let differences: Vec<u32> = ahead.iter().flat_map(|&n| [n, n.wrapping_neg()]).collect();
    for due in near_powers(24) {
        for &since in &differences {
            let now = due.wrapping_add(since);
            let signals = CableowlSignals {
                start: 3,
                due,
                now,
                ..CableowlSignals::default()
            };
            let answer = raw::process(state, &SOUND, &borrowed, 1.0, signals, &mut []);
            let expected = Document.ticked(due, now) == Answer::Now;
            let (got, refusal) = (answer.state.started, answer.refusal);
            assert_eq!(
                (got, refusal),
                (u32::from(expected), 0),
                "due {due}, now {now}"
            );
            asked += 1;
            reached += u64::from(expected);
        }
    }
    println!("{asked} ticks, {reached} reached");
    assert!(asked > 3_000_000, "{asked}");
    assert!(
        reached > asked / 3 && reached < asked * 2 / 3,
        "{reached} of {asked}"
    );
}

#[test]
fn a_start_that_has_come_stays_wherever_the_tick_goes() {
    let all = near_powers(2);
    for &due in &all {
        let came = after(waiting(), 0, due, due);
        assert_eq!(came.started, 1);
        for &now in &all {
            assert_eq!(after(came, 0, due, now).to_bytes(), came.to_bytes());
        }
        let again = after(after(waiting(), 1, due, due), 1, due, due.wrapping_sub(1));
        assert_eq!(
            (again.started, again.position),
            (1, came.position + 2),
            "due {due}"
        );
    }
}

#[test]
fn blocks_that_bring_a_tick_agree_and_may_be_cut() {
    let mut harness = Harness::new(vec![&Kira, &Ours]);
    for seed in 0..20_000 {
        runs::ticks(&mut harness, &mut Random::new(seed));
    }
    println!("{}", harness.tally);
    assert_eq!(harness.tally.differences(), 0, "\n{}", harness.tally);
}
