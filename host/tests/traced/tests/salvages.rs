//! Compares the compiled salvage with the page: every fault of one byte, every cut, every length of the output, random
//! faults.

use cableowl::{Refusal, trace};
use random::Random;
use traced::{make, runs::COMPILED};

#[test]
fn every_fault_of_one_byte() {
    COMPILED.compare_faults(&make::all_kinds()).unwrap();
}

#[test]
fn every_room() {
    let trace = [&[7][..], &make::all_kinds()].concat();
    for room in 0..trace.len() + 3 {
        let refusal = COMPILED.compare_salvages(&trace, room).unwrap();
        assert_eq!(refusal, if room < trace.len() { 25 } else { 0 });
    }
    // 25 even if the kept bytes would fit, and nothing is written.
    let mut out = [9; 11];
    assert_eq!(trace::salvage(&[0; 12], &mut out), Err(Refusal::Output));
    assert_eq!(out, [9; 11]);
    let none = trace::salvage(&[], &mut []).unwrap();
    assert_eq!((none.records, none.skipped, none.first_skipped), (0, 0, 0));
}

/// Every record before the first hole is kept.
#[test]
fn records_before_the_first_hole_are_kept() {
    let mut random = Random::new(1_140);
    for _ in 0..2_000 {
        let trace = make::trace(&mut random, 6);
        let mut damaged = trace.clone();
        make::damage(&mut random, &mut damaged);
        let whole = trace
            .iter()
            .zip(&damaged)
            .take_while(|(a, b)| a == b)
            .count();
        let before = trace::Trace::new(&damaged).map_while(Result::ok);
        let before = before.take_while(|(at, _)| *at < whole as u64).count();
        let mut out = vec![0; damaged.len()];
        let salvaged = trace::salvage(&damaged, &mut out).unwrap();
        assert!(salvaged.records >= before);
        let first = salvaged.first_skipped;
        assert_eq!(out[..first], damaged[..first]);
        assert_eq!(salvaged.kept + salvaged.skipped, damaged.len());
    }
}

#[test]
fn random_faults() {
    let tally = COMPILED.salvages(114, 20_000).unwrap();
    println!("{tally}");
    assert!(tally.refused[25] > 1_000, "{tally}");
}
