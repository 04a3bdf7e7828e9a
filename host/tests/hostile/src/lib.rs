//! Passes any bytes to the C entries.
//!
//! States, tags, lengths and lanes are arbitrary, or a few bits away from well formed ones. Each call must return,
//! either with a refusal that changes no byte of state and output, or with the result of the model of the rules for
//! what the bytes mean, in a state that is well formed again.
#![forbid(unsafe_code)]
#![warn(missing_docs)]

mod bytes;

use std::{
    fmt,
    time::{Duration, Instant},
};

use bytes::Case;
use random::Random;

/// What a run has counted.
#[derive(Debug, Clone, Default)]
pub struct Report {
    /// Results by refusal; index 0 counts accepted calls.
    pub answers: [u64; 13],
    /// The same for the blocks that were repeated with held lanes.
    pub held: [u64; 13],
    /// The longest call.
    pub longest: Duration,
    /// How many calls went wrong.
    pub faults: u64,
    /// The first few faults.
    pub shown: Vec<String>,
}

/// How many faults are shown.
const SHOWN: usize = 5;

/// Makes this many calls from a seed.
#[must_use]
pub fn run(seed: u64, calls: u64) -> Report {
    let mut random = Random::new(seed);
    let mut report = Report::default();
    for _ in 0..calls {
        let case = Case::any(&mut random);
        let number = report.judge(&case);
        report.answers[number] += 1;
        if let Some(held) = case.held() {
            let number = report.judge(&held);
            report.held[number] += 1;
        }
    }
    report
}

impl Report {
    /// Makes the call, records what is wrong with the result, and returns its refusal.
    fn judge(&mut self, case: &Case) -> usize {
        let begun = Instant::now();
        let answer = case.answer();
        self.longest = self.longest.max(begun.elapsed());
        if let Some(fault) = case.fault(&answer) {
            self.faults += 1;
            if self.shown.len() < SHOWN {
                self.shown.push(format!("{fault}\n{case:?}"));
            }
        }
        // A number above 12 is a fault.
        (answer.refusal as usize).min(12)
    }
}

/// Makes this many calls from a seed, and only checks that they return.
#[must_use]
pub fn unjudged(seed: u64, calls: u64) -> u64 {
    let mut random = Random::new(seed);
    let answered = |_: &u64| Case::any(&mut random).answer().refusal <= 12;
    (0..calls).filter(answered).count() as u64
}

impl fmt::Display for Report {
    fn fmt(&self, f: &mut fmt::Formatter<'_>) -> fmt::Result {
        writeln!(f, "calls     {:>12}", self.answers.iter().sum::<u64>())?;
        writeln!(f, "accepted  {:>12}", self.answers[0])?;
        for (number, count) in self.answers.iter().enumerate().skip(1) {
            writeln!(f, "refusal {number:<2}{count:>12}")?;
        }
        let held = self.held.iter().sum::<u64>();
        let accepted = self.held[0];
        writeln!(
            f,
            "blocks again, numbers given once {held}: accepted {accepted}"
        )?;
        writeln!(f, "longest call {:?}", self.longest)?;
        writeln!(f, "faults    {:>12}", self.faults)?;
        self.shown
            .iter()
            .try_for_each(|fault| writeln!(f, "\n{fault}"))
    }
}
