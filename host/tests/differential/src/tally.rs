// What a run has counted, and the smallest difference of each kind.

use std::{collections::BTreeMap, fmt};

use crate::call::Call;

/// The kinds of comparison.
#[derive(Debug, Clone, Copy, PartialEq, Eq, PartialOrd, Ord)]
pub enum Kind {
    /// Every creation over a tiny sound.
    TinyCreation,
    /// Every command set of one seek over a tiny sound.
    TinySeek,
    /// Every block over a tiny sound.
    TinyBlock,
    /// Creations, command sets and blocks with a held rate of zero.
    Zeros,
    /// Random creations.
    Creation,
    /// Random command sets.
    Commands,
    /// Random blocks.
    Block,
    /// Random blocks into a mix.
    Mix,
    /// Random stretches.
    Stretch,
    /// Calls refused with a number known by construction.
    Refusal,
    /// Calls just inside a limit.
    Edge,
    /// Blocks cut in two.
    Cut,
    /// Blocks cut in many.
    Schedule,
}

impl Kind {
    /// All kinds, each at its place.
    pub const ALL: [Self; 13] = [
        Self::TinyCreation,
        Self::TinySeek,
        Self::TinyBlock,
        Self::Zeros,
        Self::Creation,
        Self::Commands,
        Self::Block,
        Self::Mix,
        Self::Stretch,
        Self::Refusal,
        Self::Edge,
        Self::Cut,
        Self::Schedule,
    ];

    fn label(self) -> &'static str {
        match self {
            Self::TinyCreation => "tiny creations",
            Self::TinySeek => "tiny seeks",
            Self::TinyBlock => "tiny blocks",
            Self::Zeros => "held zeros",
            Self::Creation => "random creations",
            Self::Commands => "random command sets",
            Self::Block => "random blocks",
            Self::Mix => "random blocks into a mix",
            Self::Stretch => "random stretches",
            Self::Refusal => "refusals by construction",
            Self::Edge => "calls just inside a limit",
            Self::Cut => "blocks cut in two",
            Self::Schedule => "blocks cut in many",
        }
    }
}

/// A difference: who differed, in what, on which call, and how often in all.
#[derive(Debug, Clone)]
pub struct Found {
    /// The smallest call found.
    pub call: Call,
    /// In what it differs.
    pub reason: String,
    /// How often this player differed in this kind.
    pub times: u64,
}

/// What a run has counted.
#[derive(Debug, Clone, Default)]
pub struct Tally {
    /// Calls, or cuts, of each kind.
    pub calls: [u64; Kind::ALL.len()],
    /// Output frames compared.
    pub frames: u64,
    /// Steps compared.
    pub steps: u64,
    /// Refusals of each number; at 0 the calls accepted.
    pub refusals: [u64; 13],
    /// Calls that a player did not handle.
    pub silent: u64,
    /// The differences, by player and kind.
    pub found: BTreeMap<(String, Kind), Found>,
}

impl Tally {
    /// All differences.
    #[must_use]
    pub fn differences(&self) -> u64 {
        self.found.values().map(|found| found.times).sum()
    }

    /// Adds what another run has counted.
    pub fn add(&mut self, other: &Self) {
        let pairs = self.calls.iter_mut().zip(&other.calls);
        let more = self.refusals.iter_mut().zip(&other.refusals);
        pairs.chain(more).for_each(|(sum, count)| *sum += count);
        self.frames += other.frames;
        self.steps += other.steps;
        self.silent += other.silent;
        for (key, found) in &other.found {
            let held = self.found.entry(key.clone()).or_insert_with(|| Found {
                times: 0,
                ..found.clone()
            });
            held.times += found.times;
            if found.call.to_string().len() < held.call.to_string().len() {
                (held.call, held.reason) = (found.call.clone(), found.reason.clone());
            }
        }
    }
}

impl fmt::Display for Tally {
    fn fmt(&self, f: &mut fmt::Formatter<'_>) -> fmt::Result {
        for (kind, count) in Kind::ALL.into_iter().zip(self.calls) {
            writeln!(f, "{:<28}{count:>14}", kind.label())?;
        }
        writeln!(f, "{:<28}{:>14}", "frames", self.frames)?;
        writeln!(f, "{:<28}{:>14}", "steps", self.steps)?;
        writeln!(f, "{:<28}{:>14}", "accepted", self.refusals[0])?;
        for (number, count) in self.refusals.iter().enumerate().skip(1) {
            writeln!(f, "refusal {number:<20}{count:>14}")?;
        }
        writeln!(f, "{:<28}{:>14}", "no opinion (kira's text)", self.silent)?;
        writeln!(f, "{:<28}{:>14}", "differences", self.differences())?;
        for ((player, kind), found) in &self.found {
            writeln!(
                f,
                "\n{player} differs in {} ({} times): {}",
                kind.label(),
                found.times,
                found.reason
            )?;
            writeln!(f, "{}", found.call)?;
        }
        Ok(())
    }
}
