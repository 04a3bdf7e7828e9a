// Makes the same calls of every player, compares, counts, and shrinks the first differences.

use oracle::{Entry, LaneBuffers, PlaybackState, Signals, State};

use crate::{
    call::{Ask, Block, Call, Outcome, Place},
    player::{DOCUMENT, Player, refusal},
    shrink::shrink,
    tally::{Found, Kind, Tally},
};

/// How many differences of one player and kind are shrunk. The others are only counted.
const SHRUNK: u64 = 3;

/// The model of the rules, and the players that are compared with it.
pub struct Harness<'a> {
    players: Vec<&'a dyn Player>,
    /// What has been counted so far.
    pub tally: Tally,
    stops_at_first: bool,
}

impl<'a> Harness<'a> {
    /// A harness for these players.
    #[must_use]
    pub fn new(players: Vec<&'a dyn Player>) -> Self {
        Self {
            players,
            tally: Tally::default(),
            stops_at_first: false,
        }
    }

    /// A harness that needs only one difference.
    #[must_use]
    pub fn until_first(player: &'a dyn Player) -> Self {
        Self {
            stops_at_first: true,
            ..Self::new(vec![player])
        }
    }

    /// Whether a run may end early.
    #[must_use]
    pub fn has_enough(&self) -> bool {
        self.stops_at_first && !self.tally.found.is_empty()
    }

    /// Calls all players, and returns the outcome of the model.
    pub fn ask(&mut self, kind: Kind, call: &Call) -> Outcome {
        let expected = judged(call);
        self.compare(kind, call, &expected);
        expected
    }

    /// Calls all players. The call must be refused with this number and change nothing.
    pub fn expect_refused(&mut self, call: &Call, number: u32) {
        assert_eq!(refusal(call), number, "by construction:\n{call}");
        self.compare(Kind::Refusal, call, &call.refused(number));
    }

    /// Calls all players. The call must be accepted.
    pub fn expect_accepted(&mut self, call: &Call) {
        assert_eq!(refusal(call), 0, "by construction:\n{call}");
        self.ask(Kind::Edge, call);
    }

    fn compare(&mut self, kind: Kind, call: &Call, expected: &Outcome) {
        self.tally.calls[kind as usize] += 1;
        self.tally.refusals[expected.refusal as usize] += 1;
        self.tally.steps += expected.steps;
        if expected.refusal == 0 {
            self.tally.frames += call
                .block()
                .map_or(0, |block| block.lanes.rate.len() as u64);
        }
        for player in self.players.clone() {
            match player.answer(call) {
                None => self.tally.silent += 1,
                Some(got) => {
                    if expected.difference(&got, call).is_some() {
                        self.record(kind, player, call, &|call| differs(player, call));
                    }
                }
            }
        }
    }

    /// Cuts an accepted block into parts of these lengths, for each player separately.
    pub fn cut(&mut self, kind: Kind, call: &Call, parts: &[usize]) {
        for player in self.players.clone() {
            self.tally.calls[kind as usize] += 1;
            let Some(reason) = cut_differs(player, call, parts) else {
                continue;
            };
            if some_cut_differs(player, call).is_some() {
                self.record(kind, player, call, &|call| some_cut_differs(player, call));
            } else {
                self.note(kind, player, call.clone(), reason);
            }
        }
    }

    /// Counts a difference, and shrinks the first few.
    fn record(
        &mut self,
        kind: Kind,
        player: &dyn Player,
        call: &Call,
        fails: &dyn Fn(&Call) -> Option<String>,
    ) {
        let key = (player.name().to_string(), kind);
        match self.tally.found.get_mut(&key) {
            Some(found) if found.times >= SHRUNK => found.times += 1,
            _ => {
                let (call, reason) = shrink(call, fails);
                self.note(kind, player, call, reason);
            }
        }
    }

    fn note(&mut self, kind: Kind, player: &dyn Player, call: Call, reason: String) {
        let found = Found {
            call,
            reason,
            times: 1,
        };
        let one = Tally {
            found: [((player.name().to_string(), kind), found)].into(),
            ..Tally::default()
        };
        self.tally.add(&one);
    }
}

/// The outcome by the model of the rules.
#[must_use]
pub fn judged(call: &Call) -> Outcome {
    DOCUMENT
        .answer(call)
        .expect("the model has an opinion on every call")
}

/// How a player differs from the model, if it does.
#[must_use]
pub fn differs(player: &dyn Player, call: &Call) -> Option<String> {
    let got = player.answer(call)?;
    judged(call).difference(&got, call)
}

/// Whether a player differs from itself when the block is cut in two somewhere.
fn some_cut_differs(player: &dyn Player, call: &Call) -> Option<String> {
    let n = call.block()?.lanes.rate.len();
    let cuts: Vec<usize> = if n <= 24 {
        (0..=n).collect()
    } else {
        vec![0, 1, n / 2, n - 1, n]
    };
    cuts.into_iter()
        .find_map(|k| cut_differs(player, call, &[k, n - k]))
}

/// How a block cut into parts differs from the whole one: samples, steps, the lowest count and the state after it. If
/// the voice has stopped by a cut, steps, lowest count, fraction and frame indices may differ.
fn cut_differs(player: &dyn Player, call: &Call, parts: &[usize]) -> Option<String> {
    let Ask::Block(state, block) = &call.ask else {
        return None;
    };
    let mut whole = player.answer(call)?;
    if whole.refusal != 0 {
        return None;
    }
    let mut cut = Outcome {
        samples: Vec::new(),
        ..whole.clone()
    };
    (cut.state, cut.steps, cut.lowest_count) = (Some(*state), 0, 4);
    let mut signals = block.signals;
    let (mut from, mut stopped) = (0, false);
    for (index, &length) in parts.iter().enumerate() {
        let held = cut.state?;
        stopped |= index > 0 && held.playback == PlaybackState::Stopped;
        let part = Call {
            ask: Ask::Block(held, part_of(block, from, length, signals)),
            sound: call.sound.clone(),
        };
        let answer = player.answer(&part)?;
        if answer.refusal != 0 {
            return Some(format!(
                "cut {parts:?}: refusal {} at {from}",
                answer.refusal
            ));
        }
        cut.state = answer.state;
        cut.steps += answer.steps;
        cut.lowest_count = cut.lowest_count.min(answer.lowest_count);
        cut.samples.extend(answer.samples);
        // Only the first part gets the signals. Each part gets the tick.
        signals = Signals::default();
        from += length;
    }
    if stopped {
        whole = bare(whole);
        cut = bare(cut);
    }
    let difference = whole.difference(&cut, call)?;
    Some(format!("cut {parts:?}: {difference}"))
}

/// These frames of a block.
fn part_of(block: &Block, from: usize, length: usize, signals: Signals) -> Block {
    let range = from..from + length;
    Block {
        lanes: LaneBuffers {
            fade: block.lanes.fade[range.clone()].to_vec(),
            volume: block.lanes.volume[range.clone()].to_vec(),
            left: block.lanes.left[range.clone()].to_vec(),
            right: block.lanes.right[range.clone()].to_vec(),
            rate: block.lanes.rate[range].to_vec(),
        },
        signals,
        place: Place::Whole(2 * length),
        ..*block
    }
}

/// An outcome without its steps, lowest count, fraction and frame indices.
fn bare(outcome: Outcome) -> Outcome {
    let state = outcome.state.map(|state| State {
        fraction: 0.0,
        window: state.window.map(|entry| Entry { number: 0, ..entry }),
        ..state
    });
    Outcome {
        state,
        steps: 0,
        lowest_count: 4,
        ..outcome
    }
}
