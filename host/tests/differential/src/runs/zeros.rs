// The two zeros as held rates over every tiny transport, with and without reverse: at creation, by a rate
// command before a block, and by one between the two parts of a cut block.

use std::sync::Arc;

use oracle::{Commands, LaneBuffers, Settings, Signals, State};

use super::tiny::{settings_at, sound, transports};
use crate::{
    call::{Ask, Block, Call, Place, Sound},
    harness::Harness,
    tally::Kind,
};

/// Every position and loop over 1 to `most` frames.
pub fn zeros(harness: &mut Harness, most: usize) {
    for total in 1..=most {
        let mut voice = Asked {
            harness,
            sound: sound(total),
        };
        for state in transports(total).filter(|state| state.playing) {
            for rate in [0.0, -0.0] {
                voice.created(&state, rate);
                voice.commanded(&state, rate);
                voice.commanded_at_the_cut(&state, rate);
            }
        }
        if harness.has_enough() {
            return;
        }
    }
}

/// The harness, and the sound of each of its calls.
struct Asked<'a, 'b> {
    harness: &'a mut Harness<'b>,
    sound: Arc<Sound>,
}

impl Asked<'_, '_> {
    /// A creation with the rate, then a block.
    fn created(&mut self, state: &State, rate: f64) {
        let settings = Settings {
            rate,
            ..settings_at(state)
        };
        let created = self.ask(Ask::Create(settings));
        self.block(created, 0..4);
    }

    /// A rate command, then a block.
    fn commanded(&mut self, state: &State, rate: f64) {
        let commanded = self.command(*state, rate);
        self.block(commanded, 0..4);
    }

    /// A block with the rate command between its two parts.
    fn commanded_at_the_cut(&mut self, state: &State, rate: f64) {
        for cut in 0..=4 {
            let first = self.block(*state, 0..cut);
            let commanded = self.command(first, rate);
            self.block(commanded, cut..4);
        }
    }

    fn command(&mut self, state: State, rate: f64) -> State {
        let commands = Commands {
            rate: Some(rate),
            ..Commands::default()
        };
        self.ask(Ask::Command(state, commands))
    }

    /// These frames of a block of four. Its lane has both zeros and both signs.
    fn block(&mut self, state: State, part: std::ops::Range<usize>) -> State {
        let n = part.len();
        let block = Block {
            lanes: LaneBuffers {
                rate: [-1.0, -0.0, 1.5, 0.0][part].to_vec(),
                ..LaneBuffers::constant(n, 1.0, 0.5, (1.0, 2.0), 0.0)
            },
            dt: 1.0,
            signals: Signals::default(),
            tick: None,
            place: Place::Whole(2 * n),
        };
        self.ask(Ask::Block(state, block))
    }

    /// The state after the call, by docs/assurance/RULES.md.
    fn ask(&mut self, ask: Ask) -> State {
        let sound = self.sound.clone();
        let outcome = self.harness.ask(Kind::Zeros, &Call { ask, sound });
        outcome.state.expect("a state of the model's")
    }
}
