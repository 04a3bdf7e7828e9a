// A scenario as it is written: each record with the oracle's result, or the refusal by the rules.

use oracle::{Commands, LaneBuffers, Oracle, Reported, Settings, Signals, State};

use super::words::Words;

// The kinds of records.
const SOUND: u64 = 1;
const STATE: u64 = 2;
const PASSED: u64 = 3;
const CREATION: u64 = 4;
const COMMAND_SET: u64 = 5;
const BLOCK: u64 = 6;
const MIX: u64 = 7;
const STRETCH: u64 = 8;

/// The input of a block.
#[derive(Clone)]
pub struct Block {
    pub lanes: LaneBuffers,
    pub dt: f64,
    pub signals: Signals,
}

/// A sound, and kira's voice on it while its state is well formed.
pub struct Scene<'a> {
    list: &'a mut Words,
    sound: Vec<f32>,
    passed: usize,
    voice: Option<Oracle>,
    state: State,
}

impl<'a> Scene<'a> {
    /// A scenario over these samples; each call gets all of them.
    pub fn begin(list: &'a mut Words, sound: &[f32]) -> Self {
        list.number(SOUND);
        list.counted(sound);
        Self {
            list,
            sound: sound.to_vec(),
            passed: sound.len(),
            voice: None,
            state: State::BLANK,
        }
    }

    pub fn state(&self) -> &State {
        &self.state
    }

    /// Sets the voice to this state, well formed or not.
    pub fn give(&mut self, state: &State) {
        self.list.number(STATE);
        self.list.state(state);
        self.state = *state;
        let fits = state.is_well_formed() && self.sound.len() == 2 * state.total_frames;
        self.voice = fits.then(|| Oracle::inject(state, &self.sound));
    }

    /// From now on each call gets this many of the sound's samples.
    pub fn pass(&mut self, samples: usize) {
        self.list.number(PASSED);
        self.list.index(samples);
        self.passed = samples;
    }

    pub fn create(&mut self, settings: &Settings) {
        let voice = Oracle::create(settings, &self.sound);
        self.state = voice.state();
        self.voice = Some(voice);
        self.write_creation(settings, 0);
    }

    pub fn create_refused(&mut self, settings: &Settings, refusal: u64) {
        self.state = State::BLANK;
        self.voice = None;
        self.write_creation(settings, refusal);
    }

    pub fn command(&mut self, commands: &Commands) {
        let voice = self.voice();
        let position = voice.command(commands).expect("a short seek");
        self.state = voice.state();
        self.write_commands(commands, 0, position);
    }

    pub fn command_refused(&mut self, commands: &Commands, refusal: u64) {
        self.write_commands(commands, refusal, 0.0);
    }

    pub fn block(&mut self, block: &Block) {
        let (reported, out) = self.play(block);
        self.write_block(BLOCK, block);
        self.list.index(out.len());
        self.write_outcome(0, reported, &out);
    }

    /// A refused block, into an output of this many samples.
    pub fn block_refused(&mut self, block: &Block, samples: usize, refusal: u64) {
        self.write_block(BLOCK, block);
        self.list.index(samples);
        self.write_outcome(refusal, NOTHING, &untouched(samples));
    }

    /// A block into a mix of this many samples, from a frame on.
    pub fn mix(&mut self, block: &Block, samples: usize, from: usize) {
        let (reported, out) = self.play(block);
        let mut mix = untouched(samples);
        mix[2 * from..][..out.len()].copy_from_slice(&out);
        self.write_block(MIX, block);
        self.list.index(samples);
        self.list.index(from);
        self.write_outcome(0, reported, &mix);
    }

    pub fn mix_refused(&mut self, block: &Block, samples: usize, from: usize, refusal: u64) {
        self.write_block(MIX, block);
        self.list.index(samples);
        self.list.index(from);
        self.write_outcome(refusal, NOTHING, &untouched(samples));
    }

    /// The stretch of the voice; empty if the state is not well formed or does not fit the sound.
    pub fn stretch(&mut self) {
        let state = self.state;
        let fits = state.is_well_formed() && self.passed == 2 * state.total_frames;
        let (start, end) = state.slice.unwrap_or((0, state.total_frames));
        self.list.number(STRETCH);
        self.list.counted(if fits {
            &self.sound[2 * start..2 * end]
        } else {
            &[]
        });
    }

    fn voice(&mut self) -> &mut Oracle {
        self.voice.as_mut().expect("a well formed state")
    }

    fn play(&mut self, block: &Block) -> (Reported, Vec<f32>) {
        let mut out = untouched(2 * block.lanes.rate.len());
        let voice = self.voice();
        let reported = voice.block(&block.lanes.as_lanes(), block.dt, block.signals, &mut out);
        self.state = voice.state();
        (reported, out)
    }

    fn write_creation(&mut self, settings: &Settings, refusal: u64) {
        self.list.number(CREATION);
        self.list.settings(settings);
        self.list.number(refusal);
        self.list.state(&self.state);
    }

    fn write_commands(&mut self, commands: &Commands, refusal: u64, position: f64) {
        self.list.number(COMMAND_SET);
        self.list.commands(commands);
        self.list.number(refusal);
        self.list.double(position);
        self.list.state(&self.state);
    }

    fn write_block(&mut self, kind: u64, block: &Block) {
        self.list.number(kind);
        self.list.lanes(&block.lanes);
        self.list.double(block.dt);
        self.list.signals(block.signals);
    }

    fn write_outcome(&mut self, refusal: u64, reported: Reported, out: &[f32]) {
        self.list.number(refusal);
        self.list.number(reported.steps);
        self.list.number(reported.lowest_count.into());
        self.list.state(&self.state);
        self.list.samples(out);
    }
}

/// What a refused block reports.
const NOTHING: Reported = Reported {
    steps: 0,
    lowest_count: 4,
};

/// The contents of an output before a call: -1, -2 and so on.
fn untouched(samples: usize) -> Vec<f32> {
    (1..=samples).map(|place| -(place as f32)).collect()
}
