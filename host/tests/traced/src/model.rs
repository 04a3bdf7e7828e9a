//! A second player of records, over the voice's own calls: what a replay must return.

pub mod second;

use cableowl::{
    Lanes, Refusal, StaticSound,
    trace::{Line, MAX_TRACED_FRAMES, Record, Refused, ShortSound, Step, Trace, TraceVersion},
};

/// A replay of a trace, with its own counts.
#[derive(Debug, Clone)]
pub struct Model {
    voice: Option<StaticSound>,
    sound: ShortSound,
    blocks: u64,
    lanes: Lanes,
    out: Vec<f32>,
    heard: usize,
}

impl Model {
    /// Before any record.
    #[must_use]
    pub fn new() -> Self {
        Self {
            voice: None,
            sound: ShortSound::EMPTY,
            blocks: 0,
            lanes: Lanes::new(),
            out: vec![0.0; 2 * MAX_TRACED_FRAMES],
            heard: 0,
        }
    }

    /// Plays a record, and returns what it did.
    pub fn play(&mut self, record: &Record) -> Step {
        match record {
            Record::Creation { settings, sound } => {
                self.sound = *sound;
                let created = StaticSound::new(*settings, sound.samples());
                let answer = created.as_ref().map(|_| ()).map_err(|refusal| *refusal);
                self.voice = created.ok();
                Step::Creation(answer)
            }
            Record::Commands(commands) => Step::Commands(match &mut self.voice {
                Some(voice) => voice
                    .on_start_processing(self.sound.samples(), *commands)
                    .map(|_| ()),
                None => Err(Refusal::State),
            }),
            Record::Block(block) => {
                self.blocks += 1;
                self.heard = 0;
                let Some(voice) = &mut self.voice else {
                    return Step::Block(Line::RefusedBlock {
                        block: self.blocks,
                        refusal: Refusal::State,
                    });
                };
                let out = &mut self.out[..2 * block.frames];
                let lanes = self.lanes.frames(block.frames).fade(block.fade);
                let lanes = lanes.volume(block.volume).left(block.left);
                let lanes = lanes.right(block.right).rate(block.rate);
                let (sound, signals) = (self.sound.samples(), block.signals());
                let answer = voice.process(sound, lanes, block.time_step, signals, out);
                if answer.is_ok() {
                    self.heard = 2 * block.frames;
                }
                Step::Block(Line::of_block(self.blocks, block.frames, voice, answer))
            }
            Record::GivenCreation { .. } | Record::LanedBlock(_) => {
                unreachable!("reader 1 reads kinds 1 to 3")
            }
        }
    }

    /// The samples of the last block; none if it was refused.
    #[must_use]
    pub fn heard(&self) -> &[f32] {
        &self.out[..self.heard]
    }

    /// The voice, if there is one.
    #[must_use]
    pub fn voice(&self) -> Option<&StaticSound> {
        self.voice.as_ref()
    }
}

impl Default for Model {
    fn default() -> Self {
        Self::new()
    }
}

/// What each record of a trace does, up to the end or to a refused record.
#[must_use]
pub fn steps(bytes: &[u8]) -> Vec<Step> {
    let mut model = Model::new();
    let records = Trace::with_version(bytes, TraceVersion::First);
    let steps = records.map(|record| match record {
        Ok((_, record)) => model.play(&record),
        Err(Refused { refusal, at }) => Step::Refused(Refused { refusal, at }),
    });
    steps.collect()
}
