//! A second player of traces of version 2, over the voice's own calls and sounds that are given or not: what a replay
//! must return. It can make a slip, to test the comparison.

use cableowl::{
    BlockLanes, Commands, Lanes, Refusal, Settings, StartAnswer, StaticSound,
    trace::{self, Record},
};

use crate::{
    Values,
    entries::Read,
    make::second::Named,
    page::{self, second},
    replays::bits,
};

/// A slip of a replay.
#[derive(Debug, Clone, Copy, PartialEq, Eq)]
pub enum Slip {
    /// None.
    Right,
    /// The sound is checked after the settings: 2 to 7 before 26.
    SoundAfterSettings,
    /// The voice stays if none of the sounds fits.
    VoiceKept,
    /// A sound with the recorded frame count fits, whatever its digest.
    CountAlone,
    /// A sound with the recorded digest fits, whatever the recorded frame count.
    DigestAlone,
    /// 26 if no sound is given.
    NoneGivenRefused,
    /// Silence of the recorded frame count if none fits.
    NoneFitsSilent,
    /// The trace ends if none fits.
    EndsThere,
    /// A creation that is refused with 26 is counted as a block.
    Counted,
    /// The line of 26 has the offset after the record.
    PlaceAfter,
    /// Left and right exchanged in the lanes.
    LeftForRight,
    /// The first frame's lanes for every frame.
    FirstFrameForAll,
    /// The rate as an f32.
    RateNarrowed,
    /// The first sound for every creation.
    FirstSound,
}

impl Slip {
    /// All wrong ones.
    pub const ALL: [Self; 13] = [
        Self::SoundAfterSettings,
        Self::VoiceKept,
        Self::CountAlone,
        Self::DigestAlone,
        Self::NoneGivenRefused,
        Self::NoneFitsSilent,
        Self::EndsThere,
        Self::Counted,
        Self::PlaceAfter,
        Self::LeftForRight,
        Self::FirstFrameForAll,
        Self::RateNarrowed,
        Self::FirstSound,
    ];
}

/// What a replay of a trace did.
#[derive(Debug, Clone, PartialEq, Eq, Default)]
pub struct Did {
    /// Each record's kind and refusal; 0 is none.
    pub answers: Vec<(u64, u64)>,
    /// The lines.
    pub lines: Vec<String>,
    /// The samples of the blocks over a sound that was given or recorded, by their bits.
    pub heard: Vec<u32>,
    /// The voice at the end, if there is one.
    pub voice: String,
}

/// Sounds, each with its name.
pub type Sounds = [(Named, Vec<f32>)];

/// The sound that a creation plays over.
#[derive(Debug, Clone)]
enum Over {
    /// Samples.
    Samples(Vec<f32>),
    /// This many frames, of which nothing is known.
    Frames(Vec<f32>),
}

impl Over {
    fn samples(&self) -> &[f32] {
        match self {
            Self::Samples(samples) | Self::Frames(samples) => samples,
        }
    }
}

/// The lanes of a laned block.
#[derive(Debug, Default)]
struct FrameLanes {
    singles: [Vec<f32>; 4],
    rate: Vec<f64>,
}

impl FrameLanes {
    fn new(bytes: &[u8], slip: Slip) -> Self {
        let mut lanes = Self::default();
        let first = &bytes[..second::FRAME];
        for frame in bytes.chunks_exact(second::FRAME) {
            let frame = if slip == Slip::FirstFrameForAll {
                first
            } else {
                frame
            };
            for (lane, single) in lanes.singles.iter_mut().zip(frame.chunks_exact(4)) {
                lane.push(f32::from_le_bytes(single.try_into().expect("four")));
            }
            let rate = f64::from_le_bytes(frame[16..].try_into().expect("eight"));
            lanes.rate.push(match slip {
                Slip::RateNarrowed => f64::from(rate as f32),
                _ => rate,
            });
        }
        if slip == Slip::LeftForRight {
            lanes.singles.swap(2, 3);
        }
        lanes
    }

    fn of<'a>(&'a self, lanes: &'a mut Lanes) -> BlockLanes<'a> {
        let [fade, volume, left, right] = &self.singles;
        let lanes = lanes.frames(self.rate.len()).fade(fade).volume(volume);
        lanes.left(left).right(right).rate(&self.rate)
    }
}

/// The settings of a creation, read by the crate from a creation of kind 1 over no frames.
fn settings(values: &Values) -> Settings {
    let mut bare = [0; 80];
    bare[..12].copy_from_slice(&values[..12]);
    let bytes = page::bytes(1, &bare).expect("a creation");
    match trace::read(&bytes, 0) {
        Ok((Record::Creation { settings, .. }, _)) => settings,
        other => panic!("{other:?}"),
    }
}

/// A replay of a trace.
struct Model<'a> {
    sounds: Option<&'a Sounds>,
    slip: Slip,
    voice: Option<StaticSound>,
    over: Over,
    blocks: u64,
    lanes: Lanes,
    out: Vec<f32>,
    did: Did,
}

impl Model<'_> {
    /// The sound of a creation of kind 4; `None` if none of the given ones fits.
    fn over(&self, values: &Values) -> Option<Over> {
        let named = Named {
            frames: values[12],
            digest: values[13..17].try_into().expect("four"),
        };
        let frames = named.frames.min(16_777_217) as usize;
        let silent = || Over::Frames(vec![0.0; 2 * frames]);
        let Some(sounds) = self.sounds else {
            return (self.slip != Slip::NoneGivenRefused).then(silent);
        };
        let fits = |name: &Named| match self.slip {
            Slip::CountAlone => name.frames == named.frames,
            Slip::DigestAlone => name.digest == named.digest,
            Slip::FirstSound => true,
            _ => *name == named,
        };
        let found = sounds.iter().find(|(name, _)| fits(name));
        let found = found.map(|(_, samples)| Over::Samples(samples.clone()));
        match self.slip {
            Slip::NoneFitsSilent => found.or_else(|| Some(silent())),
            _ => found,
        }
    }

    fn create(&mut self, settings: Settings, over: Option<Over>, values: &Values) -> u64 {
        let Some(over) = over else {
            if self.slip == Slip::SoundAfterSettings {
                let frames = values[12].min(16_777_217) as usize;
                if let Err(refusal) = StaticSound::new(settings, &vec![0.0; 2 * frames]) {
                    self.voice = None;
                    return refusal.number().into();
                }
            }
            if self.slip != Slip::VoiceKept {
                self.voice = None;
            }
            self.blocks += u64::from(self.slip == Slip::Counted);
            return 26;
        };
        let created = StaticSound::new(settings, over.samples());
        self.over = over;
        let refusal = created.as_ref().err().map_or(0, |refusal| refusal.number());
        self.voice = created.ok();
        refusal.into()
    }

    fn command(&mut self, commands: Commands) -> u64 {
        let answer = match &mut self.voice {
            Some(voice) => voice.on_start_processing(self.over.samples(), commands),
            None => Err(Refusal::State),
        };
        answer.err().map_or(0, |refusal| refusal.number().into())
    }

    /// A block with its own lanes, or with those of each frame.
    fn block(&mut self, block: trace::Block, lanes: Option<&FrameLanes>) -> u64 {
        self.blocks += 1;
        let Some(voice) = &mut self.voice else {
            self.did
                .lines
                .push(format!("block={} refused=1", self.blocks));
            return 1;
        };
        let out = &mut self.out[..2 * block.frames];
        let lanes = match lanes {
            Some(lanes) => lanes.of(&mut self.lanes),
            None => {
                let lanes = self.lanes.frames(block.frames).fade(block.fade);
                let lanes = lanes.volume(block.volume).left(block.left);
                lanes.right(block.right).rate(block.rate)
            }
        };
        let sound = self.over.samples();
        let answer = voice.process(sound, lanes, block.time_step, block.signals(), out);
        let line = trace::Line::of_block(self.blocks, block.frames, voice, answer);
        self.did.lines.push(line.to_string());
        if answer.is_ok() && matches!(self.over, Over::Samples(_)) {
            self.did.heard.extend(bits(out));
        }
        answer.err().map_or(0, |refusal| refusal.number().into())
    }

    /// Plays the record that was read at an offset. Returns whether the trace continues.
    fn play(&mut self, bytes: &[u8], at: u64, read: &Read) -> bool {
        let values = &read.values;
        let refusal = match read.kind {
            4 => {
                let over = self.over(values);
                let refusal = self.create(settings(values), over, values);
                if refusal == 26 {
                    let at = match self.slip {
                        Slip::PlaceAfter => read.next,
                        _ => at,
                    };
                    self.did.lines.push(format!("creation=26 at={at}"));
                }
                refusal
            }
            5 => {
                let lanes = FrameLanes::new(second::lanes(bytes, read), self.slip);
                self.block(laned_block(values), Some(&lanes))
            }
            _ => match trace::read(bytes, at as usize) {
                Ok((Record::Creation { settings, sound }, _)) => {
                    let over = Over::Samples(sound.samples().to_vec());
                    self.create(settings, Some(over), values)
                }
                Ok((Record::Commands(commands), _)) => self.command(commands),
                Ok((Record::Block(block), _)) => self.block(block, None),
                other => panic!("kind {}: {other:?}", read.kind),
            },
        };
        self.did.answers.push((read.kind, refusal));
        !(refusal == 26 && self.slip == Slip::EndsThere)
    }
}

/// The fields of a laned block besides its lanes.
fn laned_block(values: &Values) -> trace::Block {
    let answer = |number: u64| match number {
        0 => StartAnswer::Waiting,
        1 => StartAnswer::Now,
        _ => StartAnswer::Never,
    };
    trace::Block {
        finished: values[2] == 1,
        start: answer(values[3]),
        resume: answer(values[4]),
        ..trace::Block::new(values[0] as usize, f64::from_bits(values[1]))
    }
}

/// Plays a trace over the given sounds, or without any.
#[must_use]
pub fn did(bytes: &[u8], sounds: Option<&Sounds>, slip: Slip) -> Did {
    let mut model = Model {
        sounds,
        slip,
        voice: None,
        over: Over::Samples(Vec::new()),
        blocks: 0,
        lanes: Lanes::new(),
        out: vec![0.0; 2_048],
        did: Did::default(),
    };
    let mut at = 0;
    while at < bytes.len() as u64 {
        let read = second::read(bytes, at);
        if read.refusal != 0 {
            let line = format!("refused={} at={at}", read.refusal);
            model.did.lines.push(line);
            break;
        }
        if !model.play(bytes, at, &read) {
            break;
        }
        at = read.next;
    }
    model.did.voice = voice(model.voice.as_ref());
    model.did
}

/// A voice in words.
#[must_use]
pub fn voice(voice: Option<&StaticSound>) -> String {
    voice.map_or_else(String::new, |voice| format!("{:?}", voice.state()))
}
