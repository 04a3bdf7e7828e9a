//! Replays of version 2, over sounds that are given or not, compared with the model.

use cableowl::{
    Refusal,
    trace::{self, Lesson, Line, Replay, Step},
};
use random::Random;

use crate::{
    entries,
    make::second::{self as make, Named},
    model::second::{self as model, Did, Slip, Sounds},
    replays::bits,
    runs::{Run, Tally},
};

/// Traces with faults and without, over sounds that are given or not, must do what the model does.
///
/// # Errors
///
/// What differs.
pub fn compare(seed: u64, count: u64, mut play: impl FnMut(&[u8], Option<&Sounds>) -> Did) -> Run {
    let (mut random, mut tally) = (Random::new(seed), Tally::default());
    while tally.calls < count {
        let sounds = make::sounds(&mut random);
        let named: Vec<Named> = sounds.iter().map(|(name, _)| *name).collect();
        let faults = random.below(2);
        let bytes = make::damaged(&mut random, &named, 30, faults);
        // All of them, some, or none; an empty collection also counts as given.
        let given = match random.below(4) {
            0 => None,
            1 => Some(&sounds[random.below(sounds.len() + 1)..]),
            _ => Some(&sounds[..]),
        };
        let (ours, expected) = (play(&bytes, given), model::did(&bytes, given, Slip::Right));
        if ours != expected {
            return Err(format!(
                "{bytes:x?} over {:?}: {ours:?} against {expected:?}",
                given.map(<[_]>::len)
            ));
        }
        for (_, refusal) in &expected.answers {
            tally.call(*refusal, 0);
        }
        tally.bytes += bytes.len() as u64;
    }
    Ok(tally)
}

/// The bytes that a replay has: a trace in pieces of any lengths.
struct Pieces<'a> {
    bytes: &'a [u8],
    /// The bytes, and the offset of the first.
    held: Vec<u8>,
    at: usize,
}

impl<'a> Pieces<'a> {
    fn new(bytes: &'a [u8]) -> Self {
        Self {
            bytes,
            held: Vec::new(),
            at: 0,
        }
    }

    fn ended(&self) -> bool {
        self.at + self.held.len() == self.bytes.len()
    }

    /// Adds a piece.
    fn more(&mut self, random: &mut Random) {
        let from = self.at + self.held.len();
        let most = if random.one_in(10) { 30_000 } else { 100 };
        let until = (from + 1 + random.below(most)).min(self.bytes.len());
        self.held.extend_from_slice(&self.bytes[from..until]);
    }

    /// Removes this many bytes, which are done.
    fn done(&mut self, size: usize) {
        self.held.drain(..size);
        self.at += size;
    }
}

/// The crate's replay, with a trace in pieces.
pub fn library(random: &mut Random, bytes: &[u8], sounds: Option<&Sounds>) -> Did {
    let mut replay = Replay::new();
    let mut over_samples = false;
    if let Some(sounds) = sounds {
        let lessons = sounds.iter().map(|(_, samples)| Lesson::new(&samples[..]));
        let lessons: trace::Sounds = lessons.map(|lesson| lesson.expect("a sound")).collect();
        replay = replay.sounds(lessons);
    }
    let (mut pieces, mut did) = (Pieces::new(bytes), Did::default());
    loop {
        let at = pieces.at;
        let (step, size) = replay.step(&pieces.held, pieces.ended());
        pieces.done(size);
        did.lines.extend(step.line().map(|line| line.to_string()));
        let refusal = match step {
            Step::More => {
                pieces.more(random);
                continue;
            }
            Step::End | Step::Refused(_) => break,
            Step::Creation(answer) | Step::Commands(answer) => answer.err(),
            Step::OtherSound(_) => Some(Refusal::OtherSound),
            Step::Block(Line::RefusedBlock { refusal, .. }) => Some(refusal),
            Step::Block(_) => None,
        };
        let kind = entries::read_v2(bytes, at as u64).kind;
        let number = refusal.map_or(0, |refusal| refusal.number().into());
        match kind {
            1 => over_samples = true,
            4 => over_samples = sounds.is_some(),
            3 | 5 if over_samples => did.heard.extend(bits(replay.heard())),
            _ => {}
        }
        did.answers.push((kind, number));
    }
    did.voice = model::voice(replay.voice());
    did
}

/// The C entry, with a trace in pieces and a host that compares digests.
pub fn entry(random: &mut Random, bytes: &[u8], sounds: Option<&Sounds>) -> Did {
    let (mut replay, mut sound, mut out) = (cableowl_sys::replay_v2(), [0.0; 128], [0.0; 2_048]);
    let (mut given, mut over_samples) = (Vec::new(), false);
    let (mut pieces, mut did) = (Pieces::new(bytes), Did::default());
    loop {
        let read = entries::read_v2(&pieces.held, 0);
        let mut offered = 0;
        if read.kind == 4 {
            let same = |(name, _): &&(Named, Vec<f32>)| name.digest == read.values[13..17];
            let fits = sounds.and_then(|sounds| sounds.iter().find(same));
            (offered, given) = match (sounds, fits) {
                (None, _) => (0, vec![0.0; 2 * read.values[12].min(16_777_217) as usize]),
                (_, Some((_, samples))) => (1, samples.clone()),
                _ => (2, Vec::new()),
            };
        }
        let ended = pieces.ended();
        let held = &pieces.held;
        let done = cableowl_sys::replay_step_v2(
            replay, held, ended, &mut sound, &given, offered, &mut out,
        );
        let at = replay.offset;
        replay = done.replay;
        pieces.done(done.size as usize);
        let (block, frames) = (replay.blocks, done.frames);
        match (done.what, done.kind) {
            (0, 1) => over_samples = true,
            (0, 4) => {
                over_samples = sounds.is_some();
                if done.refusal == 26 {
                    did.lines.push(format!("creation=26 at={at}"));
                }
            }
            (0, 3 | 5) if done.refusal != 0 => {
                let refusal = done.refusal;
                did.lines.push(format!("block={block} refused={refusal}"));
            }
            (0, 3 | 5) => {
                let (steps, state) = (done.steps, replay.voice.state);
                let position = replay.voice.position;
                did.lines.push(format!(
                    "block={block} frames={frames} steps={steps} state={state} position={position}"
                ));
                if over_samples {
                    did.heard.extend(bits(&out[..2 * frames as usize]));
                }
            }
            (0, _) => {}
            (1, _) => {
                pieces.more(random);
                continue;
            }
            (3, _) => {
                let refusal = done.refusal;
                did.lines.push(format!("refused={refusal} at={at}"));
                break;
            }
            (2, _) => break,
            _ => panic!("{done:?}"),
        }
        did.answers.push((done.kind, done.refusal));
    }
    did
}
