//! The compiled step of a replay: traces in pieces, compared with the model, and any bytes as the replay and as the
//! trace.

pub mod second;

use cableowl::trace::{Replay, Step, Trace, TraceVersion};
use random::Random;
use raw::{CableowlReplay, CableowlSignals, Held, REPLAY_BYTES, ReplayBytes};

use crate::{
    make,
    model::{self, Model},
    page,
    runs::{Run, Tally},
};

/// The samples by their bits; any NaN counts as the same.
#[must_use]
pub fn bits(samples: &[f32]) -> Vec<u32> {
    let bits = |sample: &f32| match sample.is_nan() {
        true => f32::NAN.to_bits(),
        false => sample.to_bits(),
    };
    samples.iter().map(bits).collect()
}

/// A trace that the library gets in pieces of any lengths must do what the model does: the same steps, the same samples
/// of each block, the same voice at its end.
///
/// # Errors
///
/// What differs.
pub fn compare_steps(random: &mut Random, bytes: &[u8]) -> Result<Vec<Step>, String> {
    let version = TraceVersion::First;
    let (mut replay, mut held, mut given) = (Replay::with_version(version), Vec::new(), 0);
    let (mut model, mut records) = (Model::new(), Trace::with_version(bytes, version));
    let mut steps = Vec::new();
    loop {
        let (step, size) = replay.step(&held, given == bytes.len());
        held.drain(..size);
        match step {
            Step::More => {
                let more = (1 + random.below(80)).min(bytes.len() - given);
                held.extend_from_slice(&bytes[given..given + more]);
                given += more;
                continue;
            }
            Step::End => break,
            Step::Refused(_) => {
                steps.push(step);
                break;
            }
            _ => steps.push(step),
        }
        if let Some(Ok((_, record))) = records.next() {
            model.play(&record);
        }
        if bits(replay.heard()) != bits(model.heard()) {
            return Err(format!("{bytes:x?}: other samples after {step:?}"));
        }
    }
    let voices = [replay.voice(), model.voice()].map(|voice| format!("{voice:?}"));
    match steps == model::steps(bytes) && voices[0] == voices[1] {
        true => Ok(steps),
        false => Err(format!("{bytes:x?}: {steps:?} against the model")),
    }
}

/// Traces with faults and without, in pieces, compared with the model.
///
/// # Errors
///
/// What differs.
pub fn steps(seed: u64, count: u64) -> Run {
    let (mut random, mut tally) = (Random::new(seed), Tally::default());
    while tally.calls < count {
        let faults = random.below(3);
        let bytes = make::damaged(&mut random, 30, faults);
        for step in compare_steps(&mut random, &bytes)? {
            let refusal = match step {
                Step::Creation(answer) | Step::Commands(answer) => answer.err(),
                Step::Block(cableowl::trace::Line::RefusedBlock { refusal, .. }) => Some(refusal),
                Step::Refused(refused) => Some(refused.refusal),
                _ => None,
            };
            tally.call(refusal.map_or(0, |refusal| refusal.number().into()), 0);
        }
        tally.bytes += bytes.len() as u64;
    }
    Ok(tally)
}

/// One call of any bytes.
struct Case {
    replay: CableowlReplay,
    bytes: Box<[u8]>,
    ended: bool,
    sound: Box<[f32]>,
    out: Box<[f32]>,
}

/// A length near a limit, mostly above it.
fn near(random: &mut Random, limit: usize) -> usize {
    match random.below(8) {
        0 => random.below(limit),
        1 => limit - 1,
        _ => limit + random.below(3),
    }
}

fn any_samples(random: &mut Random, length: usize) -> Box<[f32]> {
    let sample = |random: &mut Random| f32::from_bits(random.word() as u32);
    (0..length).map(|_| sample(random)).collect()
}

impl Case {
    fn any(random: &mut Random) -> Self {
        // Boxed, so that they have no spare element: a memory checker sees every access beyond them.
        let (frames, room) = (near(random, 128), near(random, 2_048));
        let (mut sound, mut out) = (any_samples(random, frames), any_samples(random, room));
        let mut replay = raw::replay();
        let faults = random.below(2);
        let bytes = make::damaged(random, 4, faults).into_boxed_slice();
        let mut at = 0;
        for _ in 0..random.below(4) {
            let did = raw::replay_step(replay, &bytes[at..], true, &mut sound, &mut out);
            replay = did.replay;
            at += did.size as usize;
        }
        let mut state = replay.to_bytes();
        for _ in 0..random.below(4) {
            state[random.below(REPLAY_BYTES)] = random.word() as u8;
        }
        if random.one_in(8) {
            state.fill_with(|| random.word() as u8);
        }
        if random.coin() {
            // The last two numbers are correct, so that the rest is checked.
            state[REPLAY_BYTES - 8..].copy_from_slice(&replay.to_bytes()[REPLAY_BYTES - 8..]);
        }
        let end = at + random.below(bytes.len() - at + 1);
        Self {
            replay: CableowlReplay::from_bytes(state),
            bytes: bytes[at..end].into(),
            ended: random.coin(),
            sound,
            out,
        }
    }

    /// What is wrong with the result, if anything; and its refusal.
    fn fault(&mut self) -> Result<u64, String> {
        let (before, sound, out) = (self.replay, self.sound.clone(), self.out.clone());
        let did = raw::replay_step(
            before,
            &self.bytes,
            self.ended,
            &mut self.sound,
            &mut self.out,
        );
        let read = page::read(&self.bytes, 0);
        let has_samples = before.samples <= sound.len() as u64;
        let refusal = match (before.reader, before.given, has_samples) {
            (1, 0, true) if sound.len() < 128 || out.len() < 2_048 => 19,
            (1, 0, true) => 0,
            _ => 1,
        };
        let (what, number) = match (refusal, self.bytes.len(), read.refusal) {
            (1.., ..) => (4, refusal),
            (0, 0, _) => (1 + u64::from(self.ended), 0),
            (0, _, 0) => (0, did.refusal),
            (0, _, 18) if !self.ended => (1, 0),
            (0, _, refusal) => (3, refusal),
        };
        if (did.what, did.refusal) != (what, number) {
            return Err(format!(
                "{} {}, {what} {number} expected",
                did.what, did.refusal
            ));
        }
        let same = |one: &[f32], other: &[f32]| bits(one) == bits(other);
        if what != 0 {
            let kept = did.replay.to_bytes() == before.to_bytes();
            let nothing = (did.size, did.frames, did.steps, did.kind, did.lowest_count);
            let idle = kept && nothing == (0, 0, 0, 0, 4);
            let unchanged = same(&self.sound, &sound) && same(&self.out, &out);
            return match idle && unchanged {
                true => Ok(did.refusal),
                false => Err("it did not play, and changed something".to_owned()),
            };
        }
        let after = did.replay;
        let mut expected = CableowlReplay {
            offset: before.offset.saturating_add(read.next),
            ..after
        };
        (expected.reader, expected.given) = (before.reader, before.given);
        let mut samples = out.to_vec();
        match read.kind {
            1 => {
                expected.blocks = before.blocks;
                expected.samples = 2 * read.values[12];
            }
            kind => {
                expected.samples = before.samples;
                expected.blocks = before.blocks.saturating_add(u64::from(kind == 3));
                if did.refusal != 0 {
                    expected.voice = before.voice;
                }
            }
        }
        if read.kind == 3 {
            let played = played(&before, &sound, &read.values, &mut samples);
            let answer = (did.refusal, did.frames, did.steps, did.lowest_count);
            if answer
                != (
                    played.refusal.into(),
                    read.values[0],
                    played.steps,
                    played.lowest_count.into(),
                )
            {
                return Err(format!("{did:?} against {played:?}"));
            }
            expected.voice = played.state;
        }
        let kept = if read.kind == 1 {
            expected.samples as usize
        } else {
            0
        };
        let unchanged = same(&self.sound[kept..], &sound[kept..]) && same(&self.out, &samples);
        match after.to_bytes() == expected.to_bytes() && unchanged && did.size == read.next {
            true => Ok(did.refusal),
            false => Err(format!("{did:?} against {expected:?}")),
        }
    }
}

/// The block of a record, played by the voice's own entry into the first samples of the output.
fn played(
    before: &CableowlReplay,
    sound: &[f32],
    values: &[u64; 80],
    out: &mut [f32],
) -> raw::CableowlProcessed {
    let single = |place: usize| f32::from_bits(values[place] as u32);
    let held = Held {
        fade: single(1),
        volume: single(2),
        left: single(3),
        right: single(4),
        rate: f64::from_bits(values[5]),
    };
    let signals = CableowlSignals {
        finished: values[7] as u32,
        start: values[8] as u32,
        resume: values[9] as u32,
        ..CableowlSignals::default()
    };
    let (sound, out) = (
        &sound[..before.samples as usize],
        &mut out[..2 * values[0] as usize],
    );
    raw::process_held(
        before.voice,
        sound,
        held,
        f64::from_bits(values[6]),
        signals,
        out,
    )
}

/// Any bytes as the replay and as the trace: refused calls change nothing, and every other result is that of the page
/// and the voice.
///
/// # Errors
///
/// What differs.
pub fn any_bytes(seed: u64, count: u64) -> Run {
    let (mut random, mut tally) = (Random::new(seed), Tally::default());
    while tally.calls < count {
        let mut case = Case::any(&mut random);
        let refusal = case
            .fault()
            .map_err(|fault| format!("{fault}: {:?}, {:x?}", case.replay, case.bytes))?;
        tally.call(refusal, case.bytes.len());
    }
    Ok(tally)
}
