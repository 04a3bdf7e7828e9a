//! A recorded voice plays like an unrecorded one, call for call and bit for bit, and what it recorded replays to the same
//! lines and samples. This file has what the tests of both versions of the trace page need.

mod first;
mod second;

use std::fmt::Debug;

use cableowl::{
    BlockLanes, Commands, Frames, Processed, Refusal, Settings, Signals, StaticSound,
    trace::{Recorded, Recorder},
};
use random::Random;

fn settings(random: &mut Random) -> Settings {
    let settings = Settings::new([0, 1, 1, 2, 3][random.below(5)])
        .reverse(random.one_in(4))
        .start_waits(random.one_in(4));
    match random.below(4) {
        0 => settings.loop_region(..),
        1 => settings.loop_region(0.0..1.0).playback_rate(-1.0),
        2 => settings.slice(Frames(0)..Frames(random.below(9))),
        _ => settings,
    }
}

/// A command set with at most two commands. `stops` decides whether a stop is one of them.
fn commands(random: &mut Random, stops: fn(&mut Random) -> bool) -> Commands {
    let commands = Commands::new();
    match random.below(9) {
        0 => commands.pause(),
        1 => commands.resume(),
        2 => commands.resume_waiting(),
        3 if stops(random) => commands.stop(),
        4 => commands.seek_by(random.unit() * 8.0 - 4.0),
        5 => commands.seek_to(f64::from_bits(random.word())),
        6 => commands.set_loop_region(Frames(random.below(9))..Frames(random.below(9))),
        7 => commands.clear_loop_region().set_playback_rate(-0.5),
        _ => commands,
    }
}

fn bits(samples: &[f32]) -> Vec<u32> {
    samples.iter().map(|sample| sample.to_bits()).collect()
}

/// A block of a recorder. It is written to the whole output, or into a mix from the frame `from` on.
fn record_block(
    recorder: &mut Recorder<'_>,
    sound: &[f32],
    lanes: BlockLanes<'_>,
    dt: f64,
    signals: Signals,
    out: &mut [f32],
    from: Option<usize>,
) -> Recorded<Processed> {
    match from {
        None => recorder.process(sound, lanes, dt, signals, out),
        Some(from) => recorder.process_into(sound, lanes, dt, signals, out, from),
    }
}

/// An unrecorded voice, or none before the first accepted creation. It returns what a recorder must return.
#[derive(Default)]
struct Unrecorded(Option<StaticSound>);

impl Unrecorded {
    fn create(&mut self, settings: Settings, sound: &[f32]) -> Result<(), Refusal> {
        let made = StaticSound::new(settings, sound);
        let answer = made.as_ref().map(|_| ()).map_err(|refusal| *refusal);
        self.0 = made.ok();
        answer
    }

    fn voice(&mut self) -> Result<&mut StaticSound, Refusal> {
        self.0.as_mut().ok_or(Refusal::State)
    }

    fn commands(&mut self, sound: &[f32], commands: Commands) -> Result<f64, Refusal> {
        self.voice()?.on_start_processing(sound, commands)
    }

    fn block(
        &mut self,
        sound: &[f32],
        lanes: BlockLanes<'_>,
        dt: f64,
        signals: Signals,
        out: &mut [f32],
        from: Option<usize>,
    ) -> Result<Processed, Refusal> {
        let voice = self.voice()?;
        match from {
            None => voice.process(sound, lanes, dt, signals, out),
            Some(from) => voice.process_into(sound, lanes, dt, signals, out, from),
        }
    }

    /// Compares the answer of a call and the voice after it with the recorder's.
    fn compare<T: PartialEq + Debug>(
        &self,
        recorder: &Recorder<'_>,
        made: &Recorded<T>,
        answer: &Result<T, Refusal>,
    ) {
        assert_eq!(made.answer, *answer);
        let voices = [recorder.voice(), self.0.as_ref()];
        let [recorded, plain] = voices.map(|voice| voice.map(StaticSound::state));
        assert_eq!(recorded, plain);
    }
}
