// Many players into one buffer: bare voices, players with constant parameters, and players whose parameters all move.

use std::{fmt::Write, time::Instant};

use cableowl::{Frames, Lanes, Level, Player, Settings, Signals, StaticSound, Tween};

use crate::workload::{HZ, Looped, Voice, Workload};

/// The voices that play at once.
const VOICES: usize = 64;
/// The calls of the table, in frames.
const BLOCKS: [usize; 4] = [64, 256, 1_024, 4_096];
/// Frames of each voice, call after call; each call is timed separately.
const FRAMES: usize = 200 * 4_096;

/// Something that adds a block of all voices to a buffer.
trait Mixes {
    fn mix(&mut self, sound: &[f32], out: &mut [f32]);
}

/// Voices with constant lanes, each played into a buffer of its own and added.
struct Bare {
    voices: Vec<StaticSound>,
    lanes: Lanes,
    played: Vec<f32>,
}

impl Mixes for Bare {
    fn mix(&mut self, sound: &[f32], out: &mut [f32]) {
        let (frames, step) = (out.len() / 2, 1.0 / f64::from(HZ));
        let played = &mut self.played[..out.len()];
        for voice in &mut self.voices {
            let lanes = self.lanes.frames(frames).volume(0.5).rate(0.93);
            let answer = voice.process(sound, lanes, step, Signals::new(), played);
            debug_assert!(answer.is_ok());
            for (out, played) in out.iter_mut().zip(&*played) {
                *out += played;
            }
        }
    }
}

impl Mixes for Vec<Player> {
    fn mix(&mut self, sound: &[f32], out: &mut [f32]) {
        for player in self {
            let answer = player.mix(sound, out);
            debug_assert!(answer.is_ok());
        }
    }
}

fn settings(voice: usize) -> Settings {
    let all = Settings::new(HZ).loop_region(..);
    all.start_position(Frames(701 * voice)).playback_rate(0.93)
}

/// Players. Those that move keep moving for the whole measurement.
fn players(sound: &[f32], moving: bool) -> Vec<Player> {
    let level = Level::new(60).expect("a level");
    let tween = |hours: u64| match moving {
        true => Tween::from_millis(hours * 3_600_000),
        false => Tween::AT_ONCE,
    };
    let player = |voice| {
        let mut player = Player::play(settings(voice), HZ, sound).expect("accepted settings");
        player.set_volume(level, tween(1));
        if moving {
            let rate = player.set_playback_rate(0.94, tween(2));
            let panning = player.set_panning(0.5, tween(3));
            rate.and(panning).expect("accepted numbers");
            player.resume(tween(4));
        }
        player
    };
    (0..VOICES).map(player).collect()
}

/// One player that plays a workload's blocks, to count its instructions.
pub struct One<'a> {
    player: Player,
    sound: &'a [f32],
    out: Vec<f32>,
}

impl<'a> One<'a> {
    /// A player over the workload's sound, with all parameters moving or none.
    #[must_use]
    pub fn new(workload: &Workload, sound: &'a [f32], moving: bool) -> Self {
        Self {
            player: players(sound, moving).swap_remove(0),
            sound,
            out: vec![0.0; 2 * workload.block],
        }
    }
}

impl Voice for One<'_> {
    fn block(&mut self) {
        let answer = self.player.process(self.sound, &mut self.out);
        debug_assert!(answer.is_ok());
    }

    fn heard(&self) -> Vec<u32> {
        self.out.iter().map(|sample| sample.to_bits()).collect()
    }
}

/// Nanoseconds per frame of one voice, the minimum of all calls, each in turn.
fn least(block: usize, sound: &[f32]) -> [f64; 3] {
    let voice = |voice| StaticSound::new(settings(voice), sound).expect("accepted settings");
    let mut bare = Bare {
        voices: (0..VOICES).map(voice).collect(),
        lanes: Lanes::new(),
        played: vec![0.0; 2 * block],
    };
    let (mut resting, mut moving) = (players(sound, false), players(sound, true));
    let mut out = vec![0.0; 2 * block];
    let mut least = [f64::INFINITY; 3];
    for _ in 0..FRAMES / block {
        let all: [&mut dyn Mixes; 3] = [&mut bare, &mut resting, &mut moving];
        for (least, mixes) in least.iter_mut().zip(all) {
            out.fill(0.0);
            let begun = Instant::now();
            mixes.mix(sound, &mut out);
            let time = begun.elapsed().as_nanos() as f64 / (block * VOICES) as f64;
            *least = least.min(time);
        }
    }
    least
}

/// The table: one line per length of the call.
#[must_use]
pub fn table() -> String {
    let mut text = String::from(
        "| call | bare voice | player at rest | player in motion | rest / bare | motion / bare |\n|---|---|---|---|---|---|\n",
    );
    let sound = Looped::Long.sound();
    for block in BLOCKS {
        let times = least(block, &sound);
        write!(text, "| {block} |").expect("a string takes all");
        for time in times {
            let voices = 1e9 / (time * f64::from(HZ));
            write!(text, " {voices:.0} ({time:.1} ns) |").expect("a string takes all");
        }
        let [bare, rest, motion] = times;
        let ratios = (rest / bare, motion / bare);
        writeln!(text, " {:.2} | {:.2} |", ratios.0, ratios.1).expect("a string takes all");
    }
    text
}
