// Parameters as kira handles them, updated once a block with a straight line across it, over kira's own text. The
// result depends on block sizes. With blocks of one frame and commands in order it equals the player's.

use std::time::Duration;

use cableowl::{
    Command, Commands, Easing, Frames, Lanes, Level, LoopCommand, Player, Processed, Refusal,
    ResumeCommand, Settings, Signals, StaticSound, Tween,
};
use random::Random;

use crate::evening::{Evening, Plays, no_counts, seeds, shrunk};

/// A parameter that is updated once a block.
#[derive(Clone, Copy)]
struct Parameter {
    from: f64,
    to: f64,
    passed: u64,
    frames: u64,
    waits: u64,
    easing: Easing,
    /// The values before the block and at its end.
    previous: f64,
    value: f64,
    is_level: bool,
}

impl Parameter {
    fn new(value: f64, is_level: bool) -> Self {
        Self {
            from: value,
            to: value,
            passed: u64::MAX,
            frames: 0,
            waits: 0,
            easing: Easing::Linear,
            previous: value,
            value,
            is_level,
        }
    }

    fn set(&mut self, to: f64, over: Over) {
        (self.from, self.to, self.passed) = (self.value, to, 0);
        (self.frames, self.waits, self.easing) = (over.frames, over.delay, over.easing);
    }

    /// Returns whether its tween has ended with this block.
    fn update(&mut self, frames: u64) -> bool {
        self.previous = self.value;
        let waited = self.waits.min(frames);
        self.waits -= waited;
        if self.passed == u64::MAX || frames == waited {
            return false;
        }
        self.passed += frames - waited;
        if self.passed >= self.frames {
            (self.value, self.passed) = (self.to, u64::MAX);
            return true;
        }
        let (passed, all) = (self.passed as f64, self.frames as f64);
        let way = self.easing.at(passed / all);
        self.value = match (self.is_level, self.easing) {
            (true, Easing::Linear) => {
                ((self.from * (all - passed) + self.to * passed) / all).floor()
            }
            (true, _) => (self.from + (self.to - self.from) * way).floor(),
            (false, _) => {
                let value = self.from + (self.to - self.from) * way;
                let ends = [self.from, self.to];
                // As in the player: never past an end.
                match ends[0] <= ends[1] {
                    true if value < ends[0] => ends[0],
                    true if value > ends[1] => ends[1],
                    false if value < ends[1] => ends[1],
                    false if value > ends[0] => ends[0],
                    _ => value,
                }
            }
        };
        false
    }

    /// kira's `interpolated_value`.
    fn interpolated(&self, amount: f64) -> f64 {
        match amount == 1.0 {
            true => self.value,
            false => self.previous + (self.value - self.previous) * amount,
        }
    }
}

fn amplitude(level: f64) -> f32 {
    Level::new(level as u32).unwrap().amplitude()
}

fn gains(panning: f64) -> (f32, f32) {
    let panning = panning as f32;
    if panning == 0.0 {
        return (1.0, 1.0);
    }
    let mix = (panning.clamp(-1.0, 1.0) + 1.0) * 0.5;
    let root_2 = std::f32::consts::SQRT_2;
    ((1.0 - mix).sqrt() * root_2, mix.sqrt() * root_2)
}

/// The lanes of a block.
pub struct Numbers {
    fade: Vec<f32>,
    volume: Vec<f32>,
    left: Vec<f32>,
    right: Vec<f32>,
    rate: Vec<f64>,
}

/// The voice that gets the parameters: ours, or kira's own text.
pub trait Voice {
    fn create(evening: &Evening) -> Self;
    fn held_rate(&self) -> f64;
    fn obey(&mut self, sound: &[f32], commands: Commands);
    fn block(
        &mut self,
        sound: &[f32],
        lanes: &Numbers,
        step: f64,
        finished: bool,
        out: &mut [f32],
    ) -> Processed;
    fn reported(&self) -> Vec<u8>;
    fn place(&self) -> Place;
}

/// Where a voice is: the number of its state, the position, the fraction by its bits, the wraps forward and backward.
pub type Place = (u32, usize, u64, u64, u64);

pub fn our_place(voice: &StaticSound) -> Place {
    let state = voice.state();
    let wraps = (state.wraps.forward.into(), state.wraps.backward.into());
    let fraction = state.fractional_position.to_bits();
    let number = state.playback_state.number();
    (number, state.position, fraction, wraps.0, wraps.1)
}

/// Our voice, with buffers for its lanes.
pub struct Ours(pub StaticSound, Lanes);

impl Voice for Ours {
    fn create(evening: &Evening) -> Self {
        let voice = StaticSound::new(evening.settings, &evening.sound).unwrap();
        Self(voice, Lanes::new())
    }

    fn held_rate(&self) -> f64 {
        self.0.state().playback_rate
    }

    fn obey(&mut self, sound: &[f32], commands: Commands) {
        self.0.on_start_processing(sound, commands).unwrap();
    }

    fn block(
        &mut self,
        sound: &[f32],
        lanes: &Numbers,
        step: f64,
        finished: bool,
        out: &mut [f32],
    ) -> Processed {
        let block = self
            .1
            .frames(out.len() / 2)
            .fade(&lanes.fade)
            .volume(&lanes.volume);
        let block = block
            .left(&lanes.left)
            .right(&lanes.right)
            .rate(&lanes.rate);
        let signals = Signals::new().finished(finished);
        self.0.process(sound, block, step, signals, out).unwrap()
    }

    fn reported(&self) -> Vec<u8> {
        self.0.state().to_bytes()
    }

    fn place(&self) -> Place {
        our_place(&self.0)
    }
}

fn kiras(place: cableowl::PlaybackPosition) -> oracle::PlaybackPosition {
    match place {
        cableowl::PlaybackPosition::Seconds(at) => oracle::PlaybackPosition::Seconds(at),
        cableowl::PlaybackPosition::Samples(at) => oracle::PlaybackPosition::Samples(at),
    }
}

fn kiras_region(region: cableowl::Region) -> oracle::Region {
    oracle::Region {
        start: kiras(region.start),
        end: match region.end {
            cableowl::EndPosition::EndOfAudio => oracle::EndPosition::EndOfAudio,
            cableowl::EndPosition::Custom(place) => oracle::EndPosition::Custom(kiras(place)),
        },
    }
}

impl Voice for oracle::Oracle {
    fn create(evening: &Evening) -> Self {
        let settings = oracle::Settings {
            start: kiras(evening.settings.start_position),
            loop_region: evening.settings.loop_region.map(kiras_region),
            reverse: evening.settings.reverse,
            rate: evening.settings.playback_rate,
            ..oracle::Settings::new(evening.settings.sample_rate)
        };
        Self::create(&settings, &evening.sound)
    }

    fn held_rate(&self) -> f64 {
        self.state().rate
    }

    fn obey(&mut self, _: &[f32], commands: Commands) {
        let commands = oracle::Commands {
            rate: commands.playback_rate,
            loop_region: match commands.loop_region {
                LoopCommand::Keep => None,
                LoopCommand::Clear => Some(None),
                LoopCommand::Set(region) => Some(Some(kiras_region(region))),
            },
            pause: commands.pause,
            resume: (commands.resume != ResumeCommand::No).then_some(false),
            stop: commands.stop,
            seek_by: commands.seek_by,
            seek_to: commands.seek_to,
        };
        self.command(&commands).unwrap();
    }

    fn block(
        &mut self,
        _: &[f32],
        lanes: &Numbers,
        step: f64,
        finished: bool,
        out: &mut [f32],
    ) -> Processed {
        let lanes = oracle::Lanes {
            fade: &lanes.fade,
            volume: &lanes.volume,
            left: &lanes.left,
            right: &lanes.right,
            rate: &lanes.rate,
        };
        let signals = oracle::Signals {
            finished,
            ..oracle::Signals::default()
        };
        let reported = self.block(&lanes, step, signals, out);
        let mut counts = no_counts();
        (counts.steps, counts.lowest_count) = (reported.steps, reported.lowest_count);
        counts
    }

    fn reported(&self) -> Vec<u8> {
        format!("{:?}", self.state()).into()
    }

    fn place(&self) -> Place {
        let state = self.state();
        let wraps = (state.wraps.forward.into(), state.wraps.backward.into());
        let number = state.playback.number().into();
        (
            number,
            state.position,
            state.fraction.to_bits(),
            wraps.0,
            wraps.1,
        )
    }
}

/// A tween in frames.
#[derive(Debug, Clone, Copy)]
struct Over {
    delay: u64,
    frames: u64,
    easing: Easing,
}

/// A command as the voice gets it, and its fade.
type CommandWithFade = (Commands, Option<(f64, Over)>);

/// How the commands before one frame are applied.
#[derive(Debug, Clone, Copy, PartialEq)]
pub enum Obeys {
    /// Each separately, in the order in which they were given.
    InOrder,
    /// As kira reads them: the last of each kind, in the order of a command set.
    LikeKira,
}

/// A player like kira's `sound.rs`: `update` for the whole block, then `interpolated_value` for each frame.
pub struct PerBlock<V> {
    pub voice: V,
    obeys: Obeys,
    output_rate: u32,
    volume: Parameter,
    fade: Parameter,
    rate: Parameter,
    panning: Parameter,
    commands: Vec<CommandWithFade>,
}

impl<V: Voice> PerBlock<V> {
    pub fn new(evening: &Evening, obeys: Obeys) -> Self {
        let mut fade = Parameter::new(0.0, true);
        if let Some(tween) = evening.fade_in {
            fade = Parameter::new(601.0, true);
            fade.set(0.0, over(tween, evening.output_rate));
        }
        Self {
            voice: V::create(evening),
            obeys,
            output_rate: evening.output_rate,
            volume: Parameter::new(0.0, true),
            fade,
            rate: Parameter::new(evening.settings.playback_rate, false),
            panning: Parameter::new(0.0, false),
            commands: Vec::new(),
        }
    }
}

fn over(tween: Tween, output_rate: u32) -> Over {
    let frames = |duration: Duration| {
        let product = duration.as_nanos() * u128::from(output_rate) + 500_000_000;
        (product / 1_000_000_000) as u64
    };
    Over {
        delay: frames(tween.delay),
        frames: frames(tween.duration),
        easing: tween.easing,
    }
}

/// The last command of each kind. Of the fades, the one that comes last in a command set.
fn like_kira(row: &[CommandWithFade]) -> CommandWithFade {
    let mut set = Commands::new();
    let mut fades = [None; 3];
    for (commands, fade) in row {
        if commands.loop_region != LoopCommand::Keep {
            set.loop_region = commands.loop_region;
        }
        let presses = [
            commands.pause,
            commands.resume != ResumeCommand::No,
            commands.stop,
        ];
        for (kind, _) in presses.iter().enumerate().filter(|(_, is)| **is) {
            fades[kind] = *fade;
        }
        set.pause |= commands.pause;
        set.stop |= commands.stop;
        if commands.resume != ResumeCommand::No {
            set.resume = commands.resume;
        }
        set.seek_by = commands.seek_by.or(set.seek_by);
        set.seek_to = commands.seek_to.or(set.seek_to);
    }
    (set, fades.into_iter().flatten().last())
}

impl<V: Voice> Plays for PerBlock<V> {
    fn command(&mut self, command: Command) -> Result<(), Refusal> {
        let over = |tween| over(tween, self.output_rate);
        let none = Commands::new();
        let given = match command {
            Command::Pause(tween) => (none.pause(), Some((601.0, over(tween)))),
            Command::Resume(tween) => (none.resume(), Some((0.0, over(tween)))),
            Command::Stop(tween) => (none.stop(), Some((601.0, over(tween)))),
            Command::SetPlaybackRate(rate, tween) => {
                self.rate.set(rate, over(tween));
                return Ok(());
            }
            Command::SetVolume(level, tween) => {
                self.volume.set(level.tenths().into(), over(tween));
                return Ok(());
            }
            Command::SetPanning(panning, tween) => {
                self.panning.set(panning.into(), over(tween));
                return Ok(());
            }
            Command::SetLoopRegion(region) => (none.set_loop_region(region), None),
            Command::ClearLoopRegion => (none.clear_loop_region(), None),
            Command::SeekBy(seconds) => (none.seek_by(seconds), None),
            Command::SeekTo(seconds) => (none.seek_to(seconds), None),
            _ => unreachable!("no start here"),
        };
        self.commands.push(given);
        Ok(())
    }

    fn process(&mut self, sound: &[f32], out: &mut [f32]) -> Result<Processed, Refusal> {
        let n = out.len() / 2;
        if n == 0 {
            return Ok(no_counts());
        }
        let mut row = std::mem::take(&mut self.commands);
        if self.obeys == Obeys::LikeKira {
            row = vec![like_kira(&row)];
        }
        for (commands, fade) in row {
            self.voice.obey(sound, commands);
            if let Some((to, over)) = fade {
                self.fade.set(to, over);
            }
        }
        self.volume.update(n as u64);
        self.rate.update(n as u64);
        self.panning.update(n as u64);
        let finished = self.fade.update(n as u64);
        let rate = self.rate.value;
        if self.voice.held_rate().is_sign_negative() != rate.is_sign_negative() {
            self.voice
                .obey(sound, Commands::new().set_playback_rate(rate));
        }
        let amounts = (1..=n).map(|i| i as f64 / n as f64);
        let level = |parameter: Parameter| {
            let amounts = amounts.clone();
            amounts
                .map(|at| amplitude(parameter.interpolated(at)))
                .collect()
        };
        let panning = amounts.clone().map(|at| self.panning.interpolated(at));
        let (left, right) = panning.map(gains).unzip();
        let lanes = Numbers {
            fade: level(self.fade),
            volume: level(self.volume),
            left,
            right,
            rate: amounts.map(|at| self.rate.interpolated(at)).collect(),
        };
        let step = 1.0 / f64::from(self.output_rate);
        Ok(self.voice.block(sound, &lanes, step, finished, out))
    }

    fn reported(&self) -> Vec<u8> {
        self.voice.reported()
    }
}

fn one_command(command: Command, frames: usize) -> Evening {
    Evening {
        sound: (0..40).map(|i| i as f32).collect(),
        settings: Settings::new(1_000).start_position(Frames(4)),
        output_rate: 1_000,
        fade_in: None,
        commands: vec![(0, command)],
        frames,
    }
}

/// Whether one block plays something else than blocks of one frame, for these two voices.
fn differs(evening: &Evening, new: impl Fn() -> Box<dyn Plays>) -> bool {
    let one = evening.played(new().as_mut(), &mut || usize::MAX);
    let ones = evening.played(new().as_mut(), &mut || 1);
    (one.samples, one.reported.last()) != (ones.samples, ones.reported.last())
}

/// Every evening of one command, those with few frames and short tweens first.
fn small_evenings() -> impl Iterator<Item = Evening> {
    (1..=4).flat_map(|frames| {
        (0..=4).flat_map(move |millis| {
            let tween = Tween::from_millis(millis);
            let level = Level::new(60).unwrap();
            let commands = [
                Command::Pause(tween),
                Command::Stop(tween),
                Command::SetPlaybackRate(0.5, tween),
                Command::SetPlaybackRate(-1.0, tween),
                Command::SetVolume(level, tween),
                Command::SetPanning(-1.0, tween),
            ];
            commands.map(|command| one_command(command, frames))
        })
    })
}

#[test]
fn the_smallest_evenings_that_tell_a_parameter_updated_once_a_block() {
    let per_block = |evening: &Evening| {
        let new = || PerBlock::<oracle::Oracle>::new(evening, Obeys::LikeKira);
        differs(evening, || Box::new(new()))
    };
    let found: Vec<Evening> = small_evenings()
        .filter(|evening| per_block(evening))
        .collect();
    let first_of = |wanted: fn(&Command) -> bool| {
        let evening = found.iter().find(|evening| wanted(&evening.commands[0].1));
        let evening = evening.expect("one that differs");
        println!("{} frames: {:?}", evening.frames, evening.commands[0].1);
        (evening.frames, evening.commands[0].1)
    };
    // A volume set at once: kira spreads it over the block, whatever its length.
    let (two, at_once) = (2, Tween::AT_ONCE);
    let level = Level::new(60).unwrap();
    let volume = first_of(|command| matches!(command, Command::SetVolume(..)));
    assert_eq!(volume, (two, Command::SetVolume(level, at_once)));
    let rate = first_of(|command| matches!(command, Command::SetPlaybackRate(..)));
    assert_eq!(rate, (two, Command::SetPlaybackRate(0.5, at_once)));
    let panning = first_of(|command| matches!(command, Command::SetPanning(..)));
    assert_eq!(panning, (two, Command::SetPanning(-1.0, at_once)));
    // A pause over two frames: in one block kira has ended it before the first frame, so nothing of the fade is
    // audible.
    let pause = first_of(|command| matches!(command, Command::Pause(..)));
    assert_eq!(pause, (two, Command::Pause(Tween::from_millis(2))));
    // The player does not depend on block sizes in any of these.
    for evening in small_evenings() {
        assert!(!differs(&evening, || Box::new(evening.player())));
    }
}

/// A random evening without starts and refusals, which this variant does not have.
fn plain(random: &mut Random) -> Evening {
    let mut evening = Evening::any(random);
    evening.settings.start_waits = false;
    let mut judge: Player = evening.player();
    evening.commands.retain(|(_, command)| {
        let starts = matches!(command, Command::StartAtTick(..) | Command::StartAfter(_));
        !starts && judge.command(*command).is_ok()
    });
    evening
}

/// Random evenings: with blocks of one frame, the other player plays all of them as ours does.
fn limit_of<V: Voice>(seeds: impl Iterator<Item = u64>) {
    let (mut rounds, mut differ, mut frames) = (0, 0, 0);
    for seed in seeds {
        rounds += 1;
        let evening = plain(&mut Random::new(seed));
        let other = |evening: &Evening, frames| {
            let mut player = PerBlock::<V>::new(evening, Obeys::InOrder);
            let outcome = evening.played(&mut player, &mut || frames);
            (outcome.samples, outcome.counts, player.voice.place())
        };
        let ours = |evening: &Evening| {
            let mut player = evening.player();
            let outcome = evening.played(&mut player, &mut || 4_096);
            (outcome.samples, outcome.counts, our_place(player.voice()))
        };
        if other(&evening, 1) != ours(&evening) {
            let least = shrunk(evening, |evening| other(evening, 1) != ours(evening));
            panic!("seed {seed}\n{least:#?}");
        }
        differ += usize::from(other(&evening, 64) != ours(&evening));
        frames += evening.frames;
    }
    println!("{frames} frames; in blocks of 64 {differ} of {rounds} evenings differ");
    assert!(differ > rounds / 4);
}

#[test]
fn the_player_is_kiras_text_with_blocks_of_one_frame() {
    limit_of::<oracle::Oracle>(seeds(1_000));
}

#[test]
fn the_player_is_a_voice_with_parameters_updated_each_frame() {
    limit_of::<Ours>(seeds(500));
}
