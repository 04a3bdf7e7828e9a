// A random evening of a player: a sound, and commands at frames; and its result for a way to cut time.

use std::{env, sync::OnceLock, time::Duration};

use cableowl::{
    Command, Easing, Frames, Level, PlaybackPosition, Player, Processed, Refusal, Region, Settings,
    Ticks, Tween,
};
use random::Random;

/// Something that plays an evening.
pub trait Plays {
    fn command(&mut self, command: Command) -> Result<(), Refusal>;
    fn process(&mut self, sound: &[f32], out: &mut [f32]) -> Result<Processed, Refusal>;
    /// Everything that it reports, by bits.
    fn reported(&self) -> Vec<u8>;
}

impl Plays for Player {
    fn command(&mut self, command: Command) -> Result<(), Refusal> {
        self.command(command)
    }

    fn process(&mut self, sound: &[f32], out: &mut [f32]) -> Result<Processed, Refusal> {
        self.process(sound, out)
    }

    fn reported(&self) -> Vec<u8> {
        let mut reported = self.to_bytes();
        let numbers = [
            self.position().to_bits(),
            self.playback_rate().to_bits(),
            self.panning().to_bits().into(),
            self.volume().tenths().into(),
            self.frames(),
            self.counts().steps,
            self.counts().lowest_count.into(),
            self.state().number().into(),
            self.wraps().forward.into(),
            self.wraps().backward.into(),
        ];
        reported.extend(numbers.iter().flat_map(|number| number.to_le_bytes()));
        reported
    }
}

/// What is played, and which command comes when.
#[derive(Debug, Clone, PartialEq)]
pub struct Evening {
    pub sound: Vec<f32>,
    pub settings: Settings,
    pub output_rate: u32,
    pub fade_in: Option<Tween>,
    /// Sorted by frame.
    pub commands: Vec<(usize, Command)>,
    pub frames: usize,
}

/// The result of an evening.
#[derive(Debug, Clone, PartialEq)]
pub struct Outcome {
    pub samples: Vec<u32>,
    pub answers: Vec<Result<(), Refusal>>,
    /// What the player reports before each command's frame and at the end.
    pub reported: Vec<Vec<u8>>,
    pub counts: Processed,
}

/// How a host cuts time: returns the next block's frames.
pub type Cut<'a> = &'a mut dyn FnMut() -> usize;

/// The seeds of the evenings. PLAYER_SEED and PLAYER_ROUNDS change the first one and how many there are.
pub fn seeds(rounds: u64) -> impl Iterator<Item = u64> {
    let number = |name, otherwise| {
        let word = env::var(name);
        word.map_or(otherwise, |word| word.parse().expect("a number"))
    };
    let (seed, rounds) = (number("PLAYER_SEED", 1), number("PLAYER_ROUNDS", rounds));
    (0..rounds).map(move |round| seed.wrapping_mul(1 << 32).wrapping_add(round))
}

/// The counts of no frames.
pub fn no_counts() -> Processed {
    static NONE: OnceLock<Processed> = OnceLock::new();
    *NONE.get_or_init(|| {
        let player = Player::play(Settings::new(1), 1, &[0.0; 2]);
        player.unwrap().counts()
    })
}

pub fn bits(samples: &[f32]) -> Vec<u32> {
    samples.iter().map(|sample| sample.to_bits()).collect()
}

impl Evening {
    pub fn player(&self) -> Player {
        let player = Player::play(self.settings, self.output_rate, &self.sound).unwrap();
        match self.fade_in {
            Some(tween) => player.fade_in_tween(tween),
            None => player,
        }
    }

    /// Plays the evening with each command at its frame, in the host's block sizes.
    pub fn played(&self, player: &mut dyn Plays, cut: Cut) -> Outcome {
        let mut samples = vec![f32::NAN; 2 * self.frames];
        let mut outcome = Outcome {
            samples: Vec::new(),
            answers: Vec::new(),
            reported: Vec::new(),
            counts: Player::play(Settings::new(1), 1, &[0.0; 2])
                .unwrap()
                .counts(),
        };
        let (mut clock, mut steps, mut lowest) = (0, 0, 4);
        let ends = self.commands.iter().map(|(frame, _)| *frame);
        let mut commands = self.commands.iter().map(|(_, command)| *command);
        for end in ends.chain([self.frames]) {
            while clock < end {
                let frames = cut().min(end - clock);
                let out = &mut samples[2 * clock..2 * (clock + frames)];
                let counts = player.process(&self.sound, out).unwrap();
                (steps, lowest) = (steps + counts.steps, lowest.min(counts.lowest_count));
                clock += frames;
            }
            // Some hosts call with no frames, also between two commands at one frame.
            if cut() == 0 {
                player.process(&self.sound, &mut []).unwrap();
            }
            outcome.reported.push(player.reported());
            outcome
                .answers
                .extend(commands.next().map(|command| player.command(command)));
        }
        outcome.counts.steps = steps;
        outcome.counts.lowest_count = lowest;
        outcome.samples = bits(&samples);
        outcome
    }

    /// A random one.
    pub fn any(random: &mut Random) -> Self {
        let most = [4, 40, 400][random.below(3)];
        let frames_of_sound = 1 + random.below(most);
        let rates = [48_000, 44_100, 8_000, 1_000, 7, 1];
        let sample_rate = rates[random.below(6)];
        // Nearly as fast as the sound, so that the output changes.
        let output_rate = match random.below(3) {
            0 => sample_rate,
            1 => (sample_rate / 2).max(1),
            _ => sample_rate * 3,
        };
        let mut settings = Settings::new(sample_rate)
            .reverse(random.one_in(4))
            .playback_rate(any_rate(random))
            .start_position(Frames(random.below(frames_of_sound)))
            .start_waits(random.one_in(5));
        if random.coin() {
            settings = settings.loop_region(any_range(random, frames_of_sound));
        }
        let sample = |_| (random.unit() * 2.0 - 1.0) as f32;
        let sound = (0..2 * frames_of_sound).map(sample).collect();
        let most = [20, 200, 600, 600, 600, 9_000][random.below(6)];
        let frames = 1 + random.below(most);
        let mut evening = Self {
            sound,
            settings,
            output_rate,
            fade_in: None,
            commands: Vec::new(),
            frames,
        };
        if random.one_in(4) {
            evening.fade_in = Some(evening.any_tween(random));
        }
        // Few commands at different frames, or more before one frame than can wait.
        let (commands, together) = match random.below(12) {
            0 => (random.below(150), 60),
            1 | 2 => (random.below(20), 5),
            _ => (random.below(10), 0),
        };
        for _ in 0..commands {
            let last = evening.commands.last().map(|(frame, _)| *frame);
            let again = match together {
                0 => random.one_in(3),
                _ => !random.one_in(together),
            };
            let frame = match last {
                Some(last) if again => last,
                _ => random.below(frames),
            };
            let command = evening.any_command(random, frames_of_sound);
            evening.commands.push((frame, command));
        }
        evening.commands.sort_by_key(|(frame, _)| *frame);
        evening
    }

    /// What a smaller evening leaves out.
    fn size(&self) -> usize {
        let settings = [
            self.fade_in.is_some(),
            self.settings.loop_region.is_some(),
            self.settings.reverse,
            self.settings.playback_rate != 1.0,
        ];
        let frames: usize = self.commands.iter().map(|(frame, _)| frame + 1).sum();
        self.frames + frames + settings.into_iter().filter(|set| *set).count()
    }

    /// A tween of about as many frames as the evening has, or of few, or of none.
    fn any_tween(&self, random: &mut Random) -> Tween {
        let most = [1, 4, 50, self.frames + 1][random.below(4)];
        let frames = random.below(most + 1) as u64;
        let tween = Tween::from(self.duration_of(frames));
        let tween = match random.below(8) {
            0 => tween.easing(any_easing(random)),
            _ => tween,
        };
        match random.below(8) {
            0 => tween.delayed(self.duration_of(random.below(most + 1) as u64)),
            _ => tween,
        }
    }

    /// A duration of this many frames.
    fn duration_of(&self, frames: u64) -> Duration {
        Duration::from_nanos(frames * 1_000_000_000 / u64::from(self.output_rate))
    }

    fn any_command(&self, random: &mut Random, frames: usize) -> Command {
        let tween = self.any_tween(random);
        let seconds = frames as f64 / f64::from(self.settings.sample_rate);
        match random.below(17) {
            0 | 1 => Command::Pause(tween),
            2 | 3 => Command::Resume(tween),
            4 => Command::Stop(tween),
            5 | 6 => Command::SetPlaybackRate(any_rate(random), tween),
            7 => Command::SetVolume(Level::new(random.below(602) as u32).unwrap(), tween),
            8 => Command::SetPanning(any_panning(random), tween),
            9 => Command::SetLoopRegion(any_range(random, frames).into()),
            10 => Command::ClearLoopRegion,
            11 => Command::SeekBy((random.unit() * 2.0 - 1.0) * seconds),
            12 => Command::SeekTo(random.unit() * 1.2 * seconds),
            13 => any_bad(random, tween),
            14 => Command::SeekBy(-seconds * random.unit() / 4.0),
            15 => Command::StartAfter(self.duration_of(random.below(self.frames + 1) as u64)),
            _ => {
                let now = any_tick(random);
                let per_second = match random.below(3) {
                    0 => random.below(1 << 32) as u32,
                    _ => self.output_rate / (1 + random.below(9) as u32),
                };
                let due = now.wrapping_add(random.below(40) as u32).wrapping_sub(5);
                Command::StartAtTick(due, Ticks { now, per_second })
            }
        }
    }
}

pub fn any_easing(random: &mut Random) -> Easing {
    let whole = random.below(6) as i32 - 1;
    let power = [0.5, 1.5, 3.0, random.unit() * 9.0, -1.0, f64::NAN][random.below(6)];
    [
        Easing::Linear,
        Easing::InPowi(whole),
        Easing::OutPowi(whole),
        Easing::InOutPowi(whole),
        Easing::InPowf(power),
        Easing::OutPowf(power),
        Easing::InOutPowf(power),
    ][random.below(7)]
}

fn any_tick(random: &mut Random) -> u32 {
    match random.below(3) {
        0 => 0,
        1 => u32::MAX - random.below(10) as u32,
        _ => random.below(1 << 32) as u32,
    }
}

fn any_rate(random: &mut Random) -> f64 {
    match random.below(9) {
        0 => 0.0,
        1 => -0.0,
        2 => 1.0,
        3 => -1.0,
        4 => random.unit() * 40.0,
        _ => random.unit() * 4.0 - 2.0,
    }
}

fn any_panning(random: &mut Random) -> f32 {
    [
        0.0,
        -0.0,
        -1.0,
        1.0,
        5.0,
        random.unit() as f32,
        -random.unit() as f32,
    ][random.below(7)]
}

fn any_range(random: &mut Random, frames: usize) -> std::ops::Range<Frames> {
    let start = random.below(frames);
    Frames(start)..Frames(start + 1 + random.below(frames - start))
}

/// A command that is refused.
fn any_bad(random: &mut Random, tween: Tween) -> Command {
    let number = [f64::NAN, f64::INFINITY, f64::NEG_INFINITY, 1.0e300][random.below(4)];
    match random.below(5) {
        0 => Command::SetPlaybackRate(number, tween),
        1 => Command::SetPanning(number as f32, tween),
        2 => Command::SeekBy(number),
        3 => Command::SeekTo(number),
        _ => Command::SetLoopRegion(Region::from(
            PlaybackPosition::Seconds(number)..PlaybackPosition::Samples(1),
        )),
    }
}

/// A smaller evening that still fails, found by leaving out one thing after the other.
pub fn shrunk(mut evening: Evening, fails: impl Fn(&Evening) -> bool) -> Evening {
    let smaller = |evening: &Evening| {
        let mut smaller = Vec::new();
        let mut with = |change: &dyn Fn(&mut Evening)| {
            let mut other = evening.clone();
            change(&mut other);
            // Compared by size, because a NaN in a command is not equal to itself.
            if other.size() < evening.size() && other.frames > 0 {
                smaller.push(other);
            }
        };
        for frames in [evening.frames / 2, evening.frames - 1] {
            with(&|other| {
                other.frames = frames;
                other.commands.retain(|(frame, _)| *frame < frames);
            });
        }
        let count = evening.commands.len();
        // Leaves out many at once first: one by one takes minutes if there are many.
        for length in [count / 2, count / 4, count / 8] {
            for start in (0..count).step_by(length.max(1)).filter(|_| length > 1) {
                with(&|other| {
                    other.commands.drain(start..(start + length).min(count));
                });
            }
        }
        for place in 0..count {
            with(&|other| {
                other.commands.remove(place);
            });
            with(&|other| other.commands[place].0 /= 2);
        }
        with(&|other| other.fade_in = None);
        with(&|other| other.settings.loop_region = None);
        with(&|other| other.settings.reverse = false);
        with(&|other| other.settings.playback_rate = 1.0);
        smaller
    };
    while let Some(found) = smaller(&evening).into_iter().find(&fails) {
        evening = found;
    }
    evening
}
