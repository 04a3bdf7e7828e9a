// No input makes a call panic. A refused call changes nothing, and an accepted one leaves a well formed voice.

use cableowl::{
    Commands, Frame, Frames, Lanes, LoopCommand, PlaybackPosition, PlaybackState, RecentFrame,
    Refusal, Region, ResumeCommand, Settings, Signals, StartAnswer, StartSignal, State,
    StaticSound,
};
use random::Random;

const SOUND: [f32; 24] = [0.25; 24];

/// Often a number that is accepted, sometimes a limit, otherwise any bits.
fn float(random: &mut Random) -> f64 {
    match random.below(8) {
        0 => f64::from_bits(random.word()),
        1 => [0.0, -0.0, f64::NAN, f64::INFINITY, f64::MIN, 256.0][random.below(6)],
        _ => 4.0 * random.unit(),
    }
}

fn whole(random: &mut Random) -> usize {
    match random.below(8) {
        0 => random.word() as usize,
        1 => [0, 12, 24, 4_294_967_296, usize::MAX][random.below(5)],
        _ => random.below(13),
    }
}

fn maybe<T>(random: &mut Random, make: impl Fn(&mut Random) -> T) -> Option<T> {
    random.coin().then(|| make(random))
}

fn range(random: &mut Random) -> (usize, usize) {
    (whole(random), whole(random))
}

fn position(random: &mut Random) -> PlaybackPosition {
    match random.coin() {
        true => float(random).into(),
        false => Frames(whole(random)).into(),
    }
}

fn region(random: &mut Random) -> Region {
    match random.below(3) {
        0 => Region::from(position(random)..),
        1 => Region::from(..position(random)),
        _ => Region::from(position(random)..position(random)),
    }
}

fn settings(random: &mut Random) -> Settings {
    let mut settings = Settings::new(whole(random) as u32)
        .start_position(position(random))
        .reverse(random.coin())
        .playback_rate(float(random))
        .start_waits(random.coin());
    settings.slice = maybe(random, region);
    settings.loop_region = maybe(random, region);
    settings
}

fn commands(random: &mut Random) -> Commands {
    use ResumeCommand::{AtOnce, No, Waiting};
    let mut commands = Commands::new();
    commands.playback_rate = maybe(random, float);
    commands.loop_region = maybe(random, region).map_or(LoopCommand::Keep, LoopCommand::Set);
    commands.pause = random.coin();
    commands.resume = [No, AtOnce, Waiting][random.below(3)];
    commands.stop = random.one_in(8);
    commands.seek_by = maybe(random, float);
    commands.seek_to = maybe(random, float);
    commands
}

fn signals(random: &mut Random) -> Signals {
    use StartAnswer::{Never, Now, Waiting};
    let answers = [Waiting, Now, Now, Never];
    let start = match random.below(5) {
        4 => StartSignal::Tick {
            due: random.word() as u32,
            now: random.word() as u32,
        },
        kind => answers[kind].into(),
    };
    Signals::new()
        .finished(random.coin())
        .start(start)
        .resume(answers[random.below(4)])
}

fn state(random: &mut Random) -> State {
    let recent = |random: &mut Random| RecentFrame {
        frame: Frame {
            left: float(random) as f32,
            right: float(random) as f32,
        },
        frame_index: whole(random),
    };
    let mut state = State::default();
    state.sample_rate = whole(random) as u32;
    state.num_frames = [12, 12, 12, whole(random)][random.below(4)];
    state.slice = maybe(random, range);
    state.reverse = random.coin();
    state.playback_rate = float(random);
    state.started = random.coin();
    state.playback_state = PlaybackState::ALL[random.below(7)];
    state.fractional_position = float(random) / 4.0;
    state.position = whole(random);
    state.loop_region = maybe(random, range);
    state.playing = random.coin();
    state.window = [(); 4].map(|()| recent(random));
    state.time_until_empty = [4, 4, 3, whole(random) as u32][random.below(4)];
    state
}

/// A state by its bits: two NaNs with different bits differ here.
fn bits(voice: &StaticSound) -> String {
    let state = voice.state();
    let floats = [
        state.playback_rate.to_bits(),
        state.fractional_position.to_bits(),
    ];
    let frames = state
        .window
        .map(|recent| (recent.frame.left.to_bits(), recent.frame.right.to_bits()));
    format!("{state:?} {floats:?} {frames:?}")
}

/// The sound, or sometimes another.
fn sound(random: &mut Random) -> &'static [f32] {
    match random.one_in(16) {
        true => &SOUND[..whole(random).min(24)],
        false => &SOUND,
    }
}

/// One call of any kind, with any numbers. If it is refused, nothing may have changed. If it is accepted, the voice
/// must be well formed before and after.
fn call(voice: &mut StaticSound, random: &mut Random, lanes: &mut Lanes) -> Result<(), Refusal> {
    let sound = sound(random);
    let well_formed = !voice.stretch(sound).is_empty();
    let before = bits(voice);
    let signals = signals(random);
    let frames = random.below(6);
    let rates: Vec<f64> = (0..frames).map(|_| float(random)).collect();
    let given = if random.one_in(16) {
        whole(random)
    } else {
        frames
    };
    let mut lanes = lanes.frames(given).rate(&rates);
    if random.one_in(8) {
        lanes = lanes.fade(float(random) as f32).right(&[1.0; 3]);
    }
    let dt = float(random);
    let mut buffer = [7.0; 16];
    let answer = match random.below(3) {
        0 => {
            let commands = commands(random);
            voice.on_start_processing(sound, commands).map(|_| ())
        }
        1 => {
            let out = &mut buffer[..2 * frames];
            voice.process(sound, lanes, dt, signals, out).map(|_| ())
        }
        _ => {
            let from = whole(random);
            voice
                .process_into(sound, lanes, dt, signals, &mut buffer, from)
                .map(|_| ())
        }
    };
    match answer {
        Ok(()) => assert!(well_formed && !voice.stretch(sound).is_empty(), "{before}"),
        Err(_) => assert_eq!((bits(voice), buffer), (before, [7.0; 16])),
    }
    answer
}

#[test]
fn calls_in_a_row() {
    let random = &mut Random::new(7);
    let lanes = &mut Lanes::new();
    let mut accepted = 0;
    for _ in 0..5_000 {
        let Ok(mut voice) = StaticSound::new(settings(random), sound(random)) else {
            continue;
        };
        for _ in 0..10 {
            accepted += u32::from(call(&mut voice, random, lanes).is_ok());
        }
    }
    assert!(accepted > 1_000, "only {accepted} accepted");
}

#[test]
fn any_state() {
    let random = &mut Random::new(8);
    let lanes = &mut Lanes::new();
    let mut accepted = 0;
    for _ in 0..50_000 {
        let state = state(random);
        let bytes = state.to_bytes();
        let read = State::from_bytes(&bytes).unwrap();
        assert_eq!(read.to_bytes(), bytes);
        match StaticSound::from_state(state, sound(random)) {
            Ok(mut voice) => accepted += u32::from(call(&mut voice, random, lanes).is_ok()),
            Err(refusal) => assert_eq!(refusal, Refusal::State),
        }
    }
    assert!(accepted > 100, "only {accepted} accepted");
}
