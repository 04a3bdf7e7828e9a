// Each of the twelve refusals through the API, and that a refused call changes nothing.

use cableowl::{
    BlockLanes, Commands, Frames, LaneName, Lanes, PlaybackPosition, Refusal, Settings, Signals,
    State, StaticSound,
};

/// Ten frames.
const SOUND: [f32; 20] = [0.5; 20];

fn created(settings: Settings, sound: &[f32]) -> Result<(), Refusal> {
    StaticSound::new(settings, sound).map(|_| ())
}

fn voice() -> StaticSound {
    StaticSound::new(Settings::new(1), &SOUND).unwrap()
}

fn voice_in(state: State) -> StaticSound {
    StaticSound::from_state(state, &SOUND).unwrap()
}

/// Gives a command set to a voice. A refused one must not change it.
fn commanded(commands: Commands) -> Result<f64, Refusal> {
    let mut voice = voice();
    let before = voice.state();
    let answer = voice.on_start_processing(&SOUND, commands);
    if answer.is_err() {
        assert_eq!(voice.state(), before);
    }
    answer
}

/// Plays a block of two frames by either entry. A refused one must change neither the voice nor the buffer.
fn played(
    state: State,
    lanes: impl for<'a> Fn(&'a mut Lanes) -> BlockLanes<'a>,
    dt: f64,
) -> Result<u64, Refusal> {
    let mut room = Lanes::new();
    let (mut voice, mut out) = (voice_in(state), [9.0; 4]);
    let answer = voice.process(&SOUND, lanes(&mut room), dt, Signals::default(), &mut out);
    let (mut other, mut mix) = (voice_in(state), [9.0; 8]);
    let into = other.process_into(
        &SOUND,
        lanes(&mut room),
        dt,
        Signals::default(),
        &mut mix,
        1,
    );
    assert_eq!(into, answer);
    if answer.is_err() {
        assert_eq!((voice.state(), out), (state, [9.0; 4]));
        assert_eq!((other.state(), mix), (state, [9.0; 8]));
    }
    answer.map(|processed| processed.steps)
}

/// The refusals, from number 1 on.
const ALL: [Refusal; 25] = [
    Refusal::State,
    Refusal::SampleRate,
    Refusal::FrameCount,
    Refusal::Slice,
    Refusal::StartPosition,
    Refusal::LoopRegion,
    Refusal::PlaybackRate,
    Refusal::Seek,
    Refusal::Block,
    Refusal::TimeStep,
    at(LaneName::Fade, 0),
    Refusal::Advance { frame: 0 },
    Refusal::Level,
    Refusal::Ramp,
    Refusal::Mark,
    Refusal::Kind,
    Refusal::Record,
    Refusal::Truncated,
    Refusal::Room,
    Refusal::LoopSlot,
    Refusal::OtherHall,
    Refusal::EmptySlot,
    Refusal::Version,
    Refusal::SavedField,
    Refusal::Output,
];

const fn at(lane: LaneName, frame: usize) -> Refusal {
    Refusal::Lane { lane, frame }
}

#[test]
fn numbers_and_sentences() {
    for (number, refusal) in (1..=25).zip(ALL) {
        assert_eq!(refusal.number(), number);
        let said = refusal.to_string();
        assert!(said.starts_with(&format!("refusal {number}: ")), "{said}");
    }
    for (number, refusal) in [
        (27, Refusal::OtherFrames),
        (28, Refusal::TwoHalves),
        (29, Refusal::Queue),
    ] {
        assert_eq!(refusal.number(), number);
    }
    let said = at(LaneName::Right, 17).to_string();
    assert!(said.starts_with("refusal 11: frame 17 of lane right: fade, volume and gains"));
    let said = at(LaneName::Rate, 0).to_string();
    assert_eq!(
        said,
        "refusal 11: frame 0 of lane rate: rates must be finite"
    );
    let said = Refusal::Advance { frame: 4_095 }.to_string();
    assert!(said.starts_with("refusal 12: frame 4095: sample rate times"));
}

#[test]
fn state_1() {
    let state = voice().state();
    let changes: [fn(&mut State); 5] = [
        |state| state.sample_rate = 0,
        |state| state.position = 10,
        |state| state.fractional_position = -0.0,
        |state| state.loop_region = Some((4, 11)),
        |state| state.time_until_empty = 5,
    ];
    for change in changes {
        let mut broken = state;
        change(&mut broken);
        let refused = StaticSound::from_state(broken, &SOUND);
        assert_eq!(refused.unwrap_err(), Refusal::State);
    }
    let blank = StaticSound::from_state(State::default(), &SOUND);
    assert_eq!(blank.unwrap_err(), Refusal::State);

    let (mut voice, mut lanes, signals) = (voice(), Lanes::new(), Signals::new());
    for other in [&SOUND[2..], &[0.5; 22], &[]] {
        assert_eq!(
            StaticSound::from_state(state, other).unwrap_err(),
            Refusal::State
        );
        let answer = voice.on_start_processing(other, Commands::new());
        assert_eq!(answer, Err(Refusal::State));
        let mut out = [9.0; 4];
        let answer = voice.process(other, lanes.frames(2), 1.0, signals, &mut out);
        assert_eq!((answer, out), (Err(Refusal::State), [9.0; 4]));
        let answer = voice.process_into(other, lanes.frames(1), 1.0, signals, &mut out, 1);
        assert_eq!((answer, out), (Err(Refusal::State), [9.0; 4]));
        assert!(voice.stretch(other).is_empty());
        assert_eq!(voice.state(), state);
    }
}

#[test]
fn creation_2_to_7() {
    let plain = Settings::new(1);
    assert_eq!(created(plain, &SOUND), Ok(()));
    for sample_rate in [0, 768_001] {
        let refused = created(Settings::new(sample_rate), &SOUND);
        assert_eq!(refused, Err(Refusal::SampleRate));
    }
    for sound in [&SOUND[..19], &[]] {
        assert_eq!(created(plain, sound), Err(Refusal::FrameCount));
    }
    for settings in [
        plain.slice(Frames(3)..Frames(3)),
        plain.slice(Frames(3)..Frames(11)),
        plain.slice(f64::NAN..),
    ] {
        assert_eq!(created(settings, &SOUND), Err(Refusal::Slice));
    }
    for start in [
        PlaybackPosition::Samples(10),
        f64::INFINITY.into(),
        Frames(usize::MAX).into(),
    ] {
        let refused = created(plain.start_position(start), &SOUND);
        assert_eq!(refused, Err(Refusal::StartPosition));
    }
    for settings in [
        plain.loop_region(Frames(4)..Frames(4)),
        plain.loop_region(4.0..11.0),
    ] {
        assert_eq!(created(settings, &SOUND), Err(Refusal::LoopRegion));
    }
    for rate in [f64::NAN, f64::NEG_INFINITY] {
        let refused = created(plain.playback_rate(rate), &SOUND);
        assert_eq!(refused, Err(Refusal::PlaybackRate));
    }
}

#[test]
fn the_lowest_wins() {
    let all_wrong = Settings::new(0)
        .slice(Frames(9)..Frames(11))
        .start_position(f64::NAN)
        .loop_region(Frames(9)..Frames(11))
        .playback_rate(f64::NAN);
    assert_eq!(created(all_wrong, &[]), Err(Refusal::SampleRate));
    let all_wrong = Commands::new()
        .set_playback_rate(f64::NAN)
        .set_loop_region(Frames(4)..Frames(4))
        .seek_to(f64::NAN);
    assert_eq!(commanded(all_wrong), Err(Refusal::LoopRegion));
}

#[test]
fn commands_6_to_8() {
    assert_eq!(commanded(Commands::new()), Ok(0.0));
    let looped = Commands::new()
        .pause()
        .set_loop_region(Frames(9)..Frames(11));
    assert_eq!(commanded(looped), Err(Refusal::LoopRegion));
    let rated = Commands::new().stop().set_playback_rate(f64::INFINITY);
    assert_eq!(commanded(rated), Err(Refusal::PlaybackRate));
    for seek in [
        Commands::new().seek_to(f64::NAN),
        Commands::new().seek_to(4_294_967_296.0),
        Commands::new().seek_by(f64::INFINITY),
    ] {
        assert_eq!(commanded(seek.stop()), Err(Refusal::Seek));
    }
}

#[test]
fn block_9() {
    let state = voice().state();
    assert_eq!(played(state, |room| room.frames(2), 1.0), Ok(2));
    assert_eq!(
        played(state, |room| room.frames(2).fade(&[1.0; 3]), 1.0),
        Err(Refusal::Block)
    );
    assert_eq!(
        played(state, |room| room.frames(2).right(&[1.0; 1]), 1.0),
        Err(Refusal::Block)
    );
    assert_eq!(
        played(state, |room| room.frames(2).volume(&[]), 1.0),
        Err(Refusal::Block)
    );

    let (mut voice, mut lanes) = (voice(), Lanes::new());
    for frames in [4_097, usize::MAX] {
        let mut out = vec![9.0; 2 * 4_097];
        let signals = Signals::default();
        let answer = voice.process(&SOUND, lanes.frames(frames), 1.0, signals, &mut out);
        assert_eq!(answer, Err(Refusal::Block));
        assert_eq!(out, [9.0; 2 * 4_097]);
    }
    let odd = voice.process(
        &SOUND,
        lanes.frames(1),
        1.0,
        Signals::default(),
        &mut [9.0; 3],
    );
    assert_eq!(odd, Err(Refusal::Block));
    for from in [3, 5, usize::MAX] {
        let mut mix = [9.0; 8];
        let signals = Signals::default();
        let answer = voice.process_into(&SOUND, lanes.frames(2), 1.0, signals, &mut mix, from);
        assert_eq!((answer, mix), (Err(Refusal::Block), [9.0; 8]));
    }
    assert_eq!(voice.state(), state);
}

/// Lanes with one that is wrong.
type Wrong<'a> = &'a dyn Fn(&mut Lanes) -> BlockLanes<'_>;

#[test]
fn block_10_to_12() {
    let state = voice().state();
    for dt in [0.0, -1.0, f64::NAN, f64::INFINITY] {
        assert_eq!(
            played(state, |room| room.frames(2), dt),
            Err(Refusal::TimeStep)
        );
    }
    for amplitude in [-0.0, -1.0, f32::NAN, f32::INFINITY] {
        let wrong: [(LaneName, Wrong); 4] = [
            (LaneName::Fade, &|room| room.frames(2).fade(amplitude)),
            (LaneName::Volume, &|room| room.frames(2).volume(amplitude)),
            (LaneName::Left, &|room| room.frames(2).left(amplitude)),
            (LaneName::Right, &|room| room.frames(2).right(amplitude)),
        ];
        for (lane, lanes) in wrong {
            assert_eq!(played(state, lanes, 1.0), Err(at(lane, 0)));
        }
    }
    assert_eq!(
        played(state, |room| room.frames(2).rate(f64::NAN), 1.0),
        Err(at(LaneName::Rate, 0))
    );
    assert_eq!(
        played(state, |room| room.frames(2).rate(-256.0), 1.0),
        Ok(512)
    );
    const NEXT_ABOVE: f64 = 256_f64.next_up();
    const TOO_FAST: [&[f64; 2]; 3] = [&[1.0, NEXT_ABOVE], &[1.0, -NEXT_ABOVE], &[256.0, 1.0e308]];
    for rates in TOO_FAST {
        let refused = played(state, |room| room.frames(2).rate(rates), 1.0);
        assert_eq!(refused, Err(Refusal::Advance { frame: 1 }));
    }
}

#[test]
fn the_first_place_is_named() {
    let state = voice().state();
    let refused = played(
        state,
        |room| {
            let room = room.frames(2).fade(&[1.0, -0.0]).left(&[1.0, -1.0]);
            room.rate(&[1.0e300, f64::NAN])
        },
        1.0,
    );
    assert_eq!(refused, Err(at(LaneName::Fade, 1)));
    let rate_in_an_earlier_frame = played(
        state,
        |room| room.frames(2).fade(&[1.0, -0.0]).rate(f64::INFINITY),
        1.0,
    );
    assert_eq!(rate_in_an_earlier_frame, Err(at(LaneName::Rate, 0)));
}
