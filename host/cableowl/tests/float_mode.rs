// The host's float mode does not matter: in each mode the frames and refusals are the same, and every call returns.

use cableowl::{Commands, Frames, Lanes, Refusal, Settings, Signals, State, StaticSound};

mod mode;

use mode::Mode;

/// Makes the call in each mode. The mode must be the same after it, and the result that of the plain mode.
fn in_every_mode<T: PartialEq + std::fmt::Debug>(call: impl Fn() -> T) -> T {
    let before = Mode::now();
    let plain = call();
    for mode in mode::ALL {
        mode.set();
        let answer = call();
        let after = Mode::now();
        before.set();
        assert_eq!(after, mode);
        assert_eq!(answer, plain, "in {mode:?}");
    }
    plain
}

fn bits(samples: &[f32]) -> Vec<u32> {
    samples.iter().map(|sample| sample.to_bits()).collect()
}

/// Frames with subnormal samples, and some without.
fn small_sound() -> Vec<f32> {
    (1..=80_u32)
        .map(|i| match i % 3 {
            0 => f32::from_bits(i * 0x1357),
            1 => -f32::from_bits(i * 0x2468),
            _ => f32::MIN_POSITIVE * i as f32,
        })
        .collect()
}

/// Everything that a voice reports, by bits.
fn whole(state: &State) -> Vec<u8> {
    state.to_bytes()
}

#[test]
fn the_same_frames() {
    let sound = small_sound();
    // Built in the plain mode: the host computes its own numbers before the call.
    let rates: Vec<f64> = (0..200).map(|i| 0.1 + f64::from(i) / 70.0).collect();
    let fades: Vec<f32> = (0..200).map(|i| 1.0 / (1.0 + i as f32)).collect();
    let heard = in_every_mode(|| {
        let settings = Settings::new(44_100)
            .loop_region(Frames(3)..Frames(31))
            .reverse(true);
        let mut voice = StaticSound::new(settings, &sound).unwrap();
        let (mut lanes, mut out) = (Lanes::new(), [0.0; 400]);
        let mut heard = Vec::new();
        for _ in 0..5 {
            let position = voice
                .on_start_processing(&sound, Commands::new().seek_by(1.0e-4))
                .unwrap();
            let lanes = lanes.frames(200).rate(&rates).fade(&fades).left(0.3);
            let block = voice
                .process(&sound, lanes, 1.0 / 48_000.0, Signals::new(), &mut out)
                .unwrap();
            let heard_now = (
                position.to_bits(),
                block.steps,
                bits(&out),
                whole(&voice.state()),
            );
            heard.push(heard_now);
        }
        heard
    });
    let subnormal = |bits: &u32| (1..0x0080_0000).contains(&(bits & 0x7fff_ffff));
    assert!(heard.iter().any(|(_, _, out, _)| out.iter().any(subnormal)));
}

#[test]
fn a_held_rate_just_below_0_is_backward() {
    let sound = small_sound();
    let state = in_every_mode(|| {
        let settings = Settings::new(1)
            .start_position(Frames(9))
            .playback_rate(-5.0e-324);
        whole(&StaticSound::new(settings, &sound).unwrap().state())
    });
    assert_eq!(State::from_bytes(&state).unwrap().position, 6);
}

#[test]
fn the_same_refusals() {
    let sound = small_sound();
    let mut state = StaticSound::new(Settings::new(1), &sound).unwrap().state();
    state.time_until_empty = 3;
    state.window[3].frame.left = f32::from_bits(1);
    let refused = in_every_mode(|| StaticSound::from_state(state, &sound).map(|_| ()));
    assert_eq!(refused, Err(Refusal::State));

    // A time step that flushing turns into 0, and an advance that rounding up puts above 256.
    let just_256 = 256.0 / 3.0_f64.next_down();
    let answers = in_every_mode(|| {
        let mut voice = StaticSound::new(Settings::new(3), &sound).unwrap();
        let mut lanes = Lanes::new();
        [(1.0, 5.0e-324), (just_256, 1.0), (1.0, -1.0)].map(|(rate, dt)| {
            let lanes = lanes.frames(2).rate(rate);
            let block = voice.process(&sound, lanes, dt, Signals::new(), &mut [0.0; 4]);
            block.map(|block| block.steps)
        })
    });
    assert_eq!((answers[0], answers[2]), (Ok(0), Err(Refusal::TimeStep)));
}

#[test]
fn the_call_that_did_not_return_rounding_up() {
    let sound = [0.5; 2];
    let answer = in_every_mode(|| {
        let mut voice = StaticSound::new(Settings::new(2), &sound).unwrap();
        let (mut lanes, mut out) = (Lanes::new(), [0.0; 2]);
        let lanes = lanes.frames(1).rate(f64::MIN);
        voice.process(&sound, lanes, 5.0e-324, Signals::new(), &mut out)
    });
    assert_eq!(answer, Err(Refusal::Advance { frame: 0 }));
}
