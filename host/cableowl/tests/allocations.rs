// No call of a voice or a player allocates, with kept lanes or cloned ones. Recording, reading and replaying a trace do
// not allocate either.

use std::{
    alloc::{GlobalAlloc, Layout, System},
    cell::Cell,
    time::Duration,
};

use cableowl::{
    Command, Commands, Easing, Frames, Lanes, Level, Player, RecordedPlayer, Refusal, Settings,
    Signals, State, StaticSound, Ticks, Tween,
    trace::{Lesson, Recorder, Replay, Trace, TraceVersion},
};

thread_local! {
    static ALLOCATIONS: Cell<usize> = const { Cell::new(0) };
}

/// The system's allocator, with a count for each thread.
struct Counting;

// SAFETY: every call is passed on unchanged to the system's allocator.
unsafe impl GlobalAlloc for Counting {
    unsafe fn alloc(&self, layout: Layout) -> *mut u8 {
        ALLOCATIONS.set(ALLOCATIONS.get() + 1);
        unsafe { System.alloc(layout) }
    }

    unsafe fn dealloc(&self, pointer: *mut u8, layout: Layout) {
        unsafe { System.dealloc(pointer, layout) }
    }

    unsafe fn realloc(&self, pointer: *mut u8, layout: Layout, size: usize) -> *mut u8 {
        ALLOCATIONS.set(ALLOCATIONS.get() + 1);
        unsafe { System.realloc(pointer, layout, size) }
    }
}

#[global_allocator]
static ALLOCATOR: Counting = Counting;

/// The result of a call, and how often it allocated.
fn counted<T>(call: impl FnOnce() -> T) -> (T, usize) {
    let before = ALLOCATIONS.get();
    let answer = call();
    (answer, ALLOCATIONS.get() - before)
}

/// Every call of a voice, accepted and refused, with blocks of each size.
fn evening(sound: &[f32], lanes: &mut Lanes, out: &mut [f32]) -> Result<State, Refusal> {
    let settings = Settings::new(48_000)
        .loop_region(0.001..0.01)
        .start_waits(true);
    assert!(StaticSound::new(settings.slice(Frames(5)..Frames(5)), sound).is_err());
    let mut voice = StaticSound::new(settings, sound)?;
    let (dt, signals) = (
        1.0 / 48_000.0,
        Signals::new().start(cableowl::StartAnswer::Now),
    );
    for frames in [0, 1, 64, 4_096, 511, 4_096] {
        voice.on_start_processing(
            sound,
            Commands::new()
                .seek_by(0.5)
                .set_loop_region(Frames(1)..Frames(7)),
        )?;
        let part = &mut out[..2 * frames];
        voice.process(sound, lanes.frames(frames).volume(0.5), dt, signals, part)?;
        voice.process_into(sound, lanes.frames(frames).rate(0.7), dt, signals, out, 3)?;
        let refused = Commands::new().seek_to(f64::NAN);
        assert!(voice.on_start_processing(sound, refused).is_err());
        let too_fast = lanes.frames(4_096).rate(1.0e9).left(0.25);
        assert!(
            voice
                .process_into(sound, too_fast, dt, signals, out, 0)
                .is_err()
        );
        let refused_lanes = lanes.frames(4_096).right(-0.0);
        assert!(
            voice
                .process_into(sound, refused_lanes, dt, signals, out, 0)
                .is_err()
        );
        let too_long = lanes.frames(usize::MAX).rate(0.1);
        assert!(voice.process(sound, too_long, dt, signals, out).is_err());
    }
    assert!(!voice.stretch(sound).is_empty() && !voice.finished());
    let again = StaticSound::from_state(voice.state(), sound)?;
    Ok(again.clone().state())
}

#[test]
fn no_call_allocates() {
    let sound = vec![0.25; 2 * 48_000];
    let mut out = vec![0.0; 2 * 4_100];
    let mut lanes = Lanes::new();
    let (first, allocations) = counted(|| evening(&sound, &mut lanes, &mut out));
    assert_eq!(allocations, 0);
    let mut cloned = lanes.clone();
    let (again, allocations) = counted(|| evening(&sound, &mut cloned, &mut out));
    assert_eq!(allocations, 0);
    assert_eq!(first.unwrap(), again.unwrap());

    let mut early = Lanes::new().clone();
    let (answer, allocations) = counted(|| evening(&sound, &mut early, &mut out));
    assert_eq!((answer.is_ok(), allocations), (true, 0));
    // The counter works.
    assert_eq!(counted(|| vec![0_u8; 100].len()).1, 1);
}

/// Every call of a player, accepted and refused, with outputs of each size and every parameter moving and at rest.
fn player_evening(player: &mut Player, sound: &[f32], out: &mut [f32]) -> Result<State, Refusal> {
    player.start_after(Duration::from_secs(1));
    player.start_at_tick(
        3,
        Ticks {
            now: 0,
            per_second: 1_000,
        },
    );
    for samples in [0, 2, 200, 8_192, 40_000, 3] {
        for tween in [Tween::AT_ONCE, Tween::default(), Tween::from_millis(700)] {
            player.set_volume(Level::new(60)?, tween);
            player.set_playback_rate(-0.7, tween)?;
            player.set_panning(0.3, tween)?;
            player.pause(tween);
            let played = player.process(sound, &mut out[..samples]);
            assert_eq!(played.is_ok(), samples.is_multiple_of(2));
            player.resume(tween);
            player.set_loop_region(0.001..0.01)?;
            player.seek_by(0.25)?;
            player.seek_to(0.5)?;
            assert!(
                player.seek_to(f64::NAN).is_err()
                    && player.set_loop_region(Frames(4)..Frames(4)).is_err()
            );
            assert!(player.set_playback_rate(1.0e9, tween).is_err());
            player.set_playback_rate(1.5, tween)?;
            let played = player.mix(sound, &mut out[..samples]);
            assert_eq!(played.is_ok(), samples.is_multiple_of(2));
            player.clear_loop_region();
        }
    }
    // More seeks than can wait, and a tween with a curve and a delay.
    player.process(sound, &mut out[..200])?;
    let tween = Tween::default().delayed(Duration::from_millis(3));
    player.set_panning(-0.3, tween.easing(Easing::InOutPowf(1.5)))?;
    let refused = (0..100).filter(|_| player.seek_by(-0.001).is_err()).count();
    assert_eq!(refused, 100 - 64);
    player.process(sound, &mut out[..2_000])?;
    // Past the sound's end: it stops within a block.
    player.process(sound, out)?;
    let (state, _) = (player.voice().state(), player.position());
    player.restore(state, sound)?;
    player.stop(Tween::default());
    Ok(state)
}

#[test]
fn no_call_of_a_player_allocates() {
    let sound = vec![0.25; 2 * 48_000];
    let mut out = vec![0.0; 2 * 60_000];
    let settings = Settings::new(48_000).start_waits(true);
    let mut first = Player::play(settings, 44_100, &sound).unwrap();
    let mut cloned = first.clone();
    let (answer, allocations) = counted(|| player_evening(&mut first, &sound, &mut out));
    assert_eq!(allocations, 0);
    assert!(first.voice().finished());
    let (again, allocations) = counted(|| player_evening(&mut cloned, &sound, &mut out));
    assert_eq!(allocations, 0);
    assert_eq!(answer.unwrap(), again.unwrap());
}

/// Every call of a recorder, recorded and not; then the trace is salvaged, read and replayed.
fn recorded(
    recorder: &mut Recorder<'_>,
    version: TraceVersion,
    [short, long]: &[Lesson; 2],
    lanes: &mut Lanes,
    replay: &mut Replay,
    out: &mut [u8],
) -> usize {
    let (sound, fade) = (short.samples(), [0.75; 4_096]);
    let mut samples = [0.0; 2 * 4_096];
    let _ = recorder.create(Settings::new(1).loop_region(..), short);
    for frames in [0, 1, 8, 1_024] {
        let _ = recorder.on_start_processing(sound, Commands::new().seek_by(0.5));
        let block = lanes.frames(frames).rate(0.7);
        let part = &mut samples[..2 * frames];
        let _ = recorder.process(sound, block, 1.0, Signals::new(), part);
        let block = lanes.frames(1).volume(f32::NAN);
        let _ = recorder.process_into(sound, block, 1.0, Signals::new(), &mut samples, 3);
    }
    if version == TraceVersion::Second {
        let mut fade = fade;
        fade[4_000] = 0.5;
        for bad in [0.25, f32::NAN] {
            fade[3_999] = bad;
            let block = lanes.frames(4_096).fade(&fade);
            let _ = recorder.process(sound, block, 1.0, Signals::new(), &mut samples);
        }
        // To the end of the sound, in parts.
        let _ = recorder.create(Settings::new(1), short);
        let block = lanes.frames(4_096).fade(&fade[..0]);
        let _ = recorder.process(sound, block.fade(0.5), 1.0, Signals::new(), &mut samples);
    }
    let held = recorder.bytes().len();
    let other = match version {
        TraceVersion::First => recorder.create(Settings::new(1), long).recorded,
        TraceVersion::Second => {
            let sound = long.samples();
            recorder
                .on_start_processing(sound, Commands::new())
                .recorded
        }
    };
    assert_eq!(other, Err(Refusal::Record));
    assert_eq!(recorder.bytes().len(), held);
    let trace = recorder.bytes();
    assert_eq!(version.salvage(trace, out).unwrap().kept, held);
    let records = Trace::with_version(trace, version).map_while(Result::ok);
    records
        .filter_map(|(_, record)| {
            let line = replay.play(&record);
            let _ = replay.counts();
            line
        })
        .count()
}

#[test]
fn no_recording_allocates() {
    let lessons = [16, 200].map(|samples| Lesson::new(vec![0.25; samples]).unwrap());
    for (version, blocks) in [(TraceVersion::First, 8), (TraceVersion::Second, 8 + 5 + 4)] {
        let (mut lanes, mut replay) = (Lanes::new(), Replay::with_version(version));
        if version == TraceVersion::Second {
            replay = replay.sounds(lessons[0].clone());
        }
        let (mut room, mut out) = (vec![0; 200_000], vec![0; 200_000]);
        let mut recorder = Recorder::with_version(&mut room, version);
        let (lines, allocations) = counted(|| {
            recorded(
                &mut recorder,
                version,
                &lessons,
                &mut lanes,
                &mut replay,
                &mut out,
            )
        });
        assert_eq!((lines, allocations), (blocks, 0), "{version:?}");
    }
}

/// Without its sound a creation needs silence. The longest silence so far is kept.
#[test]
fn a_silent_replay_allocates_once() {
    let lessons = [600, 200, 600].map(|samples| Lesson::new(vec![0.25; samples]).unwrap());
    let mut room = [0; 1_000];
    let mut recorder = Recorder::new(&mut room);
    for lesson in &lessons {
        let _ = recorder.create(Settings::new(1), lesson);
    }
    let mut replay = Replay::new();
    let (mut rest, mut allocations) = (recorder.bytes(), Vec::new());
    while !rest.is_empty() {
        let ((_, size), allocated) = counted(|| replay.step(rest, true));
        allocations.push(allocated > 0);
        rest = &rest[size..];
    }
    assert_eq!(allocations, [true, false, false]);
}

#[test]
fn no_recorded_player_allocates() {
    let lesson = Lesson::new(vec![0.25; 16]).unwrap();
    let (mut room, mut out) = (vec![0; 200_000], [0.0; 2_000]);
    let settings = Settings::new(48_000).loop_region(..);
    for (version, least) in [(TraceVersion::First, 700), (TraceVersion::Second, 10)] {
        let player = RecordedPlayer::with_version(settings, 48_000, &lesson, &mut room, version);
        let mut player = player.unwrap();
        let ((lines, recorded), allocations) = counted(|| {
            let mut lines = 0;
            for tween in [Tween::from_millis(5), Tween::default(), Tween::AT_ONCE] {
                player
                    .command(Command::SetPlaybackRate(-0.5, tween))
                    .unwrap();
                player.command(Command::Pause(tween)).unwrap();
                let _ = player.process(&mut out, |_| lines += 1);
                player.command(Command::Resume(tween)).unwrap();
                let _ = player.mix(&mut out, |_| lines += 1);
            }
            (lines, player.bytes().len())
        });
        assert_eq!(allocations, 0);
        assert!(
            lines >= least && recorded > 10_000,
            "{lines} lines, {recorded} bytes"
        );
    }
}
