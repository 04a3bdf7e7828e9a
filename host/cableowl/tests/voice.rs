// What a voice does when its calls are accepted: the examples of the rules, through the API.

use cableowl::{
    Commands, Frames, Lanes, PlaybackState, Refusal, Settings, Signals, StartAnswer, StartSignal,
    StaticSound, Wraps,
};

/// Frames 0, 1, 2 and so on, the right channel negated.
fn ramp(frames: usize) -> Vec<f32> {
    (0..frames).flat_map(|i| [i as f32, -(i as f32)]).collect()
}

fn play(voice: &mut StaticSound, sound: &[f32], frames: usize) -> Vec<f32> {
    let mut out = vec![9.0; 2 * frames];
    let mut lanes = Lanes::new();
    voice
        .process(
            sound,
            lanes.frames(frames),
            1.0,
            Signals::default(),
            &mut out,
        )
        .unwrap();
    out
}

#[test]
fn the_archive_is_version_2() {
    assert_eq!(cableowl::version(), 2);
}

#[test]
fn three_frames() {
    let sound = [1.0, 1.0, 2.0, 2.0, 3.0, 3.0];
    let mut voice = StaticSound::new(Settings::new(1), &sound).unwrap();
    let mut heard = Vec::new();
    for frame in 1..=6 {
        heard.push(play(&mut voice, &sound, 1));
        assert_eq!(voice.finished(), frame >= 4);
    }
    assert_eq!(
        heard,
        [[1.0; 2], [2.0; 2], [3.0; 2], [0.0; 2], [0.0; 2], [0.0; 2]]
    );

    let mut voice = StaticSound::new(Settings::new(1), &sound).unwrap();
    assert_eq!(play(&mut voice, &sound, 6), heard.concat());
    assert_eq!(voice.playback_state().number(), 6);
}

/// The lowest counts of blocks of these sizes, one after the other.
fn lowest_counts(mut voice: StaticSound, sound: &[f32], sizes: &[usize]) -> Vec<u32> {
    let mut lanes = Lanes::new();
    let mut lowest = |&frames: &usize| {
        let (lanes, mut out) = (lanes.frames(frames), vec![9.0; 2 * frames]);
        let block = voice.process(sound, lanes, 1.0, Signals::default(), &mut out);
        block.unwrap().lowest_count
    };
    sizes.iter().map(&mut lowest).collect()
}

#[test]
fn a_block_reports_the_lowest_count_it_read() {
    let one = [0.5; 2];
    let voice = StaticSound::new(Settings::new(1), &one).unwrap();
    assert_eq!(voice.state().time_until_empty, 2);
    assert_eq!(lowest_counts(voice.clone(), &one, &[1, 1, 1]), [2, 1, 4]);
    // The voice had stopped by the cut, so the smaller of the two counts is not that of the uncut block.
    assert_eq!(lowest_counts(voice.clone(), &one, &[3]), [0]);
    assert_eq!(lowest_counts(voice.clone(), &one, &[2, 1]), [1, 4]);
    assert_eq!(lowest_counts(voice, &one, &[0, 3]), [4, 0]);

    let sound = [1.0, 1.0, 2.0, 2.0, 3.0, 3.0];
    let voice = StaticSound::new(Settings::new(1), &sound).unwrap();
    let counts = lowest_counts(voice, &sound, &[1, 1, 1, 1, 1, 1]);
    assert_eq!(counts, [4, 3, 2, 1, 4, 4]);
    let looped =
        StaticSound::new(Settings::new(1).loop_region(Frames(0)..Frames(3)), &sound).unwrap();
    assert_eq!(lowest_counts(looped, &sound, &[100]), [4]);

    // A silent block reads no window.
    let waiting = StaticSound::new(Settings::new(1).start_waits(true), &one).unwrap();
    assert_eq!(waiting.state().time_until_empty, 2);
    assert_eq!(lowest_counts(waiting, &one, &[2]), [4]);
}

#[test]
fn a_block_says_what_its_frames_were_spent_on() {
    let sound = ramp(50);
    let settings = Settings::new(1).start_waits(true).reverse(true);
    let mut voice = StaticSound::new(settings, &sound).unwrap();
    let mut lanes = Lanes::new();
    let mut spent = |commands: Commands, rates: &[f64], signals: Signals| {
        voice.on_start_processing(&sound, commands).unwrap();
        let lanes = lanes.frames(rates.len()).rate(rates);
        let mut out = vec![0.0; 2 * rates.len()];
        let block = voice
            .process(&sound, lanes, 1.0, signals, &mut out)
            .unwrap();
        let usage = block.usage;
        let frames = [usage.played, usage.paused, usage.silent, usage.still];
        (frames, block.steps, block.steps_back)
    };
    let none = Commands::new;
    let started = Signals::new().start(StartAnswer::Now);
    let finished = Signals::new().finished(true);
    let rates = [1.0, 0.0, -0.0, 2.0];
    assert_eq!(spent(none(), &rates, Signals::new()), ([0, 0, 4, 0], 0, 0));
    assert_eq!(spent(none(), &rates, started), ([4, 0, 0, 2], 3, 3));
    assert_eq!(
        spent(none().pause(), &rates, Signals::new()),
        ([4, 0, 0, 2], 3, 3)
    );
    assert_eq!(spent(none(), &rates, finished), ([0, 4, 0, 0], 0, 0));
    let turned = none().resume().set_playback_rate(-1.0);
    assert_eq!(spent(turned, &[1.0], finished), ([1, 0, 0, 0], 1, 0));
    // It passes the end in this block, and is silent in the next.
    assert_eq!(spent(none(), &[30.0; 3], Signals::new()).0, [3, 0, 0, 0]);
    assert_eq!(spent(none(), &[30.0; 3], Signals::new()).0, [0, 0, 3, 0]);
}

fn wraps(voice: &StaticSound) -> (u32, u32) {
    let Wraps {
        forward, backward, ..
    } = voice.wraps();
    (forward, backward)
}

#[test]
fn wraps_are_counted_by_direction() {
    // The smallest: each of creation's three steps wraps.
    let one = [0.5; 2];
    let smallest = Settings::new(1).loop_region(Frames(0)..Frames(1));
    let mut voice = StaticSound::new(smallest, &one).unwrap();
    assert_eq!(wraps(&voice), (3, 0));
    play(&mut voice, &one, 5);
    assert_eq!(wraps(&voice), (8, 0));
    let reversed = StaticSound::new(smallest.reverse(true), &one).unwrap();
    assert_eq!(wraps(&reversed), (0, 3));
    let backward = StaticSound::new(smallest.playback_rate(-1.0), &one).unwrap();
    assert_eq!(wraps(&backward), (0, 3));
    let both = smallest.playback_rate(-1.0).reverse(true);
    assert_eq!(wraps(&StaticSound::new(both, &one).unwrap()), (3, 0));

    // One wrap a step, also from outside the loop, and however many loop lengths the step goes back.
    let sound = ramp(10);
    let far = Settings::new(1)
        .start_position(Frames(9))
        .loop_region(Frames(0)..Frames(2));
    let voice = StaticSound::new(far, &sound).unwrap();
    assert_eq!((voice.state().position, wraps(&voice)), (0, (2, 0)));
    let unlooped = StaticSound::new(Settings::new(1).start_position(Frames(9)), &sound).unwrap();
    assert_eq!(wraps(&unlooped), (0, 0));
}

#[test]
fn no_command_changes_the_wraps() {
    let sound = ramp(10);
    let mut voice =
        StaticSound::new(Settings::new(1).loop_region(Frames(3)..Frames(6)), &sound).unwrap();
    play(&mut voice, &sound, 7);
    let counted = wraps(&voice);
    assert_eq!(counted, (2, 0));
    let sets = [
        Commands::new().seek_to(8.0),
        Commands::new().seek_to(0.0),
        Commands::new().seek_by(7.0),
        Commands::new().set_loop_region(Frames(1)..Frames(2)),
        Commands::new().clear_loop_region(),
        Commands::new().set_playback_rate(-1.0).pause(),
        Commands::new().stop(),
    ];
    for commands in sets {
        voice.on_start_processing(&sound, commands).unwrap();
        assert_eq!(wraps(&voice), counted);
    }
}

#[test]
fn a_count_of_wraps_stands_still_at_its_limit() {
    let one = [0.5; 2];
    let mut state = StaticSound::new(Settings::new(1).loop_region(Frames(0)..Frames(1)), &one)
        .unwrap()
        .state();
    (state.wraps.forward, state.wraps.backward) = (u32::MAX - 2, u32::MAX);
    let mut voice = StaticSound::from_state(state, &one).unwrap();
    play(&mut voice, &one, 2);
    assert_eq!(wraps(&voice), (u32::MAX, u32::MAX));
    play(&mut voice, &one, 2);
    assert_eq!(wraps(&voice), (u32::MAX, u32::MAX));
}

#[test]
fn positions_steps_and_wraps_fit() {
    let sound = ramp(10);
    let mut lanes = Lanes::new();
    for (rate, length) in [(1.0, 3), (1.0, 1), (-1.0, 3), (-1.0, 1), (1.0, 7)] {
        let settings = Settings::new(1)
            .start_position(Frames(2))
            .loop_region(Frames(2)..Frames(2 + length))
            .playback_rate(rate);
        let mut voice = StaticSound::new(settings, &sound).unwrap();
        for speed in [0.3, 1.0, 2.5, 16.0, 255.0] {
            let before = voice.state();
            let lanes = lanes.frames(9).rate(speed);
            let block = voice.process(&sound, lanes, 1.0, Signals::new(), &mut [0.0; 18]);
            let (steps, after) = (block.unwrap().steps as i64, voice.state());
            let ahead = i64::from(after.wraps.forward - before.wraps.forward);
            let back = i64::from(after.wraps.backward - before.wraps.backward);
            let way = if rate < 0.0 { -steps } else { steps };
            let moved = after.position as i64 - before.position as i64;
            assert_eq!(moved, way + length as i64 * (back - ahead));
            assert_eq!(if rate < 0.0 { ahead } else { back }, 0);
        }
    }
}

#[test]
fn creation_fills_the_window() {
    let sound = ramp(10);
    let numbers = |settings: Settings| {
        let state = StaticSound::new(settings, &sound).unwrap().state();
        (
            state.window.map(|recent| recent.frame_index),
            state.position,
        )
    };
    let plain = Settings::new(1);
    assert_eq!(numbers(plain), ([0, 0, 1, 2], 3));
    let reversed = plain
        .reverse(true)
        .start_position(Frames(2))
        .loop_region(Frames(3)..Frames(6));
    assert_eq!(numbers(reversed), ([7, 7, 6, 5], 4));
    assert_eq!(numbers(plain.start_position(2.5)), ([3, 3, 4, 5], 6));
}

#[test]
fn seek_cuts_where_a_start_rounds() {
    let sound = ramp(10);
    let mut voice = StaticSound::new(Settings::new(1), &sound).unwrap();
    let seek = Commands::new().seek_to(2.5);
    assert_eq!(voice.on_start_processing(&sound, seek), Ok(0.0));
    assert_eq!(voice.state().position, 2);
    assert_eq!(voice.state().window[3].frame_index, 2);
}

#[test]
fn states_go_their_way() {
    use PlaybackState::*;
    let sound = ramp(10);
    let settings = Settings::new(1).loop_region(..).start_waits(true);
    let mut voice = StaticSound::new(settings, &sound).unwrap();
    let mut lanes = Lanes::new();
    let mut turn = |commands, signals| {
        voice.on_start_processing(&sound, commands).unwrap();
        let block = voice.process(&sound, lanes.frames(1), 1.0, signals, &mut [0.0; 2]);
        (block.unwrap().steps, voice.playback_state())
    };
    let (none, all) = (Signals::new(), Commands::new());
    let finished = none.finished(true);
    let start = |answer| none.start(answer);
    let resume = |answer| none.resume(answer);
    assert_eq!(turn(all, none), (0, Playing));
    assert_eq!(turn(all, start(StartAnswer::Now)), (1, Playing));
    assert_eq!(turn(all.pause(), none), (1, Pausing));
    assert_eq!(turn(all, finished), (0, Paused));
    assert_eq!(turn(all.resume_waiting(), none), (0, WaitingToResume));
    assert_eq!(turn(all, resume(StartAnswer::Now)), (1, Resuming));
    assert_eq!(turn(all, finished), (1, Playing));
    assert_eq!(turn(all.pause(), finished), (0, Paused));
    assert_eq!(turn(all.resume(), none), (1, Resuming));
    assert_eq!(turn(all.stop(), none), (1, Stopping));
    assert_eq!(turn(all, finished), (0, Stopped));
    assert_eq!(turn(all.resume(), none), (0, Stopped));
}

#[test]
fn a_start_that_is_due_at_a_tick_comes_and_stays() {
    let sound = ramp(50);
    let waiting = StaticSound::new(Settings::new(1).start_waits(true), &sound).unwrap();
    let started = |voice: &StaticSound| voice.state().started;
    let block = |voice: &mut StaticSound, frames: usize, due: u32, now: u32| {
        let signals = Signals::new().start(StartSignal::Tick { due, now });
        let mut out = vec![0.0; 2 * frames];
        let lanes = &mut Lanes::new();
        let block = voice.process(&sound, lanes.frames(frames), 1.0, signals, &mut out);
        block.unwrap();
    };
    let half = 1 << 31;
    for due in [0, 1, half - 1, half, u32::MAX] {
        for (after, reached) in [
            (0, true),
            (half - 1, true),
            (half, false),
            (u32::MAX, false),
        ] {
            let mut voice = waiting.clone();
            block(&mut voice, 0, due, due.wrapping_add(after));
            assert_eq!(started(&voice), reached, "due {due}, {after} later");
            block(&mut voice, 1, due, due);
            block(&mut voice, 1, due, due.wrapping_sub(1));
            assert!(started(&voice), "due {due}: the tick goes back");
        }
    }
    let mut paused = waiting.clone();
    paused
        .on_start_processing(&sound, Commands::new().pause())
        .unwrap();
    block(&mut paused, 4, 7, 7);
    assert!(started(&paused), "a pausing voice starts");
    let mut refused = waiting.clone();
    let signals = Signals::new().start(StartSignal::Tick { due: 7, now: 7 });
    let lanes = &mut Lanes::new();
    let answer = refused.process(&sound, lanes.frames(1), 0.0, signals, &mut [0.0; 2]);
    assert_eq!(answer, Err(Refusal::TimeStep));
    assert!(!started(&refused), "a refused block reaches nothing");
}

#[test]
fn cut_blocks_are_the_same_block() {
    let sound = ramp(50);
    let settings = Settings::new(1).loop_region(Frames(5)..Frames(17));
    let rates: Vec<f64> = (0..300).map(|i| 0.3 + f64::from(i) / 100.0).collect();
    let uncut = StaticSound::new(settings, &sound).unwrap();
    for size in [300, 1, 7, 64] {
        let mut voice = uncut.clone();
        let mut lanes = Lanes::new();
        let (mut heard, mut steps) = (Vec::new(), 0);
        for rates in rates.chunks(size) {
            let mut out = vec![9.0; 2 * rates.len()];
            let lanes = lanes.frames(rates.len()).rate(rates).volume(0.5);
            let signals = Signals::default();
            let block = voice.process(&sound, lanes, 0.7, signals, &mut out);
            steps += block.unwrap().steps;
            heard.extend(out.iter().map(|sample| sample.to_bits()));
        }
        let mut whole = uncut.clone();
        let mut out = vec![9.0; 600];
        let all = lanes.frames(300).rate(&rates).volume(0.5);
        let block = whole.process(&sound, all, 0.7, Signals::default(), &mut out);
        assert_eq!(block.map(|block| block.steps), Ok(steps));
        assert_eq!(whole.state(), voice.state());
        assert!(out.iter().map(|sample| sample.to_bits()).eq(heard));
    }
}

#[test]
fn a_saved_voice_plays_on() {
    let sound = ramp(20);
    let settings = Settings::new(1)
        .slice(Frames(2)..Frames(18))
        .loop_region(Frames(3)..Frames(9))
        .playback_rate(-1.0)
        .reverse(true);
    let mut voice = StaticSound::new(settings, &sound).unwrap();
    for _ in 0..40 {
        let saved = voice.state();
        let mut copy = StaticSound::from_state(saved, &sound).unwrap();
        assert_eq!(copy.state(), saved);
        assert_eq!(play(&mut copy, &sound, 3), play(&mut voice, &sound, 3));
        assert_eq!(copy.state(), voice.state());
    }
}

#[test]
fn a_mix_is_touched_in_its_part_alone() {
    let sound = ramp(10);
    let mut lanes = Lanes::new();
    for from in 0..=6 {
        let mut voice =
            StaticSound::new(Settings::new(1).start_position(Frames(4)), &sound).unwrap();
        let mut mix = [9.0; 16];
        let signals = Signals::default();
        let lanes = lanes.frames(2).left(0.5).right(0.25);
        let block = voice.process_into(&sound, lanes, 1.0, signals, &mut mix, from);
        assert_eq!(block.map(|block| block.steps), Ok(2));
        let mut expected = [9.0; 16];
        expected[2 * from..2 * from + 4].copy_from_slice(&[2.0, -1.0, 2.5, -1.25]);
        assert_eq!(mix, expected);
    }
    let mut voice = StaticSound::new(Settings::new(1), &sound).unwrap();
    let mut mix = [9.0; 16];
    let nothing = voice.process_into(
        &sound,
        lanes.frames(0),
        1.0,
        Signals::default(),
        &mut mix,
        8,
    );
    assert_eq!(nothing.map(|block| block.steps), Ok(0));
    assert_eq!(mix, [9.0; 16]);
}

#[test]
fn the_stretch_is_the_slice_s_samples() {
    let sound = ramp(10);
    let all = StaticSound::new(Settings::new(1), &sound).unwrap();
    assert!(std::ptr::eq(all.stretch(&sound), &sound[..]));
    let slice = StaticSound::new(Settings::new(1).slice(Frames(2)..Frames(5)), &sound).unwrap();
    assert!(std::ptr::eq(slice.stretch(&sound), &sound[4..10]));
    assert_eq!(slice.stretch(&sound), [2.0, -2.0, 3.0, -3.0, 4.0, -4.0]);
    assert!(slice.stretch(&sound[..18]).is_empty());
    assert!(slice.stretch(&[]).is_empty());
}

#[test]
fn refusals_are_errors_a_program_can_pass_on() {
    fn evening() -> Result<(), Box<dyn std::error::Error>> {
        StaticSound::new(
            Settings::new(1).loop_region(Frames(4)..Frames(4)),
            &[0.0; 20],
        )?;
        Ok(())
    }
    let refusal = evening().unwrap_err();
    assert_eq!(refusal.downcast_ref(), Some(&Refusal::LoopRegion));
}
