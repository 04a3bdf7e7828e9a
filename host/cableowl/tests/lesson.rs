// An evening of an hour over a real lesson, recorded in callbacks of several lengths. Its trace replays to the same
// lines and samples. Also: how large a trace is, and what recording costs.

use std::{fs, hint::black_box, time::Instant};

use cableowl::{
    Command, Frames, Lane, Lanes, Level, Player, Processed, RecordedPlayer, Refusal, Region,
    Settings, Signals, StaticSound, Tween,
    trace::{
        Digest, Lesson, Line, Record, Recorder, Replay, SoundId, Sounds, Step, Trace, TraceReader,
        TraceVersion, lines, write,
    },
};

#[path = "../examples/evening/edges.rs"]
mod edges;

use edges::common_edges;

const LESSON_RATE: u32 = 44_100;
const DEVICE_RATE: u32 = 48_000;

/// The longest sound at 44,100 Hz: 380 seconds are 16,758,000 frames.
const LESSON: u32 = 380;

/// An hour.
const EVENING: u64 = 3_600;

/// A lesson of this many seconds, of any samples.
fn lesson(seconds: u32) -> Lesson {
    let mut word = 0x9e37_79b9_7f4a_7c15_u64;
    let samples = (0..2 * seconds * LESSON_RATE).map(|_| {
        word ^= word << 13;
        word ^= word >> 7;
        word ^= word << 17;
        (word >> 40) as f32 / 8_388_608.0 - 1.0
    });
    Lesson::new(samples.collect::<Vec<f32>>()).unwrap()
}

/// What a student does, at which second.
fn script() -> Vec<(f64, Command)> {
    let fade = Tween::from_millis(250);
    let mut script = vec![
        (
            0.0,
            Command::SetVolume(Level::new(19).unwrap(), Tween::AT_ONCE),
        ),
        (8.25, Command::SetLoopRegion(Region::from(6.2..10.9))),
        (
            40.0,
            Command::SetPlaybackRate(0.7, Tween::from_millis(2_000)),
        ),
        (95.125, Command::Pause(fade)),
        (100.0, Command::SeekBy(-1.5)),
        (101.0, Command::Resume(fade)),
        (
            140.0,
            Command::SetPlaybackRate(-0.9, Tween::from_millis(300)),
        ),
        (
            150.0,
            Command::SetPlaybackRate(1.0, Tween::from_millis(1_000)),
        ),
        (152.0, Command::ClearLoopRegion),
        (160.0, Command::SetPanning(-0.4, Tween::from_millis(700))),
        (165.0, Command::SetPanning(0.0, Tween::default())),
    ];
    // Sentence after sentence: looped, slowed, paused, left.
    for sentence in 0..30 {
        let (at, start) = (
            200.0 + 100.0 * f64::from(sentence),
            11.0 * f64::from(sentence),
        );
        let slow = 0.5 + f64::from(sentence % 5) / 10.0;
        script.extend([
            (at, Command::SeekTo(start)),
            (
                at + 0.3,
                Command::SetLoopRegion(Region::from(start..start + 7.3)),
            ),
            (
                at + 20.0,
                Command::SetPlaybackRate(slow, Tween::from_millis(200)),
            ),
            (at + 60.0, Command::Pause(fade)),
            (at + 65.0, Command::Resume(fade)),
            (at + 80.0, Command::SetPlaybackRate(1.0, Tween::default())),
            (at + 90.0, Command::ClearLoopRegion),
        ]);
    }
    // To the end of the lesson and past it.
    script.push((3_300.0, Command::SeekTo(180.0)));
    script
}

/// The result of a recorded evening.
struct Kept {
    bytes: usize,
    kinds: [u64; 6],
    blocks: u64,
    edges: usize,
    counts: Processed,
}

/// Records the evening in callbacks of this many frames. Whenever the buffer is emptied, its records are replayed over
/// the lesson: the lines must agree with the live ones wherever both end a block, and the samples must be equal by
/// their bits. Without the lesson the lines must be the same.
fn recorded(lesson: &Lesson, callback: usize, silent: bool) -> Kept {
    let mut buffer = vec![0; 4_000_000];
    let settings = Settings::new(LESSON_RATE);
    let mut player = RecordedPlayer::play(settings, DEVICE_RATE, lesson, &mut buffer).unwrap();
    let mut again = Replay::new().sounds(lesson.clone());
    let mut without = silent.then(Replay::new);
    let mut kept = Kept {
        bytes: 0,
        kinds: [0; 6],
        blocks: 0,
        edges: 0,
        counts: player.player().counts(),
    };
    let (mut log, mut heard, mut replayed) = (Vec::new(), Vec::new(), Vec::new());
    let mut end = |player: &mut RecordedPlayer<'_>, log: &mut Vec<Line>, heard: &mut Vec<f32>| {
        let (mut rest, mut at) = (player.bytes(), 0);
        kept.bytes += rest.len();
        kept.blocks += log.len() as u64;
        while !rest.is_empty() {
            kept.kinds[usize::from(rest[2])] += 1;
            let (step, size) = again.step(rest, true);
            if let Some(without) = &mut without {
                assert_eq!(without.step(rest, true), (step, size));
            }
            assert!(size > 0, "{step:?}");
            if let Some(line) = step.line() {
                replayed.push(line);
                let live = &heard[at..at + again.heard().len()];
                let same = live
                    .iter()
                    .zip(again.heard())
                    .all(|(a, b)| a.to_bits() == b.to_bits());
                assert!(same, "other samples in {line}");
                at += live.len();
            }
            rest = &rest[size..];
        }
        assert_eq!(at, heard.len());
        kept.edges += common_edges(log.drain(..), replayed.drain(..)).unwrap();
        heard.clear();
        player.clear();
    };
    let mut out = vec![0.0; 2 * callback];
    let script = script();
    let ends = script.iter().map(|(second, _)| *second).skip(1);
    for ((_, command), end_at) in script.iter().zip(ends.chain([EVENING as f64])) {
        player.command(*command).unwrap();
        let end_at = (end_at * f64::from(DEVICE_RATE)) as u64;
        while player.player().frames() < end_at {
            let frames = (end_at - player.player().frames()).min(callback as u64) as usize;
            let out = &mut out[..2 * frames];
            let played = player.process(out, |line| log.push(line));
            played.answer.unwrap();
            played.recorded.unwrap();
            heard.extend_from_slice(out);
            if player.room() < 24 * callback + 1_000 || heard.len() > 20_000_000 {
                end(&mut player, &mut log, &mut heard);
            }
        }
    }
    end(&mut player, &mut log, &mut heard);
    assert!(player.player().voice().finished());
    assert_eq!(player.player().frames(), EVENING * u64::from(DEVICE_RATE));
    kept.counts = player.player().counts();
    kept
}

#[test]
fn an_hour_over_a_lesson() {
    let lesson = lesson(LESSON);
    let mut counts = None;
    for (callback, silent) in [(64, false), (512, true), (4_096, false)] {
        let kept = recorded(&lesson, callback, silent);
        println!(
            "callbacks of {callback}: {} blocks, {} bytes, records of kinds 2 to 5: {:?}, {} common edges, {} steps",
            kept.blocks,
            kept.bytes,
            &kept.kinds[2..],
            kept.edges,
            kept.counts.steps
        );
        assert_eq!(kept.kinds[4], 1);
        assert!(kept.kinds[2] > 100 && kept.kinds[3] > 100_000 && kept.kinds[5] > 100);
        assert_eq!(*counts.get_or_insert(kept.counts), kept.counts);
    }
}

/// A sound of ten minutes at 44,100 Hz has too many frames for a voice. Its creation is refused with 3, recorded, and
/// refused with 3 in the replay, with the sound and without it.
#[test]
fn ten_minutes_are_too_long_and_recorded() {
    let lesson = Lesson::new(vec![0.0; 2 * 600 * LESSON_RATE as usize]).unwrap();
    let mut buffer = [0; 200];
    let mut recorder = Recorder::new(&mut buffer);
    let made = recorder.create(Settings::new(LESSON_RATE), &lesson);
    assert_eq!(
        (made.answer, made.recorded),
        (Err(Refusal::FrameCount), Ok(()))
    );
    let empty = Lesson::new(Vec::new()).unwrap();
    let made = recorder.create(Settings::new(LESSON_RATE), &empty);
    assert_eq!(
        (made.answer, made.recorded),
        (Err(Refusal::FrameCount), Ok(()))
    );
    let trace = recorder.bytes();
    assert_eq!(trace.len(), 140);
    let sounds: Sounds = [lesson, empty].into_iter().collect();
    for mut replay in [Replay::new(), Replay::new().sounds(sounds)] {
        for at in [0, 70] {
            let refused = Step::Creation(Err(Refusal::FrameCount));
            assert_eq!(replay.step(&trace[at..], true), (refused, 70));
            assert!(replay.voice().is_none());
        }
    }
}

/// 26 comes before 2 to 7, has a line and leaves no voice, and the replay continues.
#[test]
fn another_sound_is_refused_with_26() {
    let [one, other] = [0.5, 0.25].map(|sample| Lesson::new(vec![sample; 40]).unwrap());
    let mut bytes = vec![0; 1_000];
    let settings = Settings::new(1);
    let creation = |sound| Record::GivenCreation { settings, sound };
    let longer = SoundId {
        frames: 21,
        ..one.id()
    };
    let bad = Record::GivenCreation {
        settings: Settings::new(0),
        sound: other.id(),
    };
    let block = Record::Block(cableowl::trace::Block::new(3, 1.0));
    let mut end = 0;
    let records = [
        creation(one.id()),
        block,
        creation(longer),
        block,
        bad,
        block,
    ];
    for record in records.iter().chain([&creation(one.id()), &block]) {
        end = write(record, &mut bytes, end).unwrap();
    }
    bytes.truncate(end);
    let printed = |replay: Replay| {
        let mut printed = Vec::new();
        assert_eq!(replay.print(&bytes[..], &mut printed).unwrap(), None);
        String::from_utf8(printed).unwrap()
    };
    let first = "block=1 frames=3 steps=3 state=0 position=6\n";
    assert_eq!(
        printed(Replay::new().sounds(one.clone())),
        format!(
            "{first}creation=26 at=112\nblock=2 refused=1\ncreation=26 at=224\nblock=3 refused=1\n\
             block=4 frames=3 steps=3 state=0 position=6\n"
        )
    );
    // Without sounds only the player refuses.
    assert_eq!(
        printed(Replay::new()),
        format!(
            "{first}block=2 frames=3 steps=3 state=0 position=6\nblock=3 refused=1\n\
             block=4 frames=3 steps=3 state=0 position=6\n"
        )
    );
    // An empty collection is also given: no sound fits.
    assert!(printed(Replay::new().sounds(Sounds::new())).starts_with("creation=26 at=0\n"));
    // The offset is that in the trace, also after skipped bytes.
    let mut damaged = vec![0xff; 7];
    damaged.extend_from_slice(&bytes[112..]);
    let mut reader = TraceReader::new(&damaged[..]);
    let mut replay = Replay::new().sounds(one.clone());
    assert!(reader.step(&mut replay).is_some_and(|step| step.is_err()));
    assert_eq!(reader.skip_damage().unwrap(), Some(0..7));
    let Some(Ok(Step::OtherSound(refused))) = reader.step(&mut replay) else {
        panic!("a creation is refused with 26");
    };
    assert_eq!((refused.at, refused.wanted), (7, longer));
    let sentence = refused.sentence(&Sounds::from(one.clone()));
    for id in [longer, one.id()] {
        assert!(sentence.contains(&id.to_string()), "{sentence}");
    }
}

/// A digest is of the samples' bytes, whatever they are.
#[test]
fn a_digest_is_of_the_bytes() {
    let mut word = 1_u64;
    for samples in [0, 2, 1_022, 1_024, 1_026, 5_000] {
        let samples: Vec<f32> = (0..samples)
            .map(|_| {
                word = word.wrapping_mul(6_364_136_223_846_793_005).wrapping_add(1);
                f32::from_bits((word >> 32) as u32)
            })
            .collect();
        let bytes: Vec<u8> = samples
            .iter()
            .flat_map(|sample| sample.to_le_bytes())
            .collect();
        assert_eq!(Digest::of(&samples), Digest(sha256::digest(&bytes)));
    }
}

/// What `/proc` says of this process's memory, in bytes.
fn resident() -> Option<u64> {
    let status = fs::read_to_string("/proc/self/status").ok()?;
    let line = status.lines().find(|line| line.starts_with("VmRSS:"))?;
    let kilobytes: u64 = line.split_whitespace().nth(1)?.parse().ok()?;
    Some(1_024 * kilobytes)
}

/// A replay without the lesson of the longest sound, 134 MB of samples, all of which it reads.
#[test]
#[ignore = "measures memory: run it alone, with --ignored --nocapture"]
fn silence_takes_no_memory() {
    let sound = SoundId {
        frames: 16_777_216,
        digest: Digest([0; 32]),
    };
    let settings = Settings::new(48_000).loop_region(..);
    let mut replay = Replay::new();
    let before = resident().unwrap();
    replay.play(&Record::GivenCreation { settings, sound });
    let mut block = cableowl::trace::Block::new(1_024, 1.0 / 48_000.0);
    block.rate = 8.0;
    for _ in 0..3_000 {
        assert!(matches!(
            replay.play(&Record::Block(block)),
            Some(Line::Block { .. })
        ));
    }
    let voice = replay.voice().unwrap();
    assert!(voice.wraps().forward > 0, "the whole sound was read");
    let grown = resident().unwrap() - before;
    println!("resident memory grew by {grown} bytes");
    assert!(grown < 8_000_000, "{grown}");
}

/// The shortest time of a call in nanoseconds. The calls are tried in turn.
fn least<const N: usize>(mut calls: [&mut dyn FnMut(); N]) -> [f64; N] {
    let mut least = [f64::INFINITY; N];
    for _ in 0..300 {
        for (least, call) in least.iter_mut().zip(&mut calls) {
            let started = Instant::now();
            for _ in 0..100 {
                call();
            }
            *least = least.min(started.elapsed().as_nanos() as f64 / 100.0);
        }
    }
    least
}

/// What recording costs, in a callback of 512 frames at rest and in a block of 512 that fades.
#[test]
#[ignore = "measures time: run it in release, with --ignored --nocapture"]
fn what_recording_costs() {
    const CALLBACK: usize = 512;
    let lesson = lesson(30);
    let (sound, settings) = (lesson.samples(), Settings::new(LESSON_RATE).loop_region(..));
    let mut outs = [[0.0; 2 * CALLBACK]; 4];
    let [a, b, c, d] = &mut outs;
    let mut plain = Player::play(settings, DEVICE_RATE, sound).unwrap();
    let mut buffer = vec![0; 100_000];
    let mut player = RecordedPlayer::play(settings, DEVICE_RATE, &lesson, &mut buffer).unwrap();
    let [call, recorded] = least([
        &mut || {
            plain.process(sound, a).unwrap();
        },
        &mut || {
            let log = |line| {
                black_box(line);
            };
            player.process(b, log).recorded.unwrap();
            if player.room() < 20_000 {
                player.clear();
            }
        },
    ]);
    println!("a callback of 512 frames at rest, ns: player {call:.0}, recorded {recorded:.0}");
    let mut voice = StaticSound::new(settings, sound).unwrap();
    let mut buffer = vec![0; 100_000];
    let mut recorder = Recorder::new(&mut buffer);
    recorder.create(settings, &lesson).recorded.unwrap();
    let (mut lanes, mut lanes_of, step) = (Lanes::new(), Lanes::new(), 1.0 / 48_000.0);
    let falling: Vec<f32> = (0..CALLBACK)
        .map(|frame| 1.0 / (1.0 + frame as f32))
        .collect();
    for (name, fade) in [
        ("at rest", Lane::from(1.0)),
        ("that fades", Lane::from(&falling)),
    ] {
        let [played, recorded] = least([
            &mut || {
                let block = lanes.frames(CALLBACK).fade(fade);
                voice
                    .process(sound, block, step, Signals::new(), c)
                    .unwrap();
            },
            &mut || {
                let block = lanes_of.frames(CALLBACK).fade(fade);
                let block = recorder.process(sound, block, step, Signals::new(), d);
                block.recorded.unwrap();
                if recorder.room() < 20_000 {
                    recorder.clear();
                }
            },
        ]);
        println!("a block of 512 frames {name}, ns: voice {played:.0}, recorded {recorded:.0}");
    }
}

/// The size of a trace: docs/formats/TRACE.md has these figures.
#[test]
fn sizes_of_a_trace() {
    let lesson = lesson(30);
    let sizes = |callback: usize, seconds: usize, command: Option<Command>, version| {
        let mut buffer = vec![0; 30_000_000];
        let settings = Settings::new(LESSON_RATE).loop_region(..);
        let mut player =
            RecordedPlayer::with_version(settings, DEVICE_RATE, &lesson, &mut buffer, version)
                .unwrap();
        let mut out = vec![0.0; 2 * callback];
        // The first block says that no fade is active.
        player.process(&mut out, |_| {}).recorded.unwrap();
        let before = player.bytes().len();
        if let Some(command) = command {
            player.command(command).unwrap();
        }
        for _ in 0..(seconds * DEVICE_RATE as usize).div_ceil(callback) {
            player.process(&mut out, |_| {}).recorded.unwrap();
        }
        let end = player.bytes().len();
        assert!(lines(player.bytes()).count() > 1);
        end - before
    };
    let second = TraceVersion::Second;
    for callback in [64, 512, 4_096] {
        let hour = 360 * sizes(callback, 10, None, second);
        println!("an hour at rest in callbacks of {callback}: {hour} bytes");
    }
    for (name, command) in [
        (
            "volume",
            Command::SetVolume(Level::SILENCE, Tween::from_millis(2_000)),
        ),
        (
            "rate",
            Command::SetPlaybackRate(0.7, Tween::from_millis(2_000)),
        ),
        ("pause", Command::Pause(Tween::from_millis(2_000))),
    ] {
        let fade = sizes(512, 2, Some(command), second);
        println!("two seconds of a moving {name} in callbacks of 512: {fade} bytes");
    }
}

/// Callbacks of every length are joined to records of at most 1,024 frames, each of whole callbacks.
#[test]
fn blocks_are_joined_up_to_1024_frames() {
    let lesson = Lesson::new(vec![0.5; 2_000]).unwrap();
    for callback in [1, 7, 64, 480, 512, 513, 1_024, 1_025, 3_000, 4_096, 10_000] {
        let mut buffer = vec![0; 1_000_000];
        let settings = Settings::new(48_000).loop_region(Frames(3)..);
        let mut player = RecordedPlayer::play(settings, 48_000, &lesson, &mut buffer).unwrap();
        let mut out = vec![0.0; 2 * callback];
        let calls = 30_000 / callback + 3;
        for _ in 0..calls {
            player.process(&mut out, |_| {}).recorded.unwrap();
        }
        let sizes: Vec<usize> = Trace::new(player.bytes())
            .filter_map(|record| match record.unwrap().1 {
                Record::Block(block) => Some(block.frames),
                _ => None,
            })
            .collect();
        assert_eq!(sizes.iter().sum::<usize>(), calls * callback);
        // The player passes its voice at most 4,096 frames at once.
        let parts: Vec<usize> = (0..callback)
            .step_by(4_096)
            .flat_map(|from| {
                let block = 4_096.min(callback - from);
                (0..block)
                    .step_by(1_024)
                    .map(move |from| 1_024.min(block - from))
            })
            .collect();
        let mut expected: Vec<usize> = Vec::new();
        for part in parts.repeat(calls) {
            match expected.last_mut() {
                Some(last) if *last + part <= 1_024 => *last += part,
                _ => expected.push(part),
            }
        }
        assert_eq!(sizes, expected, "callbacks of {callback}");
    }
}
