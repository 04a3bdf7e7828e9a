// A recorded player plays like an unrecorded one, and its trace replays to the same lines and samples.

use cableowl::{
    Command, RecordedPlayer, Refusal, Settings, Tween,
    trace::{
        Block, Lesson, Line, MAX_SOUND_FRAMES, MAX_TRACED_FRAMES, Record, Replay, Trace,
        TraceVersion, lines, write,
    },
};
use random::Random;

use crate::{
    edges::common_edges,
    evening::{Evening, bits, seeds},
};

/// A random evening over a sound that fits a record of the version.
fn recordable(random: &mut Random, version: TraceVersion) -> Evening {
    loop {
        let evening = Evening::any(random);
        if version == TraceVersion::Second || evening.sound.len() <= 2 * MAX_SOUND_FRAMES {
            return evening;
        }
    }
}

/// An evening that was recorded.
struct Kept {
    lesson: Lesson,
    log: Vec<Line>,
    samples: Vec<u32>,
    trace: Vec<u8>,
}

/// Records an evening in random callbacks, and compares it with an unrecorded one.
fn record(random: &mut Random, evening: &Evening, version: TraceVersion) -> Kept {
    let (settings, rate) = (evening.settings, evening.output_rate);
    let lesson = Lesson::new(evening.sound.clone()).unwrap();
    let mut buffer = vec![0; 1_000 + 200 * (evening.frames + evening.commands.len())];
    let player = RecordedPlayer::with_version(settings, rate, &lesson, &mut buffer, version);
    let player = player.unwrap();
    let mut player = match evening.fade_in {
        Some(tween) => player.fade_in_tween(tween),
        None => player,
    };
    let (mut log, mut trace) = (Vec::new(), Vec::new());
    let mut samples = vec![0.0; 2 * evening.frames];
    let (mut rest, mut clock) = (samples.as_mut_slice(), 0);
    let ends = evening.commands.iter().map(|(frame, _)| *frame);
    let mut commands = evening.commands.iter().map(|(_, command)| *command);
    let most = [20, 2_000, 6_000][random.below(3)];
    for end in ends.chain([evening.frames]) {
        while clock < end {
            let call = random.below(most).min(end - clock);
            let (out, later) = rest.split_at_mut(2 * call);
            let played = player.process(out, |line| log.push(line));
            played.answer.unwrap();
            played.recorded.unwrap();
            (rest, clock) = (later, clock + call);
            if random.one_in(20) {
                trace.extend_from_slice(player.bytes());
                player.clear();
            }
        }
        let _ = commands.next().map(|command| player.command(command));
    }
    trace.extend_from_slice(player.bytes());
    let mut unrecorded = evening.player();
    let outcome = evening.played(&mut unrecorded, &mut || 4_096);
    assert_eq!(outcome.samples, bits(&samples));
    assert_eq!(unrecorded.voice().state(), player.player().voice().state());
    assert_eq!(unrecorded.counts(), player.player().counts());
    Kept {
        lesson,
        log,
        samples: outcome.samples,
        trace,
    }
}

#[test]
fn a_trace_prints_the_lines_of_the_evening() {
    for version in [TraceVersion::First, TraceVersion::Second] {
        let (mut rounds, mut frames, mut kinds, mut blocks) = (0, 0, [0; 6], 0);
        for seed in seeds(1_500) {
            rounds += 1;
            let random = &mut Random::new(seed);
            let evening = recordable(random, version);
            let kept = record(random, &evening, version);
            let replay = Replay::with_version(version);
            let mut replay = match version {
                TraceVersion::First => replay,
                TraceVersion::Second => replay.sounds(kept.lesson),
            };
            let (mut again, mut heard) = (Vec::new(), Vec::new());
            for (at, record) in Trace::new(&kept.trace).map(Result::unwrap) {
                kinds[usize::from(kept.trace[at as usize + 2])] += 1;
                if let Some(line) = replay.play(&record) {
                    again.push(line);
                    heard.extend_from_slice(replay.heard());
                }
            }
            assert_eq!(bits(&heard), kept.samples, "seed {seed}");
            let silent = Replay::with_version(version).lines(&kept.trace);
            assert!(silent.eq(again.iter().copied()), "seed {seed}");
            (frames, blocks) = (frames + evening.frames, blocks + kept.log.len());
            match version {
                TraceVersion::First => assert_eq!(again, kept.log, "seed {seed}"),
                TraceVersion::Second => {
                    let edges = common_edges(kept.log, again);
                    assert!(edges.is_ok(), "seed {seed}: {edges:?}");
                }
            }
        }
        println!(
            "{version:?}: {rounds} evenings, {frames} frames, {blocks} blocks; records of kinds 1 to 5: {:?}",
            &kinds[1..]
        );
        let used: &[usize] = match version {
            TraceVersion::First => &[1, 2, 3],
            TraceVersion::Second => &[2, 3, 4, 5],
        };
        assert!(used.iter().all(|kind| kinds[*kind] > 1_000), "{kinds:?}");
        assert_eq!(
            kinds.iter().sum::<usize>(),
            used.iter().map(|kind| kinds[*kind]).sum()
        );
    }
}

/// The trace with neighbouring blocks joined wherever `may` allows it. `may` gets the last block, whether the voice
/// reached the end of its sound in it, and the next block.
fn joined(trace: &[u8], may: fn(&Block, bool, &Block) -> bool) -> Vec<u8> {
    let (mut records, mut replay): (Vec<Record<'_>>, _) = (Vec::new(), Replay::new());
    let mut ran_off = false;
    for (_, record) in Trace::new(trace).map(Result::unwrap) {
        let joins = match (records.last_mut(), &record) {
            (Some(Record::Block(last)), Record::Block(next)) if may(last, ran_off, next) => {
                last.frames += next.frames;
                true
            }
            _ => false,
        };
        let line = replay.play(&record);
        let stops = |line| matches!(line, Line::Block { steps: 1.., .. });
        let stopped = replay.voice().is_some_and(|voice| voice.finished());
        ran_off = (joins && ran_off) || (stopped && line.is_some_and(stops));
        if !joins {
            records.push(record);
        }
    }
    let (mut bytes, mut end) = (vec![0; trace.len()], 0);
    for record in &records {
        end = write(record, &mut bytes, end).unwrap();
    }
    bytes.truncate(end);
    bytes
}

fn fits(last: &Block, next: &Block) -> bool {
    let same = Block {
        frames: last.frames,
        ..Block {
            finished: last.finished,
            start: last.start,
            resume: last.resume,
            ..*next
        }
    };
    let no_signals = next.signals() == Block::new(0, 1.0).signals();
    *last == same && no_signals && last.frames + next.frames <= MAX_TRACED_FRAMES
}

/// Recorders that join too much are found: the lines of their traces are not those of the evening. The right recorder
/// leaves nothing to join, except between records where the host emptied its buffer.
#[test]
fn a_recorder_that_joins_too_much_is_found() {
    type May = fn(&Block, bool, &Block) -> bool;
    let may: [(&str, May); 5] = [
        ("as the rule says", |last, ran_off, next| {
            fits(last, next) && !ran_off
        }),
        ("over the end of the sound", |last, _, next| {
            fits(last, next)
        }),
        ("over signals", |last, ran_off, next| {
            let next = next.with_signals(Block::new(0, 1.0).signals());
            fits(last, &next) && !ran_off
        }),
        ("over another rate", |last, ran_off, next| {
            fits(
                last,
                &Block {
                    rate: last.rate,
                    ..*next
                },
            ) && !ran_off
        }),
        ("over another volume", |last, ran_off, next| {
            fits(
                last,
                &Block {
                    volume: last.volume,
                    ..*next
                },
            ) && !ran_off
        }),
    ];
    let mut found = [0; 5];
    for seed in seeds(1_500) {
        let random = &mut Random::new(seed);
        let evening = recordable(random, TraceVersion::Second);
        let kept = record(random, &evening, TraceVersion::Second);
        for (found, (_, may)) in found.iter_mut().zip(may) {
            let trace = joined(&kept.trace, may);
            let mut replay = Replay::new().sounds(kept.lesson.clone());
            let (mut again, mut heard) = (Vec::new(), Vec::new());
            for (_, record) in Trace::new(&trace).map(Result::unwrap) {
                if let Some(line) = replay.play(&record) {
                    again.push(line);
                    heard.extend_from_slice(replay.heard());
                }
            }
            let agrees = common_edges(kept.log.iter().copied(), again).is_ok();
            *found += usize::from(!agrees || bits(&heard) != kept.samples);
        }
    }
    let names = may.map(|(name, _)| name);
    println!("{names:?}: found in {found:?} of the evenings");
    assert_eq!(found[0], 0);
    assert!(found[1..].iter().all(|found| *found > 20), "{found:?}");
}

#[test]
fn a_full_buffer_plays_on_and_holds_what_came_before() {
    let settings = Settings::new(1_000).loop_region(..);
    let lesson = Lesson::new([0.5; 16]).unwrap();
    for (version, room) in [
        (TraceVersion::First, 300),
        (TraceVersion::Second, 70 + 42 + 300),
    ] {
        let mut buffer = vec![0; room];
        let player = RecordedPlayer::with_version(settings, 1_000, &lesson, &mut buffer, version);
        let mut player = player.unwrap();
        let (mut out, mut log) = ([0.0; 200], Vec::new());
        let played = player.process(&mut out[..20], |line| log.push(line));
        played.recorded.unwrap();
        player
            .command(Command::SetPlaybackRate(0.5, Tween::from_millis(100)))
            .unwrap();
        let played = player.process(&mut out, |line| log.push(line));
        assert!(played.answer.is_ok());
        assert_eq!(played.recorded, Err(Refusal::Room));
        let held = lines(player.bytes()).count();
        assert!(held > 0 && held < log.len());
        assert!(lines(player.bytes()).eq(log[..held].iter().copied()));
        assert_eq!(player.player().frames(), 110);
        player.clear();
        assert_eq!(
            player.process(&mut out, |_| {}).recorded,
            Err(Refusal::Room)
        );
        assert_eq!((player.bytes().len(), player.room()), (0, room));
    }
}

/// Only version 1 has a limit for the sound, and a buffer too short for the creation is refused.
#[test]
fn what_cannot_be_recorded_is_refused() {
    let settings = Settings::new(1_000);
    let (long, mut buffer) = (Lesson::new([0.5; 130]).unwrap(), [0; 1_000]);
    let first = TraceVersion::First;
    let refused = RecordedPlayer::with_version(settings, 1_000, &long, &mut buffer, first);
    assert_eq!(refused.map(|_| ()), Err(Refusal::Record));
    let recorded = RecordedPlayer::play(settings, 1_000, &long, &mut buffer[..70]).map(|_| ());
    assert_eq!(recorded, Ok(()));
    let refused = RecordedPlayer::play(settings, 1_000, &long, &mut buffer[..69]).map(|_| ());
    assert_eq!(refused, Err(Refusal::Room));
    assert_eq!(Lesson::new([0.5; 3]).map(|_| ()), Err(Refusal::FrameCount));
}
