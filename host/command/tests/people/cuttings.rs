//! One evening, cut into callbacks in five ways: every figure of its report is the same, and no audit finds a
//! difference.

use cableowl::{
    Command, RecordedPlayer, Region, Settings, Ticks, Tween,
    trace::{LOG_HEAD, Lesson, Line, Log, TraceVersion},
};
use random::Random;

use crate::{
    report::{cell, csv},
    room::Room,
};

/// Frames per second of the sound, which has 64 frames, and of the box.
const SOUND_RATE: u32 = 16;
const RATE: u32 = 4_000;

/// The frames of the evening.
const EVENING: usize = 90_000;

/// What the student does, and before which frame: a loop with a pause or a resume every 4,096 frames, a rate that falls
/// to 0 and turns round, a step back, a restart, and the sound to its end.
fn script() -> Vec<(usize, Command)> {
    let fade = Tween::from_millis(250);
    let ticks = Ticks {
        now: 0,
        per_second: 1_000,
    };
    let looped = Command::SetLoopRegion(Region::from(0.5..2.0));
    let mut script = vec![(0, Command::StartAtTick(100, ticks)), (0, looped)];
    for time in 1..=10 {
        let command = match time % 2 {
            1 => Command::Pause(fade),
            _ => Command::Resume(fade),
        };
        script.push((4_096 * time, command));
    }
    let rate = |rate, millis| Command::SetPlaybackRate(rate, Tween::from_millis(millis));
    script.extend([
        (46_000, rate(0.0, 75)),
        (50_000, Command::SeekBy(-0.25)),
        (51_000, rate(-0.8, 100)),
        (60_000, rate(1.0, 500)),
        (62_000, Command::SeekTo(0.6)),
        (64_000, Command::ClearLoopRegion),
    ]);
    script
}

/// What a box keeps of the evening: its trace, its log of form 3, and a log of form 1.
struct Kept {
    trace: Vec<u8>,
    third: String,
    first: String,
}

/// Plays the evening in callbacks of these lengths, each cut where the student does something.
fn evening(mut callback: impl FnMut() -> usize) -> Kept {
    let sound: Vec<f32> = (0..128).map(|i| (i % 16) as f32 / 16.0).collect();
    let mut buffer = vec![0; 8_000_000];
    let settings = Settings::new(SOUND_RATE).start_waits(true);
    let (lesson, first) = (Lesson::new(sound).unwrap(), TraceVersion::First);
    let player = RecordedPlayer::with_version(settings, RATE, &lesson, &mut buffer, first);
    let mut player = player.unwrap();
    let (mut log, mut number, mut clock) = (Log::new(), 0, 0);
    log.created();
    let (mut third, mut first) = (format!("{LOG_HEAD}\n"), String::new());
    let mut out = vec![0.0; 2 * 4_096];
    let script = script();
    let commands = script
        .iter()
        .map(|(frame, command)| (*frame, Some(*command)));
    for (until, command) in commands.chain([(EVENING, None)]) {
        while clock < until {
            let frames = callback().min(until - clock);
            let played = player.process(&mut out[..2 * frames], |_| {});
            played.recorded.unwrap();
            number += 1;
            let voice = player.player().voice();
            third += &format!("{}\n", log.block(frames, Some(voice), played.answer));
            let line = Line::of_block(number, frames, voice, played.answer);
            first += &format!("{line}\n");
            clock += frames;
        }
        match command {
            Some(Command::SeekBy(_)) => log.seeked(false),
            Some(Command::SeekTo(_)) => log.seeked(true),
            Some(Command::Pause(_)) => log.paused(),
            _ => {}
        }
        if let Some(command) = command {
            player.command(command).unwrap();
        }
    }
    Kept {
        trace: player.bytes().to_vec(),
        third,
        first,
    }
}

/// The evening in five cuttings, by the names of their files.
fn five() -> [(&'static str, Kept); 5] {
    let mut random = Random::new(35);
    [
        ("64", evening(|| 64)),
        ("512", evening(|| 512)),
        ("4096", evening(|| 4_096)),
        ("1", evening(|| 1)),
        ("random", evening(|| 1 + random.below(4_096))),
    ]
}

#[test]
fn the_same_evening_has_the_same_figures_for_every_block_size() {
    let room = Room::new("cuttings-report");
    let mut words = vec!["report", "--csv", "--rate", "1"];
    let mut names = Vec::new();
    for (cut, kept) in five() {
        room.put(&format!("{cut}.log"), kept.third);
        names.push(format!("{cut}.log"));
        // Its replayed trace: the recorder cuts once more, wherever a lane changes.
        let replayed = room.run_on(&["replay", "--log", "3", "-"], &kept.trace);
        assert_eq!((replayed.status, &*replayed.err), (0, ""));
        room.put(&format!("{cut}.replayed"), replayed.out);
        names.push(format!("{cut}.replayed"));
    }
    words.extend(names.iter().map(String::as_str));
    let ran = room.run(&words);
    assert_eq!((ran.status, &*ran.err), (0, ""));
    let rows = csv(&ran.out);
    let first = &rows[0];
    for row in &rows[1..names.len()] {
        for (column, number) in row {
            if column != "name" && column != "blocks" {
                let name = cell(row, "name");
                assert_eq!(number, cell(first, column), "{column} of {name}");
            }
        }
    }
    // At 1 frame per second a minute is 60 frames, so the thousandths show every frame.
    let frames = |column: &str| {
        let minutes: f64 = cell(first, column).parse().unwrap();
        (60.0 * minutes).round() as usize
    };
    let [played, paused, silent, still] =
        ["played", "paused", "silent", "still"].map(|name| frames(&format!("minutes_{name}")));
    assert_eq!(played + paused + silent, EVENING);
    // Five pauses. The frame that reaches the end of a fade of 1,000 frames is the first paused one.
    assert_eq!(paused, 5 * (4_096 - 999));
    // From the end of the tween down to 0 to the first frame of the next tween.
    assert_eq!(still, 51_000 - (46_000 + 300) + 1);
    assert!(
        silent > 400,
        "before the start, and after the end: {silent}"
    );
    assert_eq!(cell(first, "jumps"), "", "it depends on the block size");
    let columns = ["seeks", "restarts", "pauses", "ended", "misfits"];
    let counted = columns.map(|column| cell(first, column));
    assert_eq!(counted, ["2", "1", "5", "1", "0"]);
}

#[test]
fn a_log_cut_otherwise_than_its_trace_is_not_accused() {
    let room = Room::new("cuttings-audit");
    let five = five();
    for (cut, kept) in &five {
        room.put(&format!("{cut}.trace"), &kept.trace);
        room.put(&format!("{cut}.log"), &kept.third);
        room.put(&format!("{cut}.first"), &kept.first);
    }
    let mut audits = 0;
    for (recorded, _) in &five {
        for (logged, _) in &five {
            for log in [format!("{logged}.log"), format!("{logged}.first")] {
                let ran = room.run(&["audit", &format!("{recorded}.trace"), &log]);
                assert_eq!(
                    (ran.status, &*ran.err),
                    (0, ""),
                    "{recorded} {log}: {}",
                    ran.out
                );
                assert!(ran.out.starts_with("AGREES: "), "{}", ran.out);
                audits += 1;
            }
        }
    }
    println!("{audits} audits of logs against traces that are cut otherwise: all agree");
}
