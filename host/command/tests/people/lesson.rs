//! Evenings over a real lesson: recorded, replayed without and with it, audited, damaged, salvaged.

use std::{
    fs,
    io::{Read, Write},
    process::{Command as Process, Stdio},
    sync::OnceLock,
    thread,
};

use cableowl::{
    Command, Level, Player, RecordedPlayer, Region, Settings, Tween,
    trace::{self, Block, LOG_HEAD, Lesson, Record, SoundId},
};
use random::Random;

use crate::{
    report::{cell, csv},
    room::{CABLEOWL, Room, looped, three, trace},
    sound::raw,
};

const LESSON_RATE: u32 = 44_100;
const DEVICE_RATE: u32 = 48_000;

/// A lesson of this many seconds, of any samples.
fn lesson_of(seconds: u32) -> Lesson {
    let mut random = Random::new(seconds.into());
    let samples = (0..2 * seconds * LESSON_RATE).map(|_| random.word() as i32 as f32 / 2.2e9);
    Lesson::new(samples.collect::<Vec<f32>>()).unwrap()
}

/// The lesson of most evenings: 30 seconds.
fn lesson() -> &'static Lesson {
    static LESSON: OnceLock<Lesson> = OnceLock::new();
    LESSON.get_or_init(|| lesson_of(30))
}

/// What a student does, and at which second: loops a sentence, slows it over two seconds, pauses, steps back in it,
/// plays it backward, restarts it; then the lesson plays to its end.
fn script(evening: u32) -> Vec<(u32, Command)> {
    let fade = Tween::from_millis(250);
    let rate = |rate, millis| Command::SetPlaybackRate(rate, Tween::from_millis(millis));
    let mut script = vec![(
        0,
        Command::SetVolume(Level::new(19).unwrap(), Tween::AT_ONCE),
    )];
    let mut at = 2;
    while at + 50 < evening {
        let start = f64::from(at % 20);
        script.extend([
            (at, Command::SetLoopRegion(Region::from(start..start + 4.7))),
            (at, Command::SeekTo(start)),
            (at + 10, rate(0.7, 2_000)),
            (at + 20, Command::Pause(fade)),
            (at + 22, Command::SeekBy(-1.5)),
            (at + 23, Command::Resume(fade)),
            (at + 30, rate(-0.9, 300)),
            (at + 36, rate(1.0, 1_000)),
            (at + 40, Command::SeekTo(start)),
            (at + 45, Command::ClearLoopRegion),
        ]);
        at += 50;
    }
    script.push((evening - 4, Command::SeekTo(28.0)));
    script
}

/// An evening at a box.
struct Evening {
    trace: Vec<u8>,
    /// What the box logs, in form 1.
    log: String,
    /// The samples of the output as bytes, if they were kept.
    heard: Vec<u8>,
}

/// Plays an evening of this many seconds in callbacks of this many frames, and records it.
fn evening(lesson: &Lesson, seconds: u32, callback: usize, hears: bool) -> Evening {
    let mut buffer = vec![0; 1 << 20];
    let settings = Settings::new(LESSON_RATE);
    let mut player = RecordedPlayer::play(settings, DEVICE_RATE, lesson, &mut buffer).unwrap();
    let mut evening = Evening {
        trace: Vec::new(),
        log: String::new(),
        heard: Vec::new(),
    };
    let mut out = vec![0.0; 2 * callback];
    for (until, command) in steps(seconds) {
        while player.player().frames() < until {
            let frames = callback.min((until - player.player().frames()) as usize);
            let out = &mut out[..2 * frames];
            let played = player.process(out, |line| evening.log += &format!("{line}\n"));
            played.answer.unwrap();
            played.recorded.unwrap();
            if hears {
                evening.heard.extend(raw(out));
            }
            if player.room() < 200_000 {
                evening.trace.extend_from_slice(player.bytes());
                player.clear();
            }
        }
        if let Some(command) = command {
            player.command(command).unwrap();
        }
    }
    evening.trace.extend_from_slice(player.bytes());
    evening
}

/// The script in frames of the device, and the evening's end.
fn steps(seconds: u32) -> impl Iterator<Item = (u64, Option<Command>)> {
    let frame = |second: u32| u64::from(second) * u64::from(DEVICE_RATE);
    let script = script(seconds).into_iter();
    let script = script.map(move |(second, command)| (frame(second), Some(command)));
    script.chain([(frame(seconds), None)])
}

/// The log of form 3 of a box that clears its fraction after each callback.
fn creeping(lesson: &Lesson, seconds: u32, callback: usize) -> String {
    let sound = lesson.samples();
    let mut player = Player::play(Settings::new(LESSON_RATE), DEVICE_RATE, sound).unwrap();
    let (mut log, mut lines) = (trace::Log::new(), format!("{LOG_HEAD}\n"));
    log.created();
    let mut out = vec![0.0; 2 * callback];
    for (until, command) in steps(seconds) {
        while player.frames() < until {
            let frames = callback.min((until - player.frames()) as usize);
            let answer = player.process(sound, &mut out[..2 * frames]);
            let line = log.block(frames, Some(player.voice()), answer);
            lines += &format!("{line}\n");
            let mut state = player.voice().state();
            state.fractional_position = 0.0;
            player.restore(state, sound).unwrap();
        }
        if let Some(command) = command {
            player.command(command).unwrap();
        }
    }
    lines
}

/// A log as the frames so far, the steps so far, the state and the position at the end of each line.
fn edges(log: &str) -> Vec<(u64, u64, u64, u64)> {
    let (mut frames, mut steps) = (0, 0);
    let edge = |line: &str| {
        let number = |word: &str| {
            let (_, rest) = line.split_once(&format!("{word}=")).expect(word);
            let digits = rest.split(' ').next().unwrap();
            digits.parse::<u64>().unwrap()
        };
        frames += number("frames");
        steps += number("steps");
        (frames, steps, number("state"), number("position"))
    };
    log.lines().map(edge).collect()
}

/// Compares the steps so far, the state and the position wherever both logs end a block. They must end together.
fn agree(live: &str, replayed: &str) -> usize {
    let (live, replayed) = (edges(live), edges(replayed));
    assert_eq!(live.last(), replayed.last());
    let mut common = 0;
    let mut at = live.iter().peekable();
    for edge in &replayed {
        while at.next_if(|line| line.0 < edge.0).is_some() {}
        // A block without frames can be beside one with frames: the last one at a frame counts.
        if let Some(line) = at.peek().filter(|line| line.0 == edge.0) {
            assert_eq!(*line, edge);
            common += 1;
        }
    }
    common
}

/// The processor seconds of the child processes that have ended, if Linux reports them.
fn children_seconds() -> f64 {
    let stat = fs::read_to_string("/proc/self/stat").unwrap_or_default();
    // The fields after the name, which is in brackets.
    let rest = stat.rsplit(')').next().unwrap_or_default();
    let ticks = rest.split_whitespace().skip(13).take(2);
    ticks
        .filter_map(|tick| tick.parse::<f64>().ok())
        .sum::<f64>()
        / 100.0
}

#[test]
fn an_hour_over_a_real_lesson() {
    let lesson = lesson_of(380);
    let room = Room::new("lesson-hour");
    for callback in [64, 512, 4_096] {
        let evening = evening(&lesson, 3_600, callback, false);
        room.put("hour.trace", &evening.trace);
        room.put("hour.log", &evening.log);
        let (before, replayed) = (children_seconds(), room.run(&["replay", "hour.trace"]));
        let replay_seconds = children_seconds() - before;
        assert_eq!((replayed.status, &*replayed.err), (0, ""));
        let common = agree(&evening.log, &replayed.out);
        let before = children_seconds();
        let ran = room.run(&["audit", "hour.trace", "hour.log"]);
        eprintln!(
            "callbacks of {callback}: {} bytes, {} lines live, {} replayed, {common} common edges; alone, processor seconds of replay {replay_seconds:.2}, of audit {:.2}",
            evening.trace.len(),
            evening.log.lines().count(),
            replayed.out.lines().count(),
            children_seconds() - before
        );
        assert!(common > 40_000, "{common}");
        assert_eq!((ran.status, &*ran.err), (0, ""), "{}", ran.out);
        assert!(ran.out.starts_with("AGREES: "), "{}", ran.out);
        if callback == 512 {
            room.put("creeping.log", creeping(&lesson, 3_600, callback));
            let ran = room.run(&["audit", "hour.trace", "creeping.log"]);
            assert_eq!((ran.status, &*ran.err), (1, ""));
            assert!(
                ran.out.starts_with("DIFFERS: creeping.log: "),
                "{}",
                ran.out
            );
        }
    }
}

/// A folder with the lesson, an evening of a minute over it, and its log.
fn minute(name: &str) -> (Room, Evening) {
    let room = Room::new(name);
    let evening = evening(lesson(), 60, 512, true);
    room.put("lesson.f32", raw(lesson().samples()));
    room.put("evening.trace", &evening.trace);
    room.put("evening.log", &evening.log);
    (room, evening)
}

#[test]
fn without_the_lesson_and_with_it() {
    let (room, evening) = minute("lesson-heard");
    let without = room.run(&["replay", "evening.trace"]);
    assert_eq!((without.status, &*without.err), (0, ""));
    assert!(agree(&evening.log, &without.out) > 1_000);
    fs::create_dir(room.0.join("sounds")).unwrap();
    room.put("sounds/a.f32", raw(&[0.5; 200]));
    room.put("sounds/b.f32", raw(&vec![0.5; lesson().samples().len()]));
    room.put("sounds/c.f32", raw(lesson().samples()));
    room.put("sounds/broken.f32", [0; 7]);
    room.put("sounds/letter.txt", "Dear tutor");
    for (index, sounds) in [
        &["--sound", "lesson.f32"][..],
        &["--sound", "sounds/b.f32", "--sound", "lesson.f32"],
        &["--sounds", "sounds"],
        &["--sounds", "sounds", "--sound", "sounds/a.f32"],
    ]
    .into_iter()
    .enumerate()
    {
        let file = format!("heard-{index}.f32");
        let words = [&["replay"], sounds, &["--out", &file, "evening.trace"]].concat();
        room.run(&words).says(&without.out);
        let heard = fs::read(room.0.join(&file)).unwrap();
        assert!(heard == evening.heard, "{words:?}: other samples");
        // Nothing is overwritten.
        room.run(&words).refuses(&format!(
            "{file}: exists already, and nothing is overwritten: name another file"
        ));
        fs::remove_file(room.0.join(&file)).unwrap();
    }
    // The log of form 3, and the summary, with the lesson and without.
    for form in [&["--log", "3"][..], &["--summary"]] {
        let without = room.run(&[&["replay"], form, &["evening.trace"]].concat());
        assert_eq!((without.status, &*without.err), (0, ""));
        let sound = &["--sound", "lesson.f32", "evening.trace"];
        assert_eq!(room.run(&[&["replay"], form, &sound[..]].concat()), without);
    }
    // A trace of version 1 contains its sound.
    room.put("three.trace", three());
    room.run(&["replay", "--out", "three.f32", "three.trace"])
        .says("block=1 frames=6 steps=6 state=6 position=3\n");
    let heard = [[1.0; 2], [2.0; 2], [3.0; 2], [0.0; 2], [0.0; 2], [0.0; 2]].concat();
    assert_eq!(fs::read(room.0.join("three.f32")).unwrap(), raw(&heard));
    room.run(&["replay", "--summary", "--out", "x", "three.trace"])
        .is_no_use(
            "--summary prints words and --out goes with lines: give one of them",
            "replay",
        );
}

#[test]
fn what_was_heard_needs_the_lesson() {
    let (room, _) = minute("lesson-needed");
    let names = room.names();
    let id = lesson().id();
    room.run(&["replay", "--out", "heard.f32", "evening.trace"])
        .refuses(&format!(
            "evening.trace: the creation at byte 0 is over a sound that is not in the trace, 1,323,000 frames, digest {}: give it with --sound or --sounds",
            id.digest
        ));
    assert_eq!(room.names(), names, "no file is left");
}

#[test]
fn another_sound_than_the_recorded_one() {
    let (room, _) = minute("lesson-other");
    let SoundId { frames, digest } = lesson().id();
    let other = Lesson::new(vec![0.25; lesson().samples().len()]).unwrap();
    room.put("other.f32", raw(other.samples()));
    room.put("short.f32", raw(&[0.25; 20]));
    let wanted = format!(
        "evening.trace: the creation at byte 0 is over a sound that was not given: 1,323,000 frames, digest {digest}"
    );
    let given = format!(
        "given were short.f32: 10 frames; other.f32: 1,323,000 frames, digest {}",
        other.id().digest
    );
    assert_eq!(frames, 1_323_000);
    let sounds = &["--sound", "short.f32", "--sound", "other.f32"];
    let words = [
        &["replay"],
        &sounds[..],
        &["--out", "heard.f32", "evening.trace"],
    ]
    .concat();
    let ran = room.run(&words);
    let expected = format!(
        "cableowl: {wanted}; {given}\ncableowl: heard.f32: is not written, since not all of it was heard\n"
    );
    assert_eq!((ran.status, &*ran.err), (1, &*expected));
    let mut lines = ran.out.lines();
    assert_eq!(lines.next(), Some("creation=26 at=0"));
    assert_eq!(lines.next(), Some("block=1 refused=1"), "there is no voice");
    assert!(lines.count() > 1_000, "the replay goes on");
    assert!(!room.names().contains(&"heard.f32".into()));
    // The lines are a log.
    room.put("blank.log", &ran.out);
    let report = room.run(&["report", "blank.log"]);
    assert_eq!((report.status, &*report.err), (0, ""));
    let third = room.run(&[&["replay", "--log", "3"], &sounds[..], &["evening.trace"]].concat());
    assert!(
        third
            .out
            .starts_with("log=3\ncreation=26 at=0\nblock=1 refused=1 ")
    );
    room.put("third.log", &third.out);
    assert_eq!(room.run(&["report", "third.log"]).status, 0);
    let summary = room.run(&[&["replay", "--summary"], &sounds[..], &["evening.trace"]].concat());
    assert_eq!(summary.status, 1);
    let begins = "    0:00.000  no voice is created: refusal 26: ";
    assert!(summary.out.starts_with(begins), "{}", summary.out);
    // An audit does not need the sound. It says that the sound is missing, and keeps its verdict.
    let ran = room.run(&[&["audit"], &sounds[..], &["evening.trace", "evening.log"]].concat());
    assert!(ran.out.starts_with("AGREES: "), "{}", ran.out);
    assert_eq!(
        (ran.status, ran.err),
        (0, format!("cableowl: {wanted}; {given}\n"))
    );
    let ran = room.run(&[
        "audit",
        "--sound",
        "lesson.f32",
        "evening.trace",
        "evening.log",
    ]);
    assert_eq!((ran.status, &*ran.err), (0, ""));
    // A folder without a sound also counts as given.
    fs::create_dir(room.0.join("empty")).unwrap();
    let ran = room.run(&["replay", "--sounds", "empty", "evening.trace"]);
    assert!(ran.out.starts_with("creation=26 at=0\n"));
    assert_eq!(
        (ran.status, ran.err),
        (
            1,
            format!("cableowl: {wanted}; no file NAME.f32 was there\n")
        )
    );
    room.run(&["replay", "--sounds", "gone", "evening.trace"])
        .refuses("gone: cannot be read: no such file or directory");
    // Each creation takes the sound that it names, and only one of them is missing.
    let mut two = fs::read(room.0.join("evening.trace")).unwrap();
    let at = two.len();
    let settings = Settings::new(LESSON_RATE);
    two.extend(trace(&[
        Record::GivenCreation {
            settings,
            sound: other.id(),
        },
        Record::Block(Block::new(6, 1.0 / 48_000.0)),
    ]));
    room.put("two.trace", two);
    let ran = room.run(&["replay", "--sound", "lesson.f32", "two.trace"]);
    assert_eq!(ran.status, 1);
    assert!(ran.out.contains(&format!("\ncreation=26 at={at}\n")));
    assert!(ran.out.ends_with(" refused=1\n"));
    let expected =
        format!("two.trace: the creation at byte {at} is over a sound that was not given");
    assert!(ran.err.contains(&expected), "{}", ran.err);
}

#[test]
fn a_hole_is_salvaged_and_replayed() {
    let (room, evening) = minute("lesson-hole");
    let mut holed = evening.trace.clone();
    let middle = holed.len() / 2;
    holed[middle..middle + 3_000].fill(0xff);
    room.put("holed.trace", &holed);
    let ran = room.run(&["replay", "holed.trace"]);
    assert_eq!((ran.status, ran.err.lines().count()), (1, 1));
    let ran = room.run(&["audit", "holed.trace", "evening.log"]);
    assert_eq!((ran.status, &*ran.err), (3, ""));
    assert!(ran.out.starts_with("UNKNOWN: "), "{}", ran.out);
    let ran = room.run(&["salvage", "holed.trace", "mended.trace"]);
    assert_eq!((ran.status, &*ran.err), (0, ""), "{}", ran.out);
    let mended = room.run(&["replay", "mended.trace"]);
    assert_eq!((mended.status, &*mended.err), (0, ""));
    let words = [
        "replay",
        "--sound",
        "lesson.f32",
        "--out",
        "heard.f32",
        "mended.trace",
    ];
    room.run(&words).says(&mended.out);
    // The output up to the hole is in both.
    let whole = room.run(&["replay", "evening.trace"]).out;
    let same = whole
        .lines()
        .zip(mended.out.lines())
        .take_while(|(a, b)| a == b);
    let frames: usize = edges(&same.map(|(a, _)| format!("{a}\n")).collect::<String>())
        .last()
        .map_or(0, |edge| edge.0 as usize);
    let heard = fs::read(room.0.join("heard.f32")).unwrap();
    assert!(frames > 100_000 && heard[..8 * frames] == evening.heard[..8 * frames]);
    // Version 1 has no record over a given sound, and none with lanes.
    let ran = room.run(&["salvage", "--version", "1", "evening.trace", "first.trace"]);
    assert_eq!((ran.status, &*ran.err), (0, ""));
    assert!(
        ran.out.contains(" skipped, the first at byte 0; "),
        "{}",
        ran.out
    );
    let first = fs::read(room.0.join("first.trace")).unwrap();
    assert!(!first.is_empty() && first.len() < evening.trace.len());
    // Both salvage old files as before.
    let mut old = looped();
    old[200] ^= 0xff;
    room.put("old.trace", &old);
    let both = ["1", "2"].map(|version| {
        let to = format!("old-{version}.trace");
        let ran = room.run(&["salvage", "--version", version, "old.trace", &to]);
        (
            ran.out.replace(&to, "OUT"),
            fs::read(room.0.join(&to)).unwrap(),
        )
    });
    assert_eq!(both[0], both[1]);
}

/// A folder is audited with its sounds by digest, on any number of processors and in any order of files.
#[test]
fn a_week_with_its_sounds() {
    let room = Room::new("lesson-week");
    let (a, b) = (
        lesson(),
        Lesson::new(vec![0.5; lesson().samples().len()]).unwrap(),
    );
    let short = lesson_of(31);
    for folder in ["week", "again", "sounds"] {
        fs::create_dir(room.0.join(folder)).unwrap();
    }
    let evenings = [("hall1", a), ("hall2", &b), ("hall3", &short), ("hall4", a)];
    let made = evenings.map(|(name, lesson)| {
        let evening = evening(lesson, 60, 512, false);
        (name, evening.trace, evening.log)
    });
    for (name, trace, log) in &made {
        room.put(&format!("week/{name}.trace"), trace);
        room.put(&format!("week/{name}.log"), log);
    }
    for (name, trace, log) in made.iter().rev() {
        room.put(&format!("again/{name}.log"), log);
        room.put(&format!("again/{name}.trace"), trace);
    }
    room.put("week/hall4.log", creeping(a, 60, 512));
    room.put("again/hall4.log", creeping(a, 60, 512));
    room.put("sounds/a.f32", raw(a.samples()));
    room.put("sounds/bad.f32", [0; 3]);
    let audit = |folder: &str, one: bool| {
        let words = ["audit", "--csv", "--sounds", "sounds", folder];
        let ran = match one {
            true => room.run_by("taskset", &[&["-c", "0", CABLEOWL], &words[..]].concat()),
            false => room.run(&words),
        };
        assert_eq!((ran.status, &*ran.err), (1, ""));
        ran.out.replace(folder, "FOLDER")
    };
    let out = audit("week", false);
    assert_eq!(out, audit("again", false));
    if Process::new("taskset").arg("--version").output().is_ok() {
        assert_eq!(out, audit("week", true));
    }
    let rows = csv(&out);
    for (row, verdict, missing) in [
        (0, "AGREES", "0"),
        (1, "AGREES", "1"),
        (2, "AGREES", "1"),
        (3, "DIFFERS", "0"),
    ] {
        assert_eq!(cell(&rows[row], "verdict"), verdict, "{row}");
        assert_eq!(cell(&rows[row], "missing_sounds"), missing, "{row}");
    }
    assert!(cell(&rows[1], "says").ends_with(&format!(
        "; given were sounds/a.f32: 1,323,000 frames, digest {}; sounds/bad.f32: has 3 bytes, which is no whole number of frames: a frame is two f32 samples, 8 bytes",
        a.id().digest
    )), "{}", cell(&rows[1], "says"));
    assert!(cell(&rows[2], "says").contains("; given were sounds/a.f32: 1,323,000 frames; "));
    // In text and on the page; without sounds there is no such column.
    let ran = room.run(&["audit", "--sounds", "sounds", "--html", "week.html", "week"]);
    let heads = ran.out.lines().next().unwrap();
    assert!(heads.ends_with("  sounds missing"), "{heads}");
    assert!(
        ran.out
            .contains("\n2 of 4 evenings name a sound that was not given\n")
    );
    assert!(room.read("week.html").contains("Sounds missing"));
    let ran = room.run(&["audit", "--csv", "week"]);
    assert!(!ran.out.contains("missing_sounds") && !ran.out.contains("not given"));
}

/// The longest sound, without its samples: the replay does not use their memory.
#[test]
fn the_longest_sound_needs_no_memory() {
    let sound = SoundId {
        frames: 16_777_216,
        ..lesson().id()
    };
    let settings = Settings::new(LESSON_RATE);
    let mut records = vec![Record::GivenCreation { settings, sound }];
    let block = Record::Block(Block::new(1_024, 1.0 / 48_000.0));
    records.extend(std::iter::repeat_n(block, 10_000));
    let mut child = Process::new(CABLEOWL)
        .args(["replay", "-"])
        .stdin(Stdio::piped())
        .stdout(Stdio::piped())
        .spawn()
        .unwrap();
    let mut input = child.stdin.take().unwrap();
    let mut output = child.stdout.take().unwrap();
    let reader = thread::spawn(move || {
        let mut printed = String::new();
        output.read_to_string(&mut printed).map(|_| printed)
    });
    // When everything is written, it has played all but the last part that the pipe contains, and waits for the end.
    input.write_all(&trace(&records)).unwrap();
    let status = fs::read_to_string(format!("/proc/{}/status", child.id()));
    drop(input);
    let printed = reader.join().unwrap().unwrap();
    assert!(child.wait().unwrap().success());
    let (frames, _, state, position) = *edges(&printed).last().unwrap();
    assert_eq!((frames, state), (10_240_000, 0));
    assert!((9_408_000..9_408_004).contains(&position), "{position}");
    let Ok(status) = status else {
        eprintln!("SKIPPED: no /proc here, so the memory was not measured");
        return;
    };
    let most = status.lines().find(|line| line.starts_with("VmHWM:"));
    let kilobytes = most.and_then(|line| line.split_whitespace().nth(1)?.parse().ok());
    let kilobytes: u64 = kilobytes.expect("how much it used");
    eprintln!("{kilobytes} kB at most");
    assert!(
        kilobytes < 16_000,
        "{kilobytes} kB for a sound of 134,218 kB"
    );
}

/// A log with lines of refused creations is read. Similar lines are refused.
#[test]
fn lines_of_refused_creations() {
    let room = Room::new("lesson-lines");
    let block = "block=1 frames=6 steps=6 state=6 position=3\n";
    room.put(
        "a.log",
        format!("creation=26 at=0\n{block}creation=26 at=97\n"),
    );
    assert_eq!(room.run(&["report", "a.log"]).status, 0);
    for (line, says) in [
        ("creation=26", "column 12: 'at=' must stand here"),
        ("creation=26 at=1 ", "column 17: the line must end here"),
        (
            "creation=256 at=1",
            "column 10: the number of 'creation=' is above 255",
        ),
        ("creation=x at=1", "column 10: 'creation=' has no number"),
    ] {
        room.put("a.log", format!("{block}{line}\n"));
        let expected = format!("a.log: line 2 (byte 44): {says}");
        room.run(&["report", "a.log"]).refuses(&expected);
    }
}
